# The tests that benchmarks make, each of a shape and a size: a function writes one as litmus text. It is read by them from
# this folder, after timing.sh.

# each FROM TO TEXT: the text for each number from the one to the other, which stands in the place of a `%d`, the next one
# in that of a `%n`, 2, 3 and 4 times the number in those of `%2`, `%3` and `%4`, and 4 times the next one in that of `%5`
each() {
    text=$3 awk -v from="$1" -v to="$2" 'BEGIN { for (i = from; i <= to; i++) {
        piece = ENVIRON["text"]; gsub("%d", i, piece); gsub("%n", i + 1, piece); gsub("%5", 4 * i + 4, piece)
        for (k = 2; k <= 4; k++) gsub("%" k, k * i, piece); printf "%s", piece } }'
}

# creates EVENTS SYNC: files and further names of the first one, a mark behind all, and the line SYNC before the mark
creates() {
    local names=$(($1 - 1)) files
    [ -z "$2" ] || names=$((names - 1))
    files=$((names < 30 ? names : 30))
    printf 'litmus creates\nbody:\n'
    each 1 "$files" $'create /n%d\n'
    each $((files + 1)) "$names" $'link /n1 /n%d\n'
    printf '%smark m\nexists: seen(m) and not exists(/n%d)\n' "$2" "$names"
}

# overwrites EVENTS QUESTION: a buffer that is written round twice, each write over the end of the one before it. What is
# asked is whether every second write of either lap is on top (laps), or whether one of them is there by half (torn).
overwrites() {
    local ring=$(($1 / 2))
    printf 'litmus overwrites\nblock 65536\nsetup:\ncreate /f\ntruncate /f %d\nbody:\n' $((3 * ring + 1))
    each 0 $((ring - 1)) $'write /f %3 "aaaa"\n'
    each 0 $((ring - 1)) $'write /f %3 "bbbb"\n'
    if [ "$2" = laps ]; then
        printf 'exists: content(/f) = "%sb"\n' "$(times $((ring / 2)) aaabbb)"
    else
        printf 'exists: false'
        each 0 $((ring - 1)) ' or bytes(/f, %3) = "baab" or bytes(/f, %3) = "abba"'
        printf '\n'
    fi
}

# renames EVENTS SYNCS: one file that goes round a ring of names, each of which is to hold it, and so many syncs
renames() {
    local names=$((($1 - $2) / 2))
    printf 'litmus renames\nsetup:\ncreate /n0\nbody:\n'
    each 0 $((names - 2)) $'rename /n%d /n%n\n'
    printf 'rename /n%d /n0\n%s\nexists: exists(/n0)' $((names - 1)) "$(times "$2" $'sync\n')"
    each 1 $((names - 1)) ' and exists(/n%d)'
    printf '\n'
}

# journal RECORDS BEFORE BEHIND QUESTION: so many records that are written to a log and then at home, with the lines BEFORE
# between the two and BEHIND after both. What is asked is whether one is at home that isn't in the log (early), or one
# before one that isn't (between).
journal() {
    printf 'litmus journal\nblock 4\nsetup:\ncreate /log\ntruncate /log %d\ncreate /home\ntruncate /home %d\nbody:\n' \
        $((4 * $1)) $((4 * $1))
    each 0 $(($1 - 1)) $'write /log %4 "logs"\n'"$2"$'write /home %4 "data"\n'"$3"
    printf 'mark done\nexists: false'
    if [ "$4" = early ]; then
        each 0 $(($1 - 1)) ' or bytes(/home, %4) = "data" and not bytes(/log, %4) = "logs"'
    else
        each 0 $(($1 - 2)) ' or bytes(/home, %4) = "data" and not bytes(/log, %5) = "logs"'
    fi
    printf '\n'
}

# blocks EVENTS SYNC: two files of many blocks, written in turn, with the line SYNC before a mark. What is asked is whether
# the mark was seen and one file is whole and the other isn't.
blocks() {
    local count=$((($1 - 2) / 2))
    printf 'litmus blocks\nblock 4\nsetup:\ncreate /a\ntruncate /a %d\ncreate /b\ntruncate /b %d\nbody:\n' $((4 * count)) $((4 * count))
    each 0 $((count - 1)) $'write /a %4 "newa"\nwrite /b %4 "newb"\n'
    printf '%smark m\nexists: seen(m) and content(/a) = "%s" and not content(/b) = "%s"\n' "$2" "$(times "$count" newa)" "$(times "$count" newb)"
}

# clashes EVENTS BYTES: pairs of writes over the same two bytes, of which one pair is to leave these
clashes() {
    local pairs=$(($1 / 2))
    printf 'litmus clashes\nblock 65536\nsetup:\ncreate /f\ntruncate /f %d\nbody:\n' $((2 * pairs))
    each 0 $((pairs - 1)) $'write /f %2 "ab"\nwrite /f %2 "cd"\n'
    printf 'exists: false'
    each 0 $((pairs - 1)) " or bytes(/f, %2) = \"$2\""
    printf '\n'
}

# pigeons HOLES: one pigeon more than there are holes, each of which sits in a hole and no two in one. That a pigeon sits in
# a hole is that a pair of writes over the same two bytes leaves `ab`. Each pair is as free as a variable, so the question is
# as hard as that of the pigeons.
pigeons() {
    awk -v holes="$1" '
    function sits(pigeon, hole) { return "bytes(/f, " 2 * (pigeon * holes + hole) ") = \"ab\"" }
    BEGIN {
        pairs = holes * (holes + 1)
        printf "litmus pigeons\nblock 65536\nsetup:\ncreate /f\ntruncate /f %d\nbody:\n", 2 * pairs
        for (i = 0; i < pairs; i++) printf "write /f %d \"ab\"\nwrite /f %d \"cd\"\n", 2 * i, 2 * i
        printf "exists: true"
        for (p = 0; p <= holes; p++) {
            printf " and (%s", sits(p, 0)
            for (h = 1; h < holes; h++) printf " or %s", sits(p, h)
            printf ")"
        }
        for (h = 0; h < holes; h++) for (p = 1; p <= holes; p++) for (q = 0; q < p; q++)
            printf " and not (%s and %s)", sits(p, h), sits(q, h)
        printf "\n"
    }'
}

# behind SYNCS SHAPE WORD..: the test of this shape with so many syncs before all that it does
behind() {
    local syncs=$1
    shift
    "$@" | awk -v syncs="$syncs" '{ print } /^body:/ { for (i = 0; i < syncs; i++) print "sync" }'
}
