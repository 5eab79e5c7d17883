# What the benchmarks share: the built program, a folder for files, and the least time and the memory of some runs. It is
# read by them from this folder.
export LC_ALL=C
ferrite=${FERRITE:-../crates/ferrite/out/ferrite}
runs=${RUNS:-200}
rounds=${ROUNDS:-5}
scratch=$(mktemp -d) || exit 1
trap 'rm -rf "$scratch"' EXIT

if [ ! -x "$ferrite" ]; then
    echo "bench: the program isn't built: .ci/run makes it" >&2
    exit 1
fi

# microseconds WORD..: the least time of one run with these words
microseconds() {
    local best=0 run before spent
    for ((run = 0; run < runs; run++)); do
        before=${EPOCHREALTIME/./}
        "$ferrite" "$@" >/dev/null
        spent=$((${EPOCHREALTIME/./} - before))
        if [ "$best" -eq 0 ] || [ "$spent" -lt "$best" ]; then
            best=$spent
        fi
    done
    echo "$best"
}

# spent WORD..: microseconds of processor time of one run, of the least of some rounds that take a twentieth of a second
spent() {
    local best=0 round each count=1 said
    local TIMEFORMAT='%3U %3S'
    for ((round = 0; round <= rounds; round++)); do
        said=$( { time for ((run = 0; run < count; run++)); do "$@" >/dev/null 2>&1; done; } 2>&1)
        each=$(echo "$said" | awk -v n="$count" '{ printf "%d", ($1 + $2) * 1000000 / n }')
        if [ "$round" -eq 0 ]; then
            count=$((50000 / (each + 500) + 1))
        elif [ "$best" -eq 0 ] || [ "$each" -lt "$best" ]; then
            best=$each
        fi
    done
    echo "$best"
}

# peak WORD..: the most memory that one run holds, in KiB
peak() {
    /usr/bin/time -f %M -o "$scratch/peak" "$@" >/dev/null 2>&1
    tail -n 1 "$scratch/peak"
}

# times COUNT TEXT: the text so many times
times() {
    text=$2 awk -v n="$1" 'BEGIN { for (i = 0; i < n; i++) printf "%s", ENVIRON["text"] }'
}
