#!/bin/sh
# How many link frames a second the built program carries out, and its peak memory: two nodes with a
# link each way for 100,000 seconds, and a ring of 64 nodes with links to the eight next to each,
# until the limit of frames; first with no frame printed, then with all, then with the routes told.
# The files are made in a folder of their own, which is removed. Then how long meshes of 8 and of 64
# nodes take that the program makes itself.
set -e
top=$(cd "$(dirname "$0")/.." && pwd)
. "$top/bench/measure.sh"

# Two nodes, 100,000 seconds: each sends its message once a second, and sends on the other's.
duo() {
    printf 'node A 02:00:00:00:00:0a\nnode B 02:00:00:00:00:0b\nlink A B\nlink B A\n'
    printf 'run 100000000\nshow A n\n'
}

# A ring of 64 nodes, each with a link to each of the four on either side: 512 links.
ring() {
    awk -v time="$1" 'BEGIN {
        for (i = 0; i < 64; i++) printf "node n%d 02:00:00:00:01:%02x\n", i, i
        for (i = 0; i < 64; i++) for (k = 1; k <= 4; k++) {
            printf "link n%d n%d\nlink n%d n%d\n", i, (i + k) % 64, (i + k) % 64, i
        }
        print "run " time
        print "show n0 n"
    }'
}

# Runs the program over the file $3 with the choice $2, and prints what it took under the name $1.
# A ring is ended by the limit of frames; anything else that the program says ends this script.
frames() {
    start=$(date +%s%N)
    printed=$("$program" --frames "$2" < "$3" 2> "$work/err" | wc -c)
    end=$(date +%s%N)
    if grep -qv 'limit frames$' "$work/err"; then
        echo "$1: $(cat "$work/err")" >&2
        exit 1
    fi
    awk -v name="$1" -v start="$start" -v end="$end" -v printed="$printed" -v count="$4" 'BEGIN {
        seconds = (end - start) / 1e9
        printf "%s: %.2f million link frames/s (%d in %.3f s), %.1f MB/s of text\n",
            name, count / seconds / 1e6, count, seconds, printed / 1e6 / seconds
    }'
    [ -x /usr/bin/time ] || return 0
    /usr/bin/time -o "$work/peak" -f %M "$program" --frames "$2" < "$3" > /dev/null 2>&1 || true
    tail -n 1 "$work/peak" | awk -v name="$1" '{ printf "%s: %.1f MB peak memory\n", name, $1 / 1e3 }'
}

duo > "$work/duo"
frames 'two nodes, none printed' none "$work/duo" 400000
frames 'two nodes, all printed' all "$work/duo" 400000
ring 1000000 > "$work/ring"
frames 'ring to the limit, none printed' none "$work/ring" 4194304
frames 'ring to the limit, all printed' all "$work/ring" 4194304
frames 'ring to the limit, routes told' route "$work/ring" 4194304

# The best of five calls that generate a mesh of $1 nodes.
generate() {
    best=
    for _ in 1 2 3 4 5; do
        start=$(date +%s%N)
        "$program" --generate "$1" > "$work/counts"
        end=$(date +%s%N)
        took=$(((end - start) / 1000))
        [ -n "$best" ] && [ "$best" -le "$took" ] || best=$took
    done
    echo "$(cat "$work/counts"): $best us"
}

generate 8
generate 64
