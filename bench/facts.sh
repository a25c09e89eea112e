#!/bin/sh
# What a round of the fact store takes: two primaries and 62 secondaries in a star, each with 192
# facts of 100 bytes. The secondaries push theirs to the one primary at 20,000 ms; at 30,000 ms it
# pushes them all to the other, in some 1,000 parts, which takes them at 30,001 ms. Each time is the
# least of five runs, and the figures are what each of these moments adds.
set -e
top=$(cd "$(dirname "$0")/.." && pwd)
. "$top/bench/measure.sh"

star() {
    awk -v time="$1" 'BEGIN {
        for (i = 0; i < 64; i++) printf "node n%d 02:00:00:00:01:%02x\n", i, i
        for (i = 1; i < 64; i++) printf "link n0 n%d\nlink n%d n0\n", i, i
        for (i = 0; i < 64; i++) printf "alfred n%d mode %s\n", i, i < 2 ? "primary" : "secondary"
        fill = sprintf("%092d", 0)
        for (i = 0; i < 64; i++) for (t = 64; t < 256; t++) {
            printf "alfred n%d put %d 1 n%02d-%03d-%s\n", i, t, i, t, fill
        }
        print "run " time
    }' > "$work/$1.scn"
}

# The least time of five runs up to $1 milliseconds.
least() {
    for _ in 1 2 3 4 5; do
        run_timed "$work/$1.scn"
        cat "$work/used"
    done | sort -n | head -n 1
}

for time in 29999 30000 30001; do star "$time"; done
{ least 29999; least 30000; least 30001; } | awk '
    { seconds[NR] = $1; peak = $2 }
    END {
        printf "facts: a push of 12,096 facts takes %.0f ms, and its taking %.0f ms, up to %d KB\n",
            1000 * (seconds[2] - seconds[1]), 1000 * (seconds[3] - seconds[2]), peak
    }'
