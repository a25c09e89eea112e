#!/bin/sh
# How long the built program takes for 100,000 client frames over a chain of five nodes, none of its
# link frames printed: from a client of the first node to one of the last, whose table the first
# holds by then, ten frames a millisecond. Each is received, over four links. The file is made in a
# folder of its own, which is removed.
set -e
top=$(cd "$(dirname "$0")/.." && pwd)
. "$top/bench/measure.sh"

awk 'BEGIN {
    for (i = 1; i <= 5; i++) printf "node n%d 02:00:00:00:00:%02x\n", i, i
    for (i = 1; i < 5; i++) printf "link n%d n%d\nlink n%d n%d\n", i, i + 1, i + 1, i
    near = "02:00:00:00:01:01"
    far = "02:00:00:00:01:02"
    print "frame n1 " near " ff:ff:ff:ff:ff:ff - hello"
    print "frame n5 " far " ff:ff:ff:ff:ff:ff - hello"
    print "run 20000"
    for (i = 1; i <= 100000; i++) {
        print "frame n1 " near " " far " - hello"
        if (i % 10 == 0) print "run 1"
    }
    print "run 10"
}' > "$work/frames"

start=$(date +%s%N)
received=$("$program" --frames none < "$work/frames" | grep -c " n5 - .* hello$")
end=$(date +%s%N)
awk -v start="$start" -v end="$end" -v received="$received" 'BEGIN {
    printf "client frames: %d received in %.3f s\n", received, (end - start) / 1e9
}'
