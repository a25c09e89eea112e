#!/bin/sh
# How fast the built program decodes, and its peak memory: 60 MB of the lines `decode` of
# examples/decode.scn, which have packets of each kind, over and over. The file is made in a folder
# of its own, which is removed.
set -e
top=$(cd "$(dirname "$0")/.." && pwd)
. "$top/bench/measure.sh"

awk '/^decode / { lines[count++] = $0 }
END {
    for (i = 0; bytes < 60000000; i++) {
        line = lines[i % count]
        bytes += length(line) + 1
        print line
    }
}' "$top/examples/decode.scn" > "$work/decode"
measure 'decode lines' "$work/decode"
