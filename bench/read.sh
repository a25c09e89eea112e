#!/bin/sh
# How fast the built program reads scenarios, and its peak memory: comments, client frames, and a
# mix of lines. The files are made in a folder of their own, which is removed.
set -e
top=$(cd "$(dirname "$0")/.." && pwd)
. "$top/bench/measure.sh"

# 60 MB of comments of 80 bytes.
comments() {
    awk 'BEGIN {
        text = "# a comment of eighty bytes, which the program reads to its end and passes over"
        for (i = 0; i < 750000; i++) print text
    }'
}

# 600,000 frames of 1,000 clients on 4 VLANs, 600 of each client, and the table of clients behind
# them; some 37 MB. The clients come in a mixed order: 7,919 and 1,000 have no common divisor.
frames() {
    awk 'BEGIN {
        print "node A 02:00:00:00:00:0a"
        for (i = 0; i < 600000; i++) {
            client = i * 7919 % 1000
            printf "frame A 02:00:00:01:%02x:%02x ff:ff:ff:ff:ff:ff %d frame no %06d\n",
                int(client / 256), client % 256, client % 4 + 1, i
        }
        print "show A tl"
    }'
}

# 60 MB of lines of all forms that are carried out: nodes, frames, tables, decode, comments and
# empty lines. A form that isn't built would end the run, so none of those stands here. There are
# 64 nodes, and each has at most 4 clients, so the tables stay small.
mixed() {
    awk 'BEGIN {
        all = "ff:ff:ff:ff:ff:ff"
        ogm = "000f32000000000102000000000a02000000000a00ff000c020100000401000401000000"
        for (i = 0; bytes < 60000000; i++) {
            block = "# round " i "\n\n"
            if (i % 1000 == 0 && nodes < 64) {
                block = block sprintf("node n%d 02:00:00:00:00:%02x\n", nodes, nodes + 1)
                nodes++
            }
            for (k = 0; k < 8; k++) {
                block = block sprintf("frame n%d 02:00:00:00:01:%02x %s %s text %d\n",
                    (i + k) % nodes, k % 2 + 1, all, k % 4 < 2 ? "-" : "7", i)
            }
            block = block sprintf("  show\tn%d tl\n \t\n", i % nodes)
            block = block "decode " ogm "\ndecode 030f02000000000b00000003000001f4\n"
            bytes += length(block)
            printf "%s", block
        }
    }'
}

comments > "$work/comments"
measure 'comments' "$work/comments"
frames > "$work/frames"
measure 'client frames' "$work/frames"
mixed > "$work/mixed"
measure 'mixed lines' "$work/mixed"
