#!/bin/sh
# Refuses each request for memory of a run in turn, and looks at what the run leaves: status 5 and a
# front of its output, or all as it would be. Prints how many were tried; fails where one left
# something else.
#
#     bench/refused_memory.sh PROGRAM [SCENARIO ..]
#
# PROGRAM is a built one, as crates/batmesh/out/batmesh. Without SCENARIO it takes the chain of five
# of examples/vectors/rows, and a scenario with a line of each form. It wants a C compiler: a malloc
# and a realloc that count, and answer that there is none at one number, are loaded before libc's.
# This takes minutes, and is no part of the gate.
here=$(cd "$(dirname "$0")" && pwd) || exit 2
[ $# -gt 0 ] || { sed -n '2,11s/^# \{0,1\}//p' "$0" >&2; exit 2; }
program=$(readlink -f "$1")
shift
[ -x "$program" ] || { echo "bench/refused_memory.sh: $program is no program" >&2; exit 2; }
command -v cc > /dev/null || { echo 'bench/refused_memory.sh: there is no cc' >&2; exit 2; }
work=$(mktemp -d) || exit 2
trap 'rm -rf "$work"' EXIT

cat > "$work/refuse.c" << 'END'
#define _GNU_SOURCE
#include <dlfcn.h>
#include <stdio.h>
#include <stdlib.h>
#include <unistd.h>

static unsigned long count, refused;
static void *(*real_malloc)(size_t);
static void *(*real_realloc)(void *, size_t);

static int is_refused(void) { return ++count == refused; }

__attribute__((constructor)) static void begin(void) {
    const char *number = getenv("REFUSED");
    refused = number ? strtoul(number, 0, 10) : 0;
    real_malloc = dlsym(RTLD_NEXT, "malloc");
    real_realloc = dlsym(RTLD_NEXT, "realloc");
    count = 0;
}

__attribute__((destructor)) static void end(void) {
    char text[32];
    if (getenv("REFUSED")) return;
    if (write(9, text, snprintf(text, sizeof text, "%lu\n", count)) < 0) _exit(70);
}

void *malloc(size_t size) {
    if (!real_malloc) real_malloc = dlsym(RTLD_NEXT, "malloc");
    return is_refused() ? 0 : real_malloc(size);
}

void *realloc(void *old, size_t size) {
    if (!real_realloc) real_realloc = dlsym(RTLD_NEXT, "realloc");
    return is_refused() ? 0 : real_realloc(old, size);
}
END
cc -O1 -shared -fPIC -o "$work/refuse.so" "$work/refuse.c" -ldl || exit 2

# One line of each form, and each table. The texts of three facts are too long for one message.
text=$(printf '%0600d' 0)
cat > "$work/each_form" << END
# each form
algo iv
node A 02:00:00:00:00:0a
node B 02:00:00:00:00:0b
link A B delay=2 pattern=..2 tp=50
link B A
set A wifi on
set A mcast 2
set B gw server 100 20
set A gw client late 20
set B dat off
set A frag 300
alfred A mode secondary
alfred B mode primary
alfred A put 64 1 $text
alfred A put 65 1 $text
alfred A put 66 1 $text
alfred B put 64 1 a fact
alfred A get 64
frame A 02:00:00:00:01:01 ff:ff:ff:ff:ff:ff - to all
join A 01:00:5e:00:00:fb 7
run 6500
deliver 1
frame B 02:00:00:00:01:02 02:00:00:00:01:01 - to one
ping A B
traceroute B A
dhcp A 02:00:00:00:01:04 - a call
arp A 02:00:00:00:01:05 10.0.0.5 10.0.0.6 -
arp A 02:00:00:00:01:06 10.0.0.6 10.0.0.5 -
frame B 02:00:00:00:01:02 01:00:5e:00:00:fb 7 to a group
run 100
frame B 02:00:00:00:01:01 02:00:00:00:01:02 - roamed
run 2000
node C 02:00:00:00:00:0c
node D 02:00:00:00:00:0d
lan L C D
frame L 02:00:00:00:01:03 ff:ff:ff:ff:ff:ff - on a LAN
run 2
frame L 02:00:00:00:01:03 ff:ff:ff:ff:ff:ff - passed
run 2
gone L 02:00:00:00:01:03 -
show D cl
show A o
show A n
show A tl
show B tg
show A gw
show B mc
show A dat
leave A 01:00:5e:00:00:fb 7
gone B 02:00:00:00:01:01 -
run 1000
show B tg
run 10400
alfred B get 64
alfred A get 64
run 10
show B alf
reboot A
run 2000
show A tg
decode 000f32000000000102000000000a02000000000a00ff000c020100000401000401000000
END

# Whether what was printed is a front of the whole.
is_front() {
    cmp -s -n "$(wc -c < "$work/out")" "$work/out" "$work/whole"
}

# Which of three ends a run with this status came to: out of memory, silent or whole; else odd.
ending() {
    status=$1 said=
    read -r said < "$work/err"
    if [ "$1" -eq 5 ] && [ "$said" = 'batmesh: out of memory' ] && is_front; then
        kind=refused
    elif [ "$1" -eq 5 ] && [ ! -s "$work/err" ] && [ ! -s "$work/out" ]; then
        kind=silent
    elif [ "$1" -eq 0 ] && [ ! -s "$work/err" ] && cmp -s "$work/out" "$work/whole"; then
        kind=whole
    else
        kind=odd
    fi
}

odd_ones=0
try_scenario() {
    if ! LD_PRELOAD=$work/refuse.so "$program" < "$1" > "$work/whole" 9> "$work/count"
    then
        echo "bench/refused_memory.sh: the run of $1 doesn't end with 0" >&2
        exit 2
    fi
    requests=$(cat "$work/count")
    [ "$requests" -gt 0 ] || { echo "the program asks for no memory by malloc" >&2; exit 2; }
    refused=0 silent=0 whole=0 number=0
    while [ "$number" -lt "$requests" ]; do
        number=$((number + 1))
        REFUSED=$number LD_PRELOAD=$work/refuse.so \
            "$program" < "$1" > "$work/out" 2> "$work/err"
        ending $?
        case $kind in
            odd)
                printed=$(wc -c < "$work/out")
                echo "$1: request $number: status $status, $printed bytes, said: $said"
                odd_ones=$((odd_ones + 1)) ;;
            *) eval "$kind=\$(($kind + 1))" ;;
        esac
    done
    echo "$(basename "$1"): $requests requests, each refused once: $refused out of memory with a" \
        "front, $silent with nothing written, $whole as the run goes without"
}

[ $# -gt 0 ] || set -- "$here/../examples/vectors/rows/chain_of_five.scn" "$work/each_form"
for scenario; do try_scenario "$scenario"; done
[ "$odd_ones" -eq 0 ]
