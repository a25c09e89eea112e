# For the bench scripts that measure the built program: they read this file in, with `top` set.
program=$top/crates/batmesh/out/batmesh
if [ ! -x "$program" ]; then
    echo "the program isn't built: run bin/batmesh first" >&2
    exit 1
fi
work=$(mktemp -d "${TMPDIR:-/tmp}/batmesh_bench.XXXXXX")
trap 'rm -rf "$work"' EXIT
trap 'exit 130' HUP INT TERM

# Runs the program over the file $1 as standard input, without its output. Writes the seconds that
# it took and its peak memory in KB into the file `used`.
run_timed() {
    if [ -x /usr/bin/time ]; then
        start=$(date +%s%N)
        /usr/bin/time -o "$work/peak" -f %M "$program" < "$1" > /dev/null 2> "$work/err" || return
        end=$(date +%s%N)
        echo "$start $end $(cat "$work/peak")" | awk '{ print ($2 - $1) / 1e9, $3 }' > "$work/used"
    else
        # The peak is then at least that of python3 itself, some 10 MB.
        python3 -c "$python_timed" "$program" "$1" "$work/used" 2> "$work/err"
    fi
}
python_timed='
import resource, subprocess, sys, time
program, given, used = sys.argv[1:]
start = time.monotonic()
status = subprocess.run([program], stdin=open(given), stdout=subprocess.DEVNULL).returncode
seconds = time.monotonic() - start
peak = resource.getrusage(resource.RUSAGE_CHILDREN).ru_maxrss
print(seconds, peak, file=open(used, "w"))
sys.exit(status)
'

# Prints how fast the program reads the file $2, and its peak memory, under the name $1.
measure() {
    run_timed "$2" || { echo "$1: status $?: $(cat "$work/err")" >&2; exit 1; }
    read -r seconds peak < "$work/used"
    bytes=$(wc -c < "$2")
    awk -v name="$1" -v bytes="$bytes" -v seconds="$seconds" -v peak="$peak" 'BEGIN {
        size = bytes / 1e6
        printf "%s: %.1f MB/s (%.1f MB in %.3f s)\n", name, size / seconds, size, seconds
        printf "%s: %.1f MB peak memory\n", name, peak * 1024 / 1e6
    }'
}
