# For the bench scripts that measure a library: they read this file in, with `top` set. It makes a
# repository in a folder of its own, outside this one, in which a program is built over some crates.
work=$(mktemp -d "${TMPDIR:-/tmp}/batmesh_bench.XXXXXX")
trap 'rm -rf "$work"' EXIT
trap 'exit 130' HUP INT TERM

# Makes the crate `bench` over the crates $@ of this repository, with standard input as its program.
make_program() {
    mkdir -p "$work/crates/bench/src"
    cp "$top/HANDLES" "$work/HANDLES"
    for name in "$@"; do
        mkdir "$work/crates/$name"
        for part in src specs proofs; do
            if [ -d "$top/crates/$name/$part" ]; then
                cp -r "$top/crates/$name/$part" "$work/crates/$name/$part"
            fi
        done
        grep "^$name:" "$top/crates.txt" >> "$work/crates.txt"
    done
    echo "bench: $* io" >> "$work/crates.txt"
    cat > "$work/crates/bench/src/main.rt"
}

# Builds and runs the program, and prints its lines that hold $1.
run_program() {
    cd "$work/crates/bench"
    rt run > log 2>&1 || true
    grep "$1" log || { tail -40 log; exit 1; }
}
