#!/bin/sh
# Checks that a frame that a store lent can't be kept past its store: a program that keeps one is
# refused, as not living long enough. It is tried on a copy of the crates below it, and takes some
# twenty seconds.
top=$(cd "$(dirname "$0")/.." && pwd)
work=$(mktemp -d "${TMPDIR:-/tmp}/batmesh_lent.XXXXXX") || exit 1
trap 'rm -rf "$work"' EXIT
trap 'exit 130' HUP INT TERM

for name in mesh_base frame_store; do
    mkdir -p "$work/crates/$name"
    for part in src specs proofs; do
        cp -R "$top/crates/$name/$part" "$work/crates/$name" || exit 1
    done
done
grep -E '^(mesh_base|frame_store):' "$top/crates.txt" > "$work/crates.txt"
echo 'keeper: frame_store mesh_base anyhow' >> "$work/crates.txt"
mkdir -p "$work/crates/keeper/src"
cat > "$work/crates/keeper/src/main.rt" << 'END'
//! Keeps a frame past its store.

#![tactic(auto)]

use frame_store::FrameStore;

fn main(rt: HostRuntime) -> Result<(), anyhow::Error> {
    let kept: &[u8];
    {
        let mut store = FrameStore::new(rt.alloc());
        store.push(&[0x61])?;
        kept = store.lend(0).0;
    }
    println!(rt; "{}", kept.len())?;
    Ok(())
}
END

said=$(cd "$work/crates/keeper" && rt try < /dev/null 2>&1)
case $said in
    *'error[borrow-e0597]: `store` does not live long enough'*) ;;
    *)
        printf '%s\n' "$said" | tail -n 20
        echo 'bench/lent.sh: a lent frame was kept past its store, or the try failed'
        exit 1 ;;
esac
