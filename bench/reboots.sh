#!/bin/sh
# The speed of restarts: builds a program in a folder of its own, outside this repository, and runs
# it. A node with 1,000 clients restarts 10,000 times in a row, and after each restart the alias of
# the new first commit is looked for, as a node does.
set -e
top=$(cd "$(dirname "$0")/.." && pwd)
. "$top/bench/crate.sh"

make_program mesh_base mesh_model mesh_laws tt_table tt_local <<'END'
#![tactic(auto)]

ghost use Rattle.std.specs.Prelude.{◌≡◌, ◌<◌};

use mesh_base::{Key, Mac, Steps, Vid};
use std::alloc::Global;
use std::io;
use std::marker::Brand;
use std::sync::ledger::{Blank, Ledger};
use std::time::Instant;
use tt_local::{LocalErr, Locals};

const CLIENTS: u16 = 1_000;
const RESTARTS: u32 = 10_000;

fn client(place: u16) -> Key {
    let [high, low] = place.to_be_bytes();
    Key { mac: Mac([2, 0, 0, 0, high, low]), vid: Vid::UNTAGGED }
}

fn thousand<L: Ledger>(alloc: Global, steps: &mut Steps<L>) -> Result<Locals, LocalErr> {
    let mut locals = Locals::new(alloc);
    for place in 0..CLIENTS {
        locals.see(0, client(place), 0)?;
    }
    locals.commit(0, steps)?;
    Ok(locals)
}

// How many first commits have an alias.
fn restart_all(locals: &mut Locals) -> Result<u32, LocalErr> {
    let mut aliases = 0u32;
    for _ in 0..RESTARTS {
        let number = locals.restart()?;
        if locals.alias_of(number)?.is_some() {
            aliases = aliases.saturating_add(1);
        }
    }
    Ok(aliases)
}

fn measure<L: Ledger>(rt: HostRuntime, blank: Blank) -> io::Result<()>
    requires name { blank.name ≡ L.name }
    requires parts { blank.parts ≡ L.parts }
    requires some { 0 < blank.parts }
{
    let mut steps = Steps::<L>::new(blank);
    let Ok(mut locals) = thousand(rt.alloc(), &mut steps) else {
        return println!(rt; "reboots: out of memory");
    };
    let start = Instant::now(&rt)?;
    let aliases = restart_all(&mut locals).ok();
    let millis = start.elapsed(&rt)?.as_millis();
    println!(rt; "reboots: {RESTARTS} restarts take {millis} ms ({aliases:?})")
}

fn main(rt: HostRuntime) -> io::Result<()> {
    measure::<Brand>(rt, Blank::new(1))
}
END
mkdir -p "$work/crates/bench/proofs/main"
cat > "$work/crates/bench/proofs/main/Invariants.antt" <<'END'
use Rattle.bench.proofs.main.Given as goal

abbrev pub ghosts-measure : goal.ghosts-measure
ghosts-measure a = record { name = a.blank.name; parts = a.blank.parts }
END
run_program '^reboots: '
