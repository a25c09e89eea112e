#!/bin/sh
# The speed of commits: builds a program in a folder of its own, outside this repository, and runs
# it. Beside 100, 1,000 and 4,000 clients a client comes, each time another, and the one that came
# first goes: a commit each time. Then the alias of the last commit is looked for.
set -e
top=$(cd "$(dirname "$0")/.." && pwd)
. "$top/bench/crate.sh"

make_program mesh_base mesh_model mesh_laws tt_table tt_local <<'END'
#![tactic(auto)]

ghost use Rattle.std.specs.Prelude.{◌≡◌, ◌<◌};

use mesh_base::{Key, Mac, Steps, Vid};
use std::alloc::Global;
use std::io;
use std::marker::Brand;
use std::sync::ledger::{Blank, Ledger};
use std::time::Instant;
use tt_local::{LocalErr, Locals};

const ROUNDS: u16 = 10_000;

// The clients in an order in which a new one stands anywhere among the others: 40,503 is odd.
fn client(place: u16) -> Key {
    let [high, low] = place.wrapping_mul(40_503).to_be_bytes();
    Key { mac: Mac([2, 0, 0, 0, high, low]), vid: Vid::UNTAGGED }
}

fn with_clients(alloc: Global, count: u16) -> Result<Locals, LocalErr> {
    let mut locals = Locals::new(alloc);
    for place in 0..count {
        locals.see(0, client(place), 0)?;
    }
    Ok(locals)
}

// Clients come, each time another, and the one that came first goes: a commit a round.
fn renew_all<L: Ledger>(
    locals: &mut Locals,
    count: u16,
    steps: &mut Steps<L>,
) -> Result<(), LocalErr> {
    locals.commit(0, steps)?;
    for round in 0..ROUNDS {
        locals.see(0, client(count.wrapping_add(round)), 0)?;
        locals.commit(0, steps)?;
        locals.gone(client(round));
    }
    Ok(())
}

fn measure_beside<L: Ledger>(rt: HostRuntime, count: u16, steps: &mut Steps<L>) -> io::Result<()> {
    let Ok(mut locals) = with_clients(rt.alloc(), count) else {
        return println!(rt; "commits: out of memory");
    };
    let start = Instant::now(&rt)?;
    let done = renew_all(&mut locals, count, steps).is_ok();
    let nanos = start.elapsed(&rt)?.as_nanos() / u128::from(ROUNDS);
    println!(rt; "commits: beside {count} clients one more, as another goes, takes {nanos} ns with its commit ({done})")?;
    let start = Instant::now(&rt)?;
    let alias = locals.alias_of(locals.last());
    let micros = start.elapsed(&rt)?.as_micros();
    println!(rt; "commits: to look for the alias of the last takes {micros} us ({alias:?})")
}

fn measure<L: Ledger>(rt: HostRuntime, blank: Blank) -> io::Result<()>
    requires name { blank.name ≡ L.name }
    requires parts { blank.parts ≡ L.parts }
    requires some { 0 < blank.parts }
{
    let mut steps = Steps::<L>::new(blank);
    measure_beside(rt, 100, &mut steps)?;
    measure_beside(rt, 1_000, &mut steps)?;
    measure_beside(rt, 4_000, &mut steps)
}

fn main(rt: HostRuntime) -> io::Result<()> {
    measure::<Brand>(rt, Blank::new(1))
}
END
mkdir -p "$work/crates/bench/proofs/main"
cat > "$work/crates/bench/proofs/main/Invariants.antt" <<'END'
use Rattle.bench.proofs.main.Given as goal

abbrev pub ghosts-measure : goal.ghosts-measure
ghosts-measure a = record { name = a.blank.name; parts = a.blank.parts }
END
run_program '^commits: '
