#!/bin/sh
# The speed of tables of clients: builds a program in a folder of its own, outside this repository,
# and runs it. It takes entry sums, copies a table of 1,000 clients, and applies one change to it
# over and over: a client comes, and goes again. It takes full answers of 1,024 clients, and hears
# an announcement of the held table again and again. With the bytes that an entry takes.
set -e
top=$(cd "$(dirname "$0")/.." && pwd)
. "$top/bench/crate.sh"

make_program mesh_base mesh_model mesh_laws tt_table tt_global <<'END'
#![tactic(auto)]

ghost use Rattle.std.specs.Prelude.{◌≡◌, ◌<◌};

use mesh_base::{Entry, Key, Mac, NoMemory, Steps, Vid};
use std::alloc::Global;
use std::io;
use std::marker::Brand;
use std::sync::ledger::{Blank, Ledger};
use std::time::Instant;
use tt_global::{Globals, Heard, Taken};
use tt_table::{Announcement, ApplyErr, Change, Changes, Table, entry_sum};

const CLIENTS: u16 = 1000;
const SUMS: u32 = 10_000_000;
const COPIES: u32 = 100_000;
const CHANGES: u32 = 1_000_000;
const WHOLE: u16 = 1024;
const ANSWERS: u32 = 1_000;
const HEARINGS: u32 = 10_000_000;

fn client(place: u16) -> Entry {
    let [high, low] = place.to_be_bytes();
    Entry { key: Key { mac: Mac([2, 0, 0, 0, high, low]), vid: Vid::UNTAGGED }, flags: 0 }
}

fn one(alloc: Global, entry: Entry, del: bool) -> Result<Changes, NoMemory> {
    let mut changes = Changes::new(alloc);
    changes.push(Change { entry, del })?;
    Ok(changes)
}

fn thousand<L: Ledger>(alloc: Global, steps: &mut Steps<L>) -> Result<Table, ApplyErr> {
    let mut changes = Changes::new(alloc);
    for place in 0..CLIENTS {
        // every other address is left free
        changes.push(Change { entry: client(place.wrapping_mul(2)), del: false })?;
    }
    let mut table = Table::new(alloc);
    table.apply(&changes, steps)?;
    Ok(table)
}

fn sum_all<L: Ledger>(steps: &mut Steps<L>) -> u32 {
    let mut all = 0;
    for _ in 0..SUMS / 1000 {
        for place in 0..1000 {
            all ^= entry_sum(&client(place), steps);
        }
    }
    all
}

fn copy_all(table: &Table) -> Result<usize, NoMemory> {
    let mut copied = 0_usize;
    for _ in 0..COPIES {
        let copy = table.copy()?;
        copied = copied.wrapping_add(copy.entry_at(999).is_some() as usize);
    }
    Ok(copied)
}

// Two changes a round: a client comes and goes, each time another.
fn change_all<L: Ledger>(
    alloc: Global,
    table: &mut Table,
    steps: &mut Steps<L>,
) -> Result<(), ApplyErr> {
    let mut comes = Vec::new(alloc);
    let mut goes = Vec::new(alloc);
    for place in 0..64_u16 {
        let entry = client(place.wrapping_mul(62).wrapping_add(1));
        if comes.push(one(alloc, entry, false)?).is_err() || goes.push(one(alloc, entry, true)?).is_err() {
            return Err(ApplyErr::Memory);
        }
    }
    for round in 0..CHANGES / 2 {
        let place = (round % 64) as usize;
        let (Some(come), Some(go)) = (comes.get(place), goes.get(place)) else { continue };
        table.apply(come, steps)?;
        table.apply(go, steps)?;
    }
    Ok(())
}

// What is announced of a table of 1,024 clients, and the records of its full answer.
fn whole<L: Ledger>(
    alloc: Global,
    steps: &mut Steps<L>,
) -> Result<(Announcement, Changes), ApplyErr> {
    let mut records = Changes::new(alloc);
    for place in 0..WHOLE {
        records.push(Change { entry: client(place), del: false })?;
    }
    let mut table = Table::new(alloc);
    table.apply(&records, steps)?;
    let sums = table.sums().copy()?;
    let changes = Changes::new(alloc);
    Ok((Announcement { byte: 1, sums, changes }, records))
}

// How many full answers are taken.
fn take_all<L: Ledger>(
    globals: &mut Globals,
    announced: &Announcement,
    records: &Changes,
    steps: &mut Steps<L>,
) -> Result<u32, NoMemory> {
    let orig = Mac([2, 0, 0, 0, 0, 11]);
    globals.announce(orig, announced, steps)?;
    let mut taken = 0_u32;
    for _ in 0..ANSWERS {
        let outcome = globals.take_full(orig, 1, &announced.sums, records, steps)?;
        if let Taken::Taken = outcome {
            taken = taken.wrapping_add(1);
        }
    }
    Ok(taken)
}

// How many announcements are of the held table.
fn hear_all<L: Ledger>(
    globals: &mut Globals,
    announced: &Announcement,
    steps: &mut Steps<L>,
) -> Result<u32, NoMemory> {
    let orig = Mac([2, 0, 0, 0, 0, 11]);
    let mut same = 0_u32;
    for _ in 0..HEARINGS {
        let outcome = globals.announce(orig, announced, steps)?;
        if let Heard::Same = outcome {
            same = same.wrapping_add(1);
        }
    }
    Ok(same)
}

// Measures the sums of entries.
fn measure_sums<L: Ledger>(rt: HostRuntime, steps: &mut Steps<L>) -> io::Result<()> {
    let start = Instant::now(&rt)?;
    let all = sum_all(steps);
    let nanos = start.elapsed(&rt)?.as_nanos() / u128::from(SUMS);
    println!(rt; "tables: an entry sum takes {nanos} ns (the XOR of all is {all})")
}

// Measures copies of a table.
fn measure_copies(rt: HostRuntime, table: &Table) -> io::Result<()> {
    let start = Instant::now(&rt)?;
    let copied = copy_all(table) == Ok(COPIES as usize);
    let nanos = start.elapsed(&rt)?.as_nanos() / u128::from(COPIES);
    println!(rt; "tables: a copy of {CLIENTS} clients takes {nanos} ns ({copied})")
}

// Measures changes of a table.
fn measure_changes<L: Ledger>(
    rt: HostRuntime,
    table: &mut Table,
    steps: &mut Steps<L>,
) -> io::Result<()> {
    let start = Instant::now(&rt)?;
    let changed = change_all(rt.alloc(), table, steps) == Ok(());
    let nanos = start.elapsed(&rt)?.as_nanos() / u128::from(CHANGES);
    println!(rt; "tables: a change of {CLIENTS} clients takes {nanos} ns ({changed})")
}

// Measures full answers.
fn measure_answers<L: Ledger>(
    rt: HostRuntime,
    globals: &mut Globals,
    announced: &Announcement,
    records: &Changes,
    steps: &mut Steps<L>,
) -> io::Result<()> {
    let start = Instant::now(&rt)?;
    let taken = take_all(globals, announced, records, steps) == Ok(ANSWERS);
    let nanos = start.elapsed(&rt)?.as_nanos() / u128::from(ANSWERS);
    println!(rt; "tables: a full answer of {WHOLE} clients takes {nanos} ns ({taken})")
}

// Measures announcements of the held table.
fn measure_hearings<L: Ledger>(
    rt: HostRuntime,
    globals: &mut Globals,
    announced: &Announcement,
    steps: &mut Steps<L>,
) -> io::Result<()> {
    let start = Instant::now(&rt)?;
    let same = hear_all(globals, announced, steps) == Ok(HEARINGS);
    let nanos = start.elapsed(&rt)?.as_nanos() / u128::from(HEARINGS);
    println!(rt; "tables: an announcement of the held table takes {nanos} ns ({same})")
}

// Measures a table of its own.
fn measure_own<L: Ledger>(rt: HostRuntime, steps: &mut Steps<L>) -> io::Result<()> {
    match thousand(rt.alloc(), steps) {
        Ok(mut table) => {
            measure_copies(rt, &table)?;
            measure_changes(rt, &mut table, steps)
        }
        Err(_) => println!(rt; "tables: out of memory"),
    }
}

// Measures what is known of an originator's table.
fn measure_known<L: Ledger>(rt: HostRuntime, steps: &mut Steps<L>) -> io::Result<()> {
    match whole(rt.alloc(), steps) {
        Ok((announced, records)) => {
            let mut globals = Globals::new(rt.alloc());
            measure_answers(rt, &mut globals, &announced, &records, steps)?;
            measure_hearings(rt, &mut globals, &announced, steps)
        }
        Err(_) => println!(rt; "tables: out of memory"),
    }
}

// Measures all, and counts the steps of all in one ledger.
fn measure<L: Ledger>(rt: HostRuntime, blank: Blank) -> io::Result<()>
    requires name { blank.name ≡ L.name }
    requires parts { blank.parts ≡ L.parts }
    requires some { 0 < blank.parts }
{
    let mut steps = Steps::<L>::new(blank);
    measure_sums(rt, &mut steps)?;
    measure_own(rt, &mut steps)?;
    measure_known(rt, &mut steps)
}

fn main(rt: HostRuntime) -> io::Result<()> {
    println!(rt; "tables: an entry takes {} bytes", std::mem::size_of::<Entry>())?;
    measure::<Brand>(rt, Blank::new(1))
}
END
mkdir -p "$work/crates/bench/proofs/main"
cat > "$work/crates/bench/proofs/main/Invariants.antt" <<'END'
use Rattle.bench.proofs.main.Given as goal

abbrev pub ghosts-measure : goal.ghosts-measure
ghosts-measure a = record { name = a.blank.name; parts = a.blank.parts }
END
run_program 'tables:'
