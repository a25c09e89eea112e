#!/bin/sh
# The speed of looking for loops: builds a program in a folder of its own, outside this repository,
# and runs it. 65,536 pairs of one originator stand in a tree, in which the next node of node i is
# node i / 2, or in a chain, in which it is node i - 1. Before each look one pair loses its next node
# or gets it back; at the end of the chain it gets the node before the last in its place, so that the
# look walks the chain twice.
set -e
top=$(cd "$(dirname "$0")/.." && pwd)
. "$top/bench/crate.sh"

make_program mesh_base mesh_model mesh_laws mesh_loops <<'END'
#![tactic(auto)]

use mesh_base::Mac;
use mesh_loops::{Watch, WatchErr};
use std::io;
use std::time::Instant;

const NODES: u32 = 65_536;

#[derive(Clone, Copy)]
enum Form {
    Tree,
    Chain,
    Ends,
}

fn mac(node: u32) -> Mac {
    let [a, b, c, d] = node.to_be_bytes();
    Mac([2, 0, a, b, c, d])
}

fn next(form: Form, node: u32) -> Option<Mac> {
    match form {
        Form::Tree => Some(mac(node / 2)),
        Form::Chain | Form::Ends => Some(mac(node.saturating_sub(1))),
    }
}

fn fill(watch: &mut Watch, form: Form) -> Result<(), WatchErr> {
    watch.set(mac(0), mac(NODES), None)?;
    for node in 1..NODES {
        watch.set(mac(node), mac(NODES), next(form, node))?;
    }
    watch.settle()?;
    Ok(())
}

fn look(watch: &mut Watch, form: Form, round: u32) -> Result<(), WatchErr> {
    let any = (round / 2).wrapping_mul(31_337) % (NODES - 1) + 1;
    let (node, other) = match form {
        Form::Tree | Form::Chain => (any, None),
        Form::Ends => (NODES - 1, Some(mac(NODES - 3))),
    };
    let now = if round % 2 == 0 { other } else { next(form, node) };
    watch.set(mac(node), mac(NODES), now)?;
    watch.settle()?;
    Ok(())
}

fn look_all(watch: &mut Watch, form: Form, rounds: u32) -> Result<(), WatchErr> {
    for round in 0..rounds {
        look(watch, form, round)?;
    }
    Ok(())
}

fn measure(rt: &HostRuntime, form: Form, name: &str, rounds: u32) -> io::Result<()> {
    let mut watch = Watch::new(rt.alloc());
    if fill(&mut watch, form).is_err() {
        return println!(rt; "loops: refused");
    }
    let start = Instant::now(rt)?;
    if look_all(&mut watch, form, rounds).is_err() {
        return println!(rt; "loops: refused");
    }
    let took = start.elapsed(rt)?.as_millis();
    println!(rt; "loops: {name}: {rounds} looks in {took} ms")
}

fn main(rt: HostRuntime) -> io::Result<()> {
    measure(&rt, Form::Tree, "a pair of a tree", 100_000)?;
    measure(&rt, Form::Chain, "a pair of a chain", 1_000)?;
    measure(&rt, Form::Ends, "the end of a chain", 1_000)
}
END
run_program loops:
