#!/bin/sh
# MB per second of route lines that are read and looked at for loops, on one core: builds a program in
# a folder of its own, outside this repository, and runs it. The lines are of 64 nodes, one a moment,
# and each changes a route. The next node always has a smaller address, so there is no loop.
set -e
top=$(cd "$(dirname "$0")/.." && pwd)
. "$top/bench/crate.sh"

make_program mesh_base mesh_model mesh_laws mesh_tvlv mesh_codec mesh_loops mesh_scenario \
    batctl_text mesh_bisect <<'END'
#![tactic(auto)]

use batctl_text::line;
use mesh_base::{Event, Mac, Millis, Names, NoMemory};
use mesh_bisect::{Bisect, BisectErr};
use std::alloc::Global;
use std::io;
use std::time::Instant;

const NODES: u32 = 64;
const LINES: u32 = 200_000;

fn mac(node: u32) -> Mac {
    let [a, b, c, d] = node.to_be_bytes();
    Mac([2, 0, a, b, c, d])
}

// The next node of a node, which is another in each second round.
fn next(node: u32, round: u32) -> Option<Mac> {
    if round % 2 == 0 {
        node.checked_sub(1).map(mac)
    } else {
        (node > 1).then_some(mac(node / 2))
    }
}

// The route that a line tells.
fn route(number: u32) -> Event {
    let node = number % NODES;
    Event::Route {
        at: Millis::from(number),
        node: mac(node),
        orig: mac(number / NODES % NODES),
        next: next(node, number / NODES / NODES),
    }
}

fn texts(alloc: Global) -> Result<Vec<Vec<u8>>, NoMemory> {
    let names = Names::new(alloc);
    let mut texts = Vec::new(alloc);
    for number in 0..LINES {
        let mut text = Vec::new(alloc);
        line(&mut text, &names, &route(number))?;
        text.pop();
        texts.push(text)?;
    }
    Ok(texts)
}

// How many bytes were read, with a newline behind each line.
fn read_all(alloc: Global, texts: &[Vec<u8>], out: &mut Vec<u8>) -> Result<u64, BisectErr> {
    let mut bisect = Bisect::new(alloc);
    let mut bytes = 0_u64;
    for text in texts {
        bisect.take(text.as_slice(), out)?;
        bytes = bytes.wrapping_add(text.len() as u64).wrapping_add(1);
    }
    bisect.end(out)?;
    Ok(bytes)
}

fn main(rt: HostRuntime) -> io::Result<()> {
    let Ok(texts) = texts(rt.alloc()) else {
        return println!(rt; "bisect: out of memory");
    };
    let mut out = Vec::new(rt.alloc());
    let start = Instant::now(&rt)?;
    let Ok(bytes) = read_all(rt.alloc(), texts.as_slice(), &mut out) else {
        return println!(rt; "bisect: refused");
    };
    let micros = start.elapsed(&rt)?.as_micros().max(1);
    let printed = out.len();
    println!(rt; "bisect: {bytes} bytes in {micros} us, {printed} bytes printed")?;
    println!(rt; "bisect: {} MB/s of route lines", u128::from(bytes) / micros)
}
END
run_program bisect:
