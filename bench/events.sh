#!/bin/sh
# MB per second of printed lines of link frames on one core: builds a program in a folder of its own,
# outside this repository, and runs it. The frames are originator messages of 36 bytes, and unicast
# packets of 126 bytes with a reason. They go between 64 nodes, each of which has a name, and are
# printed in turn.
set -e
top=$(cd "$(dirname "$0")/.." && pwd)
. "$top/bench/crate.sh"

make_program mesh_base mesh_model mesh_laws mesh_tvlv mesh_codec batctl_text <<'END'
#![tactic(auto)]

use batctl_text::line;
use mesh_base::{Bytes, Event, Events, Mac, Names, NoMemory, Reason};
use std::alloc::Global;
use std::io;
use std::time::Instant;

const NODES: u8 = 64;
const ROUNDS: u32 = 10_000;
const OGM: [u8; 36] = [
    0, 15, 50, 0, 0, 0, 0, 1, 2, 0, 0, 0, 0, 10, 2, 0, 0, 0, 0, 10, 0, 255, 0, 12, 2, 1, 0, 0, 4, 1,
    0, 4, 1, 0, 0, 0,
];
const UNICAST: [u8; 126] = [0x40; 126];

fn node(number: u8) -> Mac {
    Mac([2, 0, 0, 0, 0, number])
}

// A frame of a number, from a node to the node before it.
fn frame(number: u32, to: u8, reason: Option<Reason>, bytes: Bytes) -> Event {
    Event::FrameSent {
        number,
        moment: 120_000,
        from: node(to.wrapping_add(1) % NODES),
        to: node(to),
        reason,
        bytes,
    }
}

fn names_of_all(alloc: Global) -> Result<Names, NoMemory> {
    let mut names = Names::new(alloc);
    for number in 0..NODES {
        names.add_node(node(number), b"node-name")?;
    }
    Ok(names)
}

// Two frames to each node.
fn frames(alloc: Global) -> Result<Events, NoMemory> {
    let mut events = Events::new(alloc);
    for to in 0..NODES {
        let number = 100_000_u32.wrapping_add(u32::from(to));
        events.push(frame(number, to, None, Bytes::from_slice(alloc, &OGM)?))?;
        let unicast = Bytes::from_slice(alloc, &UNICAST)?;
        events.push(frame(number, to, Some(Reason::Table), unicast))?;
    }
    Ok(events)
}

// How many lines were printed, and how many bytes they have.
fn print_all(out: &mut Vec<u8>, names: &Names, events: &Events) -> Result<(u64, u64), NoMemory> {
    let mut lines = 0_u64;
    let mut bytes = 0_u64;
    for _ in 0..ROUNDS {
        out.clear();
        for i in 0..events.len() {
            if let Some(event) = events.at(i) {
                line(out, names, event)?;
                lines = lines.wrapping_add(1);
            }
        }
        bytes = bytes.wrapping_add(out.len() as u64);
    }
    Ok((lines, bytes))
}

fn main(rt: HostRuntime) -> io::Result<()> {
    let (Ok(names), Ok(events)) = (names_of_all(rt.alloc()), frames(rt.alloc())) else {
        return println!(rt; "out of memory");
    };
    let mut out = Vec::new(rt.alloc());
    let start = Instant::now(&rt)?;
    let Ok((lines, bytes)) = print_all(&mut out, &names, &events) else {
        return println!(rt; "out of memory");
    };
    let micros = start.elapsed(&rt)?.as_micros().max(1);
    println!(rt; "{lines} lines of {bytes} bytes in {micros} us")?;
    println!(rt; "{} MB/s of lines of frames", u128::from(bytes) / micros)
}
END

run_program 'lines of'
