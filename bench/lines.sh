#!/bin/sh
# Lines per second of read_line: builds a program in a folder of its own, outside this repository,
# and runs it. It reads a line of each form of the scenario language, over and over, where they lie
# in memory.
set -e
top=$(cd "$(dirname "$0")/.." && pwd)
. "$top/bench/crate.sh"

make_program mesh_base mesh_model mesh_scenario <<'END'
#![tactic(auto)]

use mesh_scenario::read_line;
use std::alloc::Global;
use std::io;
use std::time::Instant;

const ROUNDS: u64 = 40_000;

const LINES: [&[u8]; 28] = [
    b"algo iv",
    b"node hill_2 02:00:00:00:00:0a",
    b"link A B delay=2 pattern=..x tp=50",
    b"lan L A B C",
    b"frame A 02:00:00:00:01:01 ff:ff:ff:ff:ff:ff - a text of some words",
    b"gone A 02:00:00:00:01:01 7",
    b"join A 01:00:5e:00:00:fb -",
    b"leave A 01:00:5e:00:00:fb -",
    b"arp A 02:00:00:00:01:01 10.0.0.1 10.0.0.2 -",
    b"dhcp A 02:00:00:00:01:01 - discover",
    b"set A wifi on",
    b"set A gw off",
    b"set A gw server 100 20",
    b"set A gw client best",
    b"set A gw client late 10",
    b"set A mcast 7",
    b"set A dat off",
    b"alfred A mode primary",
    b"alfred A put 64 1 hi",
    b"alfred A get 64",
    b"ping A B",
    b"traceroute A B",
    b"run 1000",
    b"deliver 1",
    b"show A tl",
    b"decode 030f02000000000b00000003000001f4",
    b"# a comment",
    b"frame A zz ff:ff:ff:ff:ff:ff - x",
];

// How many lines were read, how many of them were refused, and how many bytes they have together.
fn read_all(alloc: Global) -> (u64, u64, u64) {
    let mut lines = 0_u64;
    let mut refused = 0_u64;
    let mut bytes = 0_u64;
    for _ in 0..ROUNDS {
        for line in LINES {
            if read_line(alloc, line).is_err() {
                refused = refused.wrapping_add(1);
            }
            lines = lines.wrapping_add(1);
            bytes = bytes.wrapping_add(line.len() as u64);
        }
    }
    (lines, refused, bytes)
}

fn main(rt: HostRuntime) -> io::Result<()> {
    let start = Instant::now(&rt)?;
    let (lines, refused, bytes) = read_all(rt.alloc());
    let micros = start.elapsed(&rt)?.as_micros().max(1);
    let each_second = u128::from(lines) * 1_000_000 / micros;
    let megabytes = u128::from(bytes) / micros;
    println!(rt; "{lines} lines, {refused} refused, in {micros} us")?;
    println!(rt; "{each_second} lines/s, {megabytes} MB/s")
}
END
run_program 'lines/s'
