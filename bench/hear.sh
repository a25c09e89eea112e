#!/bin/sh
# Hearings per second of algorithm IV on one core: builds a program in a folder of its own, outside
# this repository, and runs it. A node has 16 neighbours, which sent an own OGM of it back. 64
# originators are heard over each of them, a number a second. So each hearing is the first of its
# number from its neighbour, is looked up among 1,024 rows and has a value. The best neighbour is
# asked for until a number is sent on: once where it comes first, and 16 times where it comes last.
set -e
top=$(cd "$(dirname "$0")/.." && pwd)
. "$top/bench/crate.sh"

make_program mesh_base mesh_model mesh_laws mesh_algo mesh_iv <<'END'
#![tactic(auto)]

use mesh_algo::{Algo, Head};
use mesh_base::{Mac, NoMemory};
use mesh_iv::Iv;
use std::alloc::Global;
use std::io;
use std::time::Instant;

const ME: Mac = Mac([2, 0, 0, 0, 1, 0]);
const NEIGHBOURS: u8 = 16;
const ORIGINATORS: u8 = 64;
const ROUNDS: u32 = 5_000;

fn node(number: u8) -> Mac {
    Mac([2, 0, 0, 0, 0, number])
}

// An OGM as it comes from a neighbour, which says this of its path.
fn ogm(seq: u32, orig: Mac, from: Mac, tq: u8) -> Head {
    Head::IvOgm {
        ttl: 50,
        flags: 0,
        seq,
        orig,
        prev: from,
        tq,
    }
}

// An OGM of the node itself as it comes back from a neighbour.
fn echo(from: Mac) -> Head {
    Head::IvOgm {
        ttl: 49,
        flags: 4,
        seq: 1,
        orig: ME,
        prev: from,
        tq: 0,
    }
}

// How many OGMs were heard, and how many of them were accepted and sent on. This neighbour is the
// best.
fn hear_all(alloc: Global, best: u8) -> Result<(u64, u64, u64), NoMemory> {
    let mut iv = Iv::new(alloc, ME);
    let _beats = iv.tick(1000, 2);
    for k in 0..NEIGHBOURS {
        let _answer = iv.hear(1002, node(k), 0, &echo(node(k)))?;
    }
    let mut heard = 0_u64;
    let mut accepted = 0_u64;
    let mut sent_on = 0_u64;
    for seq in 1..ROUNDS {
        let now = 1000_u64.wrapping_mul(seq as u64);
        for number in 0..ORIGINATORS {
            for k in 0..NEIGHBOURS {
                let tq = if k == best { 255 } else { 200 };
                let head = ogm(seq, node(number), node(k), tq);
                let answer = iv.hear(now, node(k), 0, &head)?;
                heard = heard.wrapping_add(1);
                if answer.accepted {
                    accepted = accepted.wrapping_add(1);
                }
                if answer.forward.is_some() {
                    sent_on = sent_on.wrapping_add(1);
                }
            }
        }
    }
    Ok((heard, accepted, sent_on))
}

// Measures hearings where this neighbour is the best.
fn measure(rt: HostRuntime, best: u8) -> io::Result<()> {
    let start = Instant::now(&rt)?;
    let Ok((heard, accepted, sent_on)) = hear_all(rt.alloc(), best) else {
        return println!(rt; "hear: out of memory");
    };
    let micros = start.elapsed(&rt)?.as_micros().max(1);
    let each_second = u128::from(heard) * 1_000_000 / micros;
    println!(rt; "{heard} heard, {accepted} accepted, {sent_on} sent on, in {micros} us")?;
    println!(rt; "{each_second} hearings/s, the neighbour at {best} of {NEIGHBOURS} the best")
}

fn main(rt: HostRuntime) -> io::Result<()> {
    measure(rt, 0)?;
    measure(rt, NEIGHBOURS - 1)
}
END

run_program 'hear'
