#!/bin/sh
# Packets per second of decode: builds a program in a folder of its own, outside this repository, and
# runs it. It goes through a million packets of the five kinds that may follow one another, where
# they lie in memory.
set -e
top=$(cd "$(dirname "$0")/.." && pwd)
. "$top/bench/crate.sh"

make_program mesh_base mesh_model mesh_codec <<'END'
#![tactic(auto)]

use mesh_base::Mac;
use mesh_codec::{decode, encode, CodecErr, Head};
use std::alloc::Global;
use std::io;
use std::time::Instant;

const ROUNDS: u32 = 200_000;
const PACKETS: u32 = 1_000_000;
const A: Mac = Mac([2, 0, 0, 0, 0, 0x0a]);
const B: Mac = Mac([2, 0, 0, 0, 0, 0x0b]);
const CONTAINERS: [u8; 12] = [2, 1, 0, 0, 4, 1, 0, 4, 1, 0, 0, 0];

fn packets(alloc: Global) -> Result<Vec<u8>, CodecErr> {
    let mut out = Vec::new(alloc);
    for seq in 0..ROUNDS {
        let head = Head::IvOgm { ttl: 50, flags: 0, seq, orig: A, prev: B, tq: 255 };
        encode(&mut out, &head, &CONTAINERS)?;
        encode(&mut out, &Head::Elp { orig: A, seq, interval: 500 }, &[])?;
        let head = Head::Ogm2 { ttl: 50, flags: 0, seq, orig: A, throughput: 10_000 };
        encode(&mut out, &head, &CONTAINERS)?;
        encode(&mut out, &Head::Icmp { ttl: 50, msg: 8, dst: B, orig: A, uid: 1, seq: 1 }, &[])?;
        encode(&mut out, &Head::Utvlv { ttl: 50, dst: B, src: A }, &CONTAINERS)?;
    }
    Ok(out)
}

// How many packets stand in the bytes, how long their tails are together, and the latest heads.
fn read_all(bytes: &[u8]) -> (u32, u64, [Head; 16]) {
    let mut latest = [Head::Utvlv { ttl: 0, dst: A, src: A }; 16];
    let mut place = 0_usize;
    let mut packets = 0_u32;
    let mut tails = 0_u64;
    for _ in 0..PACKETS {
        let Some(rest) = bytes.get(place..) else { break };
        let Ok((head, tail, used)) = decode(rest) else { break };
        latest[(packets % 16) as usize] = head;
        place = place.wrapping_add(used);
        packets = packets.wrapping_add(1);
        tails = tails.wrapping_add(tail.len() as u64);
    }
    (packets, tails, latest)
}

fn main(rt: HostRuntime) -> io::Result<()> {
    let Ok(bytes) = packets(rt.alloc()) else {
        return println!(rt; "out of memory");
    };
    let start = Instant::now(&rt)?;
    let (packets, tails, latest) = read_all(&bytes);
    let micros = start.elapsed(&rt)?.as_micros();
    let each_second = u128::from(packets) * 1_000_000 / micros.max(1);
    println!(rt; "the first of the latest heads: {:?}", latest[0])?;
    println!(rt; "{packets} packets with {tails} bytes of tails in {micros} us: {each_second} packets/s")
}
END
run_program 'packets/s'
