#!/usr/bin/env bash
# Measures the reading and writing of packets: prints how long it takes to decode and to encode a parcel of 25,000,
# 50,000, 100,000 and 200,000 waiting messages whose ids come in no order, as the mean over so many rounds (default 5),
# and to decode five bytes that claim a million groups.
# A measure and no test.
set -eu
rounds=${1:-5}
. "$(dirname "$0")/scratch.sh"

scratch packets_bench chem_model wire_packet <<PROGRAM
//! Decodes and encodes parcels of many waiting messages again and again.
#![tactic(auto)]

use chem_model::{Items, Memory, Text};
use std::alloc::Global;
use std::time::Instant;
use wire_packet::{decode, encode};

// The bytes of a parcel at the location 0.1 with so many waiting messages, on an observed name and without arguments.
fn parcel(alloc: Global, count: u32) -> Result<Text, Memory> {
    let mut bytes: Text = Items::new(alloc);
    bytes.extend_from_slice(&[2, 0, 0, 0, 0, 0, 0, 0, 0, 0, 0, 0, 1, 0, 0, 0, 0])?;
    bytes.extend_from_slice(&count.to_be_bytes())?;
    for number in 0..count {
        // an odd factor gives each number another one
        let k = (number as u64).wrapping_mul(11_400_714_819_323_198_485);
        bytes.extend_from_slice(&[0, 0, 0, 0])?;
        bytes.extend_from_slice(&k.to_be_bytes())?;
        bytes.extend_from_slice(&[0, 0, 0, 0, 0, 0])?;
    }
    bytes.extend_from_slice(&[0, 0, 0, 0])?;
    Ok(bytes)
}

fn main(rt: HostRuntime) -> Result<(), anyhow::Error> {
    let alloc = rt.alloc();
    for count in [25_000, 50_000, 100_000, 200_000] {
        let bytes = parcel(alloc, count).map_err(|_memory| wire_packet::DecodeEnd::Memory)?;
        let start = Instant::now(&rt)?;
        for _round in 0..$rounds {
            decode(alloc, bytes.as_slice())?;
        }
        let decoding = start.elapsed(&rt)?;
        let packet = decode(alloc, bytes.as_slice())?;
        let start = Instant::now(&rt)?;
        let mut length = 0;
        for _round in 0..$rounds {
            length = encode(alloc, &packet).map_err(|_memory| wire_packet::DecodeEnd::Memory)?.len();
        }
        let encoding = start.elapsed(&rt)?;
        println!(rt; "{count} waiting messages, {length} bytes: decoded in {} microseconds, encoded in {}", decoding.as_micros() / $rounds, encoding.as_micros() / $rounds)?;
    }
    let start = Instant::now(&rt)?;
    let claimed = decode(alloc, &[2, 0, 0, 0, 0, 0, 0, 0, 0, 0, 0, 0, 1, 0, 15, 66, 64]).is_err();
    let taken = start.elapsed(&rt)?;
    println!(rt; "a million groups claimed: refused {claimed} in {} nanoseconds", taken.as_nanos())?;
    Ok(())
}
PROGRAM

: >stdin
build
out/packets_bench
