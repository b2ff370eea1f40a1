#!/usr/bin/env bash
# Measures the reading of logs: prints how long it takes to read a log of 125,000, 250,000, 500,000 and 1,000,000 events,
# each a reaction that takes five atoms, with a trace of three bytes for each event, 128 bytes in all; and how much
# memory the whole program held at most. Then how long it takes to refuse twenty-odd bytes that claim a source of 1,048,576.
# A log has at most 4,000,000 events.
# A measure and no test.
set -eu
. "$(dirname "$0")/scratch.sh"

scratch log_bench chem_model chem_laws chem_plain chem_commit trace_history trace_text <<'PROGRAM'
//! Reads logs of many events.
#![tactic(auto)]

use chem_model::{Items, Memory, Text};
use std::alloc::Global;
use std::time::Instant;
use trace_text::{LogEnd, push_all, push_number, read_log};

const LINE: &[u8] =
    b"react 0.2 0.18446744073709551615 0.18446744073709551615 0.18446744073709551615 0.18446744073709551615 0.18446744073709551615\n";

// A log with so many events and an empty source.
fn log(alloc: Global, count: u32) -> Result<Text, Memory> {
    let mut bytes: Text = Items::new(alloc);
    push_all(&mut bytes, b"joinlog 1\nsource 0\n\nbudget 1000000\nevents ")?;
    push_number(&mut bytes, count as u64)?;
    push_all(&mut bytes, b"\n")?;
    for _ in 0..count {
        push_all(&mut bytes, LINE)?;
    }
    push_all(&mut bytes, b"trace ")?;
    push_number(&mut bytes, count as u64 * 3)?;
    push_all(&mut bytes, b"\n")?;
    for _ in 0..count {
        push_all(&mut bytes, b"abc")?;
    }
    Ok(bytes)
}

fn main(rt: HostRuntime) -> Result<(), anyhow::Error> {
    let alloc = rt.alloc();
    for count in [125_000, 250_000, 500_000, 1_000_000] {
        let bytes = log(alloc, count).map_err(|_memory| LogEnd::Memory)?;
        let start = Instant::now(&rt)?;
        let read = read_log(alloc, bytes.as_slice())?;
        let taken = start.elapsed(&rt)?;
        println!(rt; "{} events, {} bytes: read in {} microseconds", read.events.len(), bytes.len(), taken.as_micros())?;
    }
    let start = Instant::now(&rt)?;
    let refused = read_log(alloc, b"joinlog 1\nsource 1048576\n").is_err();
    let taken = start.elapsed(&rt)?;
    println!(rt; "a source of 1048576 bytes claimed: refused {refused} in {} nanoseconds", taken.as_nanos())?;
    Ok(())
}
PROGRAM

: >stdin
build
out/log_bench &
program=$!
most=0
while kill -0 "$program" 2>/dev/null; do
    now=$(awk '/VmHWM/ { print $2 }' "/proc/$program/status" 2>/dev/null || true)
    [ "${now:-0}" -gt "$most" ] && most=$now
    sleep 0.05
done
wait "$program"
echo "at most $((most / 1024)) MB held"
