#!/usr/bin/env bash
# Measures the queues of a site: prints how long a message takes to come to a queue and to leave it, with 10, 10,000 and
# 100,000 messages waiting in one queue, and with as many groups, each with a message waiting, as the mean over so many
# turns (default 1,000,000).
# A measure and no test.
set -eu
turns=${1:-1000000}
. "$(dirname "$0")/scratch.sh"

scratch queues_bench chem_model status_words queue_cells <<PROGRAM
//! Puts messages into queues and takes them out again.
#![tactic(auto)]

use chem_model::Memory;
use queue_cells::Groups;
use std::alloc::Global;
use std::io;
use std::time::Instant;

type Numbers = Groups<u32, u64>;

fn put(groups: &mut Numbers, group: usize, message: u64) -> bool {
    if group >= groups.len() || groups.width(group) == 0 {
        return false;
    }
    if groups.reserve(1).is_err() {
        return false;
    }
    groups.push_reserved(group, 0, message);
    true
}

fn take(groups: &mut Numbers, group: usize) -> u64 {
    if group >= groups.len() || groups.width(group) == 0 || groups.front(group, 0).is_none() {
        return 0;
    }
    groups.take_front(group, 0)
}

// So many groups of two queues, each with so many messages in its first queue.
fn filled(alloc: Global, count: u32, messages: u32) -> Result<Numbers, Memory> {
    let mut groups = Groups::new(alloc);
    for group in 0..count {
        groups.add(alloc, group, 2)?;
        for message in 0..messages {
            put(&mut groups, group as usize, message as u64);
        }
    }
    Ok(groups)
}

// Each turn puts a message into a queue and takes the front of that queue. Groups are chosen by chance.
fn play(groups: &mut Numbers, count: u32) -> u64 {
    if count == 0 {
        return 0;
    }
    let mut seed = 1u64;
    let mut sum = 0u64;
    for _turn in 0..${turns}u32 {
        seed = seed.wrapping_mul(6_364_136_223_846_793_005).wrapping_add(1_442_695_040_888_963_407);
        let group = ((seed >> 33) % count as u64) as usize;
        put(groups, group, seed);
        sum ^= take(groups, group);
    }
    sum
}

fn measure(rt: &HostRuntime, count: u32, messages: u32) -> io::Result<()> {
    let Ok(mut groups) = filled(rt.alloc(), count, messages) else {
        return Ok(());
    };
    let start = Instant::now(rt)?;
    let sum = play(&mut groups, count);
    let taken = start.elapsed(rt)?.as_nanos();
    println!(rt; "{count} groups, {messages} messages in each: put and taken in {} nanoseconds (sum {sum})", taken / ${turns})
}

fn main(rt: HostRuntime) -> io::Result<()> {
    measure(&rt, 1, 10)?;
    measure(&rt, 1, 10_000)?;
    measure(&rt, 1, 100_000)?;
    measure(&rt, 10, 1)?;
    measure(&rt, 10_000, 1)?;
    measure(&rt, 100_000, 1)
}
PROGRAM

: >stdin
build
out/queues_bench
