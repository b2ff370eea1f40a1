#!/usr/bin/env bash
# Runs each program of examples/ on free threads with 1, 2, 4 and 16 workers, each so many times (default 100), and prints
# how often each way of being made and each text came out. Ends with status 1 where a run was made alone after all, where
# events were left to one thread, or where a text came out that may not.
# No test of the gate, since it takes long.
set -eu
times=${1:-100}
. "$(dirname "$0")/scratch.sh"

scratch free_bench chem_model chem_plain chem_laws chem_commit trace_history trace_text ring_source join_base join_lex \
    join_parse scope_names scope_check join_words status_words queue_cells loc_tree wire_packet env_store guard_compile \
    net_laws code_run site_solution reducer router failure migration net_core shared_net site_runner join_top <<'PROGRAM'
//! Runs the text on standard input on free threads, with as many workers and as often as the two words after the
//! program's name say. Prints a line for each run: how it was made, how many events the workers made and how many it has,
//! and its text with ';' at the ends of lines.
#![tactic(auto)]
ghost use denote.Param.Send.{IsSync};

use chem_model::{Items, Memory, Text};
use join_base::{MemSink, MemSource, StdSource, read_all};
use join_top::{Ended, How, OpenGate, Threaded, run_join};
use std::alloc::Global;
use std::env;
use std::marker::Sync;
use std::sync::Wait;
use std::thread::Threads;

const ROOM: u32 = 1_048_576;

fn words_of(alloc: Global, workers: &str) -> Result<Vec<String>, Memory> {
    let mut words = Vec::new(alloc);
    for word in ["run", "--workers", workers] {
        words.push(String::from_str(alloc, word)?)?;
    }
    Ok(words)
}

// A run: how it was made, how many events the workers made, how many there are, and its text in one line.
#[derive(Drop)]
struct Shown {
    how: &'static str,
    by_workers: u64,
    all: u64,
    line: Text,
}

// How it was made, how many events the workers made, and how many there are.
fn made(ended: &Ended) -> (&'static str, u64, u64) {
    match &ended.kept {
        None => ("none", 0, 0),
        Some(kept) => {
            let all = kept.journal.len() as u64;
            match &kept.how {
                How::Alone => ("alone", 0, all),
                How::Rounds => ("rounds", 0, all),
                How::Lossy { .. } => ("lossy", 0, all),
                How::Shared { events, .. } => ("shared", *events, all),
                How::Lone(_) => ("lone", 0, all),
            }
        }
    }
}

fn in_one_line(alloc: Global, text: &[u8]) -> Result<Text, Memory> {
    let mut line = Items::new(alloc);
    for byte in text {
        line.push(if *byte == b'\n' { b';' } else { *byte })?;
    }
    Ok(line)
}

fn told(alloc: Global, ended: &Ended, out: &MemSink) -> Result<Shown, Memory> {
    let (how, by_workers, all) = made(ended);
    let line = in_one_line(alloc, out.taken())?;
    Ok(Shown { how, by_workers, all, line })
}

fn run<R: AllocGlobal + Threads + Wait + Sync>(rt: &R, words: &[String], text: &[u8]) -> Result<Shown, Memory>
    requires { IsSync R.row }
{
    let alloc = rt.alloc();
    let mut source = MemSource::new(Items::from_slice(alloc, text)?, ROOM, Items::new(alloc));
    let mut out = MemSink::new(alloc, ROOM, ROOM, Items::new(alloc))?;
    let mut err = MemSink::new(alloc, ROOM, ROOM, Items::new(alloc))?;
    let ended = run_join(alloc, words, &mut source, &mut out, &mut err, &OpenGate, &Threaded::new(rt));
    told(alloc, &ended, &out)
}

fn main(rt: HostRuntime) -> Result<(), anyhow::Error> {
    let alloc = rt.alloc();
    let mut given = env::args(&rt)?;
    let _name = given.next();
    let workers = given.next().unwrap_or(String::new(alloc));
    let times = match given.next() {
        Some(word) => word.parse::<u32>().unwrap_or(0),
        None => 0,
    };
    let mut source = StdSource::new(rt.stdin());
    let text = read_all(alloc, &mut source, ROOM)?;
    let Some(words) = words_of(alloc, workers.as_str()).ok() else {
        return Ok(());
    };
    for _run in 0..times {
        if let Ok(it) = run(&rt, words.as_slice(), text.as_slice()) {
            let line = str::from_utf8(it.line.as_slice()).unwrap_or("?");
            println!(rt; "{} {} {} {line}", it.how, it.by_workers, it.all)?;
        }
    }
    Ok(())
}
PROGRAM

cp "$root/examples/first.join" stdin
build

name=
. "$root/examples/may_come_out.sh"

failed=0
for text in "$root"/examples/*.join; do
    name=$(basename "$text" .join)
    cp "$text" stdin
    for workers in 1 2 4 16; do
        out/free_bench "$workers" "$times" <stdin | sort | uniq -c >said
        while read -r count how by_workers all line; do
            echo "$name, $workers workers: $count times $how, $by_workers of $all events by the workers: $line"
            tr ';' '\n' <<<"${line%;}" >"$work/out"
            [ "$how" = shared ] && [ "$by_workers" = "$all" ] && (cd "$root/examples" && may_come_out) || {
                echo 'this may not come out'
                failed=1
            }
        done <said
        [ "$(awk '{ sum += $1 } END { print sum }' said)" = "$times" ] || failed=1
    done
done
[ "$failed" = 0 ]
