#!/usr/bin/env bash
# Measures the text of a trace in which each line has a fresh name with a rank: prints how long it takes to write it for
# 1,000 to 1,000,000 names. The run that would give them is left out, as it takes longer: the names and the lines are
# lists, and the scratch copy of trace_text makes the function public that trace_bytes calls with those of a book.
# A measure and no test.
set -eu
. "$(dirname "$0")/scratch.sh"

scratch names_bench chem_model chem_plain chem_laws chem_commit trace_history trace_text <<'PROGRAM'
//! Writes traces of fresh names.
#![tactic(auto)]

use chem_model::{Items, Loc, Memory, Name, Named, Naming, Out, Outs, Proc, Program, Ref, SeenDecl, SiteTerm};
use std::alloc::Global;
use std::time::Instant;
use trace_text::{Ending, LogEnd, run_text};

fn channel(k: u64) -> Name {
    Name::Chan {
        site: 0,
        k,
        home: Loc { site: 0, k: 0 },
    }
}

fn named(alloc: Global, count: u64) -> Result<Naming, Memory> {
    let mut list = Items::new(alloc);
    for k in 0..count {
        list.push(Named {
            binder: 1,
            name: channel(k),
        })?;
    }
    Ok(list)
}

fn outs(alloc: Global, count: u64) -> Result<Outs, Memory> {
    let mut list = Items::new(alloc);
    for k in 0..count {
        let mut args = Items::new(alloc);
        args.push(channel(k))?;
        list.push(Out { on: 0, args })?;
    }
    Ok(list)
}

fn program(alloc: Global) -> Result<Program, Memory> {
    let mut seen = Items::new(alloc);
    seen.push(SeenDecl {
        count: 0,
        spell: Items::from_slice(alloc, b"out")?,
    })?;
    let mut sites = Items::new(alloc);
    sites.push(SiteTerm {
        name: 0,
        defs: Items::new(alloc),
        body: Proc::msg(Ref::Known(Name::Seen(0)), Items::new(alloc)),
    })?;
    let mut spell = Items::new(alloc);
    spell.push(Items::from_slice(alloc, b"s")?)?;
    Ok(Program {
        version: 1,
        seen,
        sites,
        tops: 1,
        spell,
    })
}

fn main(rt: HostRuntime) -> Result<(), anyhow::Error> {
    let alloc = rt.alloc();
    let program = program(alloc).map_err(|_memory| LogEnd::Memory)?;
    for count in [1_000, 10_000, 30_000, 100_000, 300_000, 1_000_000] {
        let named = named(alloc, count).map_err(|_memory| LogEnd::Memory)?;
        let outs = outs(alloc, count).map_err(|_memory| LogEnd::Memory)?;
        let start = Instant::now(&rt)?;
        let trace = run_text(alloc, &program, &named, &outs, Ending::Stopped).map_err(|_memory| LogEnd::Memory)?;
        let taken = start.elapsed(&rt)?;
        println!(rt; "{} names: {} bytes in {} microseconds", count, trace.len(), taken.as_micros())?;
    }
    Ok(())
}
PROGRAM

sed -i 's/^fn run_text/pub fn run_text/' ../trace_text/src/trace.rt
sed -i 's/^pub use trace::{push_ending, trace_bytes}/pub use trace::{push_ending, run_text, trace_bytes}/' ../trace_text/src/lib.rt
: >stdin
build
out/names_bench
