#!/usr/bin/env bash
# Measures the parser: prints how long parsing and printing take for ordinary texts of 1/4, 1/2 and 1 MB, as the mean over so many
# rounds (default 20). Lexing is done once and isn't counted.
# A measure and no test.
set -eu
rounds=${1:-20}
. "$(dirname "$0")/scratch.sh"

scratch parse_bench chem_model join_base join_lex join_parse <<PROGRAM
//! Parses and prints the text on standard input again and again.
#![tactic(auto)]

use join_base::{Front, StdSource, read_all};
use join_lex::lex;
use join_parse::{parse, print_tree};
use std::time::Instant;

fn main(rt: HostRuntime) -> Result<(), anyhow::Error> {
    let mut source = StdSource::new(rt.stdin());
    let text = read_all(rt.alloc(), &mut source, 1_048_576)?;
    let tokens = lex(rt.alloc(), text.as_slice())?;
    let start = Instant::now(&rt)?;
    let mut sites = 0;
    for _round in 0..$rounds {
        sites = parse(rt.alloc(), &tokens)?.sites.len();
    }
    let parsing = start.elapsed(&rt)?;
    let tree = parse(rt.alloc(), &tokens)?;
    let start = Instant::now(&rt)?;
    let mut bytes = 0;
    for _round in 0..$rounds {
        bytes = print_tree(rt.alloc(), &tree).map_err(|_memory| Front::Memory)?.len();
    }
    let printing = start.elapsed(&rt)?;
    println!(rt; "{} bytes, {sites} sites: parsed in {} microseconds, printed as {bytes} bytes in {}", text.len(), parsing.as_micros() / $rounds, printing.as_micros() / $rounds)?;
    Ok(())
}
PROGRAM

# ordinary text: sites with a place, rules and groups
line='site s_1 [
    put(value, reply) | state(old) => state(value) | reply(old) and cell [ get(k) => (k(s_1) | 0) : go(s_1, state) ] : 0
] '
for size in 262144 524288 1048576; do
    count=$((size / ${#line}))
    for ((i = 0; i < count; i++)); do printf %s "$line"; done >text.$size
done
cp text.262144 stdin
build
for size in 262144 524288 1048576; do
    out/parse_bench <text.$size
done
