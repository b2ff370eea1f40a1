#!/usr/bin/env bash
# Measures the lexer: prints how long it takes for ordinary texts of 1/4, 1/2 and 1 MB, as the mean over so many
# rounds (default 20).
# A measure and no test.
set -eu
rounds=${1:-20}
. "$(dirname "$0")/scratch.sh"

scratch lex_bench chem_model join_base join_lex <<PROGRAM
//! Lexes the text on standard input again and again.
#![tactic(auto)]

use join_base::{StdSource, read_all};
use join_lex::lex;
use std::time::Instant;

fn main(rt: HostRuntime) -> Result<(), anyhow::Error> {
    let mut source = StdSource::new(rt.stdin());
    let text = read_all(rt.alloc(), &mut source, 1_048_576)?;
    let start = Instant::now(&rt)?;
    let mut count = 0;
    for _round in 0..$rounds {
        count = lex(rt.alloc(), text.as_slice())?.list.len();
    }
    let taken = start.elapsed(&rt)?;
    println!(rt; "{} bytes, {count} tokens: {} microseconds", text.len(), taken.as_micros() / $rounds)?;
    Ok(())
}
PROGRAM

# ordinary text: sites with rules, comments, names of some length and numbers
line='site s_1 [ # a comment of some length
    put(value, reply) | state(old) => state(value) | reply(old) and get(k) => k(0) : state(255) | go(s_1, state)
] '
while [ "${#line}" -lt 1048576 ]; do line+=$line; done
printf %s "${line:0:1048576}" >stdin
build
for size in 262144 524288 1048576; do
    head -c "$size" stdin | out/lex_bench
done
