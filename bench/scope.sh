#!/usr/bin/env bash
# Measures the check of scopes: prints how long it takes for the trees of texts of 1/4, 1/2 and 1 MB with up to 60,000 names,
# as the mean over so many rounds (default 20).
# A measure and no test.
set -eu
rounds=${1:-20}
. "$(dirname "$0")/scratch.sh"

scratch scope_bench chem_model join_base join_lex join_parse scope_names scope_check <<PROGRAM
//! Checks the tree of the text on standard input again and again.
#![tactic(auto)]

use join_base::{StdSource, read_all};
use join_lex::lex;
use join_parse::parse;
use scope_check::check;
use std::time::Instant;

fn main(rt: HostRuntime) -> Result<(), anyhow::Error> {
    let mut source = StdSource::new(rt.stdin());
    let text = read_all(rt.alloc(), &mut source, 1_048_576)?;
    let tokens = lex(rt.alloc(), text.as_slice())?;
    let tree = parse(rt.alloc(), &tokens)?;
    let start = Instant::now(&rt)?;
    let mut count = 0;
    for _round in 0..$rounds {
        count = check(rt.alloc(), &tree)?.spell.len();
    }
    let taken = start.elapsed(&rt)?;
    println!(rt; "{} bytes, {count} names: {} microseconds", text.len(), taken.as_micros() / $rounds)?;
    Ok(())
}
PROGRAM

# one site of so many rules, each with a channel of its own, which uses the next one: names of three letters
text() {
    awk -v n="$1" 'function name(i) {
            return substr("abcdefghijklmnopqrstuvwxyz", i % 26 + 1, 1) substr(upper "_", int(i / 26) % 37 + 1, 1) substr(upper "_abcdefghijklmnopqrstuvwxyz", int(i / 962) % 63 + 1, 1)
        }
        BEGIN {
            upper = "ABCDEFGHIJKLMNOPQRSTUVWXYZ0123456789"
            printf "site s [ %s()=>0", name(0)
            for (i = 1; i < n; i++) printf " and %s()=>%s()", name(i), name(i - 1)
            printf " : %s() ]", name(n - 1)
        }'
}
text 15000 >stdin
build
for names in 15000 30000 60000; do
    text "$names" >stdin
    out/scope_bench <stdin
done
