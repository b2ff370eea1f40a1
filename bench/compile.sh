#!/usr/bin/env bash
# Measures the compiler: prints how long it takes for programs of four shapes, each in three sizes, as the mean over so many rounds (default 10):
# a wide parallel composition, a level of many rules, a level of many channels, and rules within 190 blocks.
# A measure and no test.
set -eu
rounds=${1:-10}
. "$(dirname "$0")/scratch.sh"

scratch compile_bench chem_model chem_laws wire_packet join_base join_lex join_parse scope_names scope_check env_store guard_compile <<PROGRAM
//! Compiles the program of the text on standard input again and again.
#![tactic(auto)]

use guard_compile::compile;
use join_base::{StdSource, read_all};
use join_lex::lex;
use join_parse::parse;
use scope_check::check;
use std::time::Instant;

fn main(rt: HostRuntime) -> Result<(), anyhow::Error> {
    let mut source = StdSource::new(rt.stdin());
    let text = read_all(rt.alloc(), &mut source, 1_048_576)?;
    let tokens = lex(rt.alloc(), text.as_slice())?;
    let tree = parse(rt.alloc(), &tokens)?;
    let program = check(rt.alloc(), &tree)?;
    let start = Instant::now(&rt)?;
    let mut guards = 0;
    for _round in 0..$rounds {
        guards = match compile(rt.alloc(), &program) {
            Ok(code) => code.guards.len(),
            Err(_) => 0,
        };
    }
    let taken = start.elapsed(&rt)?;
    println!(rt; "{} bytes, {guards} guards: {} microseconds", text.len(), taken.as_micros() / $rounds)?;
    Ok(())
}
PROGRAM

# a composition of so many messages
wide() {
    awk -v n="$1" 'BEGIN {
        printf "site s [ x()=>0 : x()"
        for (i = 1; i < n; i++) printf "|x()"
        printf " ]"
    }'
}
# a level of so many rules of one channel, each with a message
rules() {
    awk -v n="$1" 'BEGIN {
        printf "site s [ x()=>x()"
        for (i = 1; i < n; i++) printf " and x()=>x()"
        printf " : x() ]"
    }'
}
# a level of so many channels with names of three letters, in one join pattern, within a rule
channels() {
    awk -v n="$1" 'function name(i) {
            return substr("abcdefghijklmnopqrstuvwxyz", i % 26 + 1, 1) substr(upper "_", int(i / 26) % 37 + 1, 1) substr(upper "_abcdefghijklmnopqrstuvwxyz", int(i / 962) % 63 + 1, 1)
        }
        BEGIN {
            upper = "ABCDEFGHIJKLMNOPQRSTUVWXYZ0123456789"
            printf "site s [ x()=>def %s()", name(0)
            for (i = 1; i < n; i++) printf "|%s()", name(i)
            printf " => 0 in %s()", name(0)
            for (i = 1; i < n; i++) printf "|%s()", name(i)
            printf " : x() ]"
        }'
}
# so many rules within 190 blocks, one within the other
nested() {
    awk -v n="$1" 'BEGIN {
        printf "site s [ none : "
        for (i = 0; i < 190; i++) printf "def x()=>0 in "
        printf "def x()=>x()"
        for (i = 1; i < n; i++) printf " and x()=>x()"
        printf " in x() ]"
    }'
}
wide 60000 >stdin
build
for size in 1 2 4; do
    wide $((size * 65000)) >stdin
    printf 'wide: '
    out/compile_bench <stdin
    rules $((size * 15000)) >stdin
    printf 'rules: '
    out/compile_bench <stdin
    channels $((size * 15000)) >stdin
    printf 'channels: '
    out/compile_bench <stdin
    nested $((size * 15000)) >stdin
    printf 'nested: '
    out/compile_bench <stdin
done
