#!/usr/bin/env bash
# Measures a network on one thread: prints how much processor time a choice takes by `next`, `enabled` and `act`, as the
# mean over so many choices (default 100,000): an endless reaction, alone and beside messages, requests, locations, rules
# and sites that wait for nothing; a ping-pong of two sites; and an agent that tours three sites.
# A measure and no test.
set -eu
choices=${1:-100000}
. "$(dirname "$0")/scratch.sh"

scratch net_bench chem_model chem_laws join_base join_lex join_parse scope_names scope_check wire_packet loc_tree \
    env_store guard_compile status_words queue_cells net_laws code_run site_solution reducer router failure migration \
    net_core <<'PROGRAM'
//! Makes so many choices, one after another, as the word after the program's name says, in the network of the text on
//! standard input. Prints how many it made.
#![tactic(auto)]

use chem_model::{Memory, Program};
use guard_compile::compile;
use join_base::{StdSource, read_all};
use join_lex::lex;
use join_parse::parse;
use net_core::{Choice, Net};
use scope_check::check;
use std::alloc::Global;
use std::env;

fn make(alloc: Global, net: &mut Net, choice: &Choice) -> Result<bool, Memory> {
    if net.events() > 1_000_000_000 || !net.enabled(choice) {
        return Ok(false);
    }
    net.act(alloc, choice)?;
    Ok(true)
}

fn run(alloc: Global, net: &mut Net, choices: u32) -> Result<u32, Memory> {
    for done in 0..choices {
        match net.next() {
            Some(choice) => {
                if !make(alloc, net, &choice)? {
                    return Ok(done);
                }
            }
            None => return Ok(done),
        }
    }
    Ok(choices)
}

fn net_of(alloc: Global, program: &Program) -> Option<Net> {
    let code = compile(alloc, program).ok()?;
    Net::start(alloc, program, &code).ok()
}

// The network of a text, where it has one.
fn started(alloc: Global, text: &[u8]) -> Option<Net> {
    let tokens = lex(alloc, text).ok()?;
    let tree = parse(alloc, &tokens).ok()?;
    let program = check(alloc, &tree).ok()?;
    net_of(alloc, &program)
}

fn made(alloc: Global, text: &[u8], choices: u32) -> Option<u32> {
    let mut net = started(alloc, text)?;
    run(alloc, &mut net, choices).ok()
}

fn main(rt: HostRuntime) -> Result<(), anyhow::Error> {
    let mut words = env::args(&rt)?;
    let _name = words.next();
    let choices = match words.next() {
        Some(word) => word.parse::<u32>().unwrap_or(0),
        None => 0,
    };
    let mut source = StdSource::new(rt.stdin());
    let text = read_all(rt.alloc(), &mut source, 1_048_576)?;
    match made(rt.alloc(), text.as_slice(), choices) {
        Some(made) => println!(rt; "{made}")?,
        None => println!(rt; "none")?,
    }
    Ok(())
}
PROGRAM

# messages COUNT: an endless reaction beside so many messages that no rule takes
messages() {
    awk -v n="$1" 'BEGIN {
        printf "site s [ c(x) => c(x) and idle() | never() => 0 : c(s)"
        for (i = 0; i < n; i++) printf "|idle()"
        printf " ]"
    }'
}

# requests COUNT: an endless reaction beside so many requests that nothing enables
requests() {
    awk -v n="$1" 'BEGIN {
        printf "site s [ c(x) => c(x) and k() => 0 : c(s)"
        for (i = 0; i < n; i++) printf "|fail(s,k)"
        printf " ]"
    }'
}

# locations COUNT: an endless reaction in the last one of so many locations
locations() {
    awk -v n="$1" 'BEGIN {
        printf "site s [ "
        for (i = 1; i < n; i++) printf "l%d[none:0]and ", i
        printf "m [ c(x) => c(x) : c(m) ] : 0 ]"
    }'
}

# rules COUNT: an endless reaction by the last one of so many rules of one level, each with a channel of its own
rules() {
    awk -v n="$1" 'BEGIN {
        printf "site s [ "
        for (i = 1; i < n; i++) printf "n%d()=>0 and ", i
        printf "c(x) => c(x) : c(s) ]"
    }'
}

# sites COUNT: an endless reaction in the last one of so many sites
sites() {
    awk -v n="$1" 'BEGIN {
        for (i = 1; i < n; i++) printf "site s%d [ none : 0 ] ", i
        printf "site s [ c(x) => c(x) : c(s) ]"
    }'
}

# seconds CHOICES: makes so many choices in the network of the text in the file stdin, and prints the seconds of
# processor time
seconds() {
    local taken TIMEFORMAT='%U %S'
    taken=$( { time out/net_bench "$1" <stdin >made; } 2>&1)
    if [ "$(cat made)" != "$1" ]; then
        echo "$(cat made) choices in place of $1" >&2
        exit 1
    fi
    awk -v taken="$taken" 'BEGIN { split(taken, part, " "); print part[1] + part[2] }'
}

# measure NAME CHOICES: the choices of the text in the file stdin
measure() {
    local before after
    before=$(seconds 0)
    after=$(seconds "$2")
    awk -v name="$1" -v before="$before" -v after="$after" -v choices="$2" 'BEGIN {
        printf "%s: a choice in %d nanoseconds\n", name, (after - before) * 1e9 / choices
    }'
}

echo 'site s [ c(x) => c(x) : c(s) ]' >stdin
build
measure 'an endless reaction' "$choices"
cat >stdin <<'TEXT'
site a [ ping(x) => pong(x) : ping(a) ]
site b [ pong(x) => ping(x) : 0 ]
TEXT
measure 'a ping-pong of two sites' "$choices"
cat >stdin <<'TEXT'
site a [ none : 0 ]
site b [ none : 0 ]
site c [ agent [ to_a() => go(a, to_b) and to_b() => go(b, to_a) : go(a, to_b) ] : 0 ]
TEXT
measure 'an agent that tours' "$choices"
for count in 600 6000 60000; do
    messages "$count" >stdin
    measure "beside $count messages" "$choices"
done
for count in 600 6000 60000; do
    requests "$count" >stdin
    measure "beside $count requests" "$((choices / 10))"
done
for count in 100 1000 10000; do
    locations "$count" >stdin
    measure "in the last of $count locations" "$choices"
done
for count in 10 100 1000; do
    rules "$count" >stdin
    measure "by the last of $count rules" "$((choices / 10))"
done
for count in 4 16 64; do
    sites "$count" >stdin
    measure "in the last of $count sites" "$choices"
done
