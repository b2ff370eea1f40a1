#!/usr/bin/env bash
# Measures a site alone: prints how much processor time a reaction takes, from the choice of what is ready to the message
# that is put, with 10, 10,000 and 100,000 messages waiting in the queue from which it takes one and to which it puts
# one, and with as many groups, each with a message waiting, as the mean over so many turns (default 100,000).
# A measure and no test.
set -eu
turns=${1:-100000}
. "$(dirname "$0")/scratch.sh"

scratch sites_bench chem_model chem_laws join_base join_lex join_parse scope_names scope_check wire_packet env_store guard_compile loc_tree net_laws code_run status_words queue_cells site_solution reducer <<'PROGRAM'
//! Opens the one site of the text on standard input, and makes so many of its reactions as the word after the program's
//! name says.
#![tactic(auto)]
ghost use Rattle.std.specs.Prelude.{◌≡◌, ◌<◌, ◌^◌, [], IsTrue};
ghost use Rattle.reducer.specs.Picks.{MayFire};
ghost use Rattle.reducer.specs.Reacted.{IsFit};

use env_store::Code;
use guard_compile::compile;
use join_base::{StdSource, read_all};
use join_lex::lex;
use join_parse::parse;
use loc_tree::LocTree;
use reducer::{Pick, opening, react, ready};
use scope_check::check;
use site_solution::{Effects, Site};
use std::alloc::Global;
use std::env;

fn bears_none(effects: &Effects) -> bool
    ensures { IsTrue result → effects.now.births ≡ [] }
{
    effects.births.is_empty()
}

// Makes a reaction. Whether it was made, and bears no location.
fn reacts(alloc: Global, site: &mut Site, code: &Code, tree: &LocTree, pick: &Pick) -> bool
    requires fires { MayFire code.now tree.now site.old pick.now }
    requires fit { IsFit code.now tree.now site.old }
    requires few { site.old.made < 2 ^ 63 }
    ensures { IsTrue result → IsFit code.now tree.now site.new }
{
    match react(alloc, site, code, tree, pick) {
        Ok(effects) => bears_none(&effects),
        Err(_) => false,
    }
}

// One reaction, where one is ready that bears no location.
fn turn(alloc: Global, site: &mut Site, code: &Code, tree: &LocTree) -> bool
    requires { IsFit code.now tree.now site.old }
    ensures { IsTrue result → IsFit code.now tree.now site.new }
{
    if site.made() >= 1 << 63 {
        return false;
    }
    match ready(site, code, tree) {
        Some(pick) => reacts(alloc, site, code, tree, &pick),
        None => false,
    }
}

// How many reactions it makes, at most so many.
fn play(alloc: Global, site: &mut Site, code: &Code, tree: &LocTree, turns: u32) -> u32
    requires { IsFit code.now tree.now site.old }
{
    for made in 0..turns {
        if !turn(alloc, site, code, tree) {
            return made;
        }
    }
    turns
}

fn is_fit(site: &Site, code: &Code, tree: &LocTree) -> bool
    ensures { IsTrue result → IsFit code.now tree.now site.now }
{
    site.in_tree(tree) && site.in_code(code, tree) && site.can_draw(tree)
}

fn run(alloc: Global, code: &Code, turns: u32) -> u32 {
    if code.sites.len() != 1 {
        return 0;
    }
    let Ok(tree) = LocTree::start(alloc, 1) else {
        return 0;
    };
    match opening(alloc, code, &tree, 0) {
        Ok((mut site, _effects)) => {
            if is_fit(&site, code, &tree) {
                play(alloc, &mut site, code, &tree, turns)
            } else {
                0
            }
        }
        Err(_) => 0,
    }
}

fn main(rt: HostRuntime) -> Result<(), anyhow::Error> {
    let mut words = env::args(&rt)?;
    let _name = words.next();
    let turns = match words.next() {
        Some(word) => word.parse::<u32>().unwrap_or(0),
        None => 0,
    };
    let mut source = StdSource::new(rt.stdin());
    let text = read_all(rt.alloc(), &mut source, 1_048_576)?;
    let tokens = lex(rt.alloc(), text.as_slice())?;
    let tree = parse(rt.alloc(), &tokens)?;
    let program = check(rt.alloc(), &tree)?;
    let made = match compile(rt.alloc(), &program) {
        Ok(code) => run(rt.alloc(), &code, turns),
        Err(_) => 0,
    };
    println!(rt; "{made}")?;
    Ok(())
}
PROGRAM
mkdir -p proofs/play
cat >proofs/play/Invariants.antt <<'PROOF'
use Rattle.reducer.specs.Reacted.{IsFit}
use Rattle.sites_bench.proofs.play.Given as goal

abbrev pub invariant-loop-made : goal.invariant-loop-made
invariant-loop-made l = IsFit l.code l.tree l.site
PROOF

# so many messages on one channel, whose rule puts back what it takes
messages() {
    awk -v n="$1" 'BEGIN {
        printf "site s [ x() => x() : x()"
        for (i = 1; i < n; i++) printf "|x()"
        printf " ]"
    }'
}

# the same rule with one message, and so many groups of later rules, ten for each message of a first rule
groups() {
    awk -v n="$1" 'BEGIN {
        printf "site s [ a() => "
        for (i = 0; i < 10; i++) printf "(def b() => b() in b())|"
        printf "0 and x() => x() : x()"
        for (i = 0; i < n / 10; i++) printf "|a()"
        printf " ]"
    }'
}

# seconds TURNS: makes so many reactions of the text in the file stdin, and prints the seconds of processor time
seconds() {
    local taken TIMEFORMAT='%U %S'
    taken=$( { time out/sites_bench "$1" <stdin >made; } 2>&1)
    if [ "$(cat made)" != "$1" ]; then
        echo "$(cat made) reactions in place of $1" >&2
        exit 1
    fi
    awk -v taken="$taken" 'BEGIN { split(taken, part, " "); print part[1] + part[2] }'
}

# measure NAME FIRST TURNS: the reactions of the text after so many first ones
measure() {
    local before after
    before=$(seconds "$2")
    after=$(seconds $(($2 + $3)))
    awk -v name="$1" -v before="$before" -v after="$after" -v turns="$3" 'BEGIN {
        printf "%s: a reaction in %d nanoseconds\n", name, (after - before) * 1e9 / turns
    }'
}

messages 10 >stdin
build
for count in 10 10000 100000; do
    messages "$count" >stdin
    measure "$count messages" 0 "$turns"
done
for count in 10 10000 100000; do
    groups "$count" >stdin
    measure "$count groups" $((count / 10)) "$turns"
done
