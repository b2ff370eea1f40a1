#!/usr/bin/env bash
# Measures the judge of declared sorts: for texts of 1/4, 1/2 and 1 MB, the largest with 10,000 sort lines and 60,000 uses of
# names, prints how long the check of scopes takes for the tree, and the reading of the sort lines and the judge together, each
# as the mean over so many rounds (default 20).
# A measure and no test.
set -eu
rounds=${1:-20}
. "$(dirname "$0")/scratch.sh"

scratch sort_bench chem_model chem_laws join_base join_lex join_parse scope_names scope_check sort_laws sort_lines sort_check <<PROGRAM
//! Checks the tree of the text on standard input again and again, and then judges it by its sorts.
#![tactic(auto)]

use chem_model::Program;
use join_base::{StdSource, read_all};
use join_lex::lex;
use join_parse::{Tree, parse};
use scope_check::check;
use sort_check::{Judged, judge};
use sort_lines::{SortEnd, read_sorts};
use std::alloc::Global;
use std::time::Instant;

ghost use Rattle.std.specs.Prelude.{◌≤◌, length};
ghost use Rattle.scope_check.specs.Checked.{IsProgramOf};

fn keeps_sorts(
    alloc: Global,
    text: &[u8],
    tree: &Tree,
    program: &Program,
) -> Result<bool, anyhow::Error>
    requires short { length text.now ≤ 1048576 }
    requires program { IsProgramOf tree.now program.now }
{
    let sorts = read_sorts(alloc, text)?;
    let judged = judge(alloc, tree, program, &sorts).map_err(|_memory| SortEnd::Memory)?;
    Ok(judged == Judged::Yes)
}

fn main(rt: HostRuntime) -> Result<(), anyhow::Error> {
    let mut source = StdSource::new(rt.stdin());
    let text = read_all(rt.alloc(), &mut source, 1_048_576)?;
    if text.len() > 1_048_576 {
        return Ok(());
    }
    let tokens = lex(rt.alloc(), text.as_slice())?;
    let tree = parse(rt.alloc(), &tokens)?;
    let start = Instant::now(&rt)?;
    for _round in 0..$rounds {
        let _program = check(rt.alloc(), &tree)?;
    }
    let checked = start.elapsed(&rt)?;
    let program = check(rt.alloc(), &tree)?;
    let start = Instant::now(&rt)?;
    let mut keeps = true;
    for _round in 0..$rounds {
        keeps = keeps_sorts(rt.alloc(), text.as_slice(), &tree, &program)?;
    }
    let judged = start.elapsed(&rt)?;
    println!(
        rt;
        "{} bytes, sorts kept: {keeps}; check: {} microseconds; sorts: {}",
        text.len(),
        checked.as_micros() / $rounds,
        judged.as_micros() / $rounds
    )?;
    Ok(())
}
PROGRAM

# one site of so many rules, each with a channel of its own and its sort, which has the sort of the one before as an argument; each
# rule has 12 uses of names
text() {
    awk -v n="$1" 'function name(i) {
            return "requested_" substr(letters, i % 26 + 1, 1) substr(letters, int(i / 26) % 26 + 1, 1) substr(letters, int(i / 676) % 26 + 1, 1)
        }
        BEGIN {
            letters = "abcdefghijklmnopqrstuvwxyz"
            for (i = n - 1; i >= 0; i--) {
                printf "#: use %s %s\n", name(i), name(i)
                printf "#: sort %s(place,%s)\n", name(i), name(i ? i - 1 : 0)
            }
            printf "site s ["
            for (i = 0; i < n; i++) {
                a = name(i)
                b = name(i ? i - 1 : 0)
                printf "%s %s(p,k)=>%s(p,k)|%s(p,%s)|%s(s,k)|%s(s,%s)", i ? " and" : "", a, a, a, b, a, a, b
            }
            printf " : %s(s,%s) ]", name(n - 1), name(n - 2)
        }'
}
text 5000 >stdin
build
for channels in 1250 2500 5000; do
    text "$channels" >stdin
    out/sort_bench <stdin
done
