#!/usr/bin/env bash
# Refuses memory to the program. Of each of a few texts, by each command, it refuses first the first allocation of the
# run, then the second, and so on until a run asks for no more; and once more so that all later allocations of the run
# are refused too. Each run must end within ten seconds, as it does with memory, or with status 6, `out of memory` on err
# and nothing on out. Where threads share a run, which allocation is the tenth, say, is another one at times. `check` and
# `explain` read the log of the text. It prints how many runs ended which way, and each that ended otherwise, which is a
# fault: then the status is 1.
set -eu
. "$(dirname "$0")/refusing.sh"

printf '%s' 'observe out/1; site s [ x(u) => out(u) : x(s) ]' >"$work/least.join"
printf '%s\n' 'out(s)' quiescent >"$work/least.out"
cat >"$work/move.join" <<'TEXT'
observe out/1;
site a [
  m[ k() => p() | q() and q() | h(u) => out(u) and p() => out(a) : h(m) | go(b, k) ]
  : 0
]
site b [ none : 0 ]
TEXT
printf '%s\n' 'out(m)' 'out(a)' quiescent >"$work/move.out"
cat >"$work/agent.join" <<'TEXT'
observe log/2;
# an agent asks a shop for a price and comes home
site home [
  agent [
    start() => go(shop, ask) and
    ask() => price(agent, got) and
    got(p) => log(shop, p) | go(home, back) and
    back() => done(agent)
    : start()
  ] and
  done(a) => log(home, a)
  : 0
]
site shop [
  cheap() => 0 and
  price(who, k) => k(cheap)
  : 0
]
TEXT
printf '%s\n' 'log(shop, cheap)' 'log(home, agent)' quiescent >"$work/agent.out"
# Sixteen messages and requests wait at first, and the book sets them apart; the first reaction makes as many more, among
# them one with a wrong count for twelve rules of a location. These might then be ready by what was set apart, and go to
# another site with the location. Twelve requests wait for the death of one that halts.
{
    printf 'observe out/1;\nsite a [\n  m[ k() => 0'
    for _ in {1..12}; do printf ' and\n    x(u) | y(v) => out(u)'; done
    printf '\n    : x(a) | go(b, k) ] and\n  w[ none : halt() ] and\n  d() => out(w) and\n  idle() | never() => 0 and'
    printf '\n  f(g) => g()'
    for _ in {1..16}; do printf ' | idle()'; done
    printf '\n  : f(y)'
    for _ in {1..12}; do printf ' | fail(w, d)'; done
    printf '\n]\nsite b [ none : 0 ]\n'
} >"$work/apart.join"
{
    for _ in {1..12}; do echo 'out(w)'; done
    echo quiescent
} >"$work/apart.out"
# An office hands out numbers, and its sorts are declared.
cat >"$work/sorted.join" <<'TEXT'
version 2;
#: sort number(num)
#: sort request(number)
#: use drawn number
#: use next number
#: use draw request
#: use got number
observe drawn/1;
site office [ next(n) | draw(reply) => add(n, 1, next) | reply(n) : next(1) ]
site anna [ got(n) => drawn(n) : draw(got) ]
TEXT
printf '%s\n' 'drawn(1)' quiescent >"$work/sorted.out"
# a text that is refused, a log of it, and a log whose event isn't possible
echo 'site s [ none : x() ]' >"$work/faulty.join"
printf 'joinlog 1\nsource 21\n%s\nbudget 10\nevents 0\ntrace 0\n' 'site s [ none : x() ]' >"$work/faulty.log"
printf 'joinlog 1\nsource 19\n%s\nbudget 10\nevents 1\nhalt 0.1\ntrace 0\n' 'site s [ none : 0 ]' >"$work/wrong.log"

declare -A budgets=([apart]=40)
runs=('alone' 'rounds --workers 2' 'run --workers 2' 'lossy --loss 3')
# the texts of which a command may print the lines in another order
declare -A orders=(['run --workers 2 move']=any)

. "$(dirname "$0")/program.sh"

# The calls of a text, each with one allocation refused, or with that and all later ones.
cat >"$work/sweep.py" <<'PYTHON'
import os
import subprocess
import sys

work, usual, order, how, source, *words = sys.argv[1:]
refused = f"{work}/refused"


def has(path):
    with open(path, "rb") as file:
        return file.read()


def called(first, last):
    """How a call ends with the allocations refused from the one number to the other."""
    how = {"REFUSE_FIRST": str(first), "REFUSE_LAST": str(last), "REFUSED": refused}
    how["LD_PRELOAD"] = f"{work}/refusing.so"
    open(refused, "wb").close()
    with open(source, "rb") as given:
        try:
            ran = subprocess.run(words, stdin=given, capture_output=True, env={**os.environ, **how}, timeout=10)
        except subprocess.TimeoutExpired:
            return 124, b"", b""
    return ran.returncode, ran.stdout, ran.stderr


def lines(ended):
    status, out, err = ended
    return status, sorted(out.splitlines()) if order == "any" else out, err


with_memory = lines((int(has(f"{usual}.status")), has(usual), has(f"{usual}.err")))
number = short = as_usual = others = 0
while True:
    ended = called(number + 1, number + 1 if how == "one" else 10**9)
    if has(refused) == b"0\n":
        break
    number += 1
    if ended == (6, b"", b"out of memory\n"):
        short += 1
    elif lines(ended) == with_memory:
        as_usual += 1
    else:
        others += 1
        print(f"with allocation {number} refused it ended with status {ended[0]}: {ended[2][:200]}")
print(f"{os.path.basename(usual)}, {how}: {number} refused, {short} ended with status 6, {as_usual} as usual")
sys.exit(others > 0)
PYTHON

others=0
# sweeps STATUS TEXT COMMAND: calls it with memory, where it must end with this status, and then with each allocation refused
sweeps() {
    local usual="$work/$2, $3" words=$3 from=$2.join how status=0
    case $3 in
    check | explain) from=$2.log ;;
    sorts | gen*) ;;
    *) words+=" --budget ${budgets[$2]:-10}" ;;
    esac
    # shellcheck disable=SC2086
    "$JOIN_PROGRAM" $words <"$work/$from" >"$usual" 2>"$usual.err" || status=$?
    echo "$2, $3: status $status, $(tail -qn 1 "$usual" "$usual.err")"
    [ "$status" = "$1" ] || others=$((others + 1))
    echo "$status" >"$usual.status"
    for how in one 'one and all later'; do
        # shellcheck disable=SC2086
        python3 "$work/sweep.py" "$work" "$usual" "${orders["$3 $2"]:-one}" "$how" "$work/$from" "$JOIN_PROGRAM" $words ||
            others=$((others + 1))
    done
}

for name in least move agent apart sorted; do
    for command in "${runs[@]}"; do
        sweeps 0 "$name" "$command"
        cmp -s <(sort "$work/$name, $command") <(sort "$work/$name.out") || others=$((others + 1))
    done
    sweeps 0 "$name" 'alone --log'
    cp "$work/$name, alone --log" "$work/$name.log"
    sweeps 0 "$name" check
    sweeps 0 "$name" explain
done
for name in least move agent apart; do sweeps 7 "$name" sorts; done
sweeps 0 sorted sorts
sweeps 0 least 'gen 2 --budget 20'
for command in "${runs[@]}" sorts check explain; do sweeps 1 faulty "$command"; done
sweeps 7 wrong check
sweeps 7 wrong explain
[ "$others" = 0 ]
