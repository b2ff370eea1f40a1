#!/usr/bin/env bash
# Measures how an event grows with what a run holds or has made. Eighteen texts each have a part of which there are so
# many, by default 300, 3,000 and 30,000. For each it prints what an event takes under `alone`, and how many times as
# much it takes with the last number as with the first; so 1 is flat, and a walk over all that is there is their ratio.
# Where valgrind is there, in machine instructions, which don't hang on what else the machine does, else in nanoseconds
# of processor time: those of a run up to the later event less those of a run up to the earlier one, by the events
# between. A dash stands where a run took more than SECONDS (default 60).
# usage: growth.sh [SECONDS [NUMBER..]]
# A measure and no test.
set -eu
limit=${1:-60}
shift || true
[ $# != 0 ] || set -- 300 3000 30000
. "$(dirname "$0")/program.sh"
. "$(dirname "$0")/cost.sh"

# how a run is measured
unit=instructions
command -v valgrind >/dev/null || unit=nanoseconds

# list COUNT PIECE BETWEEN: the piece so many times, with `#` for its number from 0 on
list() {
    awk -v count="$1" -v piece="$2" -v between="$3" 'BEGIN {
        for (i = 0; i < count; i++) {
            one = piece
            gsub(/#/, i, one)
            printf "%s%s", (i ? between : ""), one
        }
    }'
}

# at_most COUNT MOST
at_most() {
    echo $(($1 < $2 ? $1 : $2))
}

# grows WHAT TEXT EARLIER MORE: the row of the text that the function TEXT prints for a number. EARLIER and MORE are
# sums of n, the number: the event from which on it is measured, and how many events are.
grows() {
    local what=$1 text=$2 n from to before after cost first= row=
    for n in "${numbers[@]}"; do
        "$text" "$n" >"$work/text"
        from=$(($3)) to=$(($3 + $4)) cost=-
        if before=$("$unit" "$from") && after=$("$unit" "$to"); then
            cost=$(each "$from" "$to" "$before" "$after")
        fi
        first=${first:-$cost}
        row+=" $cost |"
    done
    awk -v what="$what" -v row="$row" -v first="$first" -v last="$cost" 'BEGIN {
        growth = first > 0 && last != "-" ? sprintf("%.1f", last / first) : "-"
        printf "| %s |%s %s |\n", what, row, growth
    }'
}

numbers=("$@")

# so many events so far
endless() {
    echo 'site s [ tick() => tick() : tick() ]'
}

# so many messages that wait on another channel
waiting() {
    echo "site s [ tick() => tick() and idle() | never() => 0 : tick() | $(list "$1" 'idle()' ' | ') ]"
}

# so many that wait on twenty channels, for each of which a rule waits for another message too
spread() {
    echo "site s [ left() | right() => left() | right() and $(list 20 'idle#() | never() => 0' ' and ')
        : left() | right() | $(list 20 "$(list $(($1 / 20)) 'idle%()' ' | ' | tr % '#')" ' | ') ]"
}

# so many in the queue of the rule that reacts
queue() {
    echo "site s [ tick() => tick() : $(list "$1" 'tick()' ' | ') ]"
}

# so many rules at one level, each with a channel of its own
rules() {
    echo "site s [ tick() => tick() and $(list "$1" 'other#() => 0' ' and ') : tick() ]"
}

# so many rules that wait for a message on one channel, which is there, and for another one each
sharing() {
    echo "site s [ tick() => tick() and $(list "$1" 'shared() | other#() => 0' ' and ') : tick() | shared() ]"
}

# so many rules with a message each that were made by the run, one by each event
made() {
    echo 'site s [ tick() => (def one() | other() => 0 in one() | tick()) : tick() ]'
}

# so many locations without rules
places() {
    echo "site s [ tick() => tick() and $(list "$1" 'p#[ none : 0 ]' ' and ') : tick() ]"
}

# so many locations each with a rule and one of the two messages for it; a text of 1 MB has room for 20,000
half_filled() {
    echo "site s [ tick() => tick() and $(list "$(at_most "$1" 20000)" 'p#[ a#() | b#() => 0 : a#() ]' ' and ')
        : tick() ]"
}

# so many requests that wait for the failure of one location
watchers() {
    echo "site s [ tick() => tick() and seen() => 0 and p[ none : 0 ]
        : tick() | $(list "$1" 'fail(p, seen)' ' | ') ]"
}

# so many requests to move to what is no site
stuck() {
    echo "site s [ tick() => tick() and there() => 0 and p[ none : 0 ]
        : tick() | $(list "$1" 'go(p, there)' ' | ') ]"
}

# so many agents alive at once: each is made, moves, reacts, halts, is seen to be dead, and this is shown
at_once() {
    echo "observe dead/1;
    site home [
      born() => def agent[ there() => halt() : go(away, there) ] and seen() => dead(agent) in fail(agent, seen)
      : $(list "$1" 'born()' ' | ')
    ]
    site away [ none : 0 ]"
}

# so many such agents one after another
in_turn() {
    echo 'observe dead/1;
    site home [
      born() => def agent[ there() => halt() : go(away, there) ] and seen() => dead(agent) | born() in fail(agent, seen)
      : born()
    ]
    site away [ none : 0 ]'
}

# so many locations that went from a server to a client, each made, moved and answered
applets() {
    echo 'site server [ want(place, k) => def applet[ there() => k() : go(place, there) ] in 0 : 0 ]
    site client [ again() => want(client, got) and got() => again() : again() ]'
}

# so many messages in a location that goes to and fro
luggage() {
    echo "site one [ none : 0 ]
    site other [
      agent[ idle() | never() => 0 and to() => go(one, fro) and fro() => go(other, to)
        : to() | $(list "$1" 'idle()' ' | ') ]
      : 0
    ]"
}

# a message that goes round among sites, of which there is one for 50 of the number, 2 to 64
ring() {
    local count i
    count=$(at_most $(($1 / 50 > 2 ? $1 / 50 : 2)) 64)
    for ((i = 0; i < count; i++)); do
        echo "site s$i [ c$i() => c$(((i + 1) % count))() : $([ "$i" = 0 ] && echo 'c0()' || echo 0) ]"
    done
}

# so many messages that go to and fro between two sites
between() {
    echo "site one [ ping(u) => pong(u) : $(list "$1" 'ping(one)' ' | ') ] site other [ pong(u) => ping(u) : 0 ]"
}

# so many lines of the trace, each with a new name
lines() {
    echo 'observe out/1; site s [ tick() => (def c() => 0 in out(c)) | tick() : tick() ]'
}

printf '| %s in' "$unit"
printf ' | %s' "${numbers[@]}" growth
printf ' |\n|---'
printf '|---' "${numbers[@]}" growth
printf '|\n'
grows 'events so far' endless 'n' 2000
grows 'messages on another channel' waiting 0 2000
grows 'messages on twenty channels, each with a rule that waits for one more' spread 0 2000
grows 'messages in the queue that reacts' queue 0 2000
grows 'rules at one level' rules 0 2000
grows 'rules that wait on one channel' sharing 0 2000
grows 'rules with a message each, made by the run' made 'n' 2000
grows 'locations without rules' places 0 2000
grows 'locations with a rule and a message each' half_filled 0 2000
grows 'requests that wait for a failure' watchers 0 2000
grows 'requests that are never met' stuck 0 2000
grows 'agents at once' at_once 'n' '5 * n - 1'
grows 'agents one after another' in_turn '5 * n' 2000
grows 'applets' applets '4 * n' 2000
grows 'messages in a location that moves' luggage 0 2000
grows 'sites, one for 50 and at most 64' ring 100 2000
grows 'messages between two sites' between 0 2000
grows 'lines of the trace' lines 'n' 2000
