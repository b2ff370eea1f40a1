#!/usr/bin/env bash
# Runs hostile texts by each command: a million messages, and as many as a text has room for; 64 sites that all halt at
# once; a location that moves forever between two sites while others send to it; a detector for each of 10,000 locations,
# and 10,000 of one; blocks of many places, levels of many rules, and agents alive at once; names of which an ordered map
# has to compare many letters.
# Each run must end quiet (status 0) or stopped at its budget (status 5), as its row says, within the seconds given
# (default 60). It prints how long each took and how much memory it held at most. Where one ended otherwise, or not in
# time, the status is 1.
set -eu
limit=${1:-60}
. "$(dirname "$0")/program.sh"

every_command=('alone' 'rounds --workers 4' 'run --workers 4')
commands=("${every_command[@]}")

others=0
# runs NAME STATUS BUDGET: the text on standard input, by each command with this budget, must end with this status
runs() {
    local command status seconds size last
    cat >"$work/text"
    for command in "${commands[@]}"; do
        status=0
        # shellcheck disable=SC2086
        /usr/bin/time -q -o "$work/time" -f '%e %M' timeout "$limit" \
            "$JOIN_PROGRAM" $command --budget "$3" <"$work/text" >"$work/out" 2>"$work/err" || status=$?
        read -r seconds size < <(tail -n 1 "$work/time")
        last=$(tail -n 1 "$work/out")
        if [ "$status" = "$2" ]; then
            echo "$1, $command: $last in $seconds seconds, $((size / 1024)) MB"
        else
            others=$((others + 1))
            [ "$status" != 124 ] || status="none, cut off after $limit seconds"
            echo "$1, $command: status $status: $(head -c 200 "$work/err")"
        fi
    done
}

# times COUNT TEXT: the text so many times
times() {
    awk -v count="$1" -v text="$2" 'BEGIN { for (i = 0; i < count; i++) printf "%s", text }'
}

# numbered COUNT TEXT [JOINT]: the text so many times with each # as the number, joined by the joint
numbered() {
    awk -v count="$1" -v text="$2" -v joint="${3:-}" 'BEGIN {
        for (i = 0; i < count; i++) {
            one = text
            gsub("#", i, one)
            printf "%s%s", (i ? joint : ""), one
        }
    }'
}

# bursts COUNT RULES: so many reactions that each make a thousand messages on y, under these further rules
bursts() {
    printf 'site s [ x() => %s0 and %s : %s0 ]\n' "$(times 1000 'y()|')" "$2" "$(times "$1" 'x()|')"
}

# sent COUNT: so many messages of a site's process that are sent to another site
sent() {
    printf 'site s [ none : %s0 ] site t [ y() | never() => 0 : 0 ]\n' "$(times "$1" 'y()|')"
}

runs 'a million messages that wait' 0 10000 < <(bursts 1000 'y() | never() => 0')
runs 'a million messages that each react, a thousand at once' 5 1000000 < <(
    printf 'site s [ y() => 0 and x() | go_on() => go_on() | %s0 : go_on() | %s0 ]\n' "$(times 1000 'y()|')" "$(times 1000 'x()|')"
)
runs 'a million messages that each go to the next of 64 sites' 5 1000000 < <(
    for ((i = 0; i < 64; i++)); do printf 'site s%d [ x%d() => x%d() : x%d() ]\n' "$i" "$i" $(((i + 1) % 64)) "$i"; done
)
runs '250,000 messages of a text that wait' 0 10000 < <(
    printf 'site s [ y() | never() => 0 : %s0 ]\n' "$(times 250000 'y()|')"
)
runs 'a million messages that wait in one queue before they react' 5 1000000 < <(bursts 1000 'y() => 0')
runs '250,000 messages of a text that are sent to another site' 0 10000 < <(sent 250000)
# With fewer events left than there are sites, each message is delivered on its own.
runs 'the same, one after another' 0 1 < <(sent 250000)
runs '64 sites that all halt at once' 0 100000 < <(numbered 64 'site s# [ x#() => 0 : halt() | x#() ]
')
runs '64 sites that all halt at once, each watched by all' 0 100000 < <(
    all=$(numbered 64 'fail(s#, d@)|')
    for ((i = 0; i < 64; i++)); do printf 'site s%d [ d%d() => 0 and m%d[ none : %s0 ] : halt() ]\n' "$i" "$i" "$i" "${all//@/$i}"; done
)
# In rounds it moves once a round, so that what is sent to it is always a round late. Each round passes all of that on, and
# so the time grows with the square of the events.
runs 'a location that moves forever while others send to it' 5 100000 <<'TEXT'
site a [ m[ at_a() => go(b, at_b) and at_b() => go(a, at_a) and hit(who) => 0 : at_a() ] : 0 ]
site b [ none : 0 ]
site c [ c1() => c2() and c2() => c3() and c3() => c4() and c4() => c5() and c5() => hit(c) | c1() : c1() ]
site d [ d1() => d2() and d2() => d3() and d3() => d4() and d4() => d5() and d5() => hit(d) | d1() : d1() ]
TEXT
runs 'the same, and what is sent to it waits and moves along' 5 20000 <<'TEXT'
site a [ m[ at_a() => go(b, at_b) and at_b() => go(a, at_a) and hit(who) | never() => 0 : at_a() ] : 0 ]
site b [ none : 0 ]
site c [ c1() => c2() and c2() => c3() and c3() => c4() and c4() => c5() and c5() => hit(c) | c1() : c1() ]
site d [ d1() => d2() and d2() => d3() and d3() => d4() and d4() => d5() and d5() => hit(d) | d1() : d1() ]
TEXT
runs 'a detector for each of 10,000 locations that halt' 0 100000 < <(
    printf 'site a [ %s : 0 ]\n' "$(numbered 10000 'm#[none:halt()]' ' and ')"
    printf 'site b [ d() => 0 : %s ]\n' "$(numbered 10000 'fail(m#,d)' '|')"
)
runs 'a detector for each of 10,000 locations whose site halts' 0 100000 < <(
    printf 'site a [ %s : halt() ]\n' "$(numbered 10000 'm#[none:0]' ' and ')"
    printf 'site b [ d() => 0 : %s ]\n' "$(numbered 10000 'fail(m#,d)' '|')"
)
runs '10,000 detectors of one location that lives, asked in each round' 5 20000 < <(
    printf 'site a [ m[none:0] and d() => 0 and x() => x() : %sx() ]\n' "$(times 10000 'fail(m,d)|')"
)
# groups of one block: each rule of a place sees all names of the block
runs 'a block of 300 places beside an endless reaction' 5 20000 < <(
    printf 'site s [ x() => x() : def %s in x() ]\n' "$(numbered 300 'm#[ a#() | b#() => 0 : a#() ]' ' and ')"
)
runs 'a block of 5,000 places' 0 10000 < <(
    printf 'site s [ none : def %s in 0 ]\n' "$(numbered 5000 'm#[ a#() | b#() => 0 : 0 ]' ' and ')"
)
runs '1,000 messages of a channel with 20,000 rules' 0 10000 < <(
    printf 'site s [ %s : %s0 ]\n' "$(numbered 20000 'x() | y#() => 0' ' and ')" "$(times 1000 'x()|')"
)
runs 'an endless reaction by the last of 10,000 rules' 5 10000 < <(
    printf 'site s [ %s and x() => x() : x() ]\n' "$(numbered 9999 'y#() => 0' ' and ')"
)
# rules of many parts, beside messages that none of them takes
runs '1,000 rules of 16 parts beside 40,000 messages' 0 10000 < <(
    printf 'site s [ %s and v() | w() => 0 : %s0 ]\n' \
        "$(numbered 1000 "$(numbered 16 'x#()' '|') => 0" ' and ')" "$(times 40000 'v()|')"
)
runs '1,000 agents that are alive at once' 0 100000 < <(
    printf 'site a [ gone() => 0 and x() => def m[ there() => halt() : go(b, there) ] in fail(m, gone) : %s0 ]\n' \
        "$(times 1000 'x()|')"
    printf 'site b [ none : 0 ]\n'
)
runs '40,000 names that begin alike' 0 10000 < <(
    numbered 40000 'observe seven_#/0; '
    printf 'site s [ none : 0 ]\n'
)
runs '4,000 names of 250 letters that begin alike' 0 10000 < <(
    numbered 4000 "observe $(times 245 'a')#/0; "
    printf 'site s [ none : 0 ]\n'
)
[ "$others" = 0 ]
