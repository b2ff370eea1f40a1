#!/usr/bin/env bash
# Measures runs. Prints how many events a second pass on each of a few texts, on one thread, and in rounds and on free
# threads with 1, 2 and 4 workers, beside each other, and these as ratios. Then, of runs on one thread and in processor time: how that falls with the messages that
# wait, with locations and with rules, and how long runs take that make names.
# A measure and no test.
set -eu
. "$(dirname "$0")/program.sh"

# seconds BUDGET: runs the text on standard input, and prints the seconds of processor time that it takes
seconds() {
    local status=0 taken TIMEFORMAT='%U %S'
    taken=$( { time "$JOIN_PROGRAM" alone --budget "$1" >/dev/null; } 2>&1) || status=$?
    if [ "$status" != 5 ]; then
        echo "a run ended with status $status" >&2
        exit 1
    fi
    awk -v taken="$taken" 'BEGIN { split(taken, part, " "); print part[1] + part[2] }'
}

# events NAME BUDGET: the same in events a second
events() {
    seconds "$2" | awk -v name="$1" -v budget="$2" '{ printf "%s: %d events a second\n", name, budget / ($1 + 0.0005) }'
}

# passed BUDGET WORDS..: runs the text on standard input with these words, and prints the seconds that pass
passed() {
    local status=0 budget=$1 taken TIMEFORMAT='%R'
    shift
    taken=$( { time "$JOIN_PROGRAM" "$@" --budget "$budget" >/dev/null; } 2>&1) || status=$?
    if [ "$status" != 5 ]; then
        echo "a run ended with status $status" >&2
        exit 1
    fi
    echo "$taken"
}

# beside NAME BUDGET: events a second that passes, on one thread, and in rounds and on free threads with 1, 2 and 4 workers
beside() {
    local text times command workers
    text=$(cat)
    times=$(passed "$2" alone <<<"$text")
    for command in rounds run; do
        for workers in 1 2 4; do
            times+=" $(passed "$2" "$command" --workers "$workers" <<<"$text")"
        done
    done
    awk -v name="$1" -v budget="$2" -v times="$times" 'BEGIN {
        split(times, t, " ")
        for (i in t) t[i] = budget / (t[i] + 0.0005)
        printf "%s, events a second: alone %d; in rounds with 1 worker %d, 2 workers %d, 4 workers %d; on free threads with 1 worker %d, 2 workers %d, 4 workers %d\n", \
            name, t[1], t[2], t[3], t[4], t[5], t[6], t[7]
        printf "  so many times as much: one free worker as alone %.2f; two as one %.2f, four as one %.2f; in rounds four as one %.2f\n", \
            t[5] / t[1], t[6] / t[5], t[7] / t[5], t[4] / t[2]
    }'
}

# endless COUNT: so many sites, each with an endless reaction
endless() {
    for ((i = 0; i < $1; i++)); do printf 'site s%d [ c%d(x) => c%d(x) : c%d(s%d) ]\n' "$i" "$i" "$i" "$i" "$i"; done
}

# waiting COUNT: an endless reaction beside so many messages that no rule takes
waiting() {
    printf 'site s [ c(x) => c(x) and idle() | never() => 0 : c(s)'
    for ((i = 0; i < $1; i++)); do printf ' | idle()'; done
    printf ' ]\n'
}

# locations COUNT: an endless reaction in the last one of so many locations
locations() {
    printf 'site s [ '
    for ((i = 1; i < $1; i++)); do printf 'l%d [ none : 0 ] and ' "$i"; done
    printf 'm [ c(x) => c(x) : c(m) ] : 0 ]\n'
}

# rules COUNT: an endless reaction by the last one of so many rules, each with a channel of its own
rules() {
    printf 'site s [ '
    for ((i = 1; i < $1; i++)); do printf 'n%d() => 0 and ' "$i"; done
    printf 'c(x) => c(x) : c(s) ]\n'
}

beside 'an endless reaction' 1000000 <<<'site s [ c(x) => c(x) : c(s) ]'
beside 'a ping-pong of two sites' 1000000 <<'TEXT'
site a [ ping(x) => pong(x) : ping(a) ]
site b [ pong(x) => ping(x) : 0 ]
TEXT
beside 'an agent that tours' 1000000 <<'TEXT'
site a [ none : 0 ]
site b [ none : 0 ]
site c [ agent [ to_a() => go(a, to_b) and to_b() => go(b, to_a) : go(a, to_b) ] : 0 ]
TEXT
beside '64 sites that each react 10,000 times' 640000 < <(endless 64)
for count in 100 1000 10000; do
    events "an endless reaction, $count messages waiting" 20000 < <(waiting "$count")
done
for count in 100 1000 10000; do
    events "an endless reaction in the last of $count locations" 20000 < <(locations "$count")
done
for count in 100 1000 10000; do
    events "an endless reaction by the last of $count rules" 20000 < <(rules "$count")
done
for count in 1000 10000 30000; do
    echo "$count reactions that each make a name and its rule: $(seconds "$count" <<<'site s [ c() => def d() => 0 in c() : c() ]') seconds"
done
printed='observe out/1; site s [ c() => def d() => 0 in out(d) | c() : c() ]'
for count in 1000 10000 30000; do
    echo "$count reactions that each make a name and print it: $(seconds "$count" <<<"$printed") seconds"
done

# of an event of an endless reaction by one free worker: all instructions, and those under the book's lock, where the
# event is committed
if command -v valgrind >/dev/null; then
    counted=$(mktemp)
    valgrind --tool=callgrind --callgrind-out-file="$counted" "$JOIN_PROGRAM" run --workers 1 --budget 20000 \
        <<<'site s [ c(x) => c(x) : c(s) ]' >/dev/null 2>&1 || true
    callgrind_annotate --inclusive=yes --threshold=100 "$counted" | tr -d ',' | awk '
        /PROGRAM TOTALS/ { all = $1 }
        /locked::Locked::propose/ { held += $1 }
        END { printf "an event by a free worker: %d instructions, %d of them under the lock of the book\n", all / 20000, held / 20000 }'
    rm -f "$counted"
fi

"$root/bench/book.sh"
