#!/usr/bin/env bash
# Measures the book of a run: prints what an event takes on a few texts, as a run grows and as more stands in it. Where
# valgrind is there, in machine instructions, which don't hang on what else the machine does: those of a run up to the
# later event less those of a run up to the earlier one, by the events between them. And in nanoseconds of processor
# time, from the same two runs; these are rough where the two are close.
# A row that takes longer than the seconds given (default 60) is printed as such, and the longer rows of its kind are
# left out.
# A measure and no test.
set -eu
limit=${1:-60}
. "$(dirname "$0")/program.sh"
. "$(dirname "$0")/cost.sh"

# events NAME FROM TO LONG: what an event takes between these two, of the text on standard input; the time up to the
# longer one. Fails where that took too long.
events() {
    local name=$1 from=$2 to=$3 long=$4 before after line=
    cat >"$work/text"
    if command -v valgrind >/dev/null; then
        if before=$(instructions "$from") && after=$(instructions "$to"); then
            line="$(each "$from" "$to" "$before" "$after") instructions, "
        else
            echo "$name: more than $limit seconds"
            return 1
        fi
    fi
    if before=$(nanoseconds "$from") && after=$(nanoseconds "$long"); then
        echo "$name: $line$(each "$from" "$long" "$before" "$after") ns an event"
    else
        echo "$name: ${line}more than $limit seconds for $long events"
        return 1
    fi
}

# grown NAME FROM TO: the processor time of an event of a run of so many events, and of one of so many more
grown() {
    local name=$1 from=$2 to=$3 before after
    cat >"$work/text"
    before=$(nanoseconds "$from")
    after=$(nanoseconds "$to")
    echo "$name: $(each 0 "$from" 0 "$before") ns an event up to $from events, $(each 0 "$to" 0 "$after") up to $to"
}

# most BUDGET: how many kilobytes a run held at most
most() {
    local run high=0 now
    "$JOIN_PROGRAM" alone --budget "$1" <"$work/text" >/dev/null &
    run=$!
    while kill -0 "$run" 2>/dev/null; do
        now=$(awk '/VmHWM/ { print $2 }' "/proc/$run/status" 2>/dev/null || true)
        [ "${now:-0}" -gt "$high" ] && high=$now
        sleep 0.01
    done
    wait "$run" || true
    echo "$high"
}

# held NAME: the bytes that a run of 1,000,000 events holds more than one of 100,000, for each event
held() {
    cat >"$work/text"
    echo "$1: $(each 100000 1000000 "$(($(most 100000) * 1024))" "$(($(most 1000000) * 1024))") bytes an event"
}

# whole NAME BUDGET: the processor time of a whole run, in milliseconds
whole() {
    local name=$1 taken
    cat >"$work/text"
    if taken=$(nanoseconds "$2"); then
        echo "$name: $((taken / 1000000)) ms"
    else
        echo "$name: more than $limit seconds"
        return 1
    fi
}

# channels COUNT: a site with so many channels, each with its rule
channels() {
    local i
    printf 'site s [ '
    for ((i = 1; i < $1; i++)); do printf 'n%d() => 0 and ' "$i"; done
    printf 'c(x) => c(x) : c(s) ]\n'
}

# waiting COUNT: an endless reaction beside so many messages that no rule takes
waiting() {
    printf 'site s [ c(x) => c(x) and idle() | never() => 0 : c(s)'
    for ((i = 0; i < $1; i++)); do printf ' | idle()'; done
    printf ' ]\n'
}

# queued COUNT: an endless reaction with so many messages in its queue
queued() {
    printf 'site s [ c(x) => c(x) : c(s)'
    for ((i = 1; i < $1; i++)); do printf ' | c(s)'; done
    printf ' ]\n'
}

events 'an endless reaction' 1000 3000 1000000 <<<'site s [ c(x) => c(x) : c(s) ]' || true
events 'an endless reaction after 100,000 events' 100000 102000 1000000 <<<'site s [ c(x) => c(x) : c(s) ]' || true
events 'a ping-pong of two sites' 1000 3000 1000000 <<'TEXT' || true
site a [ ping(x) => pong(x) : ping(a) ]
site b [ pong(x) => ping(x) : 0 ]
TEXT
events 'producers and consumers' 1000 3000 200000 <<'TEXT' || true
site s [
  make(p) | room() => make(p) | item(p) and
  take(c) | item(p) | lamp() => take(c) | room() | lamp()
  : make(s) | make(s) | take(s) | take(s) | lamp() | room() | room() | room() | room()
]
TEXT
events 'a tour of 64 sites' 1000 2000 100000 < <(tour 64) || true
for count in 200 2000 20000 60000; do
    events "an endless reaction, $count messages waiting" 20 40 1000 < <(waiting "$count") || break
done
for count in 200 2000 20000 60000; do
    events "an endless reaction, $count messages in its queue" 64 192 1000 < <(queued "$count") || break
done
# an agent is born, reacts, moves, reacts, halts, its death is seen, and that reacts: 7 events
for count in 100 500 1000 5000 10000; do
    events "agents, $count born so far" $((7 * count)) $((7 * count + 70)) $((7 * count + 700)) <<'TEXT' || break
site home [
  born() =>
    def agent [ starts() => go(away, there) and there() => halt() : starts() ]
    and seen() => born()
    in fail(agent, seen)
  : born()
]
site away [ none : 0 ]
TEXT
done
# each event makes a channel with its rule, or an agent with two rules that waits
for count in 1000 10000 30000 100000; do
    events "reactions that each make a channel and its rule, $count so far" "$count" $((count + 200)) $((count + 1000)) \
        <<<'site s [ c() => def d() => 0 in c() : c() ]' || break
done
for count in 1000 10000 100000; do
    events "agents that wait, $count so far" "$count" $((count + 200)) $((count + 1000)) <<'TEXT' || break
site home [ more() => def agent [ go_on(k) => halt() and rests() => 0 : 0 ] in more() : more() ]
TEXT
done
applets() {
    cat <<'TEXT'
site server [
  want(place, k) =>
    def memo [
      holds(x) | get(r) => holds(x) | r(x) and
      holds(x) | set(y, r) => holds(y) | r() and
      here() => k(get, set)
      : holds(blank) | go(place, here)
    ] in 0 and
  blank() => 0
  : 0
]
site client [
  again() => want(client, use) and
  use(get, set) => def written() => get(show) and show(x) => again() in set(again, written)
  : again()
]
TEXT
}
for count in 800 2000 8000; do
    events "an applet server, $count events so far" "$count" $((count + 80)) $((count + 800)) < <(applets) || break
done
whole 'an applet server, 8,000 events' 8000 < <(applets) || true
for count in 10000 20000 40000; do
    whole "the opening of $count channels" 0 < <(channels "$count") || break
done
for count in 15000 30000 60000; do
    whole "the opening of $count messages that wait" 0 < <(waiting "$count") || break
done
grown 'an endless reaction' 10000 1000000 <<<'site s [ c(x) => c(x) : c(s) ]' || true
held 'an endless reaction' <<<'site s [ c(x) => c(x) : c(s) ]' || true
