#!/usr/bin/env bash
# Measures runs over links, each with the four losses:
# - a ping-pong of two sites and a tour of 64 sites, beside rounds with one worker;
# - waves of 10, 100, 1,000 and 10,000 packets of one pair, all under way at once.
# Prints nanoseconds an event and bytes an event, in processor time and beyond what a run without events takes; with rounds
# beside it, how many times as long.
# A measure and no test.
set -eu
. "$(dirname "$0")/program.sh"

cat >"$work/an_event.py" <<'PYTHON'
import os
import resource
import subprocess
import sys

program, text, events, *words = sys.argv[1:]
events = int(events)


def run(budget):
    """The processor time of the quickest of three runs with this budget, and the memory that it holds."""
    best = None
    for _ in range(3):
        with open(text, "rb") as source:
            child = subprocess.Popen([program, *words, "--budget", str(budget)], stdin=source, stdout=subprocess.DEVNULL)
            _, status, used = os.wait4(child.pid, 0)
        if os.waitstatus_to_exitcode(status) not in (0, 5):
            sys.exit(f"a run ended with status {os.waitstatus_to_exitcode(status)}")
        took = (used.ru_utime + used.ru_stime, used.ru_maxrss * 1024)
        best = min(best, took) if best else took
    return best


nothing, all_of_it = run(0), run(events)
print((all_of_it[0] - nothing[0]) * 1e9 / events, (all_of_it[1] - nothing[1]) / events)
PYTHON

# an_event EVENTS WORD..: nanoseconds and bytes an event, of a run of the text in the file in that is stopped
an_event() {
    python3 "$work/an_event.py" "$JOIN_PROGRAM" "$work/in" "$@"
}

# beside NAME EVENTS: the text in the file in, in rounds and over links
beside() {
    local rounds over loss
    rounds=$(an_event "$2" rounds --workers 1)
    printf '%s, rounds: %.0f ns, %.0f bytes an event\n' "$1" $rounds
    for loss in 0 1 2 3; do
        over=$(an_event "$2" lossy --loss "$loss")
        printf '%s, loss %s: %.0f ns, %.0f bytes an event' "$1" "$loss" $over
        awk -v a="${over% *}" -v b="${rounds% *}" 'BEGIN { printf ", %.1f times as long\n", a / b }'
    done
}

# waves COUNT: one event sends so many packets of one pair at once, each of which then has an event of its own
waves() {
    local i
    printf 'site b [ p() => 0 : 0 ] site a [ wave() => wave()'
    for ((i = 0; i < $1; i++)); do printf ' | p()'; done
    printf ' : wave() ]\n'
}

echo "load: $(cut -d' ' -f1-3 /proc/loadavg)"
cat >"$work/in" <<'TEXT'
site a [ ping(x) => pong(x) : ping(a) ]
site b [ pong(x) => ping(x) : 0 ]
TEXT
beside 'a ping-pong of two sites' 400000
tour 64 >"$work/in"
beside 'a tour of 64 sites' 400000
for count in 10 100 1000 10000; do
    waves "$count" >"$work/in"
    for loss in 0 1 2 3; do
        printf '%s packets of one pair at once, loss %s: %.0f ns, %.0f bytes an event\n' "$count" "$loss" \
            $(an_event 100000 lossy --loss "$loss")
    done
done
