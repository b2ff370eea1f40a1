#!/usr/bin/env bash
# Measures the commands on logs, each beside the run by `alone` that made the log:
# - `check` of endless reactions of 250,000, 1,000,000 and 4,000,000 events;
# - `check` of a log of exactly the largest size, 134,217,728 bytes, which is a run's, and of one with a byte more, which is
#   refused;
# - `explain` of 10,000 messages that are left with a rule for each, and of 12,500 to 100,000 without that run, of as many
#   requests that are left with a location for each, of 100,000 messages that are left on one channel, and of 5,000 to
#   20,000 messages and rules that stand in the text.
# Prints seconds of processor time, the most memory held, and the last line that was printed.
# A measure and no test.
set -eu
. "$(dirname "$0")/program.sh"

# took NAME WORD..: runs the program on the file in, and prints what it took; what it prints goes into the file out
took() {
    python3 - "$JOIN_PROGRAM" "$work" "$@" <<'PYTHON'
import resource
import subprocess
import sys

program, folder, name, *words = sys.argv[1:]
with open(f"{folder}/in", "rb") as source, open(f"{folder}/out", "wb") as out:
    subprocess.run([program, *words], stdin=source, stdout=out)
used = resource.getrusage(resource.RUSAGE_CHILDREN)
print(f"{name}: {used.ru_utime + used.ru_stime:.2f} s, {used.ru_maxrss / 1024:.0f} MB")
PYTHON
}

# judged NAME WORD BUDGET: runs the text in the file in, and then WORD on its log
judged() {
    took "alone, $1" alone --budget "$3"
    took "alone with its log" alone --budget "$3" --log
    mv "$work/out" "$work/in"
    took "$2 of the log, $(stat -c %s "$work/in") bytes" "$2"
    tail -n 1 "$work/out"
}

# large BYTES: puts a text with a comment of so many bytes into the file in, the log of whose run is almost as large as may be
large() {
    {
        printf 'site s [ x() | y() | z() => x() | y() | z() : x() | y() | z() ] #'
        head -c "$1" /dev/zero | tr '\0' '.'
    } >"$work/in"
}

# grown TEXT COUNT: puts the log of so many reactions, each of which draws five numbers and leaves a rule, into the file in. It
# is made without a run, since alone takes the square of them
grown() {
    {
        printf 'joinlog 1\nsource %s\n%s\nbudget %s\nevents %s\n' "${#1}" "$1" "$2" "$2"
        seq -f 'react 0.2 0.%.0f' 3 5 $((5 * $2 - 2))
        printf 'trace 8\nstopped\n'
    } >"$work/in"
}

echo "load: $(cut -d' ' -f1-3 /proc/loadavg)"
for events in 250000 1000000 4000000; do
    printf 'site s [ x() => x() : x() ]' >"$work/in"
    judged "$events events" check "$events"
done

large 100000
"$JOIN_PROGRAM" alone --budget 3370000 --log <"$work/in" >"$work/log" || true
comment=$((100000 + 134217728 - $(stat -c %s "$work/log")))
rm "$work/log"
large "$comment"
judged 'reactions of three messages' check 3370000
large $((comment + 1))
"$JOIN_PROGRAM" alone --budget 3370000 --log <"$work/in" >"$work/log" || true
mv "$work/log" "$work/in"
took "check of $(stat -c %s "$work/in") bytes" check

messages='site s [ x() => def r() | y() => 0 in r() | x() : x() ]'
requests='site s [ x() => def m[ k() => 0 : fail(s, k) ] in x() : x() ]'
printf '%s' "$messages" >"$work/in"
judged '10000 messages, a rule each' explain 10000
for left in 12500 25000 50000 100000; do
    grown "$messages" "$left"
    took "explain of $left messages, a rule each" explain
    tail -n 1 "$work/out"
    grown "$requests" "$left"
    took "explain of $left requests, a location each" explain
    tail -n 1 "$work/out"
done
printf 'site s [ y(u) | z() => 0 and x() => y(s) | x() : x() ]' >"$work/in"
judged '100000 messages on one channel' explain 100000
for left in 5000 10000 20000; do
    {
        printf 'site s [ '
        seq -f 'x%.0f() | y() => 0 and' "$left"
        printf 'z() => 0 : '
        seq -f 'x%.0f() |' "$left"
        printf '0 ]'
    } >"$work/in"
    judged "$left messages and rules of the text" explain 100000
done
