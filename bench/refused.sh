#!/usr/bin/env bash
# Refuses memory to a move. Of the test that moves a location from one site to another it refuses first the first
# allocation, then the second, and so on until a run asks for no more; and once more so that all later allocations are
# refused too. After a refusal the location has moved with all that stands there, or the sites and the tree are as they
# were; a refusal outside the move, where the sites are made or looked at, shows nothing of it. It prints how many runs
# ended which way, and each that ended otherwise, which is a fault: then the status is 1.
set -eu
. "$(dirname "$0")/scratch.sh"
. "$(dirname "$0")/refusing.sh"

# proves and builds the tests, or takes what rt has kept of them
copied site_tests
rt ci >log 2>&1 || {
    cat log
    exit 1
}
cd crates/site_tests

others=0
# the runs of the test, each with one allocation refused, or with that and all later ones
sweep() {
    local how=$1 number=0 whole=0 before=0 beside=0 status last
    while :; do
        last=$((number + 1))
        [ "$how" = one ] || last=1000000000
        status=0
        refusing $((number + 1)) "$last" out/site_tests_tests refused::a_move_is_whole_or_not_made >"$work/out" 2>"$work/err" ||
            status=$?
        [ "$(cat "$work/refused")" != 0 ] || break
        number=$((number + 1))
        case "$status $(head -n 1 "$work/out")" in
            '0 moved') whole=$((whole + 1)) ;;
            '0 as before') before=$((before + 1)) ;;
            '0 beside the move') beside=$((beside + 1)) ;;
            *)
                others=$((others + 1))
                echo "$how: with allocation $number refused it ended with status $status: $(head -c 200 "$work/err")"
                ;;
        esac
    done
    echo "$how: $number refused, $whole moved whole, $before left all as before, $beside beside the move"
}

sweep one
sweep 'one and all later'
[ "$others" = 0 ]
