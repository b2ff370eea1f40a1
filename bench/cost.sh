# Read by the measures beside it, after program.sh: what a run of a text takes. A run that takes longer than the seconds
# named limit fails.

# ran STATUS: whether a run ended as one that its budget ends, with status 5, or as one that took too long, with 124
ran() {
    case $1 in
    5) ;;
    124) return 1 ;;
    *)
        echo "a run ended with status $1" >&2
        exit 1
        ;;
    esac
}

# instructions BUDGET: how many machine instructions the text in the file takes
instructions() {
    local status=0
    timeout "$limit" valgrind --tool=callgrind --callgrind-out-file=/dev/null "$JOIN_PROGRAM" alone --budget "$1" \
        <"$work/text" >/dev/null 2>"$work/said" || status=$?
    ran "$status" || return 1
    awk '/Collected/ { print $NF }' "$work/said"
}

# nanoseconds BUDGET: of processor time
nanoseconds() {
    local status=0 TIMEFORMAT='%U %S'
    {
        time timeout "$limit" "$JOIN_PROGRAM" alone --budget "$1" <"$work/text" >/dev/null
    } 2>"$work/said" || status=$?
    ran "$status" || return 1
    awk 'END { printf "%d\n", ($1 + $2) * 1e9 }' "$work/said"
}

# each FROM TO BEFORE AFTER: by the events between
each() {
    awk -v from="$1" -v to="$2" -v before="$3" -v after="$4" \
        'BEGIN { printf "%d", (after - before) / (to - from) }'
}
