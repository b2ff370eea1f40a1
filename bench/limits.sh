#!/usr/bin/env bash
# Runs what is as large as it may be by each command: texts of version 2 with 256 sites, with 400 levels, with 4,000,000
# events, of 1,048,576 bytes, and all of it at once; and a log of 134,217,728 bytes. Then what is larger by one: each
# command must refuse that, with its kind and its place.
# Prints for each text and command what was printed last, seconds of processor time, and how much memory was held at
# most. Where one ended otherwise than is written here, the status is 1.
# usage: limits.sh [PART..]   of sites, levels, events, messages, places, all, log, more; all of them by default
set -eu
[ $# != 0 ] || set -- sites levels events messages places all log more
. "$(dirname "$0")/program.sh"

runs=('alone' 'rounds --workers 1' 'rounds --workers 4' 'run --workers 1' 'run --workers 4' 'lossy --loss 3')
bytes=1048576
log_bytes=134217728

others=0
# takes NAME STATUS PRINTED WORD..: the program with these words on the file in must end with this status and print this,
# of a log and under explain as the last line; at other statuses than 0 and 5 as a line on standard error, and nothing else
takes() {
    local name=$1 wanted=$2 printed=$3 status=0 to=out beside=err lines=+1 user kernel size said
    shift 3
    /usr/bin/time -q -o "$work/time" -f '%U %S %M' \
        "$JOIN_PROGRAM" "$@" <"$work/in" >"$work/out" 2>"$work/err" || status=$?
    read -r user kernel size < <(tail -n 1 "$work/time")
    case $wanted in 0 | 5) ;; *) to=err beside=out ;; esac
    case $* in explain | *--log) lines=1 ;; esac
    said=$(tail -n "$lines" "$work/$to" | head -c 200)
    if [ "$status $said" = "$wanted $printed" ] && [ ! -s "$work/$beside" ]; then
        awk -v what="$name, $*: ${said##*$'\n'}" -v user="$user" -v kernel="$kernel" -v size="$size" \
            'BEGIN { printf "%s, %.2f s, %d MB\n", what, user + kernel, size / 1024 }'
    else
        others=$((others + 1))
        echo "$name, $*: status $status, and not $wanted: $said"
    fi
}

# by_each NAME BUDGET STATUS PRINTED LEFT: each command on the text in the file in, and then on its log, at whose end so
# many messages and requests are left
by_each() {
    local command
    for command in "${runs[@]}"; do
        # shellcheck disable=SC2086
        takes "$1" "$3" "$4" $command --budget "$2"
    done
    takes "$1" 0 yes sorts
    takes "$1" "$3" "${4##*$'\n'}" alone --budget "$2" --log
    mv "$work/out" "$work/in"
    judged "its log of $(stat -c %s "$work/in") bytes" "$5"
}

# judged NAME LEFT: the log in the file in, which is that of a run
judged() {
    takes "$1" 0 yes check
    takes "$1" 0 "left $2" explain
}

# refused NAME LINE STATUS LOG-LINE: each command refuses the text in the file in, and a log of it
refused() {
    local command
    for command in "${runs[@]}" sorts; do
        # shellcheck disable=SC2086
        takes "$1" 1 "$2" $command
    done
    log_of 0
    takes "its log" "$3" "$4" check
    takes "its log" "$3" "$4" explain
}

# log_of BUDGET: puts the log of a run without events of the text in the file in into the file in
log_of() {
    {
        printf 'joinlog %d\nsource %d\n' $(($1 > 1000000 ? 2 : 1)) "$(stat -c %s "$work/in")"
        cat "$work/in"
        printf '\nbudget %d\nevents 0\ntrace 8\nstopped\n' "$1"
    } >"$work/log"
    mv "$work/log" "$work/in"
}

# place TEXT: where it stands last in the file in, in bytes from 0
place() {
    grep -aboF "$1" "$work/in" | tail -n 1 | cut -d: -f1
}

# numbered COUNT TEXT [WRAP]: the text so many times, with @ as the number, from 0 on, and ~ as the next one, which is 0 in
# place of WRAP
numbered() {
    awk -v count="$1" -v text="$2" -v wrap="${3:--1}" 'BEGIN {
        for (i = 0; i < count; i++) {
            one = text
            gsub(/@/, i, one)
            gsub(/~/, i + 1 == wrap ? 0 : i + 1, one)
            printf "%s", one
        }
    }'
}

# times COUNT TEXT: the text so many times
times() {
    awk -v count="$1" -v text="$2" 'BEGIN { for (i = 0; i < count; i++) printf "%s", text }'
}

# filled BYTES: the text on standard input with a comment behind it that makes it as long
filled() {
    cat >"$work/short"
    cat "$work/short"
    printf '#'
    head -c $(($1 - 1 - $(stat -c %s "$work/short"))) /dev/zero | tr '\0' '.'
}

# sites COUNT: a number goes from site to site, and each adds one
sites() {
    printf 'version 2;\n#: sort count(num)\n%s\n' "$(numbered "$1" '#: use c@ count\n')"
    printf 'observe c%d/1;\nsite s [ none : c0(0) ]\n' $(($1 - 1))
    numbered $(($1 - 1)) 'site s@ [ c@(n) => add(n, 1, c~) : 0 ]\n'
}

# levels COUNT: definitions in each other; each passes on to the one around it what the innermost is sent
levels() {
    printf 'version 2;\n#: sort shown(place)\n%s\n' "$(numbered "$1" '#: use d@ shown\n')"
    printf 'observe d0/1;\nsite s [ none : %s d%d(s) ]\n' "$(numbered $(($1 - 1)) 'def d~(u) => d@(u) in\n')" $(($1 - 1))
}

signals=$'version 2;\n#: sort signal()\n#: use x signal\n#: use y signal\n#: use z signal\n'

# three COMMENT: an endless reaction of three messages, and a comment of so many bytes
three() {
    local text="${signals}site s [ x() | y() | z() => x() | y() | z() : x() | y() | z() ]"
    printf '%s' "$text" | filled $((${#text} + 1 + $1)) >"$work/in"
}

part() {
    case $1 in
    sites)
        sites 256 >"$work/in"
        by_each '256 sites' 100000 0 $'c255(255)\nquiescent' 0
        ;;
    levels)
        levels 400 >"$work/in"
        by_each '400 levels' 100000 0 $'d0(s)\nquiescent' 0
        ;;
    events)
        printf '%ssite s [ x() => x() : x() ]\n' "$signals" >"$work/in"
        by_each '4,000,000 events' 4000000 5 stopped 1
        ;;
    messages)
        {
            printf '%ssite s [ none : ' "$signals"
            times 262000 'x()|'
            printf '0 ]\nsite t [ x() => 0 : 0 ]\n'
        } | filled "$bytes" >"$work/in"
        by_each '1,048,576 bytes: 262,000 messages to another site' 4000000 0 quiescent 0
        ;;
    places)
        {
            printf '%ssite s [ none : ' "$signals"
            times 36000 '(def m[x()|y()=>0:x()]in 0)|'
            printf '0 ]\n'
        } | filled "$bytes" >"$work/in"
        by_each '1,048,576 bytes: 36,000 locations with a message that waits' 4000000 0 quiescent 36000
        ;;
    all)
        {
            printf '%s%s\n' "$signals" "$(numbered 256 '#: use c@ signal\n')"
            numbered 256 "site s@ [ c@() => c~() : c@() | $(times 199 '(')$(times 200 'def x()=>0in ')0$(times 199 ')') ]\n" 256
        } | filled "$bytes" >"$work/in"
        by_each '256 sites of 400 levels, 1,048,576 bytes, 4,096 events' 4096 5 stopped 256
        ;;
    log)
        three 100000
        takes '3,370,000 events' 5 stopped alone --budget 3370000 --log
        three $((100000 + log_bytes - $(stat -c %s "$work/out")))
        takes '3,370,000 events' 5 stopped alone --budget 3370000 --log
        mv "$work/out" "$work/in"
        judged "a log of $(stat -c %s "$work/in") bytes" 3
        printf ' ' >>"$work/in"
        takes "a log of $(stat -c %s "$work/in") bytes" 8 "log 2 at $log_bytes" check
        takes "a log of $(stat -c %s "$work/in") bytes" 8 "log 2 at $log_bytes" explain
        ;;
    more)
        sites 257 >"$work/in"
        line="scope 6 at $(place 'site s')"
        refused '257 sites' "$line" 1 "$line"
        levels 401 >"$work/in"
        line="grammar 2 at $(place def)"
        refused '401 levels' "$line" 1 "$line"
        sites 256 | filled $((bytes + 1)) >"$work/in"
        refused '1,048,577 bytes' "lex 1 at $bytes" 8 'log 1 at 17'
        echo 'site s [ none : 0 ]' >"$work/in"
        for command in "${runs[@]}" 'gen 1'; do
            # shellcheck disable=SC2086
            takes 'a budget of 4,000,001' 2 'usage: join MODE [N] [OPTIONS]' $command --budget 4000001
        done
        log_of 4000001
        line="log 1 at $(place 4000001)"
        takes 'a log of that budget' 8 "$line" check
        takes 'a log of that budget' 8 "$line" explain
        ;;
    *)
        echo "no such part: $1" >&2
        exit 2
        ;;
    esac
}

for one in "$@"; do
    part "$one"
done
[ "$others" = 0 ]
