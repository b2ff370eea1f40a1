# Read by `check` and by ../bench/free.sh, in this folder: whether what `run` printed for $name.join, in the file
# $work/out, is a text that may come out. `check` says what the files $name.run have.

# place LINE: where the line stands in the file out
place() {
    grep -nxF -e "$1" "$work/out" | cut -d: -f1
}

# whether the file out has the lines of $name.out in an order that $name.run allows
keeps_order() {
    local pair
    cmp -s <(sort "$name.out") <(sort "$work/out") || return 1
    [ "$(tail -n 1 "$name.out")" = "$(tail -n 1 "$work/out")" ] || return 1
    while read -r pair; do
        [ "$(place "${pair% before *}")" -lt "$(place "${pair#* before }")" ] || return 1
    done < <(tail -n +2 "$name.run")
}

# whether the file out is one of the texts of $name.run
is_one_of() {
    local end=$'quiescent\n'
    [[ $end$(<"$name.run")$'\n' == *"$end$(<"$work/out")"$'\n'* ]]
}

# whether the file out is a text that may come out by `run`
may_come_out() {
    if [ ! -f "$name.run" ]; then
        cmp -s "$name.out" "$work/out"
    elif [ "$(head -n 1 "$name.run")" = 'any order' ]; then
        keeps_order
    else
        is_one_of
    fi
}
