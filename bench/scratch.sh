# Read by the measures beside it: makes a repository of its own, which is removed at the end, with a crate that has one program.
# rt proves all of it, and takes what it has kept on this machine of the crates that it stands on.

root=$(cd "$(dirname "${BASH_SOURCE[0]}")/.." && pwd)
if [ -z "${work:-}" ]; then
    work=$(mktemp -d)
    trap 'rm -rf "$work"' EXIT
fi

# copied CRATE..: copies these crates and what they stand on. Goes to the repository's folder.
copied() {
    local crate
    cd "$work" || exit
    mkdir crates .git # by which rt knows the top of a repository
    "$root/launch/crates" "$root" "$@" >crates.txt
    cp "$root/HANDLES" .
    while IFS=: read -r crate _; do
        mkdir "crates/${crate%% *}"
        cp -r "$root/crates/${crate%% *}"/* "crates/${crate%% *}/"
        rm -rf "crates/${crate%% *}"/{out,must-fail}
    done <crates.txt
}

# scratch NAME CRATE..: the crate NAME stands on these crates and on anyhow; its program is read from standard input. What these
# crates stand on is copied too. Goes to the crate's folder.
scratch() {
    scratch_name=$1
    shift
    copied "$@"
    rt new "crates/$scratch_name" start_io >/dev/null
    echo "$scratch_name: $* anyhow" >>crates.txt
    rm -rf "crates/$scratch_name"/{src,specs,proofs,stdin,stdout}
    mkdir "crates/$scratch_name/src"
    cat >"crates/$scratch_name/src/main.rt"
    cd "crates/$scratch_name" || exit
}

# build: proves and builds the program. rt also runs it once on the file stdin, and says that it printed something.
build() {
    rt fmt >/dev/null
    (cd "$work" && rt ci) >log 2>&1 || true
    if ! grep -qE "^rt: $scratch_name (proved$|is kept:)" log || ! [ -x "out/$scratch_name" ]; then
        cat log
        exit 1
    fi
}
