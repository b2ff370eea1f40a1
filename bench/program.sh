# Read by the measures beside it: names the repository root, and work a folder that is removed at the end, where they have no
# names yet. Builds the program where it is missing or old, and names it JOIN_PROGRAM; another one may be named before.
root=${root:-$(cd "$(dirname "${BASH_SOURCE[0]}")/.." && pwd)}
if [ -z "${work:-}" ]; then
    work=$(mktemp -d)
    trap 'rm -rf "$work"' EXIT
fi
if [ -z "${JOIN_PROGRAM:-}" ]; then
    "$root/join" alone --budget 0 <"$root/examples/first.join" >/dev/null || true
    JOIN_PROGRAM=$root/crates/join_main/out/join_main
fi

# tour COUNT: an agent that goes round so many sites
tour() {
    local i
    printf 'site s0 [ agent [ k0() => go(s0, k1)'
    for ((i = 1; i < $1; i++)); do printf ' and k%d() => go(s%d, k%d)' "$i" "$i" $(((i + 1) % $1)); done
    printf ' : k1() ] : 0 ]\n'
    for ((i = 1; i < $1; i++)); do printf 'site s%d [ none : 0 ]\n' "$i"; done
}
