#!/usr/bin/env bash
# Programs that the check turns away by their types. twin.rt.txt is a program that passes. Each *.edit makes another of it,
# by the text `old`, which stands once in the twin, and the text `new`; the check must refuse that one with the one error
# `error`, by its name. All runs in a temporary repository with the crates that the twin uses.
# (The twin's name does not end in .rt, since rt refuses such a file outside a listed crate.)
set -eu

here=$(cd "$(dirname "$0")" && pwd)
root=$(cd "$here/../.." && pwd)
crates='rules pattern finder'
tmp=$(mktemp -d)
trap 'rm -rf "$tmp"' EXIT

fail() {
    echo "turned-away: $*" >&2
    exit 1
}

# NAME SOURCE: a crate of the temporary repository.
put() {
    mkdir -p "$tmp/crates/$1/src"
    printf '%s\n' "$2" >"$tmp/crates/$1/src/lib.rt"
    echo "$1: $crates" >>"$tmp/crates.txt"
}

# What a check keeps (out/) need not come along: rt finds what earlier checks on this machine kept of the same crates.
for c in $crates; do
    mkdir -p "$tmp/crates/$c"
    for part in src specs proofs; do
        [ ! -d "$root/crates/$c/$part" ] || cp -R "$root/crates/$c/$part" "$tmp/crates/$c/$part"
    done
    grep "^$c:" "$root/crates.txt" >>"$tmp/crates.txt"
done
twin=$(cat "$here/twin.rt.txt")
put twin "$twin"
cd "$tmp"
(cd crates/twin && rt check) >twin.out 2>&1 || { tail -n 5 twin.out >&2; fail "the twin does not pass"; }

n=0
for edit in "$here"/*.edit; do
    name=$(basename "$edit" .edit)
    old=$(sed -n 's/^old: //p' "$edit")
    new=$(sed -n 's/^new: //p' "$edit")
    error=$(sed -n 's/^error: //p' "$edit")
    [ "$(grep -cF -- "$old" "$here/twin.rt.txt")" = 1 ] || fail "$name: the old text does not stand in one line of the twin"
    put "$name" "${twin/"$old"/"$new"}"
    if (cd "crates/$name" && rt check) >"$name.out" 2>&1; then
        fail "$name passes"
    fi
    [ "$(grep -o 'error\[[a-z0-9-]*\]' "$name.out")" = "error[$error]" ] || { grep 'error' "$name.out" >&2; fail "$name: not turned away by $error alone"; }
    n=$((n + 1))
done
echo "turned away: $n of $(ls "$here"/*.edit | wc -l)"
