#!/bin/sh
# Every .rt and .antt file is in the layout of `rt fmt`: it changes nothing in a copy. (`rt ci` refuses any other layout too.)
set -u
copy=$(mktemp -d) || exit 1
trap 'rm -rf "$copy"' EXIT

# in_layout CRATE: of a folder crates/NAME
in_layout() {
    mkdir -p "$copy/$1"
    for part in src specs proofs; do
        [ ! -d "$1/$part" ] || cp -R "$1/$part" "$copy/$1" || return 1
    done
    (cd "$copy/$1" && rt fmt) >"$copy/said" 2>&1 || {
        cat "$copy/said"
        return 1
    }
    for part in src specs proofs; do
        [ ! -d "$1/$part" ] || diff -r "$1/$part" "$copy/$1/$part" || return 1
    done
}

failed=0
for crate in crates/*; do
    in_layout "$crate" || failed=1
done
echo "$((1 - failed)) passed, $failed failed"
[ "$failed" -eq 0 ]
