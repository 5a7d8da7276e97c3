#!/bin/sh
# Each must-fail edit was refused because a fact no longer holds, and not because its proof file no longer fits the code: that shows as a name or
# a place that can't be found, as a definition that is not well typed, or as code that the prover doesn't cover; a remark that a goal does not
# paste back as shown is none of these. Reads target/ci.log, what `rt ci` said: for each edit a line with the beginning of one thing that the
# prover said. Where that is a fact that fell, the edit passes. Where it is neither that nor such a sign, and with --whole for every edit, the
# crate is checked so edited, in a copy, and all that the prover says is searched for the signs; it stays in target/must-fail.
# must-fail-logs.sh [--whole]
set -u
whole=${1-}
signs='has no `|has no field|is no name|is not a field|unknown name|is not in scope|can be named from here|cannot be unfolded here'
signs="$signs|^(\./)?(src|specs)/[^ ]*: error|does not cover this function"
# In a proof file what is expected and what is there differ, or a goal is open; in the code there are values at which a goal is false.
fallen="the two (types|values|sides) (first )?differ|\`search\`: no proof of|no occurrence of the path's left endpoint| ≟ |give a proof of that as"
facts="^(\./)?proofs/[^ ]*: error: \`[^\`]*\`: (expected type \`|.*($fallen))|^note: src/[^ ]*: it is not proved that .*; the facts known there"
copy=$(mktemp -d) || exit 1
trap 'rm -rf "$copy"' EXIT

# shape FILE: whether there is such a sign, and prints it.
shape() {
    found=$(grep -v 'does not paste back' "$1" | grep -m 1 -E "$signs") && echo "refused for its shape, which shows nothing: $found"
}

# Lays a crate down in the copy as it stands here.
lay() {
    mkdir -p "$copy/crates/$1"
    for part in src specs proofs; do
        rm -rf "$copy/crates/$1/$part"
        [ ! -d "crates/$1/$part" ] || cp -R "crates/$1/$part" "$copy/crates/$1"
    done
}

# change FOLDER EDIT: changes the files of the crate in that folder as the edit says; each old text stands once.
change() {
    LC_ALL=C awk -v folder="$1" '
        function taken(path) { text = ""; while ((getline line <path) > 0) text = text line "\n"; close(path) }
        function put() { if (path != "") { printf "%s", text >path; close(path) } }
        /^file: / { put(); path = folder "/" substr($0, 7); taken(path) }
        /^old: / { old = substr($0, 6) }
        /^new:/ { at = index(text, old); text = substr(text, 1, at - 1) substr($0, 6) substr(text, at + length(old)) }
        END { put() }' "$2"
}

# check CRATE EDIT LOG: what the prover says of the crate so edited; whether it refuses it.
check() {
    mkdir -p "$(dirname "$3")" "$copy/.git"
    cp crates.txt "$copy"
    for below in crates/*; do
        [ -d "$copy/$below" ] || lay "${below#*/}"
    done
    change "$copy/crates/$1" "$2"
    (cd "$copy/crates/$1" && rt check) >"$3" 2>&1
    lay "$1"
    grep -q '^logic=not-proved' "$3"
}

# refused CRATE EDIT: for a fact; prints why not.
refused() {
    name=$1/$(basename "$2" .edit)
    if [ -z "$whole" ]; then
        said=$(sed -n "s|^rt: must-fail $name\.edit: ||p" target/ci.log)
        case $said in
        "refused, as it must be (only "*) # because of a name that is gone, or by a limit
            echo "$said"
            return 1
            ;;
        "refused, as it must be"*) ;;
        *)
            echo "${said:-no line}"
            return 1
            ;;
        esac
        printf '%s\n' "${said#refused, as it must be: }" >"$copy/said"
        ! shape "$copy/said" || return 1
        ! LC_ALL=C grep -qE "$facts" "$copy/said" || return 0
    fi
    log=target/must-fail/$name.log
    check "$1" "$2" "$log" || {
        echo "not refused in a copy, $log"
        return 1
    }
    ! shape "$log"
}

passed=0
failed=0
for edit in crates/*/must-fail/*.edit; do
    crate=$(basename "$(dirname "$(dirname "$edit")")")
    if why=$(refused "$crate" "$edit"); then
        passed=$((passed + 1))
    else
        echo "$crate/$(basename "$edit" .edit): $why"
        failed=$((failed + 1))
    fi
done
echo "$passed passed, $failed failed"
[ "$failed" -eq 0 ]
