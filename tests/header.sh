#!/bin/sh
# The header, for who has nothing else: it and the two loops beside it compile by themselves, its names are the archive's, what it says of the
# machine is so, and both loops keep its rule and demand 3 through power cuts at every place; loops that are wrong in one way are found.
# header.sh [TURNS [SEED]]
set -u
if [ "$(uname -m)" != x86_64 ]; then
    echo "header: not run, the archive links into x86-64 programs only"
    echo "0 passed, 0 failed"
    exit 0
fi
. tests/stages.inc
lib=target/lib
to=target/header
turns=${1:-4000000}
seed=${2:-1}
cc=${CC:-cc}
cxx=${CXX:-c++}
flags="-std=c11 -pedantic -O2 -Wall -Wextra -Werror"
rm -rf "$to"
mkdir -p "$to" || exit 1

# What the archive needs from outside is memmove and memset, nothing of it can be written, and the entries of an end need nothing at all.
archive() {
    [ "$(nm -u "$lib/libnooseless.a" | sed -n 's/^ *U //p' | sort -u | tr '\n' ' ')" = "memmove memset " ] || return 1
    size "$lib/libnooseless.a" | awk 'NR > 1 && ($2 != 0 || $3 != 0) { wrong = 1 } END { exit wrong }' || return 1
    wanted=
    for entry in $(nm "$lib/libnooseless.a" | sed -n 's/.* T \(nooseless_.*\)/\1/p' | grep -Ev 'bench|run$'); do
        wanted="$wanted -Wl,-u,$entry"
    done
    echo 'void starts(void) {}' >"$to/starts.c"
    "$cc" -nostdlib -static -Wl,--gc-sections -Wl,-e,starts $wanted -o "$to/starts" "$to/starts.c" "$lib/libnooseless.a"
}

# Every entry that the header declares is in the archive, and every entry of the archive in the header.
declared() {
    sed -n 's/^[a-z].* \(nooseless_[a-z_]*\)(.*[,;]$/\1/p' include/nooseless.h | sort >"$to/declared"
    nm "$lib/libnooseless.a" | sed -n 's/.* T \(nooseless_.*\)/\1/p' | sort >"$to/entries"
    diff "$to/declared" "$to/entries"
}

# boxes FOLDER: both loops, from there, in a world of power cuts.
boxes() {
    "$cc" $flags -I"$1" -I"$lib" -o "$1/cuts" tests/header/console.c tests/header/controller.c tests/header/cuts.c "$lib/libnooseless.a"
}

# wrong STATUS END MISTAKE: the END's loop so changed ends with STATUS: 1, demand 3 is broken; 3, nothing gets done; 4, the rule alone is.
wrong() {
    place=$to/$2-$3
    mkdir -p "$place"
    sed "s/@/$2/g" "tests/header/wrong/$3.sed" >"$place/edit"
    sed -f "$place/edit" "include/$2_loop.c" >"$place/$2_loop.c"
    if cmp -s "include/$2_loop.c" "$place/$2_loop.c"; then
        echo "header: $3 changes nothing"
        return 1
    fi
    boxes "$place" || return 1
    status=0
    "$place/cuts" 1000000 "$seed" >"$place/out" || status=$?
    [ "$status" -eq "$1" ] && return 0
    cat "$place/out"
    echo "header: the $2 that $3: $status, not $1"
    return 1
}

stage library ./build-lib "$lib"
for standard in c99 c11; do
    stage "the header as $standard" "$cc" -std=$standard -pedantic -Wall -Wextra -Werror -fsyntax-only -x c include/nooseless.h
done
if command -v "$cxx" >/dev/null; then
    stage "the header as C++" "$cxx" -std=c++11 -pedantic -Wall -Wextra -Werror -fsyntax-only -x c++ include/nooseless.h
    for end in console controller; do
        stage "the $end's loop as C++" "$cxx" -std=c++11 -pedantic -Wall -Wextra -Werror -fsyntax-only -x c++ "include/${end}_loop.c"
    done
fi
for end in console controller; do
    stage "the $end's loop" "$cc" $flags -I"$lib" -c -o "$to/$end.o" "$lib/${end}_loop.c"
done
stage "the header's entries" declared
stage "what the archive needs" archive
stage "build of the names" "$cc" $flags -I"$lib" -o "$to/names" tests/header/names.c "$lib/libnooseless.a"
stage "the header's names" "$to/names"
stage "build of the boxes" boxes "$to"
stage "power cuts" "$to/cuts" "$turns" "$seed"
for end in console controller; do
    stage "a $end that forgets" wrong 1 $end forgets
    stage "a $end that keeps late" wrong 1 $end late
    stage "a $end that starts from 0" wrong 1 $end from_0
    stage "a $end that takes 12 bytes as none" wrong 1 $end as_none
    stage "a $end that keeps last used" wrong 1 $end last_used
    stage "a $end that starts a block below" wrong 1 $end thrifty
    stage "a $end that always keeps" wrong 4 $end always
done
stage "a controller that replies first" wrong 1 controller reply_first
stage "a controller that steps twice" wrong 1 controller twice
stage "a console that repeats Q alone" wrong 3 console no_data
stage "a console that keeps its ack" wrong 1 console keeps_ack
stage "a console that reads twice" wrong 1 console reads_twice
stage "a console that always reads" wrong 1 console reads_always
stage "a console that never reads" wrong 3 console reads_never
stage "a console that reads before it replies" wrong 4 console reads_first
stage "a console that forgets its row" wrong 4 console no_row
told
