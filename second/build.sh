#!/bin/sh
# build.sh [DIR]: builds list, gen, corners and tests into DIR, which is
# target/second unless given. CC and CFLAGS may be set.
set -eu

source=$(cd "$(dirname "$0")" && pwd)
dir=${1:-target/second}
cc=${CC:-cc}
flags=${CFLAGS:--std=c11 -Wall -Wextra -Wpedantic -O2}
. "$source/names.sh"

mkdir -p "$dir"
for path in "$source"/*.c "$source"/tests/*.c; do
    name=${path##*/}
    $cc $flags -c -o "$dir/${name%.c}.o" "$path"
done

# link PROGRAM NAME...
cd "$dir"
link() {
    program=$1
    shift
    objects=
    for name in "$@" $core; do
        objects="$objects $name.o"
    done
    $cc $flags -o "$program" $objects
}

link list list
link gen gen generate spoil
link corners corners
link tests $tests
