#!/bin/sh
# The list program, proved, against C that keeps its own tables well formed and does not check them again (list_peer.c): executed
# instructions for lists of 9,999 records made by seeds, and their ratio. Both print the same first. Needs valgrind to count. The peer is
# built by the compiler of the proved program's back end, at -O3 as it is.
set -eu
cd "$(dirname "$0")/.."
. measure/counting.inc
./run /dev/null
test -x target/second/gen || second/build.sh target/second
built list_peer
cc -o "$to/list_peer" "$to/list_peer.o"
heading seed
for seed in ${*:-1 2 3}; do
    target/second/gen "$seed" 9999 >"$to/list"
    same_lines
    row "$seed" "$(counted target/bin/list <"$to/list")" "$(counted "$to/list_peer" <"$to/list")"
done
