#!/bin/sh
# The list program as its channels fill, proved and as C (list_peer.c): executed instructions a record of lists that keep both channels at a
# number of packets, and their ratio. A list first fills the channels; that part is counted by itself and taken off. Then orders go through,
# 17 records each, every packet sent to the end of its channel: one is taken from there, one lost from the front. Both print the same first.
# Needs valgrind to count. The peer is built by the compiler of the proved program's back end, at -O3 as it is.
set -eu
cd "$(dirname "$0")/.."
. measure/counting.inc
./run /dev/null
built list_peer
cc -o "$to/list_peer" "$to/list_peer.o"

# A list of 9,999 records whose channels hold $1 packets and at most two more; with "filled", what fills them alone.
listed() {
    LC_ALL=C awk -v n="$1" -v part="${2:-whole}" '
        function one(letter, place, copies) {
            if (records++ < 9999) printf "%s%02d%d%-16s\n", letter, place, copies, letter == "P" ? "START FILLER 03" : ""
        }
        function several(letter, times) { while (times-- > 0) one(letter, 0, 1) }
        BEGIN {
            one("P", 0, 0); several("Q", n + 1); one("R", n, 0); several("O", n + 1); one("S", n, 0)
            one("D", 0, 1); one("R", n, 1); one("S", n, 1); one("R", n, 0)
            while (part == "whole" && records < 9999) {
                one("P", 0, 0)
                several("Q", 2); one("L", 0, 0); one("R", n, 0)
                several("O", 2); one("M", 0, 0); one("S", n, 0)
                several("D", 2); one("L", 0, 0); one("R", n, 1)
                one("K", 0, 1); one("M", 0, 0); one("S", n, 1); one("R", n, 0)
            }
        }'
}

# The instructions of a program a record, without the part that fills.
a_record() {
    whole=$(counted "$1" <"$to/list")
    filled=$(counted "$1" <"$to/filled")
    echo $(((whole - filled) / (9999 - $(wc -l <"$to/filled"))))
}

heading packets
for n in ${*:-0 8 16 32 62}; do
    listed "$n" >"$to/list"
    listed "$n" filled >"$to/filled"
    same_lines
    if LC_ALL=C cut -c 8-9 "$to/proved.out" | grep -q '[0-9]'; then
        echo "measure: a record was refused" >&2
        exit 1
    fi
    row "$n to $((n + 2))" "$(a_record target/bin/list)" "$(a_record "$to/list_peer")"
done
