#!/bin/sh
# The bench's step through the entry that C links, proved, against C that makes the same checks of the same bytes (bench_peer.c): both ends and
# both tables, at each step. Executed instructions a call and their ratio, with both channels empty, half full and full. Needs valgrind to
# count. The peer is built by the compiler of the archive's back end, at -O3 as it is.
set -eu
cd "$(dirname "$0")/.."
. measure/counting.inc
./build-lib target/lib >/dev/null
built bench_peer -Itarget/lib
cc -std=c11 -O2 -Wall -Wextra -Werror -Itarget/lib -o "$to/bench" measure/bench.c "$to/bench_peer.o" target/lib/libnooseless.a
compared "$to/bench" 1000
