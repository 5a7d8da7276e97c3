#!/bin/sh
# R of a controller, S, P and A of a console run alone, proved, against C that makes the same checks (peer.c): executed instructions a call, and
# their ratio, case by case. Needs valgrind to count. The peer is built by the compiler of the archive's back end, at -O3 as it is.
set -eu
cd "$(dirname "$0")/.."
. measure/counting.inc
./build-lib target/lib >/dev/null
built peer -ffreestanding -Itarget/lib
cc -std=c11 -O2 -Wall -Wextra -Werror -Itarget/lib -o "$to/alone" measure/alone.c "$to/peer.o" target/lib/libnooseless.a
compared "$to/alone" 10000
