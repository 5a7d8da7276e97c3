#!/bin/sh
# The archive's entries beside the second program in one process, on bytes of every sort, and the stack that they use:
# boundary.sh [CASES [SEED]]
set -u
if [ "$(uname -m)" != x86_64 ]; then
    echo "boundary: not run, the archive links into x86-64 programs only"
    echo "0 passed, 0 failed"
    exit 0
fi
. tests/stages.inc
program=target/boundary
. second/names.sh
sources=
for name in boundary shared wire records ends every given benches lists; do
    sources="$sources tests/boundary/$name.c"
done
for name in $core generate spoil; do
    sources="$sources second/$name.c"
done
stage library ./build-lib target/lib
stage build "${CC:-cc}" -std=c11 -O2 -Wall -Wextra -Werror -Itarget/lib -o "$program" $sources target/lib/libnooseless.a
stage comparison "$program" "${1:-5000000}" "${2:-1}"
stage "build of the stack's measure" "${CC:-cc}" -std=c11 -O2 -Wall -Wextra -Werror -Itarget/lib -Wl,-z,now -o target/stack tests/boundary/stack.c target/lib/libnooseless.a
stage stack target/stack 200000 1
told
