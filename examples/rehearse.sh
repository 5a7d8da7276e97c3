#!/bin/sh
# A rehearsal with real power cuts: two boxes and a radio as processes, kill -9 at moments by chance, and demand 3 judged by what the boxes
# wrote down. rehearse.sh [--broken | --late | --stale] [CUTS [SEED]]; 10,000 cuts are the long one. The seed decides every choice, not the
# machine's timing. With --broken the controller keeps no number record, with --late it keeps it after the packet has left; with --stale the
# console keeps an OK through a power cut and shows it for the next order.
# Ends with 0; 1 if demand 3 is broken; 2 if it can't be run; 3 if too little happened; 4 if the controller met numbers that it had not given;
# 5 if number records were written more often than their blocks ask for.
set -eu
broken=
case ${1:-} in
--broken | --late | --stale)
    broken=$1
    shift
    ;;
esac
cuts=${1:-300}
seed=${2:-1}
case $cuts$seed in
*[!0-9]*)
    echo "usage: rehearse.sh [--broken | --late | --stale] [CUTS [SEED]]" >&2
    exit 2
    ;;
esac
if [ "$(uname -m)" != x86_64 ]; then
    echo "rehearse.sh: the archive links into x86-64 programs only" >&2
    exit 2
fi
root=$(cd "$(dirname "$0")/.." && pwd)
"$root/build-lib" "$root/target/lib" >/dev/null || exit 2
bin=$root/target/rehearsal/programs$broken
sh "$root/examples/build.sh" "$root/target/lib" "$bin" $broken || exit 2
place=$root/target/rehearsal/run-$cuts-$seed$broken
rm -rf "$place"
mkdir -p "$place"
cd "$place"
status=0
"$bin/conduct" "$bin" "$cuts" "$seed" $((30 + cuts / 20)) || status=$?
[ "$status" -ne 2 ] || exit 2
"$bin/judge" "$cuts" $((cuts / 4)) $((cuts / 8)) $((cuts / 100))
