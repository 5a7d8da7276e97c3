#!/bin/sh
# The seconds of `rt check` and the most memory that a process of it held, crate by crate, each proved anew on those below it, which are
# unchanged: memory.sh [CRATE...]. Needs GNU time. Nothing else should be going on. What an earlier check kept is emptied and not removed,
# since `rt check` would then begin with what another checkout on this machine kept.
set -eu
cd "$(dirname "$0")/.."
timer=/usr/bin/time
"$timer" -f %M true >/dev/null 2>&1 || {
    echo "measure: GNU time is not here to measure memory" >&2
    exit 2
}
mkdir -p target/measure
all=$(sed -n 's/^\([a-z][a-z0-9_]*\)[^:]*:.*/\1/p' crates.txt)
printf '%-16s %8s %8s\n' crate seconds MB
for crate in ${*:-$all}; do
    kept=crates/$crate/out/incremental
    (cd "crates/$crate" && rt check) >target/measure/check.log 2>&1 || {
        tail -n 5 target/measure/check.log >&2
        exit 1
    }
    rm -r "$kept"
    mkdir "$kept"
    (cd "crates/$crate" && "$timer" -f '%e %M' -o ../../target/measure/memory rt check) >target/measure/check.log 2>&1
    awk -v crate="$crate" '{ printf "%-16s %8.1f %8d\n", crate, $1, $2 / 1024 }' target/measure/memory
done
