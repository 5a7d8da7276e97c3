#!/bin/sh
# compare.sh FIRST LAST PROGRAM [ARGUMENT...]: feeds the corners and the lists
# of the seeds FIRST to LAST to the second program and to PROGRAM, another
# list program, and compares what they print byte for byte. Stops at the first
# difference and keeps that list. The second program is in BUILD, which is
# target/second unless set, and is built if it is not there. RECORDS sets the
# length of the seeds' lists; RECORDS=9999 is for long runs.
set -eu

if test $# -lt 3; then
    echo "usage: compare.sh FIRST LAST PROGRAM [ARGUMENT...]" >&2
    exit 2
fi
first=$1
last=$2
shift 2

source=$(cd "$(dirname "$0")" && pwd)
build=${BUILD:-target/second}
test -x "$build/list" || "$source/build.sh" "$build"
work=$build/compare.$$
mkdir -p "$work/corners"
lists=0
lines=0

# show_difference NAME LIST: the record, and what was printed for it.
show_difference() {
    byte=$(cmp -l "$work/second" "$work/other" 2> /dev/null |
        awk 'NR == 1 { print $1 }')
    shorter=$(wc -c < "$work/second")
    other=$(wc -c < "$work/other")
    test "$other" -ge "$shorter" || shorter=$other
    record=$(((${byte:-$((shorter + 1))} - 1) / 27 + 1))
    echo "$1 differs at record $record; the list is $2"
    for part in "$2 21" "$work/second 27" "$work/other 27"; do
        bytes=${part##* }
        dd if="${part% *}" bs="$bytes" skip=$((record - 1)) count=1 \
            2> /dev/null | od -c
    done
}

# compare NAME LIST PROGRAM...
compare() {
    name=$1
    list=$2
    shift 2
    "$build/list" < "$list" > "$work/second"
    status=0
    "$@" < "$list" > "$work/other" || status=$?
    if ! cmp -s "$work/second" "$work/other"; then
        show_difference "$name" "$list"
        exit 1
    fi
    if test "$status" -ne 0; then
        echo "$name ends with status $status; the list is $list"
        exit 1
    fi
    lists=$((lists + 1))
    lines=$((lines + $(wc -c < "$work/second") / 27))
}

"$build/corners" write "$work/corners" "$source"/corners/*.txt > /dev/null
for list in "$work"/corners/*.list; do
    name=${list##*/}
    compare "corner ${name%.list}" "$list" "$@"
done
seed=$first
while test "$seed" -le "$last"; do
    "$build/gen" "$seed" ${RECORDS:+"$RECORDS"} > "$work/seed-$seed.list"
    compare "seed $seed" "$work/seed-$seed.list" "$@"
    rm "$work/seed-$seed.list"
    seed=$((seed + 1))
done
rm -r "$work"
echo "$lists lists, $lines records: no difference"
