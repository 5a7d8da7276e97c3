#!/bin/sh
# Two boxes over the archive, with real power cuts: demand 3 holds of what they wrote down, and the same rehearsal finds a console that keeps an
# OK through a cut, a controller that forgets its numbers, and one that keeps them after the packet has left. Of that one chance may show the harm
# itself (1) or only that it met numbers which it had not given (4); tests/header.sh finds it without chance. And a box starts from a record of
# either version, and from no other file. The judge is tried on rows and doses made by hand, too.
set -u
if [ "$(uname -m)" != x86_64 ]; then
    echo "rehearsal: not run, the archive links into x86-64 programs only"
    echo "0 passed, 0 failed"
    exit 0
fi
passed=0
failed=0
# The statuses that a stage may end with come first.
stage() {
    want=$1
    name=$2
    shift 2
    status=0
    "$@" || status=$?
    case " $want " in
    *" $status "*) passed=$((passed + 1)) ;;
    *)
        echo "rehearsal: $name ended with $status, not $want"
        failed=$((failed + 1))
        ;;
    esac
}
# A console box whose record is of that version and cut off, or drawn out, to that length: it runs until it is stopped (124), or calls a
# person (1).
box_with() {
    place=target/rehearsal/version-$1-of-$2
    rm -rf "$place"
    mkdir -p "$place"
    printf "HSN\\000\\00$1\\001\\000\\000\\000\\000\\000\\007\\000\\100\\000\\000\\000" | head -c "$2" >"$place/console.record"
    (cd "$place" && timeout 1 ../programs/console_box </dev/null 2>/dev/null)
}
# judged ROWS DOSES: what the judge says of these lines, each a time, a word and the number of an order, or -.
judged() {
    place=target/rehearsal/judged
    mkdir -p "$place"
    for lines in "rows $1" "doses $2"; do
        printf '%s\n' "${lines#* }" | tr ',' '\n' | sed 's/[0-9]$/ORDER 000000000&/' >"$place/${lines%% *}.log"
    done
    : >"$place/keeps.log"
    : >"$place/cuts.log"
    (cd "$place" && ../programs/judge 0 0 0 0 >/dev/null)
}
stage 0 library ./build-lib
stage 0 rehearsal sh examples/rehearse.sh 1000 1
stage 1 "the forgetful controller" sh examples/rehearse.sh --broken 400 1
stage "1 4" "the late controller" sh examples/rehearse.sh --late 400 1
stage 1 "the stale console" sh examples/rehearse.sh --stale 400 1
stage 0 "judged: OK" judged "1 PUT 1,4 OK 1" "3 DOSE 1"
stage 0 "judged: lost by the controller's restart" judged "1 PUT 1,5 LOST 1" "2 DOSE 1,3 BACK -"
stage 0 "judged: lost by the console's restart, and delivered then" judged "1 PUT 1,2 BACK 1,3 LOST 1" "6 DOSE 1"
stage 0 "judged: a row without an answer" judged "1 PUT 1,3 PUT 2,5 OK 2" "2 DOSE 1,4 DOSE 2"
stage 1 "judged: delivered twice" judged "1 PUT 1,5 OK 1" "2 DOSE 1,3 DOSE 1"
stage 1 "judged: delivered out of order" judged "1 PUT 1,2 BACK 1,3 LOST 1,4 PUT 2,6 OK 2" "5 DOSE 2,7 DOSE 1"
stage 1 "judged: delivered with no put" judged "1 PUT 1" "2 DOSE 2"
stage 1 "judged: delivered after lost" judged "1 PUT 1,5 LOST 1" "3 BACK -,6 DOSE 1"
stage 1 "judged: lost with no restart" judged "1 BACK -,2 PUT 1,5 LOST 1" "1 BACK -,3 DOSE 1"
stage 1 "judged: OK without delivery" judged "1 PUT 1,3 OK 1" "4 DOSE 1"
stage 1 "judged: OK after the console's restart" judged "1 PUT 1,3 BACK 1,4 OK 1" "2 DOSE 1"
stage 1 "judged: a second answer" judged "1 PUT 1,3 OK 1,4 OK 1" "2 DOSE 1"
stage 1 "judged: an answer after the next put" judged "1 PUT 1,3 PUT 2,4 OK 1" "2 DOSE 1"
stage 124 "version 1 in 12 bytes" box_with 1 12
stage 124 "version 2 in 16 bytes" box_with 2 16
for length in 0 11 13 15 16 17; do
    stage 1 "version 1 in $length bytes" box_with 1 "$length"
done
for length in 12 15 17; do
    stage 1 "version 2 in $length bytes" box_with 2 "$length"
done
echo "$passed passed, $failed failed"
[ "$failed" -eq 0 ]
