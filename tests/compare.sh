#!/bin/sh
# The proved list program and the second program print the same, byte for byte: on the hand-made lists (document 01's listing, its
# checks, easy mistakes, junk, lengths) and on the lists of a few seeds, those that tell the mutants apart among them.
# As many as wanted: second/compare.sh FIRST LAST target/bin/list
set -u
mkdir -p target
./run /dev/null > target/compare.log 2>&1 || {
    tail -n 5 target/compare.log
    echo "0 passed, 1 failed"
    exit 1
}
. tests/stages.inc
stage "the mutants' lists" env RECORDS=400 second/compare.sh 0 20 target/bin/list
stage "more lists" second/compare.sh 21 60 target/bin/list
told
