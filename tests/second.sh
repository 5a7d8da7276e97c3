#!/bin/sh
# The second program, written from documents 01 and 02 alone: it builds without a warning, its own tests and hand-made lists pass, and
# every one-rule mutant of it is told apart as its table says.
set -u
. tests/stages.inc
dir=target/second
stage build env CFLAGS="${CFLAGS:--std=c11 -O2 -Wall -Wextra -Wpedantic -Werror}" sh second/build.sh "$dir"
stage tests "$dir/tests"
stage corners "$dir/corners" check second/corners/*.txt
stage mutants sh second/mutants.sh "$dir"
told
