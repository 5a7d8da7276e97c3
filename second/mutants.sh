#!/bin/sh
# mutants.sh [DIR]: builds every mutant of mutants/mutants.txt into
# DIR/mutants, DIR being target/second unless given, and says who tells it
# from the plain program: the lists (the corners and the seeds below), the
# tests, or neither. Fails where mutants.txt says otherwise.
set -eu

source=$(cd "$(dirname "$0")" && pwd)
dir=${1:-target/second}
cc=${CC:-cc}
flags="-std=c11 -O1"
seeds="0 1 2 3 4 5 6 7 8 9 10 11 12 13 14 15 16 17 18 19 20"
records=400

"$source/build.sh" "$dir"
dir=$(cd "$dir" && pwd)
. "$source/names.sh"
rm -rf "$dir/mutants"
mkdir -p "$dir/mutants/corner" "$dir/mutants/seed"
cd "$dir/mutants"

# The lists, and what the plain program prints for them.
"$dir/corners" write corner "$source"/corners/*.txt > corners.txt
for seed in $seeds; do
    "$dir/gen" "$seed" "$records" > "seed/$seed.list"
done
for list in corner/*.list seed/*.list; do
    "$dir/list" < "$list" > "$list.out"
done
$cc $flags -I"$source" -c -o ../lists.o "$source/mutants/lists.c"

# compile MUTANT FILE: the changed file, or everything for a changed header.
compile() {
    case $2 in
    *.h)
        for name in $core; do
            cp "$source/$name.c" "$1/"
        done
        cp "$source/mutants/lists.c" "$1/"
        for name in $core lists; do
            $cc $flags -c -o "$1/$name.o" "$1/$name.c"
        done
        ;;
    *)
        $cc $flags -I"$source" -c -o "$1/${2%.c}.o" "$1/$2"
        ;;
    esac
}

# objects MUTANT NAME...: the mutant's objects, the plain ones otherwise.
objects() {
    mutant=$1
    shift
    for name in "$@"; do
        if test -f "$mutant/$name.o"; then
            echo "$mutant/$name.o"
        else
            echo "../$name.o"
        fi
    done
}

# seen_by MUTANT: prints who tells it apart, and by what.
seen_by() {
    $cc -o "$1/lists" $(objects "$1" $core lists)
    if ! "$1/lists" corner/*.list seed/*.list > "$1/lists.txt" 2>&1; then
        echo "lists, $(sed 's:/: :; s:\.list::' "$1/lists.txt")"
        return
    fi
    $cc -o "$1/tests" $(objects "$1" $core $tests)
    if ! "$1/tests" stop > "$1/tests.txt" 2>&1; then
        failed='s/: [0-9]* passed, [1-9][0-9]* failed$//p'
        echo "tests, $(sed -n "$failed" "$1/tests.txt" | head -n 1)"
        return
    fi
    echo "neither,"
}

awk -v source="$source" -v dir=. -f "$source/mutants/mutants.awk" \
    "$source/mutants/mutants.txt" > table.txt

wrong=0
: > result.txt
while read -r mutant file expected; do
    compile "$mutant" "$file"
    seen=$(seen_by "$mutant")
    echo "$mutant: $seen" | tee -a result.txt
    if test "${seen%%,*}" != "$expected"; then
        echo "$mutant: expected $expected"
        wrong=$((wrong + 1))
    fi
done < table.txt

# told WHO: how many are told apart by it.
told() {
    grep -c ": $1," result.txt || true
}

echo "$(told '.*') mutants: $(told lists) told apart by lists," \
    "$(told tests) by tests, $(told neither) by neither; $wrong not as said"
test "$wrong" -eq 0
