#!/bin/sh
# ./run: the list program's output and nothing else, however the list comes; a wrong call is 2; what --explain adds is indented, and each
# refusal has its sentence; on a terminal it plays the listing, explained, in place of waiting; as it proves it counts the crates.
set -u
root=$(pwd)
dir=$(mktemp -d) || exit 1
trap 'rm -rf "$dir"' EXIT
listing=crates/list/stdin
lines=crates/list/stdout
. tests/stages.inc

prints() { # FILE COMMAND...: the command prints the file, says nothing else and ends with 0
    want=$1
    shift
    "$@" >"$dir/out" 2>"$dir/err" && cmp "$want" "$dir/out" && [ ! -s "$dir/err" ]
}

refuses() { # ARGUMENT...: a wrong call
    ./run "$@" >"$dir/out" 2>"$dir/err" </dev/null
    [ $? -eq 2 ] && [ ! -s "$dir/out" ] && grep -q '^usage: ./run ' "$dir/err"
}

helps() {
    ./run --help >"$dir/out" 2>"$dir/err" </dev/null && grep -q '^usage: ./run ' "$dir/out" && [ ! -s "$dir/err" ]
}

# typed ARGUMENT...: on a terminal, which ends lines with CR LF. What ./run says itself begins with "run: ".
typed() {
    script -qec "./run $*" /dev/null </dev/null | tr -d '\r' >"$dir/out"
    grep -q '^run: no FILE' "$dir/out" && sed '/^run: /d' "$dir/out" | cmp "$dir/explained" -
}

fed() { ./run <"$listing"; }

bytewise() { dd if="$listing" bs=1 2>"$dir/dd" | ./run; }

# Pieces of 13 bytes, each by a process of its own.
in_pieces() {
    k=0
    while [ "$k" -lt 20 ]; do
        dd if="$listing" bs=13 skip="$k" count=1 2>"$dir/dd"
        k=$((k + 1))
    done | ./run
}

from_elsewhere() { (cd "$root/crates/list" && "$root/run" stdin); }

# explains LIST: without what is indented it is the plain output; after each line the refusal's number or the answer, if there is one, and
# the four lines of the bench.
explains() {
    ./run "$1" >"$dir/plain" && ./run --explain "$1" >"$dir/explained" || return 1
    LC_ALL=C grep -v '^  ' "$dir/explained" | cmp "$dir/plain" - || return 1
    LC_ALL=C awk '
        /^[0-9]/ && left == 0 {
            report = substr($0, 8, 2)
            left = report ~ /[0-9][0-9]|OK|LO/ ? 5 : 4
            next
        }
        left == 5 && $0 ~ "^  refused " report ": [a-zA-Z]" { left = 4; next }
        left == 5 && report == "OK" && /^  answer OK: / { left = 4; next }
        left == 5 && report == "LO" && /^  answer lost: / { left = 4; next }
        left == 4 && /^  console (up|down), (idle|needI j=[0-9]+|send last=[0-9]+), last used J [0-9]+, reserved to [0-9]+, ack (OK|lost)(, holds ".*")?$/ { left = 3; next }
        left == 3 && /^  controller (up|down), (idle|accept j=[0-9]+ i=[0-9]+|ack last=[0-9]+), last used I [0-9]+, reserved to [0-9]+$/ { left = 2; next }
        left == 2 && /^  to controller:( empty|( (needI|data|done)[(][0-9]+[)])+)$/ { left = 1; next }
        left == 1 && /^  to console:( empty|( (offer[(][0-9]+,|OK[(]|lost[(])[0-9]+[)])+)$/ { left = 0; next }
        { left = 6; exit }
        END { exit left != 0 }' "$dir/explained"
}

# A project of three crates and one that isn't asked for, with a toolchain whose program copies its input, and which fails while there is a file `broken`.
mock() {
    mkdir -p "$dir/mock/crates/ground" "$dir/mock/crates/bench" "$dir/mock/crates/other" "$dir/mock/crates/list" "$dir/tools"
    cp run "$dir/mock/run"
    printf '%s\n' '# a comment' ground: 'bench: ground io' 'other: ground' 'list: ground bench libc' >"$dir/mock/crates.txt"
    touch "$dir/mock/crates/source"
    cat >"$dir/tools/rt" <<'END'
#!/bin/sh
crate=$(basename "$(pwd)")
echo "$* $crate" >>../../calls
[ ! -f ../../broken ] || exit 1
echo "fn $crate::step: proved"
[ "$1" != run ] || ln -sf "$(command -v cat)" "out/$crate"
END
    chmod +x "$dir/tools/rt"
}

mocked() { # BUILDS STATUS: plays the listing; rt was called that often by now to build it
    PATH="$dir/tools:$PATH" "$dir/mock/run" "$listing" >"$dir/out" 2>"$dir/err"
    [ $? -eq "$2" ] && [ "$(grep -cx 'lib ground' "$dir/mock/calls")" -eq "$1" ]
}

# Whatever is to be built is built here.
./run /dev/null && ./run --explain /dev/null || { echo "0 passed, 1 failed"; exit 1; }

: >"$dir/empty"
dd if="$listing" bs=196 count=1 >"$dir/cut" 2>"$dir/dd"
{ head -n 9 "$lines"; printf '0010 ? 01 %16s\n' ''; } >"$dir/cut.lines"
printf 'P000%16s\n' '' >"$dir/full"
k=0
while [ "$k" -lt 22 ]; do
    printf 'Q003%16s\n' '' >>"$dir/full"
    k=$((k + 1))
done

stage "the listing from a file" prints "$lines" ./run "$listing"
stage "the listing from standard input" prints "$lines" fed
stage "the listing byte by byte" prints "$lines" bytewise
stage "the listing in pieces" prints "$lines" in_pieces
stage "a call from another folder" prints "$lines" from_elsewhere
stage "an empty list" prints "$dir/empty" ./run "$dir/empty"
stage "a list cut in a record" prints "$dir/cut.lines" ./run "$dir/cut"
stage "--help" helps
stage "an unknown option" refuses --wrong
stage "two files" refuses "$listing" "$listing"
stage "an option after the file" refuses "$listing" --explain
stage "a file that isn't there" refuses "$dir/none"
stage "a folder" refuses crates
stage "an empty list explained" prints "$dir/empty" ./run --explain "$dir/empty"
stage "the explained list" prints crates/explain/stdout ./run --explain crates/explain/stdin
stage "the explained full channel" explains "$dir/full"
stage "its sentence" grep -q '^  refused 09: copies to be added exceed the free places of the target channel$' "$dir/explained"

if script -qec true /dev/null </dev/null >"$dir/out" 2>"$dir/err"; then
    ./run --explain "$listing" >"$dir/explained"
    stage "a terminal and no file" typed
    stage "--explain on a terminal and no file" typed --explain
else
    echo "a terminal: not tried, there is no script(1)"
fi

mock
stage "the first call builds" mocked 1 0
stage "what was built is played" cmp "$listing" "$dir/out"
cat >"$dir/counted" <<'END'
run: proves and builds the program, 3 crates; the first time takes minutes
run: 1 of 3 crates: ground proved
run: 2 of 3 crates: bench proved
run: 3 of 3 crates: list proved
END
stage "the crates are counted" cmp "$dir/counted" "$dir/err"
stage "the second call doesn't build" mocked 1 0
touch -t 203501010000 "$dir/mock/crates/source"
touch "$dir/mock/broken"
stage "a source has changed and can't be built" mocked 2 1
stage "nothing is printed then" test ! -s "$dir/out"
stage "nor is the old program played later" mocked 3 1

if [ -x target/second/gen ]; then
    for seed in 1 2 3 4 5 6; do
        target/second/gen "$seed" 300 >"$dir/seed"
        stage "the explained list of seed $seed" explains "$dir/seed"
    done
fi
told
