#!/bin/sh
# docs/PROMISES.md beside the sources: every function that can be called from outside its crate, a method or a conversion too, stands on one
# of its two lists, entries and inner functions, and has one `ensures` that cites the row's definitions, of a conversion its `from_gives` or
# `try_from_gives`, no `requires`, a determinacy lemma over its own promise that sees every buffer lent to be written, and two wrong programs.
# An entry that refuses has the theorem that a refusal leaves all; an inner function is called by the crates that its row names, and no page
# offers it. What the archive exports is each entry for C, with its clauses and its parameters, word for word, and nothing else. The sentences
# of the demands are all there. Every definition, lemma, must-fail edit, path in the code and test function that a page names exists, what
# DECISIONS says a decision is pinned by is defined in the crate beside it, and the line counts of READING are those of the files.
set -u
dir=target/promises
mkdir -p "$dir" || exit 1
passed=0
failed=0

# check NAME FILE: passes if FILE is empty; else its lines say what is wrong.
check() {
    if [ -s "$2" ]; then
        echo "promises: $1:"
        cat "$2"
        failed=$((failed + 1))
    else
        passed=$((passed + 1))
    fi
}

# Of each `pub fn`, from its head to the line that opens its body, and of each conversion: file, name with its type before it, what it is
# (free, of a type, of a type with a self, or a conversion), where its proof's reading stands, how many ensures, requires and `&mut`, and
# its `ensures` to the end. A conversion's is what it says that it gives.
heads() {
    for file in crates/*/src/*.rt; do
        awk -v file="$file" '
            BEGIN { place = file; sub(/.*\//, "", place); sub(/\.rt$/, "", place); place = place == "lib" ? "" : place "." }
            /^impl[ <]/ {
                type = $0; sub(/^impl(<[^<>]*>)? /, "", type); gives = ""; laws = 0; law = ""
                if (type ~ /^(Try)?From</) {
                    gives = type ~ /^Try/ ? "try_from" : "from"; from = type
                    sub(/^(Try)?From</, "", from); sub(/[<>].*/, "", from); sub(/^.* for /, "", type)
                }
                sub(/[< ].*/, "", type)
            }
            /^}/ { type = ""; gives = "" }
            gives != "" && $0 ~ "^ *ghost " gives "_gives = [{].*[}];$" { laws++; law = law $0 }
            /^ *pub (extern "C" )?fn / || (gives != "" && $0 ~ "^ *fn " gives "[(]") {
                on = 1; name = $0; sub(/^ *(pub (extern "C" )?)?fn /, "", name); sub(/[<(].*/, "", name)
                e = gives == "" ? 0 : laws; r = 0; m = 0; says = gives == "" ? "" : law; whole = ""
            }
            on && /^ *ensures[ *]/ { e++ }
            on && /^ *requires[ *]/ { r++ }
            on && e && gives == "" && !/^ *\{ *$/ { says = says $0 }
            on { whole = whole $0; text = $0; m += gsub(/&(.[a-z]+ )?mut /, "", text) }
            on && /\{ *$/ {
                on = 0; reads = name; what = "free"
                if (type != "") { reads = type "." name; what = whole ~ /\( *(&(.[a-z]+ )?)?(mut )?self *[,)]/ ? "self" : "of" }
                if (gives != "") { reads = toupper(substr(type, 1, 1)) substr(type, 2) (gives == "from" ? "From" : "TryFrom") from "." name; what = "conversion" }
                print file, (type == "" ? name : type "::" name), what, place reads, e, r, m, says
            }
        ' "$file"
    done
}

# The functions of a source file, one to a line, of those heads.
functions() {
    awk -v file="$1" '$1 == file { print $2 }' "$dir/heads"
}

# uses FILE: what its `use`s name, pub and ghost ones too, a path to a line behind the words before it: `use a::{b, c};` is `use a::b` and
# `use a::c`.
uses() {
    awk '
        /^ *(pub |ghost )*use / { on = 1; text = "" }
        on { text = text $0 " " }
        on && /;/ {
            on = 0; gsub(/[ \t]+/, " ", text); sub(/^ /, "", text); sub(/ *; *$/, "", text)
            from = index(text, "{")
            if (!from) { print text; next }
            head = substr(text, 1, from - 1); body = substr(text, from + 1); sub(/ *}$/, "", body)
            count = split(body, part, /, */)
            for (k = 1; k <= count; k++) { gsub(/^ | $/, "", part[k]); if (part[k] != "") print head part[k] }
        }
    ' "$1"
}

# What a crate opens to others: crate, module, item or * for each item of the module, and the path before it.
opened() {
    for lib in crates/*/src/lib.rt; do
        crate=${lib#crates/}
        crate=${crate%%/*}
        echo "$crate lib * $crate"
        sed -n "s/^pub mod \([a-z_]*\);\$/$crate \1 * $crate::\1/p" "$lib"
        uses "$lib" | sed -n "s/^pub use \([a-z_]*\)::\([A-Za-z0-9_]*\)\$/$crate \1 \2 $crate/p"
    done
}

# The types that are `pub`: crate, module, name.
types() {
    for file in crates/*/src/*.rt; do
        crate=${file#crates/}
        sed -n -E "s/^pub (struct|enum) ([A-Za-z0-9]+).*/${crate%%/*} $(basename "$file" .rt) \2/p" "$file"
    done
}

# Public: the path, file and name of each `pub fn` that lib.rt, a module that it opens with `pub mod`, or a `pub use` of it gives to others;
# of each method of a type that is so given; and of each conversion, at the type that it gives. A method of a type without such a path has -.
# Any other way to make a function public is not understood, and says so.
public() {
    awk -v opened="$dir/opened" -v types="$dir/types" '
        FILENAME == opened { n++; crate[n] = $1; module[n] = $2; item[n] = $3; before[n] = $4; next }
        FILENAME == types { where[$1 " " $3] = where[$1 " " $3] " " $2; next }
        {
            split($1, part, "/"); c = part[2]; m = part[4]; sub(/\.rt$/, "", m); thing = $2; sub(/::.*/, "", thing)
            if ($3 == "conversion") { print c "::" $2, $1, $2; next }
            if ($3 == "free") { count = 1; place[1] = m } else count = split(where[c " " thing], place, " ")
            found = 0
            for (k = 1; k <= count; k++) for (j = 1; j <= n; j++)
                if (crate[j] == c && module[j] == place[k] && (item[j] == "*" || item[j] == thing)) { print before[j] "::" $2, $1, $2; found = 1 }
            if (!found && $3 != "free") print "-", $1, $2
        }
    ' "$dir/opened" "$dir/types" "$dir/heads" | sort
}

strange() {
    for file in crates/*/src/*.rt; do
        uses "$file" | sed -n 's/^pub use /pub use /p' | while read -r line; do
            module=${line#pub use }
            case "$file" in
                */src/lib.rt)
                    printf '%s\n' "$line" | grep -vE '^pub use [a-z_]+::[A-Za-z0-9_]+$' | sed "s|^|$file: |"
                    [ -f "$(dirname "$file")/${module%%::*}.rt" ] || echo "$file: $line"
                    ;;
                *) echo "$file: $line" ;;
            esac
        done
    done
    grep -HnE '^ *pub mod ' crates/*/src/*.rt | grep -vE 'src/lib\.rt:[0-9]+:pub mod [a-z_]+;$'
    # what else is `pub`: a type, another's type under its own name, or a field; a function for C only as an export, which stands in a
    # private module of boundary_c
    grep -HnE '^ *pub ' crates/*/src/*.rt | grep -vE ':[0-9]+: *pub (fn |mod |use |struct |enum |type |[a-z0-9_]+: )' |
        grep -vE '^crates/boundary_c/src/[a-z]+\.rt:[0-9]+:pub extern "C" fn '
    grep -HnE '^ *pub type ' crates/*/src/*.rt | grep -v '^[^:]*:[0-9]*:pub type \([A-Za-z0-9]*\) = [a-z_]*::\1[<;]'
    # a block of methods or one of the two conversions stands in a line of its own; no other trait is met but by these derives, and one that
    # the crate keeps to itself
    grep -HnE '^ *(pub(\([a-z]+\))? )?(unsafe )?(impl|trait)[ <]|macro_rules|export_name|#\[path|^ *(pub(\([a-z]+\))? )?mod [a-z_]+ *\{' crates/*/src/*.rt |
        grep -vE ':[0-9]+:impl(<[^<>]*>)? ((Try)?From<[^<>]*> for )?[A-Za-z0-9]+(<[^<>]*>)? \{$|:[0-9]+:(pub\(crate\) )?trait [A-Za-z0-9]+(: Copy)? \{$' |
        while read -r line; do
            trait=$(printf '%s\n' "$line" | sed -n 's/^[^:]*:[0-9]*:impl \([A-Za-z0-9]*\) for [A-Za-z0-9]* {$/\1/p')
            [ -n "$trait" ] && cat "${line%%/src/*}"/src/*.rt | grep -qE "^(pub\(crate\) )?trait $trait(: Copy)? \{\$" || printf '%s\n' "$line"
        done
    grep -HnE 'derive' crates/*/src/*.rt | grep -vE ':[0-9]+:#\[derive\((Clone|Copy|PartialEq|Eq)(, (Clone|Copy|PartialEq|Eq))*\)\]$'
    # a type goes by the name that it is declared by, or by a `pub type` of it: by no private name, and not in angles before a call
    grep -HnE '^type |^ +type [A-Za-z0-9]+(<[^=]*>)? = [a-z_]+::|<[A-Za-z0-9_:]+>::' crates/*/src/*.rt
    # which conversion an `into` is only its types say; `B::from` says it
    grep -HnE '\.(try_)?into\(' crates/*/src/*.rt
    sed -n 's/^- \([^ ]*\) \(.*\)/\1: \2 is public, and its type is not/p' "$dir/public"
    grep -HnE 'no_mangle' crates/*/src/*.rt | grep -vE '^crates/boundary_c/src/[a-z]+\.rt:[0-9]+:#\[unsafe\(no_mangle\)\]$'
    grep -HnE '^ *pub mod ' crates/boundary_c/src/lib.rt
    find crates/*/src -mindepth 2 -name '*.rt'
}

# rows SECTION: the rows of that section's tables of functions.
rows() {
    awk -v section="## $1" '/^## / { at = $0 } at == section && /^\| `[a-z_]+::/' docs/PROMISES.md
}

# row_of FUNCTION: its row.
row_of() {
    grep -F "| \`$1\` |" docs/PROMISES.md
}

# The first cell of each row, without its quotes.
named() {
    sed 's/^| `\([^`]*\)`.*/\1/' | sort
}

# head_of FUNCTION: its line of the heads.
head_of() {
    awk -v path="$1" 'NR == FNR { if ($1 == path) of[$2 " " $3]; next } ($1 " " $2) in of' "$dir/public" "$dir/heads"
}

# lemma_of FUNCTION: the statement of the lemma that its row says it is determined by. It stands in no module, or right in one that asks for
# types and what each type has, which the library says, and for nothing else; in a file without comments over lines.
lemma_of() {
    cell=$(row_of "$1" | awk -F ' [|] ' '{ print $4 }' | tr -d '`')
    name=${cell#*/}
    file=crates/${cell%%/*}/proofs/${name%%.*}.antt
    grep -qE '[{]-|^ *((abbrev|unfoldable|pub|record|data) )*(RattleType|Laws|IsCopy|Ghosts|Dict)( |$)' "$file" 2> /dev/null && return
    cat "$file" 2> /dev/null | awk -v lemma="pub ${name#*.} :" '
        /^[^ -]/ { inside = 0 }
        /^(pub )?module( |$)/ { head = 1; asked = "" }
        head {
            asked = asked " " $0
            if ($0 ~ /(^| )where *$/) {
                head = 0; gsub(/ +/, " ", asked); sub(/^ module _/, "", asked); sub(/ where *$/, "", asked)
                gsub(/ \(([A-Z]+ )+: (RattleType|Laws [A-Z]|IsCopy [A-Z]|Ghosts [A-Z]\.Denot|Dict)\)/, "", asked)
                inside = asked == ""
            }
            next
        }
        index($0, lemma) == 1 || (inside && index($0, "  " lemma) == 1)
    '
}

# over FUNCTION READS: its lemma's statement stands over that function's own promise, by the name under which the lemma's file has its reading.
over() {
    file=$(row_of "$1" | awk -F ' [|] ' '{ print $4 }' | sed -n 's|^`\([^/`]*\)/\([A-Za-z]*\)\..*|crates/\1/proofs/\2.antt|p')
    reading=$(lemma_of "$1" | sed -n 's/.*[ (]\([a-z0-9-]*\)\.Post.*/\1/p')
    [ -f "$file" ] && grep -qxF "use Rattle.${1%%::*}.proofs.$2.Reads as $reading" "$file"
}

# Functions without one promise, with something asked of the caller, whose lemma is of another function or sees fewer buffers than are lent to
# be written, whose wrong programs stand in a file that does not have their promise, or whose promise does not cite the definitions of their
# row, which it has from where the row says, or is no equation; of a row that says "written out" it is an equation with a record.
unpromised() {
    while read -r function; do
        head_of "$function" > "$dir/head"
        [ "$(wc -l < "$dir/head")" -eq 1 ] || echo "$function: $(wc -l < "$dir/head") heads"
        seen=$(lemma_of "$function" | grep -oE '[^A-Za-z0-9_.]s(\.[0-9]+)+\.now' | wc -l)
        awk -v of="$function" -v seen="$seen" '
            $5 != 1 || $6 != 0 { print of ": " $5 " ensures, " $6 " requires" }
            $7 != seen + 0 { print of ": " $7 " buffers lent to be written, the lemma sees " seen }
            $0 !~ /≡/ { print of ": no equation" }
        ' "$dir/head"
        reads=$(cut -d ' ' -f 4 "$dir/head")
        over "$function" "$reads" || echo "$function: its lemma is not over its promise"
        for file in $(row_of "$function" | grep -oE '`[a-z0-9_]+/(Wrong[A-Za-z]*|Echoes)\.' | tr -d '`.' | sort -u); do
            grep -q "^use Rattle.${function%%::*}.proofs.$reads.Reads as " "crates/${file%%/*}/proofs/${file#*/}.antt" 2> /dev/null ||
                echo "$function: $file does not read its promise"
        done
        cut -d ' ' -f 8- "$dir/head" > "$dir/says"
        uses "$(cut -d ' ' -f 1 "$dir/head")" > "$dir/ghosts"
        cell=$(row_of "$function" | awk -F ' [|] ' '{ print $3 }')
        case "$cell" in *'written out'*) grep -qF '{ result ≡ record { ' "$dir/says" || echo "$function: its promise is not written out" ;; esac
        for definition in $(printf '%s\n' "$cell" | grep -oE '`[^`]+`' | tr -d '`'); do
            name=${definition#*/}
            case "$definition" in
                */*) from=Rattle.${definition%%/*}.specs.${name%%.*}.${name#*.} ;;
                *) from=Rattle.std.specs.Prelude.$name ;; # the library's
            esac
            grep -qE "[^A-Za-z0-9_]${name#*.}[^A-Za-z0-9_]" "$dir/says" && grep -qxF "ghost use $from" "$dir/ghosts" ||
                echo "$function: its promise does not cite $definition"
        done
    done < "$dir/paths"
}

# lacking SECTION WRONG: rows of seven cells that lack a definition, a lemma or a second wrong program, which is named in the cell WRONG by
# the lemma or the edit that shuts it out. In the place of a definition "written out" stands where the clause gives each part of a record.
lacking() {
    rows "$1" | awk -F ' [|] ' -v wrong="$2" '
        { entry = $1; sub(/^[|] /, "", entry) }
        NF != 7 { print entry ": " NF " cells"; next }
        $3 !~ /^(`|written out)/ { print entry ": no definition" }
        $4 !~ /^`[a-z0-9_]+\/[A-Z][A-Za-z]*\.[a-z0-9_]+_determined`$/ { print entry ": no determinacy lemma" }
        {
            split("", shut); count = 0; text = $wrong
            while (match(text, /`([a-z0-9_]+\/(Wrong[A-Za-z]*|Echoes)\.[^` ]+|([a-z_]+\/)?[A-Za-z0-9_]+\.edit)`/)) {
                if (!(substr(text, RSTART, RLENGTH) in shut)) count++
                shut[substr(text, RSTART, RLENGTH)]; text = substr(text, RSTART + RLENGTH)
            }
        }
        count < 2 { print entry ": " count " wrong programs with a lemma or an edit" }
    '
}

# Entries without a demand, or without the theorem that a refusal leaves all, in the one form; an entry may say that it is lent nothing to
# write, if it is so, and the runner, which gives each record's refusal in its line, and the version that they refuse nothing.
leaving() {
    rows Entries | while IFS= read -r row; do
        function=$(printf '%s\n' "$row" | named)
        cell=$(printf '%s\n' "$row" | awk -F ' [|] ' '{ print $5 }')
        printf '%s\n' "$row" | grep -qE ' \| 1(, [23])* \|$' || echo "$function: no demand"
        case "$cell" in
            'lent nothing to write') head_of "$function" | awk '$7 != 0 { print $2 ": is lent " $7 " to write" }' ;;
            'refuses nothing') case "$function" in *run | *version) ;; *) echo "$function: refuses nothing?" ;; esac ;;
            *)
                theorem=$(printf '%s\n' "$cell" | tr -d '`')
                rest=${theorem#*/}
                grep -qE "^ *(pub )?${rest#*.} : RefusalLeaves " "crates/${theorem%%/*}/proofs/${rest%%.*}.antt" 2> /dev/null ||
                    echo "$function: $theorem is not the theorem that a refusal leaves all"
                ;;
        esac
    done
}

# What the functions of the sources say, but for comments, attributes, clauses and `use`s; and what each source uses: crate and file before
# each line.
code() {
    for file in crates/*/src/*.rt; do
        crate=${file#crates/}
        awk -v at="${crate%%/*} $file" '
            /^ *(pub |ghost )*use / { on = 1 }
            !on && !/^ *(ensures|requires)[ *]/ && !/^ *ghost / && !/^ *#!?\[.*\] *$/ { sub(/\/\/.*/, ""); if ($0 ~ /[^ ]/) print at, $0 }
            on && /;/ { on = 0 }
        ' "$file"
    done
}

used() {
    for file in crates/*/src/*.rt; do
        crate=${file#crates/}
        uses "$file" | sed -n "s|^use |${crate%%/*} $file |p"
    done
}

# The `pub type`s, of another's type under its own name: crate, file, type with its path.
renamed() {
    sed -n 's/^\([^ ]*\) \([^ ]*\) pub type [A-Za-z0-9]* = \([a-z_:]*::[A-Za-z0-9]*\).*/\1 \2 \3/p' "$dir/code"
}

# Where another's type is at hand by its own name, by a `use` of it, of the crate's `pub type` or of another crate's: crate, file, type with
# its path.
at_hand() {
    awk '$3 ~ /::[A-Z][A-Za-z0-9]*$/ && $3 !~ /^crate::/' "$dir/used"
    renamed | while read -r crate file type; do
        echo "$crate $file $type"
        awk -v crate="$crate" -v type="$type" -v named="crate::${type##*::}" '$1 == crate && $3 == named { print $1, $2, type }' "$dir/used"
        awk -v type="$type" -v named="$crate::${type##*::}" '$3 == named { print $1, $2, type }' "$dir/used"
    done
}

# received TYPE NAME: the crates that call that method, one with a ? behind it where the type of what stands before the dot is not known: it has
# to be a word that is declared as `word: TYPE` in that file, or, behind a dot, the name of a public field of that type. So a call of another
# type's method of the name is known too, or told.
received() {
    {
        sed -nE "s/^[^ ]+ [^ ]+ +pub ([a-z0-9_]+): $1[,<].*/.\1/p" "$dir/code"
        awk -v type="$1" '{
            text = $0; while (match(text, "[a-z0-9_]+: (&(mut )?)?([a-z0-9_]+::)*" type "[^A-Za-z0-9_:]")) {
                word = substr(text, RSTART, RLENGTH); sub(/:.*/, "", word); print $2, word; text = substr(text, RSTART + RLENGTH - 1)
            }
        }' "$dir/code"
    } | sort -u > "$dir/receivers"
    awk -v call="$2" '
        FNR == NR { of[$0]; next }
        {
            text = $0; while (match(text, "[.]" call "[(]")) {
                word = substr(text, 1, RSTART - 1); text = substr(text, RSTART + RLENGTH)
                sub(/.*[^a-z0-9_.]/, "", word); field = word; sub(/.*[.]/, ".", field)
                print (field in of || ($2 " " word) in of) ? $1 : $1 "?"
            }
        }
    ' "$dir/receivers" "$dir/others"
}

# callers FUNCTION: the other crates that call it: by its path; a free one by that of its module, or by its name where they use it; one of a
# type behind the type's name, where that is at hand, as that of a number is everywhere; one with a self behind a dot and what has its type.
callers() {
    crate=${1%%::*}
    path=${1%::*}
    module=${path##*::}
    name=${1##*::}
    what=$(head_of "$1" | cut -d ' ' -f 3)
    awk -v crate="$crate" '$1 != crate' "$dir/code" > "$dir/others"
    {
        { echo "$path"; renamed | awk -v type="$path" '$3 == type { sub(/.*::/, "", type); print $1 "::" type; type = $3 }'; } | sort -u | while read -r before; do
            grep -E "[^A-Za-z0-9_:]$before::$name([^A-Za-z0-9_]|\$)" "$dir/others" | cut -d ' ' -f 1
        done
        case "$what" in
            free)
                awk -v whole="$1" -v path="$path" '$3 == whole || $3 == path { print $1, $2, $3 }' "$dir/used" | while read -r other file used; do
                    called="$module::$name"
                    [ "$used" = "$path" ] || called=$name
                    grep -F "$other $file " "$dir/others" | grep -qE "[^A-Za-z0-9_:.]$called\(|[(,] *$called[,)]" && echo "$other"
                done
                ;;
            *)
                case "$module" in
                    [A-Z]*) awk -v type="$path" '$3 == type { print $1, $2 }' "$dir/at_hand" ;;
                    *) cut -d ' ' -f 1,2 "$dir/others" | sort -u ;;
                esac | while read -r other file; do
                    grep -F "$other $file " "$dir/others" | grep -qE "[^A-Za-z0-9_:]$module::$name([^A-Za-z0-9_]|\$)" && echo "$other"
                done
                ;;
        esac
        [ "$what" != self ] || received "$module" "$name"
    } | sort -u | paste -sd, | sed 's/,/, /g'
}

# Inner functions whose row names other callers than they have, or no reason; one that no other crate calls should be private.
called() {
    rows 'Inner functions' | while IFS= read -r row; do
        function=$(printf '%s\n' "$row" | named)
        real=$(callers "$function")
        [ -n "$real" ] || echo "$function: no other crate calls it"
        printf '%s\n' "$row" | awk -F ' [|] ' -v of="$function" -v real="$real" '
            $6 != real { print of ": called by " real ", not by " $6 }
            length($7) < 10 { print of ": no reason" }
        '
    done
}

# signature FILE FUNCTION: parameters, answer and clauses of that `pub fn`, in one line, however it is laid out.
signature() {
    awk -v name="$2" '
        /^pub (extern "C" )?fn / { sub(/^pub (extern "C" )?fn /, ""); rest = $0; sub(/[<(].*/, "", rest); on = rest == name; text = "" }
        on && /^\{ *$/ { exit }
        on { text = text " " $0 }
        END { gsub(/[ \t]+/, " ", text); gsub(/\( /, "(", text); gsub(/,? \)/, ")", text); print text }
    ' "$1"
}

# body FILE FUNCTION: its body, in one line.
body() {
    awk -v name="$2" '
        /^pub (extern "C" )?fn / { sub(/^pub (extern "C" )?fn /, ""); sub(/[<(].*/, ""); on = $0 == name; open = 0; text = "" }
        on && open && /^}/ { exit }
        on && open { text = text " " $0 }
        on && /^\{ *$/ { open = 1 }
        END { gsub(/[ \t]+/, " ", text); gsub(/\( /, "(", text); gsub(/,? \)/, ")", text); sub(/^ /, "", text); print text }
    ' "$1"
}

# Exports of the archive, which are all `pub extern "C" fn`s of boundary_c, that are not entries of boundary word for word: the same module,
# name, parameters, answer and clauses, each word of a clause from the same place, and a body that hands all to the entry; and entries of
# boundary that are no export. Also a row of the table for C whose function is none.
exported() {
    grep -c . "$dir/exports" | grep -qx 0 && echo "no exports"
    rows Entries | named | sed -n 's/^boundary::/boundary_c::/p' | sort | comm -3 - "$dir/exports" | sed 's/^\t*/not both a row and an export: /'
    sed -n 's/^boundary::/boundary_c::/p' "$dir/paths" | comm -3 - "$dir/exports" | sed 's/^\t*/not both an entry and an export: /'
    while IFS= read -r export; do
        path=${export#*::}
        file=${path%%::*}.rt
        name=${path##*::}
        [ -f "crates/boundary/src/$file" ] || continue
        promised=$(signature "crates/boundary/src/$file" "$name")
        [ -n "$promised" ] && [ "$(signature "crates/boundary_c/src/$file" "$name")" = "$promised" ] ||
            echo "$export: not word for word what boundary::$path promises"
        given=$(printf '%s\n' "$promised" | sed 's/^[^(]*(\([^)]*\)).*/\1/' | tr ',' '\n' | sed -n 's/^ *\([a-z0-9_]*\):.*/\1/p' | paste -sd, | sed 's/,/, /g')
        [ "$(body "crates/boundary_c/src/$file" "$name")" = "boundary::$path($given)" ] || echo "$export: does not call boundary::$path with what it is handed"
    done < "$dir/exports"
    for file in crates/boundary_c/src/*.rt; do
        [ "$(grep -c '^#\[unsafe(no_mangle)\]$' "$file")" = "$(grep -c '^pub extern "C" fn ' "$file")" ] || echo "$file: functions that are no exports"
        uses "$file" | sed -n '/^ghost use /p' | sort > "$dir/words"
        uses "crates/boundary/src/$(basename "$file")" 2> /dev/null | sed -n '/^ghost use /p' | sort | comm -23 "$dir/words" - | sed "s|^|$file: not so in boundary: |"
    done
}

# Inner functions that a page which tells what to use names.
offered() {
    rows 'Inner functions' | named | while read -r function; do
        grep -HnF "$function" README.md include/*.h examples/* docs/BOXES.md docs/READING.md docs/PERFORMANCE.md second/README.md
    done
}

# The sentences that the table quotes, in order, are the demands at the head of the page.
sentences() {
    sed -n 's/^> [123]\. //p' docs/PROMISES.md | tr '\n' ' ' > "$dir/demands"
    awk '/^## / { at = $0 } at == "## Sentence by sentence"' docs/PROMISES.md |
        sed -n 's/^| [123]: "\(.*\)" |.*/\1/p' | tr '\n' ' ' > "$dir/quoted"
    cmp -s "$dir/demands" "$dir/quoted" || diff "$dir/demands" "$dir/quoted"
}

# defines WORD FILE...: one of the files declares it: a definition, lemma, field or constructor, before its colon or parameters; of a source
# a type or a function.
defines() {
    word=$1
    shift
    awk -v word="$word" '
        /^ *--/ { next }
        {
            n = 1; while ($n ~ /^(unfoldable|abbrev|pub|record|data|enum|struct|type|fn|const)$/) n++
            if (FILENAME ~ /\.rt$/) {
                name = $n; sub(/[^A-Za-z0-9_].*/, "", name)
                if (n > 1 && name == word && $(n - 1) ~ /^(enum|struct|type|fn|const)$/) hit = 1
                next
            }
            for (k = n; k <= NF && $k !~ /^[:({]/ && $k != "="; k++);
            if (k > NF || $k == "=") next
            for (k--; k >= n; k--) if ($k == word) hit = 1
        }
        END { exit !hit }
    ' "$@"
}

# Names in backquotes: crate/File.name is defined in that crate's specs/ or proofs/; [crate/]name.edit is a must-fail edit, of the row's
# own crate if none is named; crate::path is a public function, or a module, type or function that the crate has; file.txt:name is a corner
# of that file in second/corners/; a name after `second` or `boundary` is a function of those tests.
names() {
    grep -noE '`[a-z0-9_]+/[A-Z][A-Za-z0-9]*\.[^` ]+`' "$1" | while IFS=: read -r line name; do
        name=$(printf '%s\n' "$name" | tr -d '`')
        [ -f "$name" ] && continue # docs/PAGE.md
        crate=${name%%/*}
        rest=${name#*/}
        file=${rest%%.*}
        word=${rest#*.}
        found=0
        for place in crates/"$crate"/specs/"$file".antt crates/"$crate"/proofs/"$file".antt; do
            [ -f "$place" ] && defines "$word" "$place" && found=1
        done
        [ "$found" -eq 1 ] || echo "$1:$line: $name"
    done
    awk '/^\| `[a-z_]+::/ { crate = $2; gsub(/`/, "", crate); sub(/::.*/, "", crate) }
        { text = $0; while (match(text, /`[a-z_]*\/?[A-Za-z0-9_]+\.edit`/)) {
            name = substr(text, RSTART + 1, RLENGTH - 2); text = substr(text, RSTART + RLENGTH)
            if (name !~ /\//) name = crate "/" name
            print FNR, name } }' "$1" | while read -r line name; do
        [ -f "crates/${name%%/*}/must-fail/${name#*/}" ] || echo "$1:$line: $name"
    done
    grep -noE '`[a-z_]+(::[A-Za-z0-9_]+)+`' "$1" | tr -d '`' | while IFS=: read -r line path; do
        crate=${path%%:*}
        word=${path##*:}
        [ -d "crates/$crate/src" ] || continue
        grep -qxF "$path" "$dir/paths" || grep -qxF "$path" "$dir/exports" || [ -f "crates/$crate/src/$word.rt" ] || echo "$1:$line: $path"
    done
    grep -noE '`[a-z]+\.txt:[a-z0-9-]+`' "$1" | tr -d '`' | while IFS=: read -r line file name; do
        grep -qx "corner $name" "second/corners/$file" || echo "$1:$line: $file:$name"
    done
    grep -noE '(second|boundary) `[a-z_]+`(, `[a-z_]+`)*' "$1" | while IFS=: read -r line tests; do
        for name in $(printf '%s\n' "$tests" | grep -oE '`[a-z_]+`' | tr -d '`'); do
            grep -qE "^[a-z].* \**$name\(" second/tests/*.c tests/boundary/*.c || echo "$1:$line: $tests"
        done
    done
}

# "Pinned by" in DECISIONS: the names in backquotes before a (crate) are defined in its specs/, proofs/ or src/.
pinned() {
    awk -F ' [|] ' '/^\| [0-9]+ \|/ {
        text = $NF; waiting = 0
        while (match(text, /`[A-Za-z][A-Za-z0-9_]*`|\([a-z0-9_]+\)/)) {
            part = substr(text, RSTART + 1, RLENGTH - 2); closes = substr(text, RSTART, 1) == "("; text = substr(text, RSTART + RLENGTH)
            if (!closes) { waiting++; name[waiting] = part; continue }
            for (k = 1; k <= waiting; k++) print FNR, name[k], part
            waiting = 0
        }
        for (k = 1; k <= waiting; k++) print FNR, name[k], "no-crate"
    }' docs/DECISIONS.md | while read -r line name crate; do
        files=$(ls crates/"$crate"/specs/*.antt crates/"$crate"/proofs/*.antt crates/"$crate"/src/*.rt 2> /dev/null)
        { [ -n "$files" ] && defines "$name" $files; } ||
            echo "docs/DECISIONS.md:$line: $name ($crate)"
    done
}

# Rows of READING that begin with a file and its lines.
counts() {
    sed -n 's/^| `\([^`]*\)` | \([0-9,]*\) |.*/\1 \2/p' docs/READING.md | while read -r file lines; do
        lines=$(printf '%s\n' "$lines" | tr -d ,)
        real=$([ -f "$file" ] && wc -l < "$file" | tr -d ' ')
        [ "$lines" = "$real" ] || echo "$file: ${real:-no} lines, not $lines"
    done
}

heads > "$dir/heads"
opened > "$dir/opened"
types > "$dir/types"
public > "$dir/public"
sed -n 's/^\([^ -][^ ]*\) .*/\1/p' "$dir/public" | sort > "$dir/paths"
code > "$dir/code"
used > "$dir/used"
at_hand > "$dir/at_hand"
strange > "$dir/strange"
check "ways to be public that this test does not understand" "$dir/strange"
{ rows Entries; rows 'Inner functions'; } | named > "$dir/rows"
comm -23 "$dir/paths" "$dir/rows" > "$dir/missing"
check "public functions on no list" "$dir/missing"
comm -13 "$dir/paths" "$dir/rows" | uniq > "$dir/extra"
uniq -d "$dir/rows" >> "$dir/extra"
check "rows without a public function, or twice" "$dir/extra"
unpromised > "$dir/unpromised"
check "functions without one ensures, with a requires, with another's lemmas or a buffer that they do not see, or with another definition" "$dir/unpromised"
{ lacking Entries 6; lacking 'Inner functions' 5; } > "$dir/lacking"
check "rows that lack something" "$dir/lacking"
leaving > "$dir/leaving"
check "entries without a demand, or of which nothing says that a refusal leaves all" "$dir/leaving"
called > "$dir/called"
check "inner functions and who calls them" "$dir/called"
offered > "$dir/offered"
check "inner functions that a page offers" "$dir/offered"
for file in crates/boundary_c/src/*.rt; do
    functions "$file" | sed "s|.*|boundary_c::$(basename "$file" .rt)::&|"
done | sort > "$dir/exports"
exported > "$dir/exported"
check "exports of the archive that are no entries, word for word" "$dir/exported"
sentences > "$dir/sentences"
check "the demands, and the sentences in the table" "$dir/sentences"
for page in docs/PROMISES.md docs/READING.md docs/TRACE.md docs/DECISIONS.md docs/MAP.md docs/BOXES.md docs/CHECKS.md docs/PERFORMANCE.md README.md; do
    names "$page" > "$dir/names"
    check "names that don't exist" "$dir/names"
done
pinned > "$dir/pinned"
check "pinned by what does not exist" "$dir/pinned"
counts > "$dir/counts"
check "line counts" "$dir/counts"
echo "$passed passed, $failed failed"
[ "$failed" -eq 0 ]
