# Reads mutants.txt and writes each changed file to DIR/NAME/FILE.
# Prints "NAME FILE SEEN" for each. Variables: source, dir.

function trim(text) {
    sub(/^[ \t]+/, "", text)
    sub(/[ \t]+$/, "", text)
    return text
}

function fail(text) {
    print name ": " text > "/dev/stderr"
    failed = 1
}

function read_source(path,    line) {
    lines = 0
    while ((getline line < path) > 0) {
        lines++
        plain[lines] = line
    }
    close(path)
}

# True if the old lines stand in the source from line `at` on.
function stands_at(at,    n) {
    for (n = 1; n <= olds; n++) {
        if (trim(plain[at + n - 1]) != old[n]) {
            return 0
        }
    }
    return at + olds - 1 <= lines
}

function write_mutant(at,    n, path) {
    system("mkdir -p " dir "/" name)
    path = dir "/" name "/" file
    for (n = 1; n <= lines; n++) {
        if (n == at) {
            print replacement > path
            n += olds - 1
        } else {
            print plain[n] > path
        }
    }
    close(path)
    print name, file, seen
}

function finish(    n, at, found) {
    if (name == "") {
        return
    }
    read_source(source "/" file)
    for (n = 1; n <= lines; n++) {
        if (stands_at(n)) {
            at = n
            found++
        }
    }
    if (olds == 0 || found != 1) {
        fail("the old lines stand " found + 0 " times in " file)
    } else if (seen != "lists" && seen != "tests" && seen != "neither") {
        fail("seen is none of lists, tests, neither")
    } else {
        write_mutant(at)
    }
}

$1 == "mutant" {
    finish()
    name = $2
    if (name in names) {
        fail("twice")
    }
    names[name] = 1
    file = ""
    seen = ""
    olds = 0
    replacement = ""
}
$1 == "file" { file = $2 }
$1 == "seen" { seen = $2 }
$1 == "old" { old[++olds] = trim(substr($0, 4)) }
$1 == "new" { replacement = replacement trim(substr($0, 4)) "\n" }
END {
    finish()
    exit failed
}
