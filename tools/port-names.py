#!/usr/bin/env python3
"""Brings the names of this repository's own definitions and lemmas to the spelling of today's Rattle.

usage: python3 tools/port-names.py [--list]      once, at the top, right after port.py

Types, and functions into Type, are in upper camel case; all else that is declared in specs/ or proofs/ is in snake case. What keeps its spelling: functions,
types and fields of src/, strings, the names that Rattle makes (invariant-.., decreases-..), a dash after a fact's own name (Allowed-allows), names that a file gives
to modules (as ..), and the words of comments, but for names in camel case and names in back quotes. --list prints the names, old and new, and changes nothing.
"""

import os
import re
import sys

MARKS = r"(?:(?:pattern|unfoldable|abbrev|pub|axiom|record|data|module) )*"
SIGNATURE = re.compile(r"^( *)(" + MARKS + r")([^\s:(){}.,;|=◌]+(?: +[^\s:(){}.,;|=◌]+)*) *(?:\{[^}]*\} *)?: (.*)$")
PARAMETERS = re.compile(r"^( *)(" + MARKS + r")([^\s:(){}.,;|=◌]+) +[({].*: (.*)$")
NOT_A_NAME = ("--", "let ", "in ", "use ", "| ", "(", "λ", "elim ", "if ", "open ")
INTO_TYPE = re.compile(r"(^|→ *)Type [0-9ℓ]( where.*)?$")
HUMP = re.compile(r"(?<=[a-z0-9])(?=[A-Z])")
MADE = re.compile(r"^(invariant|decreases)-")
# the document's word for a kind of packet, which comments use as a word
WORDS = {"needI"}
# names that would fall together with another in one file: an upper layer's function says its layer, a lemma ends in _lem
OWN = {
    "allShown": "all_shown_of",
    "numbersAfter": "numbers_moved",
    "wellFormed": "is_well_formed",
    "ToConsoleOk": "ToConsoleReadOk",
    "ToControllerOk": "ToControllerReadOk",
    "consoleActs": "console_alone_acts",
    "consoleTakes": "console_alone_takes",
    "controllerActs": "controller_alone_acts",
    "controllerTakes": "controller_alone_takes",
    "consoleStep": "console_state_step",
    "controllerStep": "controller_state_step",
    "console-alone": "console_alone_on",
    "console-record": "console_record_put",
    "controller-record": "controller_record_put",
    "fresh-console": "fresh_console_state",
    "fresh-controller": "fresh_controller_state",
    "to-console": "to_console_all",
    "to-controller": "to_controller_all",
}
LEMMAS = """bench-of bytes-are calls-show console-asked console-asks console-came console-hears console-lent console-obeys console-ok console-told console-acted
console-refused console-sends controller-asked controller-asks controller-came controller-hears controller-lent controller-obeys controller-ok controller-told
controller-acted controller-refused controller-sends fresh-put head-of head-put is-old letter-of line-of line-shows line-written list-lines packet-read
packet-written played-as record-put record-read record-kept report-told with-numbers""".split()
# the same, of names that mean something else in other files: part of a file's path
HERE = {
    ("boundary/proofs/RefusalNumbers.antt", "head_at"): "head_at_lem",
    ("boundary/proofs/ConsoleTrips.antt", "is_state"): "is_state_lem",
    ("boundary/proofs/ControllerTrips.antt", "is_state"): "is_state_lem",
    ("channels/proofs/Packets.antt", "same_way"): "same_way_lem",
    ("bench/proofs/Listed.antt", "all_shown"): "all_shown_lem",
    ("rules/proofs/ControllerMoves.antt", "offered"): "IsOffered",
    ("crates/boundary/proofs/", "console-fields"): "console_fields_lem",
    ("crates/boundary/proofs/", "controller-fields"): "controller_fields_lem",
    ("ends_console/proofs/Wrong.antt", "console-fields"): "console_with_fields",
    ("ends_controller/proofs/Wrong.antt", "controller-fields"): "controller_with_fields",
}


def files(root, folders, endings):
    for folder in folders:
        for at, dirs, names in os.walk(os.path.join(root, folder)):
            dirs[:] = sorted(d for d in dirs if d not in ("out", ".git", "target"))
            for name in sorted(names):
                if name.endswith(endings):
                    yield os.path.join(at, name)


def read(path):
    with open(path, encoding="utf-8") as f:
        return f.read()


def declared(root):
    """Each name that a file of specs/ or proofs/ declares, and whether it is a type."""
    found = {}
    for path in files(root, ["crates"], (".antt",)):
        lines = read(path).split("\n")
        for k, line in enumerate(lines):
            for name in re.findall(r"(?:^|\()(?: *let|pub ruleset|ruleset) ([\w'-]+) [=:]", line):
                found[name] = found.get(name, False)
            m = re.match(r"^ *pub record ([\w'-]+) \(", line)
            if m:
                found[m[1]] = True
            if line.strip().startswith(NOT_A_NAME):
                continue
            m = SIGNATURE.match(line) or PARAMETERS.match(line)
            if not m or len(m[1]) > 12:
                continue
            text = m[4]
            for more in lines[k + 1 :]:
                if not more.startswith(m[1] + "  ") or " where" in text:
                    break
                text += " " + more.strip()
            text = re.sub(r" where\b.*$", "", text).strip()
            for name in m[3].split():
                found[name] = found.get(name, False) or bool(INTO_TYPE.search(text))
    return found


def snake(name):
    return "_".join(w.lower() for part in name.split("-") for w in HUMP.split(part) if w)


def camel(name):
    return "".join("Ok" if part == "OK" else part[:1].upper() + part[1:] for part in name.split("-"))


def respelled(name, is_type, types):
    if name in OWN or name in LEMMAS:
        return OWN.get(name) or snake(name) + "_lem"
    if name == "offered" or MADE.match(name) or not re.search(r"-|[a-z0-9][A-Z]", name) and not (is_type and name[0].islower()):
        return name
    if is_type:
        return camel(name) if "-" in name or name[0].islower() else name
    if name[0].isupper() and "-" not in name:
        return name
    head, dash, rest = name.partition("-")
    if dash and head in types and len(head) > 1:
        return head + "-" + snake(rest)
    return snake(name)


def renamings(root):
    found = declared(root)
    types = {n for n, is_type in found.items() if is_type}
    return {n: r for n, r in ((n, respelled(n, t, types)) for n, t in sorted(found.items())) if n != r}


def token(names):
    return re.compile(r"(?<![\w'-])(" + "|".join(sorted(map(re.escape, names), key=len, reverse=True)) + r")(?![\w'-])")


def turn_code(text, pattern, names):
    return pattern.sub(lambda m: names[m[1]], text)


def turn_words(text, plain, quoted, names):
    """Of a comment or a page: names in camel case, and all names in back quotes."""
    text = re.sub(r"`[^`\n]+`", lambda m: turn_code(m[0], quoted, names), text)
    return turn_code(text, plain, names)


def turn(path, text, mark, names):
    here = {old: new for (part, old), new in HERE.items() if part in path}
    modules = set(re.findall(r" as ([\w'-]+)$", text, re.M))
    names = {old: new for old, new in (names | here).items() if old not in modules}
    code = token(names)
    plain = token([n for n in names if HUMP.search(n) and "-" not in n and n not in WORDS])
    quoted = code
    lines = []
    for line in text.split("\n"):
        # a comment begins at its mark; a string holds none in this repository
        at = re.search(r"(^|\s)" + re.escape(mark) + r"( |$)", line) if mark else None
        cut = at.start() if at else len(line)
        parts = re.split(r'(b?"(?:[^"\\]|\\.)*")', line[:cut])
        lines.append("".join(p if k % 2 else turn_code(p, code, names) for k, p in enumerate(parts)) + turn_words(line[cut:], plain, quoted, names))
    return "\n".join(lines)


def main():
    root = os.getcwd()
    names = renamings(root)
    if "--list" in sys.argv[1:]:
        for old, new in sorted(names.items()):
            print(old, new)
        return
    work = [(p, "--") for p in files(root, ["crates"], (".antt",))]
    work += [(p, "//") for p in files(root, ["crates"], (".rt",))]
    work += [(p, None) for p in files(root, ["crates"], (".edit",))]
    for path, mark in work:
        text = read(path)
        new = turn(path, text, mark, names)
        if new != text:
            with open(path, "w", encoding="utf-8") as f:
                f.write(new)


main()
