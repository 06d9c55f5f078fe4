#!/usr/bin/env python3
"""Brings the repository's own names in specs/, proofs/ and clauses to today's spelling: words in snake case.

usage: tools/respell.py        at the top of the repository, once, after the toolchain's own script

It renames definitions, lemmas, fields and constructors of crates/*/specs and crates/*/proofs, and the few
local names below, wherever a file of these folders or a clause of src/ writes them: a dash or a capital inside
a name becomes `_`, and a folder of lemmas gets a capital. A dash stays where it joins two functions, as in
`has-take`. Names of Rust code, of goals and of the library stay as they are. A name that would fall together
with another is reported, and nothing is written.
"""
import glob
import os
import re
import sys

# modules of lemmas, which are spelled like types
MODULES = {"protocol": ["keeps", "led", "parts", "shown", "worked"]}
IDENT = r"[A-Za-z_][\w'\-≡≢≤<∷ℕ]*"
TOKEN = re.compile(r"(?<![\w'\-≡≢≤<∷ℕ])" + IDENT)
DEFINED = re.compile(r"^\s*(?:(?:pub|abbrev|unfoldable) )*(?:(?:data|record) (?=" + IDENT + r")|(?=" + IDENT + r" :))(" + IDENT + r")")
# a dash that joins the names of two functions
JOINED = {"below-drop", "below-take", "distinct-take", "has-append", "has-take", "feeds-append"}
# names that a proof gives to a value of its own
LOCAL = """at-close at-m at-q but-lead but-own follows-i follows-j follows-p in-it' in-mask in-ring is-n is-t
low-hid low-names no-f no-form none-k none-n not-here not-waits open-too same-form small-c small-t sound-lead
sound-p sound-q to-new weighs-i weighs-j yes-f yes-more zero-here as-hidden""".split()
# names that would fall together with a function of src/ or of the library
OTHER = {
    "nameFault": "fault_of_name",
    "noNumber": "is_no_number",
    "next-number": "next_number_is",
    "place-within": "place_is_within",
    "threeNumbers": "three_numerals",
    "bit-or": "has-bit_or",
}


def respelled(name):
    """Returns a name with its words joined by `_`; a name of a type keeps its capital."""
    if name in OTHER:
        return OTHER[name]
    head, tail = name[0], name[1:]
    if head.isupper():
        return head + tail.replace("-", "_")
    return head + re.sub(r"(?<=[a-z0-9])([A-Z])", lambda m: "_" + m.group(1).lower(), tail).replace("-", "_")


def clauses(text):
    """Returns the spans of a source file that hold ghost text: imports, clauses and ghost members."""
    spans = []
    for m in re.finditer(r"^[ \t]*(?:pub )?(?:ghost use [^;]*;|(?:ghost|requires|ensures)\b[^{;\n]*\{)", text, re.M):
        end = m.end()
        if text[end - 1] == "{":
            depth = 1
            while depth:
                depth += {"{": 1, "}": -1}.get(text[end], 0)
                end += 1
        spans.append((m.start(), end))
    return spans


def aligned(text):
    """Returns a file with the glossary of its head in columns again: `--   word   meaning`."""
    lines = text.splitlines(True)
    at = 0
    while at < len(lines):
        end, entries = at, []
        while end < len(lines) and re.match(r"--   ", lines[end]):
            entry = re.match(r"--   (\S+)( +)(\S.*\n)", lines[end])
            more = re.match(r"-- {6,}(\S.*\n)", lines[end])
            entries.append(("", more.group(1)) if more else (entry.group(1), entry.group(3)) if entry else None)
            end += 1
        if entries and None not in entries and entries[0][0]:
            width = max(len(word) for word, _ in entries) + 3
            lines[at:end] = ["--   " + word.ljust(width) + meaning for word, meaning in entries]
        at = max(end, at + 1)
    return "".join(lines)


def main():
    proofs = sorted(glob.glob("crates/*/specs/**/*.antt", recursive=True) + glob.glob("crates/*/proofs/**/*.antt", recursive=True))
    sources = sorted(glob.glob("crates/*/src/**/*.rt", recursive=True))
    texts = {path: open(path, encoding="utf-8").read() for path in proofs + sources}
    seen, names = set(), set(LOCAL)
    for path in proofs:
        for line in texts[path].splitlines():
            seen |= set(TOKEN.findall(line.split("-- ")[0]))
            m = DEFINED.match(line)
            if m and not re.match(r"\s*(--|use |pub mod |mod |module |where)", line) and "goal." not in line:
                names.add(m.group(1))
    names = {n for n in names if n not in JOINED and respelled(n) != n}
    made = {}
    for name in sorted(names):
        made.setdefault(respelled(name), []).append(name)
    together = [(new, olds) for new, olds in made.items() if len(olds) > 1 or new in seen]
    if together:
        for new, olds in together:
            print("falls together:", new, *olds)
        return 1
    table = {name: respelled(name) for name in names}
    turn = lambda m: table.get(m.group(0), m.group(0))
    changed = 0
    for path, text in texts.items():
        if path.endswith(".rt"):
            new, at = "", 0
            for start, end in clauses(text):
                new += text[at:start] + TOKEN.sub(turn, text[start:end])
                at = end
            new += text[at:]
        else:
            new = "".join(line if line.lstrip().startswith("--") and not line.lstrip().startswith("--   ") else TOKEN.sub(turn, line) for line in text.splitlines(True))
            new = aligned(new) if new != text else new
        if new != text:
            open(path, "w", encoding="utf-8").write(new)
            changed += 1
    for crate, modules in MODULES.items():
        folder = f"crates/{crate}/proofs"
        if not os.path.isdir(folder):
            continue
        for name in modules:
            os.rename(f"{folder}/{name}", f"{folder}/{name.capitalize()}")
            os.rename(f"{folder}/{name}.antt", f"{folder}/{name.capitalize()}.antt")
        for path in glob.glob(f"{folder}/**/*.antt", recursive=True):
            text = open(path, encoding="utf-8").read()
            new = re.sub(r"(?<=proofs\.)(?:%s)(?=\.)" % "|".join(modules), lambda m: m.group(0).capitalize(), text)
            if path == f"{folder}/Lib.antt":
                new = re.sub(r"(?<=^mod )(?:%s)$" % "|".join(modules), lambda m: m.group(0).capitalize(), new, flags=re.M)
            if new != text:
                open(path, "w", encoding="utf-8").write(new)
    print(f"{len(table)} names respelled, {changed} files changed")
    return 0


if __name__ == "__main__":
    sys.exit(main())
