#!/usr/bin/env python3
"""Writes the repository's own definitions and lemmas in snake case: goesOn -> goes_on, next-or-end -> next_or_end.

usage: python3 tools/snake_names.py        at the top of the repository, once, after the kit's port.py

It takes each name that a file of specs/ or proofs/ defines (a definition, lemma, field, constructor or case), and not
the answers and invariants, whose names the check makes. It turns whole words, in .antt files and in the clauses and
'ghost use' lines of .rt files, outside comments. It stops, and writes nothing, where two names would fall together.
"""
import glob
import re
import sys

DEFINES = re.compile(r"^\s*(?:abbrev |unfoldable )?(?:pub )?(?:abbrev )?([^\s:(){};.,λ\"]+)\s+:(?!:)\s*(.*)", re.M)
MADE = re.compile(r"^goal\.")
WORD = "[\\w'′-]"
# A lemma that would have the name of a definition or of a function gets an ending; a definition may have its function's name.
LEMMAS = {"count-in", "label-name", "lanes-agree", "nine-bits", "one-step", "worked-programs"}
DEFINITIONS = {"goesOn", "operandsOf", "rootPattern", "wholePattern"}


def snake(name):
    if name in LEMMAS:
        return name.replace("-", "_") + "_lem"
    parts = re.sub(r"(?<=[a-z0-9])([A-Z])(?=[a-z]|$|[A-Z])", lambda m: "_" + m[1].lower(), name)
    return parts.replace("-", "_")


def is_ours(name):
    return name[0].islower() and re.fullmatch(r"[\w'′-]+", name) and ("-" in name or re.search(r"[a-z0-9][A-Z]", name))


def code(line, mark):
    at = line.find(mark)
    return (line, "") if at < 0 else (line[:at], line[at:])


def main():
    antt = sorted(glob.glob("crates/*/specs/**/*.antt", recursive=True) + glob.glob("crates/*/proofs/**/*.antt", recursive=True))
    rust = sorted(glob.glob("crates/*/src/**/*.rt", recursive=True))
    names, made, words = {}, set(), set()
    for path in antt:
        text = open(path, encoding="utf-8").read()
        bare = "\n".join(code(line, "-- ")[0] for line in text.split("\n"))
        words.update(re.findall(WORD + "+", bare))
        for m in DEFINES.finditer(bare):
            name, kind = m[1], m[2]
            if not is_ours(name):
                continue
            if MADE.match(kind):
                made.add(name)
            else:
                names.setdefault(name, path)
    names = {n: p for n, p in names.items() if n not in made}
    bad = False
    seen = {}
    for name in sorted(names):
        new = snake(name)
        if (new in words and name not in DEFINITIONS) or new in seen:
            print(f"falls together: {name} -> {new} ({names[name]}; {seen.get(new, 'a word in use')})")
            bad = True
        seen[new] = name
    if bad:
        return 1
    table = {n: snake(n) for n in names}
    pattern = re.compile("(?<!" + WORD[:-1] + "])(" + "|".join(sorted(map(re.escape, table), key=len, reverse=True)) + ")(?!" + WORD + ")")
    for path in antt:
        lines = open(path, encoding="utf-8").read().split("\n")
        out = []
        for line in lines:
            a, b = code(line, "-- ")
            out.append(pattern.sub(lambda m: table[m[1]], a) + b)
        write(path, lines, out)
    for path in rust:
        lines = open(path, encoding="utf-8").read().split("\n")
        out, depth, inside = [], 0, False
        for line in lines:
            a, b = code(line, "//")
            if not inside and re.match(r"\s*(pub )?(ghost|requires\*?|ensures\*?)\b", a):
                inside = True
                depth = 0
            if inside:
                a = pattern.sub(lambda m: table[m[1]], a)
                depth += a.count("{") - a.count("}")
                if depth <= 0:
                    inside = False
            out.append(a + b)
        write(path, lines, out)
    for n in sorted(table):
        print(f"{n}\t{table[n]}")
    return 0


def write(path, old, new):
    if old != new:
        open(path, "w", encoding="utf-8").write("\n".join(new))


if __name__ == "__main__":
    sys.exit(main())
