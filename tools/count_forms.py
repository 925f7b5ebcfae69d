#!/usr/bin/env python3
"""Lists the places in crates/*/src that may be written in an older form than Rattle has today.

usage: python3 tools/count_forms.py [COMMIT]        at the top of the repository; without COMMIT, the files as they are

It reads the sources as text. A row is a place to look at, not a verdict: docs/DESIGN-PASS.md says what became of each.
"""
import collections
import itertools
import re
import subprocess
import sys

KEYWORDS = set("fn let mut pub crate match if else for in while return impl struct enum self Self use const as where move".split())


def run(*words):
    return subprocess.run(words, capture_output=True, text=True, check=True).stdout


def sources(commit, ending, part):
    names = run("git", "ls-tree", "-r", "--name-only", commit) if commit else run("git", "ls-files")
    for name in names.splitlines():
        if re.fullmatch(r"crates/[^/]+/%s/.*\.%s" % (part, ending), name):
            yield name, run("git", "show", commit + ":" + name) if commit else open(name).read()


def block(text, start):
    """The text from a place to the end of the first block of braces behind it that is no clause."""
    depth, i = 0, start
    while i < len(text):
        depth += {"(": 1, "[": 1, ")": -1, "]": -1}.get(text[i], 0)
        if depth == 0 and text[i] == ";":
            return text[start:i]
        if text[i] == "{":
            clause = depth == 0 and re.search(r"(requires|ensures|ghost)\b[^{}\n]*$", text[start:i])
            end = matching(text, i)
            if not clause:
                return text[start:end]
            i = end
            continue
        i += 1
    return text[start:]


def matching(text, i):
    depth = 0
    while i < len(text):
        depth += {"{": 1, "}": -1}.get(text[i], 0)
        i += 1
        if depth == 0:
            break
    return i


def functions(files):
    for name, text in files:
        for m in re.finditer(r"^ *(?:#\[test\]\n *)?(?:pub(?:\(crate\))? )?(?:extern \"C\" )?fn ([a-z_0-9]+)", text, re.M):
            whole = block(text, m.start(1))
            clauses = re.findall(r"(requires|ensures)[^{\n]*(\{(?:[^{}]|\{[^{}]*\})*\})", whole)
            plain = re.sub(r"(requires|ensures)[^{\n]*\{(?:[^{}]|\{[^{}]*\})*\}", "", whole)
            parameters = re.search(r"\(([^()]*(?:\([^()]*\)[^()]*)*)\)", plain)
            body = plain[plain.find("{"):] if "{" in plain else ""
            line = text.count("\n", 0, m.start(1)) + 1
            yield name + ":%d" % line, m.group(1), parameters.group(1) if parameters else "", body, clauses


def shape(body):
    words = re.findall(r"[A-Za-z_][A-Za-z_0-9]*|[0-9][0-9a-zA-Z_]*|\S", re.sub(r"//.*", "", body))
    return " ".join(w if w in KEYWORDS or not w[0].isalnum() else "_" for w in words)


def show(title, rows):
    rows = list(rows)
    print("%s: %d" % (title, len(rows)))
    for row in rows:
        print("   ", row)


def grep(files, pattern):
    for name, text in files:
        for m in re.finditer(pattern, text, re.M):
            yield "%s:%d %s" % (name, text.count("\n", 0, m.start()) + 1, m.group(0).strip())


def twins(found):
    groups = collections.defaultdict(list)
    for place, name, parameters, body, _ in found:
        form = shape(body)
        if form.count(" ") >= 8:
            groups[form].append(name + " (" + place.removeprefix("crates/") + ")")
    return [", ".join(g) for g in groups.values() if len(g) > 1]


def index_loops(found):
    for place, name, _, body, _ in found:
        for m in re.finditer(r"\bfor ([a-z_]+) in [^\n]*\.\.[^\n]*\{", body):
            inside = body[m.start():matching(body, m.end() - 1)]
            if re.search(r"\[[^\]]*\b%s\b[^\]]*\]" % m.group(1), inside):
                yield "%s %s: for %s" % (place, name, m.group(1))
        if re.search(r"\bwhile\b", body):
            yield "%s %s: while" % (place, name)


def searches(found):
    for place, name, _, body, _ in found:
        if re.search(r"\bfor [^\n]*\{\s*if [^\n]*\{\s*return ", body) or body.count("else if") >= 3:
            yield "%s %s" % (place, name)


def conversions(found):
    for place, name, parameters, body, _ in found:
        arms = re.findall(r"=> ([A-Za-z0-9_:\"' ]+|\([0-9a-z, ]+\)),", body)
        if re.match(r"\{\s*(let \([a-z, ]+\) = )?match ", body) and len(arms) >= 2 and name not in ("fmt", "from", "try_from"):
            yield "%s %s" % (place, name)


def facts(found):
    count = collections.defaultdict(set)
    for place, name, _, _, clauses in found:
        for kind, clause in clauses:
            if kind == "requires":
                for fact in re.split(r"×", clause[1:-1]):
                    count[re.sub(r"[()]", "", fact).strip()].add(name)
    return ["%s: %s" % (f, ", ".join(sorted(n))) for f, n in sorted(count.items()) if len(n) >= 3]


def together(found):
    count = collections.Counter()
    for _, _, parameters, _, _ in found:
        words = [re.sub(r"&'a ", "&", p.strip()) for p in parameters.replace("\n", " ").split(",")]
        words = [w for w in words if ": " in w and not w.startswith("rt:")]
        count.update(itertools.combinations(words, 2))
    return ["%s, %s: %d functions" % (a, b, n) for (a, b), n in count.most_common() if n >= 3]


def main():
    commit = sys.argv[1] if len(sys.argv) > 1 else ""
    files = list(sources(commit, "rt", "src"))
    found = list(functions(files))
    show("1. own enums", grep(files, r"^ *(?:pub(?:\(crate\))? )?enum [A-Za-z]+"))
    show("1. an option in an option", grep(files, r"Option<Option<.*"))
    show("1. numbers for refusals, codes and kinds", grep(files, r"\b(?:number|code|kind): u(?:8|16|32)\b"))
    show("2. functions of one shape", twins(found))
    show("2. types of one name", [n for n, c in collections.Counter(
        re.findall(r"^ *(?:pub(?:\(crate\))? )?(?:struct|enum) (\w+)", "\n".join(t for _, t in files), re.M)).items() if c > 1])
    show("3. index loops and whiles", index_loops(found))
    show("4. conversions by one match", conversions(found))
    show("5. facts required three times or more", facts(found))
    show("5. parameters that three functions or more share", together(found))
    show("6. searches by hand", searches(found))
    show("6. triples and pairs of numbers in signatures", grep(files, r"\(usize, usize(?:, usize)?\)"))
    show("7. functions over an own enum without fields", grep(files, r"fn .*: (?:Pass|Rule|Run|Layer|Mnemonic|Class)\b.*"))
    answers = collections.Counter()
    lines = collections.Counter()
    for name, text in sources(commit, "antt", "proofs"):
        lines[name.split("/")[1]] += text.count("\n")
        answers[name.split("/")[1]] += len(re.findall(r"^pub \S+ : goal\.", text, re.M))
    show("8. answers and lines of proof", ["%s: %d answers, %d lines" % (c, answers[c], lines[c]) for c in sorted(lines)])


main()
