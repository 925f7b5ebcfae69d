#!/usr/bin/env python3
"""A second assembler, written from docs/LANGUAGE.md with regular expressions.

It shares nothing with the proved one. As a program it holds the proved
`assemble` to it on random texts, good and bad:

    python3 peers/assembler.py crates/assemble/out/assemble 20000
"""
import random
import re
import subprocess
import sys

CODES = {"add": 0, "sub": 1, "mul": 2, "div": 3, "floor": 4, "abs": 5, "sqrt": 6, "cmov": 8}
TOKEN = re.compile(rb"([A-Za-z][A-Za-z0-9_]*)|(\$[0-9]*)|([0-9]+)|([,:])")
NUMBER = re.compile(rb"0|[1-9][0-9]*")


class Refused(Exception):
    pass


def number(digits, most):
    if not NUMBER.fullmatch(digits) or int(digits) > most:
        raise Refused(21)
    return int(digits)


def tokens(line):
    """The tokens of a line as (kind, bytes)."""
    found = []
    at = 0
    while at < len(line):
        if line[at] in b" \t":
            at += 1
            continue
        if line[at:at + 1] == b";":
            break
        m = TOKEN.match(line, at)
        if not m:
            raise Refused(21)
        kind = "nrd,"[m.lastindex - 1]
        if kind == "n" and len(m.group()) > 16:
            raise Refused(21)
        found.append((kind, m.group()))
        at = m.end()
    return found


def operand(token):
    kind, text = token
    if kind == "r":
        return ("r", number(text[1:], 31))
    if kind == "d":
        return ("d", number(text, 65535))
    if kind == "n":
        return ("l", text)
    raise Refused(21)


def parse(line):
    """A label or None, and an instruction or None."""
    ts = tokens(line)
    label = None
    if len(ts) >= 2 and ts[0][0] == "n" and ts[1][1] == b":":
        label = ts[0][1]
        ts = ts[2:]
    if not ts:
        return label, None
    if ts[0][0] != "n":
        raise Refused(21)
    name = ts[0][1].decode()
    rest = ts[1:]
    if rest and len(rest) % 2 == 0 or any(t[1] != b"," for t in rest[1::2]):
        raise Refused(21)
    ops = [operand(t) for t in rest[0::2]]
    kinds = "".join(o[0] for o in ops)
    values = [o[1] for o in ops]
    forms = {"add": "rrr", "sub": "rrr", "mul": "rrr", "div": "rrr", "cmov": "rrr",
             "floor": "rr", "abs": "rr", "sqrt": "rr",
             "bltz": "rl", "loop": "l", "setx": "d", "done": "", "nop": ""}
    if forms.get(name) != kinds:
        raise Refused(21)
    if name in CODES and values[0] < 16:
        raise Refused(21)
    return label, (name, values)


def word(code, target):
    name, v = code
    if name == "nop":
        return 0
    if name == "done":
        return 0xA0000
    if name == "setx":
        return 0xE0000 | v[0]
    if name == "loop":
        return 0xF0000 | target
    if name == "bltz":
        return 0xD0000 | target >> 7 << 12 | v[0] << 7 | target & 127
    b = v[2] if len(v) == 3 else 0
    return CODES[name] << 16 | v[0] - 16 << 12 | v[1] << 7 | b << 2


def assemble(text, room_words=2048, room_labels=2048):
    """('words', [..]) or ('refused', number, line)."""
    if len(text) > 65535:
        return ("refused", 20, 0)
    labels = {}
    codes = []
    for n, line in enumerate(text.split(b"\n"), 1):
        try:
            label, code = parse(line)
        except Refused:
            return ("refused", 21, n)
        if label is not None and label in labels:
            return ("refused", 22, n)
        if code and len(codes) == room_words or label is not None and len(labels) == room_labels:
            return ("refused", 23, n)
        if label is not None:
            labels[label] = len(codes)
        if code:
            codes.append((n, code))
    words = []
    for n, code in codes:
        target = 0
        if code[0] in ("bltz", "loop"):
            target = labels.get(code[1][-1], 2048)
            if target > 2047:
                return ("refused", 24, n)
        words.append(word(code, target))
    return ("words", words)


def shown(result):
    if result[0] == "words":
        return b"".join(b"%05x\n" % w for w in result[1]), 0
    return b"refused %d at line %d\n" % result[1:], 1


def random_line(r, names):
    space = lambda: r.choice(["", "", " ", "  ", "\t", " \t "])
    reg = lambda: "$" + str(r.choice([0, 1, 2, 3, 9, 15, 16, 17, 24, 31]))
    dest = lambda: "$" + str(r.choice([16, 17, 18, 23, 31]))
    name = r.choice(list(CODES) + ["bltz", "loop", "setx", "done", "nop"])
    if name in ("floor", "abs", "sqrt"):
        ops = [dest(), reg()]
    elif name in CODES:
        ops = [dest(), reg(), reg()]
    elif name == "bltz":
        ops = [reg(), r.choice(names)]
    elif name == "loop":
        ops = [r.choice(names)]
    elif name == "setx":
        ops = [str(r.choice([0, 1, 9, 10, 65535, r.randrange(65536)]))]
    else:
        ops = []
    s = space()
    if r.random() < 0.3:
        s += r.choice(names) + space() + ":" + space()
    if r.random() < 0.85:
        s += name
        if ops:
            s += (" " if ops[0][0] != "$" else space()) + space()
            s += (space() + "," + space()).join(ops)
    s += space()
    if r.random() < 0.2:
        s += ";" + "".join(chr(r.choice([0, 9, 13, 32, 58, 59, 65, 127])) for _ in range(r.randrange(6)))
    return s.encode()


def damaged(r, text):
    text = bytearray(text)
    for _ in range(r.choice([0, 0, 1, 1, 2, 5])):
        if not text:
            break
        at = r.randrange(len(text))
        what = r.randrange(4)
        if what == 0:
            text[at] = r.choice([0, 9, 10, 13, 32, 36, 44, 48, 57, 58, 59, 65, 95, 97, 122, 255])
        elif what == 1:
            del text[at]
        elif what == 2:
            text.insert(at, r.choice(b"$,:;_ 0a\t\n"))
        else:
            text[at:at] = text[at:at + r.randrange(8)]
    return bytes(text)


def random_text(r):
    names = ["L%d" % i for i in range(r.choice([1, 3, 12, 40]))] + ["add", "a_b", "Z" * 16, "z9"]
    if r.random() < 0.02:
        names.append("y" * 17)
    lines = [random_line(r, names) for _ in range(r.choice([0, 1, 2, 5, 20, 60]))]
    if r.random() < 0.6:
        used = set()
        kept = []
        for line in lines:
            head = line.split(b":")[0].strip()
            if b":" in line.split(b";")[0] and head in used:
                line = line.split(b":", 1)[1]
            else:
                used.add(head)
            kept.append(line)
        lines = kept + [b"%s:" % n.encode() for n in names if n.encode() not in used and len(n) <= 16]
    text = b"\n".join(lines)
    if r.random() < 0.5:
        text += b"\n"
    return damaged(r, text)


def long_texts():
    yield b"nop\n" * 2048
    yield b"nop\n" * 2049
    yield b"".join(b"l%d:\n" % i for i in range(2048))
    yield b"".join(b"l%d:\n" % i for i in range(2049))
    yield b"nop\n" * 2047 + b"last: loop last\n"
    yield b"nop\n" * 2048 + b"far:"
    yield b"loop far\n" + b"nop\n" * 2047 + b"far:"
    yield b";" * 65535
    yield b";" * 65536
    yield b"\n" * 65535
    yield b""


def main():
    binary, count = sys.argv[1], int(sys.argv[2])
    r = random.Random(1)
    tally = {}
    texts = list(long_texts()) + [random_text(r) for _ in range(count)]
    for text in texts:
        result = assemble(text)
        key = result[0] if result[0] == "words" else result[1]
        tally[key] = tally.get(key, 0) + 1
        out, status = shown(result)
        run = subprocess.run([binary], input=text, stdout=subprocess.PIPE, stderr=subprocess.DEVNULL)
        if run.stdout != out or (run.returncode != 0) != (status != 0):
            print("differs on", repr(text)[:400], "\npeer ", out[:80], "\nprogram", run.stdout[:80], run.returncode)
            sys.exit(1)
    print("equal on", len(texts), "texts:", " ".join("%s %d" % (k, tally[k]) for k in sorted(tally, key=str)))


if __name__ == "__main__":
    main()
