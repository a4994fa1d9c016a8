#!/usr/bin/env python3
"""Spells the repository's own definitions, lemmas and record fields in snake case, as Rattle's library does.

usage: python3 tools/respell.py          at the top of the repository, once, right after the kit's port.py
       python3 tools/respell.py --list   prints each name, old and new, and changes nothing

A name is one that a file of specs/ or proofs/ declares, or a field or constructor there. Types, records, facts and modules begin with a
capital and keep it; what is spelled fromBits, bits-filled or bitOf-lt becomes from_bits, bits_filled or bit_of_lt. A lemma that would then
have the name of a definition gets _lem. Names of src/, of Rattle's own making (invariant-.., decreases-..) and of other libraries stay.
"""

import glob
import os
import re
import sys

NAME = r"[^\s(){}\[\];,.\"«»|`]+"
TOKEN = re.compile(NAME)
DECLARED = re.compile(r"^\s*((?:unfoldable |abbrev |pub )*)((?:record|data|ruleset) )?((?:abbrev |pub )*)(" + NAME + r")((?:\s|\().*)?$")
MADE = ("invariant-", "decreases-", "ghost-")
KEYWORDS = {"use", "mod", "module", "unfolding", "infixl", "infixr", "infix", "mutual", "open", "let", "in", "elim", "λ", "→", "×", "=", ":", "where", "deriving", "axiom"}
# Lemmas that port.py spelled anew and that would fall together with a definition: file, name, new name.
TOGETHER = [
    ("crates/pair_spec/specs/ReceivingLaws.antt", "held_word", "held_word_lem"),
    ("crates/rows_core/specs/RowWordLaws.antt", "row_block", "row_block_lem"),
]


def code_of(line, mark):
    """Splits a line into code and comment."""
    i = 0
    while True:
        i = line.find(mark, i)
        if i < 0:
            return line, ""
        if i == 0 or line[i - 1].isspace():
            return line[:i], line[i:]
        i += 1


def snake(name):
    name = re.sub(r"([a-z0-9])([A-Z])", lambda m: m[1] + "_" + m[2].lower(), name) if name[0].islower() else name
    return name.replace("-", "_")


def antt_files():
    for part in ("specs", "proofs"):
        yield from sorted(glob.glob(f"crates/*/{part}/**/*.antt", recursive=True))


def declared(path):
    """The names that a file declares, with fields and constructors."""
    with open(path, encoding="utf-8") as f:
        lines = f.read().split("\n")
    for i, line in enumerate(lines):
        m = DECLARED.match(code_of(line, "--")[0].rstrip())
        if not m or m[4] in KEYWORDS:
            continue
        rest = (m[5] or "").strip()
        # a signature's colon stands outside parentheses
        bare = rest
        while True:
            less = re.sub(r"\([^()]*\)|\{[^{}]*\}", "", bare)
            if less == bare:
                break
            bare = less
        if m[2] or re.match(r"^\S*(\s+\S+)*?\s*:\s|^:\s|^:$", bare.strip() + " ") and not bare.strip().startswith("="):
            # several names before one colon: fields
            yield m[4]
            if not m[2] and not bare.startswith(":"):
                for it in bare.split(":")[0].split():
                    yield it


def spelled():
    names = set()
    for path in antt_files():
        names |= set(declared(path))
    names = sorted(it for it in names if not it.startswith(MADE) and re.search(r"\w", it) and "◌" not in it)
    others = {}
    for it in names:
        others.setdefault(snake(it), []).append(it)
    out = {}
    for it in names:
        new = snake(it)
        # A lemma that would have its definition's name: lemmas have dashes, and of two lemmas the one with no capital gives way.
        if len(others[new]) > 1 and "-" in it and (it == it.lower() or any("-" not in o for o in others[new])):
            new += "_lem"
        if new != it:
            out[it] = new
    return out


def turn_code(text, table):
    return TOKEN.sub(lambda m: table.get(m[0], m[0]), text)


def turn_comment(text, table):
    text = re.sub(r"`[^`]*`", lambda m: turn_code(m[0], table), text)
    camel = {a: b for a, b in table.items() if re.match(r"[a-z]+[a-z0-9]*[A-Z]", a)}
    return TOKEN.sub(lambda m: camel.get(m[0].rstrip(":"), m[0]) if not m[0].endswith(":") else camel.get(m[0][:-1], m[0][:-1]) + ":", text)


def turn(path, table, mark):
    with open(path, encoding="utf-8") as f:
        text = f.read()
    for where, old, name in TOGETHER:
        if where == path:
            text = TOKEN.sub(lambda m: name if m[0] == old else m[0], text)
    out = []
    for line in text.split("\n"):
        if mark == "//":
            # (a comment mark inside a string, as in a path)
            parts = re.split(r'("(?:[^"\\]|\\.)*")', line) if '"' in line else [line]
            if len(parts) > 1:
                out.append("".join(p if p.startswith('"') else turn_code(p, table) for p in parts))
                continue
        code, comment = code_of(line, mark)
        out.append(turn_code(code, table) + turn_comment(comment, table))
    new = "\n".join(out)
    if new != text:
        with open(path, "w", encoding="utf-8") as f:
            f.write(new)


def main(argv):
    table = spelled()
    if argv == ["--list"]:
        for a, b in sorted(table.items()):
            print(f"{a}\t{b}")
        return 0
    if argv or not os.path.isdir("crates"):
        print(__doc__)
        return 2
    for path in antt_files():
        turn(path, table, "--")
    for path in sorted(glob.glob("crates/*/src/**/*.rt", recursive=True)):
        turn(path, table, "//")
    return 0


if __name__ == "__main__":
    raise SystemExit(main(sys.argv[1:]))
