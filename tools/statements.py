#!/usr/bin/env python3
"""Compares what two states of the repository define and state, wherever it stands in specs/ and proofs/.

usage: python3 tools/statements.py OLD NEW      folders with crates/, in the same spelling
       python3 tools/statements.py --list CRATE FILE      prints what crates/CRATE/proofs/FILE.antt states, for a page

Of a definition (abbrev, unfoldable, record, data, ruleset, or a number, a list, a test, a word or a type by any other word) the whole text
counts, of a theorem its signature, with the parameters of the modules around it. Each one of OLD's specs/ must stand in NEW under its name,
in a file of the same name, and be public if it was. Prints those that do not, then the theorems with another proof, and the counts. It does
not read imports, nor which files a Lib.antt declares: that everything is checked is the prover's to say.
"""

import glob
import os
import re
import sys

TOKEN = re.compile(r"[^\s(){}\[\];,.\"«»|`]+")
HEAD = re.compile(r"^((?:unfoldable |abbrev |pub )*)(?:(record|data|ruleset|module)\s+)?((?:abbrev |pub )*)([^\s(){}:]+)")
# What a declaration's signature ends with that is a value and no theorem.
VALUE = re.compile(r"(ℕ|ℤ|Bool|Word|List|Type)\b[^≡≢<≤⊥]*$")
# Renamed by hand after tools/respell.py.
LATER = {"S1In": "S1_in", "S3In": "S3_in", "S1Checks": "S1_checks", "S3Checks": "S3_checks", "·_shiftA": "·_shift_a"}


class Node:
    """A declaration, or a module with what is in it."""

    def __init__(self, lines, kind, name, kids=None, head=None, is_pub=False):
        self.lines, self.kind, self.name, self.kids, self.head, self.is_pub, self.path = lines, kind, name, kids, head, is_pub, ()


def code(line):
    m = re.search(r"(^|\s)--", line)
    return line[: m.start()] if m else line


def depth(line):
    return len(line) - len(line.lstrip())


def is_clause(line, name):
    """Whether the line goes on with the declaration of this name: a clause of it."""
    if "◌" in name:
        parts = [p for p in name.split("◌") if p]
        return "=" in line and not line.startswith(("use", "pub", "unfoldable", "abbrev")) and all(f" {p} " in f" {line} " for p in parts)
    m = TOKEN.match(line)
    return bool(m) and m[0] == name and not line[len(name) :].lstrip().startswith(":")


def end_of(lines, i, ind):
    """The index behind the block that line i begins."""
    j = i + 1
    while j < len(lines) and (not lines[j].strip() or depth(lines[j]) > ind or lines[j].strip()[0] in ")]}"):
        j += 1
    while j > i + 1 and not lines[j - 1].strip():
        j -= 1
    return j


def parse(lines, ind=0):
    nodes, i = [], 0
    while i < len(lines):
        s = lines[i].strip()
        if not s or s.startswith("--"):
            i += 1
            continue
        j = end_of(lines, i, ind)
        m = HEAD.match(s)
        kind, name = m[2] or "", m[4]
        if re.match(r"(pub )?(use|mod) |infix|open ", s):
            i = j
            continue
        if kind == "module":
            h = 1
            while not lines[i + h - 1].rstrip().endswith("where"):
                h += 1
            body = lines[i + h : j]
            inner = min((depth(b) for b in body if b.strip()), default=ind + 2)
            nodes.append(Node([], kind, name, parse(body, inner), lines[i : i + h]))
            i = j
            continue
        while j < len(lines):
            k = j
            while k < len(lines) and not lines[k].strip():
                k += 1
            if k == len(lines) or depth(lines[k]) != ind:
                break
            q = lines[k].strip()
            if not (k == j and q.startswith("unfolding ") or is_clause(q, name)):
                break
            j = end_of(lines, k, ind)
        words = (m[1] + m[3]).split()
        kind = kind or ("unfoldable" if "unfoldable" in words else "abbrev" if "abbrev" in words else "theorem")
        nodes.append(Node(lines[i:j], kind, name, is_pub="pub" in words))
        i = j
    return nodes


def leaves(nodes, path=()):
    for n in nodes:
        if n.kids is not None:
            yield from leaves(n.kids, path + (n,))
        else:
            n.path = path
            yield n


def read(path):
    with open(path, encoding="utf-8") as f:
        return parse(f.read().rstrip("\n").split("\n"))


def later(text):
    return TOKEN.sub(lambda m: LATER.get(m[0], m[0]), text)


def signature(n):
    out = []
    for i, line in enumerate(n.lines):
        if i and depth(line) <= depth(n.lines[0]) and code(line).strip():
            break
        out.append(code(line).rstrip())
    return [line for line in out if line]


def statement(n):
    """Its lines that count."""
    if n.kind == "theorem":
        head = signature(n)
        if not VALUE.match(re.split(r"[→:]\s", " ".join(head))[-1].strip()):
            return head
    return [code(line).rstrip() for line in n.lines if code(line).strip()]


def flat(lines):
    text = re.sub(r"\s+", " ", " ".join(line.strip() for line in lines))
    return later(re.sub(r"^(unfoldable |abbrev |pub )+", "", text))


def everything(root, parts):
    out = {}
    for part in parts:
        for path in sorted(glob.glob(f"{root}/crates/*/{part}/*.antt")):
            file = os.path.basename(path)[:-5]
            if file == "Lib":
                continue
            for n in leaves(read(path)):
                around = tuple(flat(p.head) for p in n.path)
                whole = flat([code(line) for line in n.lines])
                out.setdefault(later(n.name), []).append((file, around, flat(statement(n)), whole, n.is_pub, os.path.relpath(path, root)))
    return out


def compare(old, new):
    was, now = everything(old, ["specs"]), everything(new, ["specs", "proofs"])
    same, lost, bodies = 0, [], []
    for name, found in was.items():
        for *key, whole, is_pub, path in found:
            there = [it for it in now.get(name, []) if list(it[:3]) == key and it[4] >= is_pub]
            if not there:
                lost.append(f"{path}: {name}: {key[2][:300]}")
                continue
            same += 1
            if all(it[3] != whole for it in there):
                bodies.append(f"another proof: {there[0][5]}: {name}")
    print("\n".join(lost + bodies + [f"{same} stand as they were, {len(lost)} do not; {len(bodies)} have another proof"]))
    return 1 if lost else 0


def listed(nodes):
    out = []
    for n in nodes:
        if n.kids is not None:
            inner = listed(n.kids)
            out += (n.head + inner) if inner else []
        else:
            out += statement(n)
    return out


def main(argv):
    if len(argv) == 3 and argv[0] == "--list":
        print("\n".join(listed(read(f"crates/{argv[1]}/proofs/{argv[2]}.antt"))))
        return 0
    if len(argv) == 2:
        return compare(*argv)
    print(__doc__)
    return 2


if __name__ == "__main__":
    raise SystemExit(main(sys.argv[1:]))
