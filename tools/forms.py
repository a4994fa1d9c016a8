#!/usr/bin/env python3
"""Counts the places of src/ that a reader would write otherwise today.

    python3 tools/forms.py [COMMIT] [--list POINT]

Without a commit it reads the files as they stand. docs/DESIGN-PASS.md says what each point is.
"""
import re
import subprocess
import sys


def run(*args):
    return subprocess.run(args, check=True, capture_output=True, text=True).stdout


def sources(commit):
    """Path and text of each .rt file."""
    if commit:
        names = run("git", "ls-tree", "-r", "--name-only", commit).split()
    else:
        names = run("git", "ls-files").split()
    for name in names:
        if re.fullmatch(r"crates/\w+/src/.*\.rt", name):
            text = run("git", "show", f"{commit}:{name}") if commit else open(name).read()
            yield name, text


def functions(text):
    """Line, comment, head and body of each function."""
    lines = text.split("\n")
    i = 0
    while i < len(lines):
        m = re.match(r"(\s*)(?:pub(?:\(crate\))? )?(?:extern \"C\" )?fn (\w+)", lines[i])
        if not m:
            i += 1
            continue
        indent = m.group(1)
        j = i
        while not lines[j].rstrip().endswith("{") or lines[j].lstrip().startswith(("requires", "ensures")):
            if lines[j] == indent + "{":
                break
            j += 1
            if j == len(lines):
                break
        if j == len(lines):
            break
        e = j + 1
        while e < len(lines) and lines[e] != indent + "}":
            e += 1
        c = i
        while c > 0 and lines[c - 1].lstrip().startswith(("//", "#[")):
            c -= 1
        yield i + 1, m.group(2), "\n".join(lines[c:i]), "\n".join(lines[i:j]), "\n".join(lines[j + 1:e])
        i = e + 1


# What the comment of a function says whose answer stands for two things.
SENTINEL = re.compile(
    r"0, or the refusal|; 0 where|answers 0|or 0 where|, or 0\b|1 where|0 otherwise|or the number of bytes|whose buffer|is the\s+// buffer's length"
)
TYPES = r"\b(?:u8|u16|u32|u64|usize|i8)\b"


def shape(name, head, body):
    """A function with its name, types and numbers taken out."""
    text = re.sub(r"\b%s\b" % name, "F", head + body)
    text = re.sub(r"\s*(?:requires|ensures)\b.*", "", text)
    text = re.sub(TYPES, "T", text)
    text = re.sub(r"\b\d\w*\b", "N", text)
    return re.sub(r"\s+", " ", text.replace("pub ", ""))


def places(commit):
    found = {p: [] for p in range(1, 9)}
    shapes = {}
    facts = {}
    for path, text in sources(commit):
        crate = path.split("/")[1]
        for n, line in enumerate(text.split("\n"), 1):
            at = f"{path}:{n}: {line.strip()}"
            if line.lstrip().startswith("//"):
                continue
            if re.search(r"enum Answer|Answer::(Done|Refused)|answer: Answer|refusal: u32|const (MISFIT|OFF_GRID|UNEQUAL)|if \w+ != 0 \{|\.refusal != 0", line):
                found[1].append(at)
            if re.search(r"\bfor (?!_ )\w+ in [^{]*\.\.|\bwhile\b", line):
                found[3].append(at)
            if re.search(r"\bas (u8|u16|u32|u64|usize)\b|[^<]>> \(?\d|% 256\b", line):
                found[4].append(at)
            if re.search(r"\w+: (usize|u32),?$|\w+: (usize|u32)\)", line) and re.search(r"\b(n|length|end): usize", line):
                found[6].append(at)
            if re.search(r"\b(h|pass) == 0\b|if encoder == 0|if subset|match pass", line):
                found[7].append(at)
            m = re.match(r"\s*requires (?:\w+ )?\{(.*)\}", line)
            if m:
                for fact in re.findall(r"length \w+\.(?:now|old) ≡ [\w* ]+|\w+\.\w+ < \d+|\w+\.now ≡ \w+|Before\w+ \w+ \w+|IsPrefixLen|\w+\.parity < 2|Tables", m.group(1)):
                    key = re.sub(r"^length \w+\.(?:now|old)", "length", fact.strip())
                    key = re.sub(r"^\w+\.", "_.", key)
                    facts.setdefault((crate, key), []).append(at)
        for n, name, comment, head, body in functions(text):
            if SENTINEL.search(comment) and re.search(r"-> (u8|u32|usize)\b", head):
                found[1].append(f"{path}:{n}: fn {name}")
            if body.strip():
                shapes.setdefault(shape(name, head, body), []).append(f"{path}:{n}: fn {name}")
        for n, name, comment, head, body in functions(text):
            if len(re.findall(r"\w+: ", head.split("requires")[0].split("ensures")[0])) > 6:
                found[5].append(f"{path}:{n}: fn {name} has more than six parameters")
    for group in shapes.values():
        if len(group) > 1:
            found[2].append(" = ".join(group))
    for (crate, fact), where in sorted(facts.items()):
        if len(where) > 2:
            found[5].append(f"{crate}: '{fact}' in {len(where)} contracts")
    if commit:
        names = run("git", "ls-tree", "-r", "--name-only", commit).split()
    else:
        names = run("git", "ls-files").split()
    found[8] = [n for n in names if n.endswith("/Proof.antt")]
    return found


def main():
    args = sys.argv[1:]
    point = None
    if "--list" in args:
        i = args.index("--list")
        point = int(args[i + 1])
        del args[i:i + 2]
    found = places(args[0] if args else None)
    if point:
        print("\n".join(found[point]))
    else:
        for p in sorted(found):
            print(f"{p}: {len(found[p])}")


if __name__ == "__main__":
    main()
