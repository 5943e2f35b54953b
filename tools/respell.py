#!/usr/bin/env python3
"""Brings the repository's own definitions and lemmas to the spelling of today's library: words in snake case; a dash joins two names.

usage: python3 tools/respell.py [--map FILE]     once, at the top, right after /opt/rattle/port/port.py

Renames what specs/ and proofs/ declare (definitions, lemmas, fields of records), wherever specs/, proofs/ and the clauses and comments of
src/ name it. What src/ declares keeps its name. --map writes the old and the new names, one pair a line.
"""
import os
import re
import sys

WORD = r"A-Za-z0-9_'\-ℕℤ≡≢≤<∷+*/%^"
TOKEN = re.compile(rf"(?<![{WORD}])[A-Za-z][{WORD}]*")
DECLARED = re.compile(r"^(\s*)((?:abbrev |unfoldable |pub )*)([a-z][^\s:(){}.,;]*) :(?: |$)")
FIELD = re.compile(r"^\s+pub ([a-z][^\s:(){}.,;]*) :(?: |$)")
# Names that the library has for an operation, beside those that its Prelude passes on.
OPERATIONS = {"and", "or", "xor", "append", "sets", "add", "sub", "mul", "div", "mod"}
KIT_PRELUDE = "/opt/rattle/rattle/std/specs/Prelude.antt"


def texts(root):
    for folder, dirs, files in os.walk(os.path.join(root, "crates")):
        dirs[:] = sorted(d for d in dirs if d != "out")
        for name in sorted(files):
            if name.endswith((".rt", ".antt")):
                yield os.path.join(folder, name)


def of_function(path):
    return os.path.basename(path) in ("Proof.antt", "Answers.antt", "Invariants.antt")


def snake(name):
    return re.sub(r"(?<=[a-z0-9'])([A-Z])", lambda m: "_" + m.group(1).lower(), name).replace("_of01", "_of_01")


def parts(line):
    """A line of antt without and with its comment."""
    i = line.find("--")
    return (line, "") if i < 0 else (line[:i], line[i:])


def imports(text):
    for m in re.finditer(r"use ([\w.·-]+)\.\{([^}]*)\}", text):
        for n in m.group(2).split(","):
            yield m.group(1), n.strip().split(" as ")[0]


def joined(name, names):
    """Dashes between two names stay, others become underscores."""
    segs = name.split("-")
    out = segs[0]
    for i in range(1, len(segs)):
        left = any("_".join(segs[j:i]) in names for j in range(i))
        right = any("_".join(segs[i:j]) in names for j in range(i + 1, len(segs) + 1))
        out += ("-" if left and right else "_") + segs[i]
    return out


def mapping(root):
    declared, fields, specs, foreign, code = set(), set(), set(), set(), set()
    for path in texts(root):
        with open(path, encoding="utf-8") as f:
            text = f.read()
        if path.endswith(".rt"):
            code |= set(re.findall(r"\b(?:fn|let|let mut) (\w+)", text)) | set(re.findall(r"\b(\w+):", text))
            continue
        for module, n in imports(text):
            if not module.startswith("Rattle.") or module.startswith("Rattle.std"):
                foreign.add(n)
        if of_function(path) or "/proofs/Walk/" in path:
            continue
        for line in text.splitlines():
            m = DECLARED.match(line)
            if m:
                name = m.group(3)
                (fields if FIELD.match(line) and m.group(1) else declared).add(name)
                if "/specs/" in path and not m.group(1):
                    specs.add(name)
    with open(KIT_PRELUDE, encoding="utf-8") as f:
        words = set(re.findall(r"[a-z][a-z0-9_]*", f.read()))
    names = {snake(n) for n in specs} | words | OPERATIONS
    pairs = {}
    for n in sorted(declared | fields):
        if n in foreign:
            continue
        new = snake(n)
        if "-" in new:
            new = new.replace("-", "_") if n in fields and n not in declared else joined(new, names - {new})
        if new != n:
            pairs[n] = new
    return pairs, declared | fields, specs, code, foreign


def apply(path, pairs, code):
    with open(path, encoding="utf-8") as f:
        text = f.read()
    camel = {a: b for a, b in pairs.items() if "-" not in a}

    def turn(s, which, local=(), made=False):
        def one(m):
            word = m.group(0)
            # In a function's proof a name behind a dot that its code has is one that Rattle makes.
            if word in local or made and m.start() and s[m.start() - 1] == "." and word.replace("-", "_") in code:
                return word
            return which.get(word, word)

        return TOKEN.sub(one, s)

    out = []
    if path.endswith(".antt"):
        local = set()
        made = of_function(path)
        if of_function(path):
            local = {m.group(3) for m in map(DECLARED.match, text.splitlines()) if m} & {a for a in pairs if "-" in a}
        for line in text.splitlines(keepends=True):
            a, b = parts(line)
            out.append(turn(a, pairs, local, made) + turn(b, camel))
    else:
        clause = False
        for line in text.splitlines(keepends=True):
            head = re.match(r"\s*(ghost use|requires|ensures|ghost)\b", line)
            clause = bool(head) or clause
            out.append(turn(line, pairs if clause else camel))
            if clause and re.search(r"[};]\s*$", line):
                clause = False
    new = "".join(out)
    if new != text:
        with open(path, "w", encoding="utf-8") as f:
            f.write(new)
        return 1
    return 0


def main(argv):
    root = "."
    pairs, declared, specs, code, foreign = mapping(root)
    # A lemma that would have its definition's name gets _lem.
    for name in sorted(declared):
        new = snake(name)
        if new == name:
            continue
        for other in sorted(declared - {name}):
            if pairs.get(other, other) == new:
                pairs[other] = new + "_lem"
    for name in sorted(specs):
        for other in sorted(declared - {name}):
            if name not in pairs and pairs.get(other) == name:
                pairs[other] = name + "_lem"
    targets = {}
    for a, b in pairs.items():
        targets.setdefault(b, []).append(a)
    bad = 0
    for b, olds in sorted(targets.items()):
        if len(olds) > 1 or (b in declared and b not in pairs):
            print(f"fall together: {b}: {' '.join(olds)}{' and itself' if b in declared and b not in pairs else ''}")
            bad += 1
        if b in foreign:
            print(f"a name of the library: {b}: {' '.join(olds)}")
            bad += 1
    if bad and "--force" not in argv:
        return 1
    n = sum(apply(p, pairs, code) for p in list(texts(root)))
    if "--map" in argv:
        with open(argv[argv.index("--map") + 1], "w", encoding="utf-8") as f:
            f.writelines(f"{a}\t{b}\n" for a, b in sorted(pairs.items()))
    print(f"{len(pairs)} names in {n} files")
    return 0


if __name__ == "__main__":
    raise SystemExit(main(sys.argv[1:]))
