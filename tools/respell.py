#!/usr/bin/env python3
"""Brings the repository's own definitions, lemmas and fields to today's spelling.

usage: tools/respell.py [--dry]      at the top of the repository, once, after port.py

A name that a file of specs/ or proofs/ declares, and that begins with a small letter, gets snake case: `allValid` and `valid-mem` become
`all_valid` and `valid_mem`. Types, modules and facts keep their capitals. Names of src/ (functions, fields, constants, types), goals of
generated modules, strings, inputs and outputs keep theirs. Where two names would fall together, the later kind gets an ending: a lemma
`_lem`, a definition `_of`. The map of old and new names is printed.
"""
import collections
import os
import re
import subprocess
import sys

TOKEN = re.compile(r"[^\s(){}\[\].,;«»\"`|λ@!&]+")
RT_TOKEN = re.compile(r"[A-Za-z_][\w'-]*")
SIGN = re.compile(r"^(\s*)((?:pub |abbrev |unfoldable |private )*)((?:[^\s(){}\[\].,;:]+ )*?[^\s(){}\[\].,;:]+) : (.*)$")
DATA = re.compile(r"^\s*(?:pub )?data (\S+)")
# Names that would fall together with another, or read as something else.
CHOSEN = {"notZero": "not_zero_count", "tooLong": "too_long_message", "allValid": "all_valid", "heldBy": "held_by"}
# Lemmas of one file with a definition's name, which is also the name of a function elsewhere.
LOCAL = {
    "crates/rollup/proofs/KeepsLaws.antt": {"all_valid": "all_valid_lem"},
    "crates/exports/proofs/PackLaws.antt": {"held_by": "held_by_lem"},
}
SHAPE = re.compile(r"^[a-z][A-Za-z0-9_'-]*[₀-₉]*$")


def walk(root, ends, folders=("crates",)):
    for top in folders:
        for folder, dirs, files in os.walk(os.path.join(root, top)):
            dirs[:] = sorted(d for d in dirs if d not in ("out", "target", ".git"))
            for f in sorted(files):
                if f.endswith(ends):
                    yield os.path.join(folder, f)


def read(p):
    with open(p, encoding="utf-8") as f:
        return f.read()


def snake(name):
    n = re.sub(r"([a-z0-9])([A-Z])", lambda m: m[1] + "_" + m[2].lower(), name)
    return n.replace("-", "_").replace("′", "'")


def declared(text):
    """Names that a file declares by a signature: the name, its type, and whether it is a field of a record."""
    record = None
    for line in text.split("\n"):
        r = re.match(r"(\s*)(?:pub )?record \S", line)
        if r and line.rstrip().endswith("where"):
            record = len(r[1])
        elif line.strip() and record is not None and len(line) - len(line.lstrip()) <= record:
            record = None
        m = SIGN.match(line)
        if not m or line.lstrip().startswith("--"):
            continue
        for name in m[3].split(" "):
            if SHAPE.match(name):
                yield name, m[4], record is not None and len(m[1]) > record


def main():
    dry = "--dry" in sys.argv
    root = subprocess.run(["git", "rev-parse", "--show-toplevel"], capture_output=True, text=True).stdout.strip()
    antt = {p: read(p) for p in walk(root, ".antt")}
    rt = {p: read(p) for p in walk(root, ".rt")}
    # Names of the code: a definition of the same name could be taken for one of them.
    fields, funs = set(), set()
    for t in rt.values():
        fields |= set(re.findall(r"^\s*(?:pub(?:\([a-z]+\))? )?([a-z_][a-z0-9_]*): [A-Za-z&\[(]", t, re.M))
        funs |= set(re.findall(r"\bfn ([a-z_][a-z0-9_]*)", t))
    kinds = collections.defaultdict(set)
    for p, t in antt.items():
        for name, type_, field in declared(t):
            kinds[name].add("goal" if re.match(r"(tie|goal)\.", type_) else "field" if field else "def")
    outside = collections.defaultdict(set)
    for p, t in list(antt.items()) + list(rt.items()):
        for m in re.finditer(r"use ([\w.]+)\.\{([^}]*)\}", t):
            own = m[1].startswith("Rattle.") and os.path.isdir(os.path.join(root, "crates", m[1].split(".")[1]))
            if not own or ".declared." in m[1]:
                outside[p] |= {n.strip().split(" as ")[-1] for n in m[2].split(",")}
    every = set().union(*outside.values()) | {"length", "true", "false"}
    taken = {n for n in kinds if snake(n) == n and "def" in kinds[n]}
    new, clash = dict(CHOSEN), []
    order = sorted((n for n in kinds if snake(n) != n and kinds[n] != {"goal"} and n not in CHOSEN), key=lambda n: ("-" in n, n))
    for n in order:
        s = snake(n)
        if kinds[n] == {"field"}:
            if s in taken or s in new.values():
                print("look: the field %s has a definition's name, %s" % (n, s))
            new[n] = s
            continue
        why = "own" if s in taken else "code" if s in fields else "library" if s in every else "twice" if s in new.values() else None
        if why:
            s2 = s + ("_lem" if "-" in n else "_of")
            clash.append((n, s, s2, why))
            s = s2
            if s in taken or s in fields or s in every or s in new.values():
                print("still clashes:", n, s)
        new[n] = s
    for c in clash:
        print("look: %s would be %s (%s), is %s" % (c[0], c[1], c[3], c[2]))
    if dry:
        print(len(new), "names")
        return
    def turn(text, pattern):
        return pattern.sub(lambda m: new.get(m[0], m[0]), text)
    for p, t in antt.items():
        here = LOCAL.get(os.path.relpath(p, root), {})
        u = turn(TOKEN.sub(lambda m: here.get(m[0], m[0]), t), TOKEN)
        if u != t:
            open(p, "w", encoding="utf-8").write(u)
    for p, t in rt.items():
        # clauses, ghost lines and comments alone: the code has no such names, and a minus there is no part of one
        out = []
        for line in t.split("\n"):
            code = re.match(r"\s*(//|ghost |requires|ensures|[^;]*⌜)", line)
            out.append(turn(line, RT_TOKEN) if code else line)
        u = "\n".join(out)
        if u != t:
            open(p, "w", encoding="utf-8").write(u)
    tick = re.compile(r"`([^`\n]+)`")
    pages = [os.path.join(root, f) for f in ("README.md", "bindings/README.md", "wrong/README.md", "compare/README.md", "compare/vectors/README.md")]
    pages += [p for p in walk(root, ".md", ("docs",)) if "/notes/" not in p]
    for p in pages:
        if os.path.exists(p):
            t = read(p)
            u = tick.sub(lambda m: "`" + turn(m[1], TOKEN) + "`", t)
            if u != t:
                open(p, "w", encoding="utf-8").write(u)
    for p in walk(root, ".edit", ("crates", "wrong")):
        t = read(p)
        u = "\n".join(turn(l, TOKEN) if re.match(r"(old|new): .*[≡λ×∷◌⌜]", l) or re.match(r"file: (specs|proofs)/", t) else l for l in t.split("\n"))
        if u != t:
            open(p, "w", encoding="utf-8").write(u)
    print(len(new), "names")
    with open(os.path.join(root, "tools", "respelled.txt"), "w", encoding="utf-8") as f:
        for n in sorted(new):
            f.write("%s %s\n" % (n, new[n]))


if __name__ == "__main__":
    main()
