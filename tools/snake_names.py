#!/usr/bin/env python3
"""Spells the repository's own definitions, lemmas and record fields in snake case.

usage: python3 tools/snake_names.py [CRATES]      (CRATES: the folder crates/ unless it is given)

It ran once, after the scripts that turn an older Rattle's spelling had run. A name with dashes or in camel case that a file of
specs/ or proofs/ declares gets underscores, wherever it is cited: in specs/, proofs/ and the ghost text of src/. Names of the
library and names that the check makes (goals, steps of the code) keep their dashes; so do comments, strings and must-fail/.
It lists the places where two names come to be spelled alike, and writes all the same: look at each.
"""
import os
import re
import sys

NAME = r"[^\s(){}\[\].,;:=λ→«»\"]+"
SIGNATURE = re.compile(r"^(\s*)(?:unfoldable |abbrev )*(?:pub )?(?:abbrev |unfoldable )*(?:pub )?(?:record |data )?(" + NAME + r")(?:\s+[({].*?[)}])*\s*:\s*(.*)")
IMPORT = re.compile(r"use (Rattle\.([a-z_]+)\.[\w.+'-]*|[\w.]+)\.\{([^}]*)\}", re.S)
# what becomes of the library's older words inside names of our own
WORDS = {"getD": "get_or", "eqb": "is_eq", "leb": "is_le", "ltb": "is_lt", "numberFrom": "number_from"}


def files(root):
    for folder, dirs, names in os.walk(root):
        dirs[:] = sorted(d for d in dirs if d != "out")
        for n in sorted(names):
            if n.endswith((".antt", ".rt")):
                yield os.path.join(folder, n)


def plain(name):
    """A name that is letters and dashes, in the old spelling."""
    return re.fullmatch(r"[A-Za-z][A-Za-z0-9_']*(-[A-Za-z0-9_']+)*", name) and ("-" in name or name in WORDS)


def snake(name):
    parts = [WORDS.get(p, p) for p in name.split("-")]
    if parts[0][0].isupper() and len(parts) > 1:
        return "".join(p[0].upper() + p[1:] for p in parts)
    return "_".join(parts)


def aliases(text):
    """Names with dashes that a file gives by `as` or by `let`."""
    return {n for n in re.findall(r"\b(?:as|let) (" + NAME + r")(?=[ ,}])", text) if plain(n)}


def declared(text):
    """Names that a file of antt declares, but those of goals."""
    for line in text.splitlines():
        if line.lstrip().startswith("--"):
            continue
        m = SIGNATURE.match(line)
        if m and not m.group(3).startswith("goal.") and plain(m.group(2)):
            yield m.group(2)


def foreign(text, own):
    """Names that a file imports from elsewhere than a crate of ours."""
    out = set()
    for m in IMPORT.finditer(text):
        if m.group(2) not in own:
            for it in m.group(3).split(","):
                out.add(it.strip().split(" as ")[0])
                out.add(it.strip().split(" as ")[-1])
    return out


# a lemma whose name would fall together with the definition that it is about
APART = {("shelf", "number-of"): "number_agrees"}


def turn(text, comment, names, kept, crate, source):
    """The text in the new spelling: `c.word` is a step of the code, and goes by the name that the code gives it."""
    def one(m):
        before, step, word = m.groups()
        if word not in names or word in kept or step and snake(word) not in source:
            return m.group(0)
        return before + (step or "") + APART.get((crate, word), snake(word))

    out = []
    for line in text.split("\n"):
        at = line.find(comment)
        if comment == "--" and at > 0 and line[at - 1] not in " \t":
            at = -1
        code, rest = (line, "") if at < 0 else (line[:at], line[at:])
        parts = re.split(r'("(?:[^"\\]|\\.)*")', code)
        for i in range(0, len(parts), 2):
            parts[i] = re.sub(r"(^|[^\w'\u2019-])(c\.)?([A-Za-z][A-Za-z0-9_']*(?:-[A-Za-z0-9_']+)*)(?![\w'-])", one, parts[i])
        out.append("".join(parts) + rest)
    return "\n".join(out)


def main(root):
    own = set(os.listdir(root))
    texts = {p: open(p, encoding="utf-8").read() for p in files(root)}
    names = set()
    for p, t in texts.items():
        if p.endswith(".antt"):
            names |= set(declared(t))
    clashes = []
    for p, t in texts.items():
        words = set(re.findall(r"[A-Za-z][A-Za-z0-9_']*(?:-[A-Za-z0-9_']+)*", t))
        if p.endswith(".antt"):
            words = set(re.findall(r"[A-Za-z][A-Za-z0-9_']*(?:-[A-Za-z0-9_']+)*", re.sub(r"--.*", "", t)))
        for n in sorted(names & words):
            if n not in foreign(t, own) and snake(n) in words:
                clashes.append(f"{p}: {n} and {snake(n)}")
    source = {w for p, t in texts.items() if p.endswith(".rt") for w in re.findall(r"\w+", t)}
    new = {p: turn(t, "--" if p.endswith(".antt") else "//", names | aliases(t), foreign(t, own) - aliases(t), os.path.relpath(p, root).split(os.sep)[0], source) for p, t in texts.items()}
    made = {}
    for n in names:
        made.setdefault(snake(n), []).append(n)
    for s, ns in made.items():
        if len(ns) > 1:
            clashes.append(f"{' and '.join(ns)} both become {s}")
    for c in clashes:
        print("falls together:", c)
    if "--list" in sys.argv:
        for n in sorted(names):
            print(n, snake(n))
        return 0
    changed = [p for p in texts if texts[p] != new[p]]
    for p in changed:
        open(p, "w", encoding="utf-8").write(new[p])
    print(f"{len(names)} names, {len(changed)} files")
    return 0


if __name__ == "__main__":
    raise SystemExit(main(next((a for a in sys.argv[1:] if not a.startswith("--")), "crates")))
