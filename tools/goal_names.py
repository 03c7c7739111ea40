#!/usr/bin/env python3
"""Spells the names that the check makes (goals, steps of the code) as today's check does.

usage: python3 tools/goal_names.py CRATE..      (folders such as crates/probing)

A dash joins the parts of such a name; a part that comes from the code keeps the code's spelling, and a word of the check's own
is in snake case. The older check wrote a dash for each underscore too. This looks up which dashes were underscores: in Answers.antt and
Invariants.antt, of names that the file does not import.
"""
import os
import re
import sys

OWN = "overflow_add overflow_sub overflow_mul overflow_shl overflow_shr overflow_cast overflow_step overflow_neg nonzero_div nonzero_rem slice_bounds offset_bounds invariant_of in_default in_ok in_err from_residual type_inv split_bounds".split()
TOKEN = re.compile(r"(?<![\w'-])[A-Za-z][\w']*(?:-[\w']+)+")
IMPORT = re.compile(r"use [\w.+'-]+\.\{([^}]*)\}", re.S)


def main(crates):
    for crate in crates:
        words = set(OWN)
        for folder, _, names in os.walk(os.path.join(crate, "src")):
            for n in names:
                text = re.sub(r"//.*", "", open(os.path.join(folder, n), encoding="utf-8").read())
                words |= {w for w in re.findall(r"\w+", text) if "_" in w.strip("_")}
        split = {tuple(w.split("_")): w for w in words}
        longest = max(len(k) for k in split)

        def join(parts):
            out, i = [], 0
            while i < len(parts):
                for k in range(min(longest, len(parts) - i), 1, -1):
                    if tuple(parts[i:i + k]) in split:
                        out.append(split[tuple(parts[i:i + k])])
                        i += k
                        break
                else:
                    out.append(parts[i])
                    i += 1
            return "-".join(out)

        for folder, dirs, names in os.walk(os.path.join(crate, "proofs")):
            for n in names:
                if n not in ("Answers.antt", "Invariants.antt"):
                    continue
                p = os.path.join(folder, n)
                text = open(p, encoding="utf-8").read()
                kept = {x.strip() for m in IMPORT.finditer(text) if ".Goals." not in m.group(0) for x in re.split(r",| as ", m.group(1))}
                new = TOKEN.sub(lambda m: m.group(0) if m.group(0) in kept else join(m.group(0).split("-")), text)
                if new != text:
                    open(p, "w", encoding="utf-8").write(new)


main(sys.argv[1:])
