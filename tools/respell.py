#!/usr/bin/env python3
"""Respells the repository's own definitions and lemmas: a dash between the words of a plain name becomes an underscore.

usage: python3 tools/respell.py          at the top of the repository, once, after the toolchain's port.py
       python3 tools/respell.py --list   what would be renamed, and which names would fall together

It goes through specs/ and proofs/, and through the clauses of src/. Left alone are strings, comments, the functions and fields of src/, the names of std, and names that the
toolchain makes of the code (goals, steps, arms, joins), which keep their dashes.
"""

import os
import re
import sys

NAME = r"[A-Za-z_][\w']*(?:-[\w']+)+"
# Names that stand in proofs as the toolchain makes them.
MADE = re.compile(r"^(returns|invariant|decreases|loop|overflow|then|else|bounds|if|in-[A-Z0-9])(-|$)|-(requires|init|preserved|smaller|test)$|^in-(default|frame-default)$")
# Local names of the repository that no line defines at its beginning.
LOCAL = "then-holds numbered-init address-bits at-e c-is data-bits e-is ends-are fl-is heard-clock heard-read here-most in-bits in-time levels-only meets-all narrow-here no-marks now-seen okr-here oks-here open-to q-is receiver-at receiver-meant receiver-resting samples-are sender-at sender-holding sender-meant sender-resting stop-bits w-is".split()
# Names with another word, since the plain one would fall together with a field, a constant or a function's parameter.
OTHER = {"sample-count": "samples_per_frame", "in-frame": "heard_in_frame", "in_frame": "heard_in_frame", "Is-early": "IsEarly", "Is-late": "IsLate", "Read-entry": "ReadEntry"}
# Joins of the code that have the name of a lemma.
KEEP_DOTTED = {"parity-is"}


def files():
    for folder, dirs, names in os.walk("crates"):
        dirs[:] = sorted(d for d in dirs if d != "out")
        for n in sorted(names):
            if n.endswith((".antt", ".rt")):
                yield os.path.join(folder, n)


def read(path):
    with open(path, encoding="utf-8") as f:
        return f.read()


def library_names(texts):
    found = set()
    for t in texts:
        for m in re.finditer(r"use (?:Rattle\.(?:std|core)|borrow|denote|lib|Prim|mathlib|native)[\w.]*\.\{([^}]*)\}", t):
            found |= {n.strip().split(" as ")[0] for n in m.group(1).split(",")}
    return found


def defined(texts):
    found = set()
    for t in texts:
        for line in t.splitlines():
            m = re.match(r"\s*(?:abbrev |unfoldable |pub |data |record )*(" + NAME + r")\s*(?::|\()", line)
            if m and ": goal." not in line and not MADE.search(m.group(1)):
                found.add(m.group(1))
    return found


def parts(path, text):
    """The text in pieces, each with whether names in it are respelled."""
    if path.endswith(".antt"):
        pattern = r"--.*"
    else:
        pattern = r"//.*|\"(?:[^\"\\]|\\.)*\""
    at = 0
    for m in re.finditer(pattern, text):
        yield text[at : m.start()], True
        yield m.group(0), False
        at = m.end()
    yield text[at:], True


def main():
    every = list(files())
    antt = [read(p) for p in every if p.endswith(".antt")]
    texts = [read(p) for p in every]
    names = {n: n.replace("-", "_") for n in (defined(antt) | set(LOCAL)) - library_names(texts)}
    names |= OTHER
    if "--list" in sys.argv:
        words = set()
        for p, t in zip(every, texts):
            if p.endswith(".rt"):
                words |= {(w, "src") for w in re.findall(r"\b(?:ghost |pub |pub\(crate\) |const |static )*([a-z_]\w*): ", t)}
            words |= {(w, "antt") for w in re.findall(r"^\s*(?:abbrev |unfoldable |pub |data |record )*([a-z_]\w*) :", t, re.M)}
        for old in sorted(names):
            clash = [k for w, k in sorted(words) if w == names[old]]
            print(old, names[old], *clash)
        return
    found = re.compile(r"(?<![\w'-])(\.?)((?:" + "|".join(re.escape(n) for n in sorted(names, key=len, reverse=True)) + r"))(?![\w'-])")

    def turned(m):
        if m.group(1) and m.group(2) in KEEP_DOTTED:
            return m.group(0)
        return m.group(1) + names[m.group(2)]

    for path in every:
        old = read(path)
        new = "".join(found.sub(turned, piece) if named else piece for piece, named in parts(path, old))
        if new != old:
            with open(path, "w", encoding="utf-8") as f:
                f.write(new)


main()
