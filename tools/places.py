#!/usr/bin/env python3
"""Lists, point by point, the places of src/ that docs/DESIGN-PASS.md counts.

usage: tools/places.py [ROOT] [--list POINT]    the counts of every point and crate, or the places of one point"""
import itertools
import os
import re
import sys

# What a line of a point looks like. Points 2 and 5 are found by comparing, below.
LINES = {
    "1": [
        r"^\s*(pub )?enum \w",                      # an enum: does it have the shape of Option or Result?
        r"\bRefused\(",                             # a refusal among other answers
        r"Result<[^<>]*, ?u\d+>|-> u8 *(\{|$)",     # a number for an error, or as an answer
        r"^\s*(pub(\(crate\))? )?(swrst|kind|verdict|parity|data|address|stops): (bool|u8),",
    ],
    "3": [
        r"\bwhile\b",
        r"\bfor \w+ in [^{]*\.\.",                  # a loop over numbers
        r"\.enumerate\(\)",
        r"\blet mut (at|bit|clock|count|found|i|k|left|marks|next|ones|others|start|value)\b.*= 0",
        r"^\s*\w+(\.\w+)* (\+= 1;|= \w+(\.\w+)*\.saturating_add\(1\);)",
    ],
    "4": [
        r"\bfn (from|to|as|into)_\w+",
        r"\bfn (act|agrees|byte|character|format|level|library|number|numbers_of|settings|timing|told|wants_help)\b",
        r"^\s*(b?'.'|\"[a-z-]+\"|\d+|None \| Some\(\"\w+\"\)|Some\(\"\w+\"\)) => \w+(::\w+|\()",
        r"\bas (u8|u16|u32|u64|usize)\b",
        r"\.number\(\)|from_numbers\(",
    ],
    "6": [
        r"^\s*(pub(\(crate\))? )?(\w+: \[\w+; ?\w+\]|\w+_?count: usize|count: usize|\w+: Vec<\w+>),",
        r"\w\[(at|bit|found|i|k|next|number|place|self\.\w+)[^\]]*\]",
        r"\[\d\]",
    ],
    "7": [
        r"\bmatch (word|words|style|kind|seed|dice\.\w+\(.*\)|\w+\.\w*queues|\w*queues)\b",
        r"\b(Fn|FnMut|FnOnce)\(|\bdyn\b|: fn\(",
    ],
}


def sources(root):
    for folder, _, files in sorted(os.walk(os.path.join(root, "crates"))):
        if os.sep + "src" in folder and os.sep + "out" not in folder:
            for name in sorted(files):
                if name.endswith(".rt"):
                    path = os.path.join(folder, name)
                    yield os.path.relpath(path, root), open(path, encoding="utf-8").read().split("\n")


def by_lines(root, point):
    for path, lines in sources(root):
        for n, line in enumerate(lines, 1):
            code = line.split("//")[0]
            if code.strip().startswith("ghost use"):
                continue
            if any(re.search(p, code) for p in LINES[point]):
                yield path, n, line.strip()


# Five lines of code that stand in two places.
def twins(root):
    seen = {}
    for path, lines in sources(root):
        code = [(n, l.strip()) for n, l in enumerate(lines, 1)
                if l.strip() and not l.strip().startswith(("//", "ghost use", "use ", "ensures", "pub use", "mod ", "pub mod"))]
        for i in range(len(code) - 4):
            window = tuple(l for _, l in code[i:i + 5])
            if sum(len(l) for l in window) > 60:
                seen.setdefault(window, []).append((path, code[i][0]))
    last = {}
    for window, places in seen.items():
        if len(places) > 1:
            (p, m), (q, n) = places[0], places[1]
            if last.get((p, q)) != (m - 1, n - 1):
                yield p, m, "as at %s:%d: %s" % (q, n, window[0])
            last[(p, q)] = (m, n)


# Functions, with their parameters and clauses; what stands before and after a call is not told apart.
def functions(root):
    for path, lines in sources(root):
        for n, line in enumerate(lines):
            m = re.search(r"^\s*(pub(\([a-z]+\))? |unsafe |extern \"C\" )*fn (\w+)", line)
            if not m:
                continue
            head = []
            for l in lines[n:]:
                head.append(l)
                if l.strip() == "{" or l.rstrip().endswith((";", "{")) or l.strip().endswith("}") and "ensures" not in l and "requires" not in l:
                    break
            text = " ".join(h for h in head if not re.match(r"\s*(requires|ensures)", h))
            begin = text.find("(", text.find("fn "))
            depth = [text[begin:i].count("(") - text[begin:i].count(")") for i in range(begin + 1, len(text) + 1)]
            end = begin + (depth.index(0) if 0 in depth else len(depth))
            params = [" ".join(q.split()) for q in re.split(r",(?![^(\[]*[)\]])", text[begin + 1:end]) if ":" in q]
            clauses = [re.sub(r"\.(old|new|now)\b", "", h) for h in head if re.match(r"\s*(requires|ensures)", h)]
            yield path, n + 1, m.group(3), params, clauses


# The terms of at least three words that stand in brackets in a clause, and the facts that a clause joins.
def terms(clause):
    inside = clause[clause.find("{") + 1:clause.rfind("}")]
    stack, found = [], set()
    for i, c in enumerate(inside):
        if c == "(":
            stack.append(i)
        elif c == ")" and stack:
            found.add(inside[stack.pop() + 1:i])
    found.update(re.split(r" × | → ", inside))
    return {f.strip(" ()") for f in found if len(f.split()) >= 3}


# Parameters that go together, and facts or terms that are stated, in three or more functions of a crate.
def together(root):
    pairs, facts = {}, {}
    for path, line, name, params, clauses in functions(root):
        crate = path.split("/")[1]
        for a, b in itertools.combinations(params, 2):
            pairs.setdefault((crate, a, b), set()).add((path, line))
        for fact in set().union(*map(terms, clauses)) if clauses else ():
            facts.setdefault((crate, fact), set()).add((path, line))
    for (crate, *what), found in sorted(itertools.chain(pairs.items(), facts.items())):
        if len(found) >= 3:
            path, line = min(found)
            yield path, line, "%d functions: %s" % (len(found), ", ".join(what))


def answers(root):
    for folder, _, files in sorted(os.walk(os.path.join(root, "crates"))):
        for name in files:
            if os.sep + "proofs" in folder and os.sep + "out" not in folder and name.endswith(".antt"):
                path = os.path.join(folder, name)
                for n, line in enumerate(open(path, encoding="utf-8"), 1):
                    if re.match(r"(pub )?[\w'-]+ : ", line):
                        yield os.path.relpath(path, root), n, line.strip()


def places(root, point):
    if point == "2":
        return list(twins(root))
    if point == "5":
        return list(together(root))
    if point == "8":
        return list(answers(root))
    return list(by_lines(root, point))


def main(words):
    root = next((w for i, w in enumerate(words) if not w.startswith("--") and (i == 0 or words[i - 1] != "--list")), ".")
    if "--list" in words:
        for path, n, text in places(root, words[words.index("--list") + 1]):
            print("%s:%d: %s" % (path, n, text))
        return
    for point in "12345678":
        per = {}
        for path, _, _ in places(root, point):
            crate = path.split("/")[1]
            per[crate] = per.get(crate, 0) + 1
        print("%s  %4d  %s" % (point, sum(per.values()), ", ".join("%s %d" % p for p in sorted(per.items()))))


main(sys.argv[1:])
