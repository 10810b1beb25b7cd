#!/usr/bin/env python3
"""Brings the names that this repository's own specs/ and proofs/ declare to one spelling: words in snake case, types in camel case.

usage: python3 tools/snake_names.py            at the top of the repository, once, right after port.py
       python3 tools/snake_names.py --names    prints each name with its new spelling, and writes nothing

`firstLeast` and `first-least` become `first_least`, `First-least` becomes `FirstLeast`. Where a function and a lemma would fall together, the
lemma ends in `_lem`; where a name would fall together with another word that the files use, TAKEN has the new name. Names that Rattle makes
(goals, steps) and names of the library are left as they are. Docs and must-fail edits are turned too: in docs only what stands in backquotes.
"""
import collections
import os
import re
import sys

# names that would fall together with another one, or read badly
TAKEN = {"lowerBound": "lower_bound_of"}  # a card has a field lower_bound

SIGNATURE = re.compile(r"^(\s*)((?:(?:pub|abbrev|unfoldable|data|record)\s+)*)([^\s(){}:;,λ.]+)\s*(?:\([^:=]*\)|\{[^}]*\}|\([^()]*:[^()]*\)|\s)*:\s")
HEAD = re.compile(r"^\s*((?:(?:pub|abbrev|unfoldable)\s+)*)(data|record)\s+(?:pub\s+)?([^\s(){}:;,λ.]+)\s*[({:]")
WORD = r"[^\s(){}\[\];,.:λ`\"]+"


def files(*endings):
    for folder, dirs, names in os.walk("crates"):
        dirs[:] = sorted(d for d in dirs if d != "out")
        for f in sorted(names):
            if f.endswith(endings):
                yield os.path.join(folder, f)


def text(path):
    with open(path, encoding="utf-8") as f:
        return f.read()


def declared():
    """The names that specs/ and proofs/ declare, without the answers to goals, which have Rattle's names."""
    found = set()
    for p in files(".antt"):
        answers = os.path.basename(p) in ("Answers.antt", "Invariants.antt")
        for l in text(p).splitlines():
            m = HEAD.match(l) or SIGNATURE.match(l)
            if l.startswith("use ") or not m:
                continue
            if answers and re.search(r":\s*(goal|need)\.", l):
                continue
            found.add(m.group(3))
    return found


def turned(name):
    if name[0].isupper():
        return "".join(w[:1].upper() + w[1:] for w in name.split("-"))
    name = name.replace("getD", "get_or").replace("-", "_")
    return re.sub(r"(?<=[a-z0-9'])([A-Z])", lambda m: "_" + m.group(1).lower(), name)


def new_names():
    old = declared()
    wanted = {n: TAKEN.get(n, turned(n)) for n in sorted(old)}
    wanted = {n: t for n, t in wanted.items() if n != t}
    by_new = collections.defaultdict(list)
    for n, t in wanted.items():
        by_new[t].append(n)
    for t, ns in by_new.items():
        for n in ns:
            if "-" in n and n[0].islower() and (len(ns) > 1 or t in old):
                wanted[n] = t + "_lem"
    return wanted


def main(argv):
    names = new_names()
    if argv == ["--names"]:
        taken = set()
        for p in files(".antt", ".rt"):
            taken |= set(re.findall(WORD, re.sub(r"--.*|//.*", "", text(p))))
        count = collections.Counter(names.values())
        for n, t in sorted(names.items()):
            print(n, t, "FALLS" if count[t] > 1 else "", "TAKEN" if t in taken else "")
        return 0
    whole = re.compile(r"(?<![\w'·\-])(?<!\bc\.)(" + "|".join(re.escape(n) for n in sorted(names, key=len, reverse=True)) + r")(?![\w'·\-])")

    def turn(s):
        return whole.sub(lambda m: names[m.group(1)], s)

    def clauses(s):
        """In Rust text only what ghost use lines and clauses have is turned: a line with a clause, or one inside its braces."""
        out, depth = [], 0
        for l in s.splitlines(keepends=True):
            starts = re.match(r"\s*(ghost|requires|ensures)\b", l) or re.search(r"\bghost\b.*\{", l)
            if depth > 0 or starts:
                depth += l.count("{") - l.count("}")
                code, sep, rest = l.partition("//")
                l = turn(code) + sep + rest
            out.append(l)
        return "".join(out)

    for p in files(".antt", ".rt"):
        s = text(p)
        t = clauses(s) if p.endswith(".rt") else turn(s)
        if t != s:
            with open(p, "w", encoding="utf-8") as f:
                f.write(t)
    for p in files(".edit"):
        s = text(p)
        if re.search(r"^file: (specs|proofs)/", s, re.M):
            s2 = turn(s)
            if s2 != s:
                with open(p, "w", encoding="utf-8") as f:
                    f.write(s2)
    pages = ["README.md"] + [os.path.join("docs", f) for f in sorted(os.listdir("docs")) if f.endswith(".md")]
    for p in pages:
        s = text(p)
        t = re.sub(r"`[^`\n]+`", lambda m: turn(m.group(0)), s)
        if t != s:
            with open(p, "w", encoding="utf-8") as f:
                f.write(t)
    return 0


if __name__ == "__main__":
    raise SystemExit(main(sys.argv[1:]))
