#!/usr/bin/env python3
"""Gives the repository's own definitions and lemmas one spelling: words in snake case, types in camel case.

usage: python3 tools/snake_names.py     at the top, once, after the toolchain's own porting script

A name is the repository's own where a file of specs/ or proofs/ declares it: a definition, a lemma, a field, a
constructor, or a name bound by a signature, a lambda or a let. Names that the toolchain makes (the answers of
goals, and what stands behind `c.`) keep their dashes. Comments and strings are left alone, but for names in backticks.
"""

import glob
import re
import sys

LETTER = r"[^\s(){}\[\],;.:`\"|λ]"
NAME = re.compile(LETTER + "+")
BOUND = re.compile(
    rf"^(?:abbrev |unfoldable )?(?:pub )?(?:data |record )?(?P<top>{LETTER}+) (?:[({{].*[)}}] )?: (?P<type>.*)"
    rf"|^ +(?:pub )?(?P<field>{LETTER}+) : "
)
BINDER = re.compile(rf"[({{](?P<names>{LETTER}+(?: {LETTER}+)*) : ")
LAMBDA = re.compile(rf"λ (?P<names>{LETTER}+(?: {LETTER}+)*)\.")
LET = re.compile(rf"\blet (?P<names>{LETTER}+)(?: :| =)")


def antt_files():
    return sorted(glob.glob("crates/*/specs/**/*.antt", recursive=True) + glob.glob("crates/*/proofs/**/*.antt", recursive=True))


def generated(path):
    """Whether a file answers goals: its own names stand beside names that the toolchain makes."""
    return re.search(r"/proofs/.*/(Answers|Invariants|Proof)\.antt$", path) is not None


def own_names():
    names = set()
    for path in antt_files():
        for line in open(path, encoding="utf-8"):
            line = line.split("-- ")[0]
            m = BOUND.match(line)
            if m and m["top"] and not m["type"].startswith("goal."):
                names.add(m["top"])
            if m and m["field"]:
                names.add(m["field"])
            for form in (BINDER, LAMBDA, LET):
                for b in form.finditer(line):
                    names.update(b["names"].split())
    return {n for n in names if re.fullmatch(r"[A-Za-z0-9'⁺-₉]+(-[A-Za-z0-9'⁺-₉]+)+", n)}


def spelled(name):
    words = name.split("-")
    if name[0].isupper():
        return "".join(w[0].upper() + w[1:] for w in words)
    return "_".join("get_or" if w == "getD" else w for w in words)


def respell(text, names):
    """The text with each own name respelled, also behind a dot where it is a field or a member of a module."""
    return NAME.sub(lambda m: names.get(m[0], m[0]), text)


def in_code(line, mark, names):
    code, sign, comment = line.partition(mark)
    parts = re.split(r'("[^"]*")', code)
    code = "".join(p if p.startswith('"') else respell(p, names) for p in parts)
    return code + sign + in_backticks(comment, names)


def in_backticks(text, names):
    return re.sub(r"`[^`]*`", lambda m: respell(m[0], names), text)


def main():
    names = {n: spelled(n) for n in sorted(own_names())}
    files = antt_files() + sorted(glob.glob("crates/*/src/*.rt"))
    texts = {p: open(p, encoding="utf-8").read() for p in files}
    words = {w for t in texts.values() for w in NAME.findall(t)}
    together = sorted(n for n, new in names.items() if new in words)
    for n in together:
        print(f"falls together with another name: {n} -> {names[n]}", file=sys.stderr)
    for path, text in texts.items():
        mark = "-- " if path.endswith(".antt") else "//"
        new = "".join(in_code(l, mark, names) for l in text.splitlines(keepends=True))
        if new != text:
            open(path, "w", encoding="utf-8").write(new)
    for path in ["README.md", *sorted(glob.glob("docs/*.md"))]:
        text = open(path, encoding="utf-8").read()
        new = in_backticks(text, names)
        if new != text:
            open(path, "w", encoding="utf-8").write(new)
    print(f"{len(names)} names respelled")


if __name__ == "__main__":
    main()
