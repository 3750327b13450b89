#!/usr/bin/env python3
"""Lists the places in src/ where an older form may stand, by the points of docs/DESIGN-PASS.md.

usage: python3 tools/places.py [POINT ..]     at the top; all seven points of the code where none is named, 8 for the proofs

It looks for shapes of text, so a place is one to look at, and not yet one to change. Tests are left out.
"""

import collections
import glob
import re
import sys

PATTERNS = {
    1: [
        ("an enum", r"^\s*(pub(\(crate\))? )?enum "),
        ("a flag", r": bool,|-> bool"),
        ("an optional refusal", r"Option<\w+Refusal>|Some\(\w*[Rr]efusal\)"),
        ("a result passed on by hand", r"(Ok|Err)\((\w+)\) => (return )?\1\("),
        ("an option made by hand", r"\{ None \}|=> None,|^\s+None$|return None"),
        ("a number for a case", r"=> \d+,$|number: \d+"),
    ],
    3: [
        ("a range of indices", r"for \w+ in 0\.\."),
        ("a counter", r"\+= 1;|let mut (place|steps|at|left|least|entries|needs) ="),
    ],
    4: [
        ("equality", r"fn is_of|Some\(same\)|== terminal"),
        ("a value made by hand", r"fn (blank|empty|no_queues|new)\b"),
        ("a conversion", r"fn (byte|told|question|of|from)\b"),
        ("printing", r"format!|fn line|Display"),
        ("a type without a derive of equality", r"^#\[derive\((?!.*PartialEq)"),
    ],
    6: [
        ("a fixed buffer", r"\[\w+; \w+\]"),
        ("a count beside", r"\b(count|needs|entries|words|used|steps): (u8|u16|u64|usize),"),
        ("a node by its number", r"(head|node|parent|Along|first|last)\b.*\busize\b[,)]$"),
    ],
    7: [
        ("a call by a value", r"\bfn\(|dyn |\bFn(Mut|Once)?\("),
        ("a switch", r"match (lane|way|step|outcome|report\.outcome)\b"),
    ],
}

FUNCTION = re.compile(r"\bfn (\w+)(?:<[^(]*?>)?\(([^)]*)\)([^{};]*?)((?:\s*(?:requires|ensures|//)[^\n]*\n?)*)\s*\{")


def sources():
    return sorted(f for f in glob.glob("crates/*/src/*.rt") if "/tests/" not in f)


def functions():
    """Each function as its place, its parameters, its clauses and its body."""
    for path in sources():
        text = open(path).read()
        for found in FUNCTION.finditer(text):
            depth, end = 1, found.end()
            while depth:
                depth += {"{": 1, "}": -1}.get(text[end], 0)
                end += 1
            yield path, found.group(1), found.group(2), found.group(4), text[found.end() : end - 1]


def lines(point):
    for what, pattern in PATTERNS[point]:
        for path in sources():
            for number, line in enumerate(open(path), 1):
                if re.search(pattern, line) and not line.lstrip().startswith("//"):
                    yield what, f"{path[7:]}:{number}", line.strip()


def twins():
    """Functions whose bodies are the same but for names and numbers."""
    shapes = collections.defaultdict(list)
    for path, name, _, _, body in functions():
        shape = re.sub(r"\s+", "", re.sub(r"\w+", "x", re.sub(r"//[^\n]*", "", body)))
        shapes[re.sub(r"(x::x\(?x?\)?=>x,)+", "arms", shape)].append((path, name))
    for shape, places in shapes.items():
        if len(places) > 1 and len(shape) > 3:
            yield places, shape


def together():
    """Clauses and runs of parameters that stand in three functions or more."""
    clauses, runs = collections.defaultdict(set), collections.defaultdict(set)
    for path, name, parameters, contract, _ in functions():
        crate = path.split("/")[1]
        for clause in re.findall(r"(?:requires|ensures)\s*(?:\w+ )?\{ (.*) \}\s*$", contract, re.M):
            clause = re.sub(r"\.(old|new|now|entry)\b", "", clause)
            for fact in [clause] if not clause.startswith("(") else clause.split(" × "):
                clauses[crate, fact].add((path, name))
        names = [p.split(":")[0].split()[-1] for p in parameters.split(",") if ":" in p]
        for i in range(len(names)):
            for j in range(i + 2, len(names) + 1):
                runs[crate, ", ".join(names[i:j])].add((path, name))
    return [[(len(v), *k) for k, v in sorted(kind.items(), key=lambda x: -len(x[1])) if len(v) > 2] for kind in (clauses, runs)]


def proofs():
    """How many proof files, answers and lemmas each crate has, and how many lines."""
    for crate in sorted(glob.glob("crates/*/proofs")):
        files = glob.glob(crate + "/**/*.antt", recursive=True)
        texts = {f: open(f).read() for f in files}
        answers = sum(len(re.findall(r"^(?:abbrev )?pub [\w+-]+ :", t, re.M)) for f, t in texts.items() if re.search("Answers|Invariants", f))
        lemmas = sum(len(re.findall(r"^(?:abbrev |unfoldable )?(?:pub )?[^\s-][^\s]* : ", t, re.M)) for f, t in texts.items() if not re.search("Answers|Invariants", f))
        yield crate.split("/")[1], len(files), answers, lemmas, sum(t.count("\n") for t in texts.values())


def main():
    for point in [int(a) for a in sys.argv[1:]] or range(1, 8):
        print(f"point {point}")
        if point == 2:
            for places, shape in twins():
                print(f"  {len(places)} alike: " + ", ".join(f"{p[7:]} {n}" for p, n in places))
        elif point == 5:
            for what, rows in zip(("clause", "parameters"), together()):
                for count, crate, text in rows:
                    print(f"  {what}, {count} functions of {crate}: {text}")
        elif point == 8:
            for crate, files, answers, lemmas, size in proofs():
                print(f"  {crate}: {files} files, {answers} answers, {lemmas} lemmas and definitions, {size} lines")
        else:
            for what, place, line in lines(point):
                print(f"  {what}: {place}: {line}")


if __name__ == "__main__":
    main()
