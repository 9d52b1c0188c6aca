#!/usr/bin/env python3
# Counts the places in src/ that docs/DESIGN-PASS.md lists, point by point: tools/places.py [FOLDER], which is the repository's top.
# It goes by text; what it lists under a point is looked at by hand, and the page says which of it stays and why.
import collections
import pathlib
import re
import sys

TOP = pathlib.Path(sys.argv[1] if len(sys.argv) > 1 else ".")
FILES = sorted((TOP / "crates").glob("*/src/**/*.rt"))

# A function's contract: the facts of its clauses, one for each part that `×` joins.
FACT = re.compile(r"^\s*(?:requires|ensures)\b[^{]*\{(.*)\}\s*$")


def code(path):
    return re.sub(r"^\s*//.*$", "", path.read_text(), flags=re.M)


def parts(clause):
    depth, last, out = 0, 0, []
    for i, c in enumerate(clause):
        depth += (c in "([{") - (c in ")]}")
        if c == "×" and depth == 0:
            out.append(clause[last:i])
            last = i + 1
    out.append(clause[last:])
    return [p.strip().strip("()").strip() for p in out]


def enums(text):
    return re.findall(r"^(?:pub )?enum (\w+) \{\n(.*?)^\}", text, re.M | re.S)


def answers(text):
    """Enums of the shape of Option or Result."""
    found = []
    for name, body in enums(text):
        variants = re.findall(r"^    (\w+)", body, re.M)
        if {"Refused", "Malformed", "None", "Nothing", "Other", "End"} & set(variants):
            found.append(name)
    return found


def flags(text):
    """Structs of at most three fields with a bool beside a value."""
    found = []
    for name, body in re.findall(r"^(?:pub )?struct (\w+) \{\n(.*?)^\}", text, re.M | re.S):
        fields = re.findall(r"^    (?:pub )?\w+: ([^,]+),", body, re.M)
        if "bool" in fields and 2 <= len(fields) <= 3:
            found.append(name)
    return found


def report(point, what, found):
    print(f"{point} {what}: {len(found)}")
    if "-v" in sys.argv:
        for place in found:
            print("   ", place)


def main():
    texts = {p: code(p) for p in FILES}
    crate = {p: p.relative_to(TOP / "crates").parts[0] for p in FILES}
    each = lambda f: [f"{crate[p]}: {x}" for p, t in texts.items() for x in f(t)]

    report(1, "own enums of the shape of Option or Result", each(answers))
    report(1, "a flag beside a value", each(flags))
    report(3, "loops by hand (while)", each(lambda t: re.findall(r"\bwhile [^{]*", t)))
    report(2, "functions of two or more crates with one name and one body", twins(texts, crate))
    report(2, "least or greatest of two by hand", each(lambda t: re.findall(r"fn (smaller|lesser|larger|greater|higher)\b", t)))
    report(4, "conversions by hand (functions from one answer, number or width to another)", each(lambda t: re.findall(r"fn (\w+_result|number_of|index_of|stop_number|limited_\d+|year_of|wide|unsigned|minus|byte_in|year_in|day_in|hundredths_in|same_time)\(", t)))
    report(4, "types without equality", each(lambda t: re.findall(r"#\[derive\(Clone, Copy\)\]\n(?:pub )?(?:struct|enum) (\w+)", t)))
    facts = collections.defaultdict(set)
    for p, t in texts.items():
        function = ""
        for line in p.read_text().split("\n"):
            started = re.search(r"\bfn (\w+)", line)
            if started and not line.strip().startswith("//"):
                function = f"{crate[p]}::{started.group(1)}"
            clause = FACT.match(line)
            if clause:
                for part in parts(clause.group(1).strip()):
                    facts[part].add(function)
    report(5, "facts in the contracts of three or more functions", sorted(f"{len(v)} times: {k}" for k, v in facts.items() if len(v) >= 3 and "result" not in k))
    report(6, "a buffer with a length beside it in a signature", each(lambda t: [m for m in re.findall(r"fn (\w+)(?:<[^>]*>)?\(([^{]*?)\)", t) if re.search(r"&mut \[u8", m[1]) and re.search(r"\b(at|filled|end): usize", m[1])]))
    report(7, "enums of cases that a match turns into steps", each(lambda t: [n for n, b in enums(t) if n not in answers(t) and t.count(f"{n}::") > 8]))


def twins(texts, crate):
    bodies = collections.defaultdict(list)
    for p, t in texts.items():
        for name, body in re.findall(r"fn (\w+)\([^{]*?\{\n(.*?)^\}", t, re.M | re.S):
            bodies[(name, body)].append(crate[p])
    return [f"{name}: {', '.join(c)}" for (name, body), c in bodies.items() if len(c) > 1]


main()
