#!/usr/bin/env python3
"""Spells the repository's own definitions and lemmas as today's Rattle spells names: words in snake case, a prime as an apostrophe.

usage: python3 tools/spell_names.py [FOLDER]      rewrites crates/*/{src,specs,proofs} below FOLDER (the current one) in place, once
       python3 tools/spell_names.py --edits       rewrites crates/*/must-fail/*.edit by the same rule

A word that begins in lower case and has a capital after a small letter or a digit becomes snake case (carriesLeap: carries_leap); the parts of a
lemma's name that a dash joins are turned one by one (frameIn-length: frame_in-length). A record's field that has a dash gets an underscore in
its place (year-is: year_is). Types, modules, names of Rust items, strings and the library's own names stay. It stops, and writes nothing, where
two names of one file would fall together, but for a definition that gets the name of the function of src/ that it specifies.
"""

import os
import re
import sys

WORD = re.compile(r"[A-Za-zℕ_][A-Za-z0-9_'′₀-₉ℕ⊥-]*")
STRING = re.compile(r'"(?:[^"\\\n]|\\.)*"')
LITERAL = re.compile(r'''"(?:[^"\\\n]|\\.)*"|b?'(?:[^'\\\n]|\\.)'(?![\w'])''')
HUMP = re.compile(r"(?<=[a-z0-9])(?=[A-Z])")
KIT = re.compile(r"use (?:Rattle\.(?:std|core|std_\w+|io|os|libc)|Prim)[\w.]*\.\{([^}]*)\}")
# Names that would be another's: a lemma that would have its function's name gets _lem, a field that would have a function's name another; and
# two functions with a dash.
APART = {
    "next_start": ("generator/specs/", "next_start_lem"),
    "fed_by": ("pulse_feed/specs/PulseFeeds.antt pulse_feed/proofs/", "fed_by_lem"),
    "in-year": ("", "within_year"),
    "new-year": ("", "is_new_year"),
    "leap-day": ("", "is_leap_day"),
    "with-letter": ("layout/", "with_letter"),
    "taken-symbols": ("stride/specs/", "taken_symbols"),
}


def files(root, *endings):
    for folder, dirs, names in os.walk(os.path.join(root, "crates")):
        dirs[:] = sorted(d for d in dirs if d != "out")
        for name in sorted(names):
            if name.endswith(endings):
                yield os.path.join(folder, name)


def dashed_fields(root):
    """The fields with a dash of the records that the repository declares."""
    found = set()
    for path in files(root, ".antt"):
        inside = False
        for line in open(path, encoding="utf-8"):
            if re.match(r"(?:pub )?record ", line):
                inside = True
            elif line.strip() and not line.startswith(" "):
                inside = False
            field = re.match(r"  (?:pub )?([a-z][\w'′]*(?:-[\w'′]+)+) ", line)
            if inside and field and re.search(r"\s:(\s|$)", line):
                found.add(field.group(1))
    return found


def of_the_kit(root):
    names = set()
    for path in files(root, ".antt", ".rt"):
        for found in KIT.finditer(open(path, encoding="utf-8").read()):
            names |= {n.strip() for n in found.group(1).split(",")}
    return names


def functions(root):
    """The names of the functions of src/."""
    return {name for path in files(root, ".rt") for name in re.findall(r"\bfn (\w+)", open(path, encoding="utf-8").read())}


def snake(part):
    if not re.match(r"[a-z]", part):
        return part
    return "_".join(p[0].lower() + p[1:] if p[1:2].islower() or len(p) == 1 else p.lower() for p in HUMP.split(part))


def spelled(word, fields, kit, path):
    if word in kit:
        return word
    if word in APART and any(p in path for p in APART[word][0].split(" ")):
        return APART[word][1]
    if word in fields:
        word = word.replace("-", "_")
    return "-".join(snake(p) for p in word.replace("′", "'").split("-"))


def turned(text, fields, kit, path):
    """The text with its words spelled, strings apart; and which word each new one comes from."""
    sources = {}

    def word(found):
        new = spelled(found.group(), fields, kit, path)
        sources.setdefault(new, set()).add(found.group())
        return new

    out, at = [], 0
    for string in (LITERAL if path.endswith((".rt", ".edit")) else STRING).finditer(text):
        out += [WORD.sub(word, text[at : string.start()]), string.group()]
        at = string.end()
    out.append(WORD.sub(word, text[at:]))
    return "".join(out), sources


def main(argv):
    edits = "--edits" in argv
    root = ([a for a in argv if not a.startswith("-")] or ["."])[0]
    fields, kit = dashed_fields(root), of_the_kit(root)
    together, new, mirrored = [], {}, functions(root)
    for path in files(root, ".edit") if edits else files(root, ".antt", ".rt"):
        text = open(path, encoding="utf-8").read()
        new[path], sources = turned(text, fields, kit, path)
        if not edits:
            together += [f"{path}: {' and '.join(sorted(old))} would both be {name}" for name, old in sources.items() if len(old) > 1 and name not in mirrored]
    if together:
        print("\n".join(together))
        return 1
    for path, text in new.items():
        if open(path, encoding="utf-8").read() != text:
            open(path, "w", encoding="utf-8").write(text)
    print(f"{len(new)} files read")
    return 0


if __name__ == "__main__":
    raise SystemExit(main(sys.argv[1:]))
