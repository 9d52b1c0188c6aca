#!/usr/bin/env python3
"""Checks that what docs/CLAIMS.md names is there: definitions, theorems, functions, edits that must be refused, tests, files.

With --check it prints each name that is not, with its line, and ends with 1; with --uncited it prints the edits that no row
cites, by their own name or by their folder. How CLAIMS.md writes names stands at its head."""

import re
import sys
from functools import partial
from pathlib import Path

HERE = Path(__file__).resolve().parent
ROOT = HERE.parent
CRATES = ROOT / "crates"
CLAIMS = HERE / "CLAIMS.md"

# crate.Module.name or Module.name; crate::function or crate::Type::function; a name alone, which a hyphen, a capital or _ marks.
THEOREM = r"(?:(?P<crate>[a-z_]+)\.)?(?P<module>(?:Laws\.)?[A-Z]\w*)\.(?P<name>[A-Za-z]\w*(?:-\w+)*)"
FUNCTION = r"(?P<owner>[a-z_]+)::(?P<function>\w+(?:::\w+)?)"
ALONE = r"(?P<alone>[a-z]\w*(?:-\w+)+|[a-z]+(?:[A-Z]|_)\w*)"
# Any other word is a name where it follows one in a list; a remark may stand between.
ITEM = r"(?P<item>[A-Za-z]\w*)(?=[,;)]| and | in | \(| *$)"
NAMES = re.compile(rf"(?<![\w.:/-])(?:{THEOREM}|{FUNCTION}|{ALONE}|{ITEM})")
FULL = re.compile(rf"{THEOREM}(?<!\.antt)|{FUNCTION}")
BETWEEN = re.compile(r"(?: \([^()]*\))?(?:, | and )")


def contents(folder, pattern):
    return "\n".join(file.read_text(encoding="utf-8") for file in sorted(folder.glob(pattern)))


def is_defined(crate, module, name):
    """A definition or record of specs/, or a theorem there or in proofs/, that other files can name, or one that the module passes on."""
    files = [contents(CRATES / crate / part, module.replace(".", "/") + ".antt") for part in ("specs", "proofs")]
    text = "\n".join(files)
    passed_on = {each.strip() for names in re.findall(r"^pub use [^{]*\{([^}]*)\}", text, re.M) for each in names.split(",")}
    return name in passed_on or re.search(rf"^ *(?:abbrev |unfoldable )?pub (?:record |data )?{re.escape(name)}(?=[\s:({{])", text, re.M)


def is_function(crate, path):
    text = contents(CRATES / crate / "src", "*.rt")
    *kind, name = path.split("::")
    return re.search(rf"\bfn {name}\b", text) and all(re.search(rf"^impl {owner}\b", text, re.M) for owner in kind)


def edits_of(crate):
    return {file.stem for file in (CRATES / crate / "must-fail").glob("*.edit")}


def unknown_names(text):
    """The names that are not there. One that stands alone belongs to the module or crate that was named last before it."""
    known, end = None, 0
    text = re.sub(r"`([^`]*)`", lambda code: code[1] if FULL.fullmatch(code[1]) else "``", text)
    for found in NAMES.finditer(text):
        if found["item"] and not (known and BETWEEN.fullmatch(text[end : found.start()])):
            continue
        name, end = found["alone"] or found["item"], found.end()
        if found["module"]:
            crate, module, name = found["crate"] or "timecode", found["module"], found["name"]
            known = partial(is_defined, crate, module)
        elif found["owner"]:
            known, name = partial(is_function, found["owner"]), found["function"]
        if not (known and known(name)):
            yield found[0]


def guards(cell):
    """What stands in code font in the last column: the word, whether it is there, and the edits that it cites.

    An edit without a crate in front of it is timecode's, or up to the next semicolon of the crate before it."""
    for group in cell.split(";"):
        crate = "timecode"
        for found in re.finditer(r"`([^`]+)`('s)?", group):
            word = found[1].split()[0]
            folder = re.fullmatch(r"crates/(\w+)/must-fail", word)
            owner, _, label = word.rpartition("/")
            if label in edits_of(owner or crate):
                crate = owner or crate
                yield word, True, {(crate, label)}
            elif folder or found[2]:
                owner = folder[1] if folder else word
                yield word, edits_of(owner), {(owner, label) for label in edits_of(owner)}
            elif re.search(r"\(names [^)]*$", group[: found.start()]):
                yield word, any(word in file.name for file in (CRATES / "recordings/data").iterdir()), set()
            else:
                yield word, (ROOT / word).exists() or (CRATES / word / "src/main.rt").is_file(), set()


def unknown_in(line):
    """What a line names and is not there, and the edits that it cites."""
    cells = line.strip("|").split("|") if line.startswith("|") else []
    unknown = [word for part in cells[1:] or [line] for word in unknown_names(part)]
    for word in re.findall(r"`([\w.]+/[\w./-]+)", line if len(cells) < 2 else "".join(cells[:-1])):
        if not any((folder / word).exists() for folder in (ROOT, CRATES / "timecode/specs", CRATES / "timecode/proofs")):
            unknown.append(word)
    cited = set()
    for word, there, edits in guards(cells[-1]) if len(cells) > 1 else []:
        cited |= edits
        if not there:
            unknown.append(word)
    return unknown, cited


def main():
    if sys.argv[1:] not in (["--check"], ["--uncited"]):
        sys.exit("usage: claims.py --check | --uncited")
    cited, wrong = set(), 0
    for number, line in enumerate(CLAIMS.read_text(encoding="utf-8").splitlines(), 1):
        unknown, edits = unknown_in(line)
        cited |= edits
        wrong += len(unknown)
        for word in unknown if sys.argv[1] == "--check" else []:
            print(f"docs/CLAIMS.md:{number}: no {word}")
    if sys.argv[1] == "--uncited":
        every = {(crate.name, label) for crate in CRATES.iterdir() for label in edits_of(crate.name)}
        print(*(f"{crate}/{label}" for crate, label in sorted(every - cited)), sep="\n")
    elif wrong:
        sys.exit(f"claims.py: {wrong} names in docs/CLAIMS.md are not there")
    else:
        print("every name in docs/CLAIMS.md is there")


if __name__ == "__main__":
    main()
