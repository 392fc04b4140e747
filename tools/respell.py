#!/usr/bin/env python3
"""Brings this repository's own names in specs/ and proofs/ to one spelling: types in upper camel case, all others in snake case.

usage: python3 tools/respell.py [--list]      at the top of a checkout that port.py has just turned
It renames what specs/*.antt and proofs/*.antt declare, and the helper lemmas of proof files; the names of goals, which the
check makes, and the names of src/ stay. AllByRecursion, which port.py imports as All, is named in full. --list prints the names and what they become, and changes nothing.
"""

import os
import re
import sys

DECLARED = re.compile(
    r"^(?P<indent> *)(?P<words>(?:(?:pub|abbrev|unfoldable|opaque|record|data|mutual)\s+)*)(?P<name>[^\s(){}:;,.«»=]+)(?P<params>(?:\s*(?:\([^()]*(?:\([^()]*\)[^()]*)*\)|\{[^{}]*\}))*)\s*:\s(?P<type>.*)$"
)
GOAL = re.compile(
    r"^(returns|overflow|bounds|slice|nonzero|loop|invariant|decreases|measure|prove|offset|smaller|init|in|if)(-|$)|-(requires|preserved|init|smaller|ensures)(-|$)|^invariant_of"
)
TOKEN = re.compile(r"[^\s(){}:;,.«»=\[\]|λ→×⌜⌝\"`]+")
# lemmas whose names a definition's new name would fall together with: "a lemma that would have its function's name gets _lem"
LEMMAS = ["line_step", "not_after", "on_line", "read_stays", "same_second", "two_digits", "whole_word"]

# the library's word that port.py imports under the name of another one, which rt ci refuses: it stands under its own name
ALIAS = "AllByRecursion as All"
ALIASED = re.compile(r"(?<![\w.\-'])All(?![\w\-'])")
# parameters of definitions that are spelled alike
PARAMETERS = {"endDay": "end_day", "endMicros": "end_micros"}


def files(root, ends):
    for folder, dirs, names in os.walk(os.path.join(root, "crates")):
        dirs[:] = sorted(d for d in dirs if d != "out")
        for n in sorted(names):
            if n.endswith(ends):
                yield os.path.join(folder, n)


def inner(path):
    """Whether the file is a function's proof, whose names are mostly those of goals."""
    return os.path.basename(path) in ("Answers.antt", "Invariants.antt", "Proof.antt")


def respelled(name, is_type):
    parts = [p for p in name.split("-") if p]
    if is_type:
        return "".join(p[0].upper() + p[1:] for p in parts)
    words = []
    for p in parts:
        words.append(re.sub(r"(?<=[a-z0-9'])([A-Z])", lambda m: "_" + m[1].lower(), p[0].lower() + p[1:] if p[0].isupper() and name[0].islower() else p))
    return "_".join(words)


def names_in(root):
    found = {}
    declared = set()
    for path in files(root, ".antt"):
        with open(path, encoding="utf-8") as f:
            lines = f.read().split("\n")
        for line in lines:
            if line.lstrip().startswith("--"):
                continue
            m = DECLARED.match(line)
            if not m:
                continue
            name = m["name"]
            if inner(path) and (GOAL.search(name) or m["indent"]):
                continue
            if not re.match(r"^[A-Za-z]", name):
                continue
            is_type = name[0].isupper()
            new = respelled(name, is_type)
            if new != name:
                found[name] = new
                declared.discard(name)
            else:
                declared.add(name)
    taken = declared - set(LEMMAS)
    new_names = list(found.values())
    for name, new in found.items():
        # of a definition and a lemma with one new name, and of a lemma with a name that stands already, the lemma gets _lem
        if "-" in name and not name[0].isupper() and (new_names.count(new) > 1 or new in taken):
            found[name] = new + "_lem"
    return found


def main(argv):
    root = "."
    names = names_in(root)
    if "--list" in argv:
        for old in sorted(names):
            print(old, names[old])
        return 0
    changed = 0
    names = names | PARAMETERS
    # only in the run that gives a definition the name
    in_proofs = names | {n: n + "_lem" for n in LEMMAS if n in names.values()}
    for path in files(root, (".antt", ".rt")):
        with open(path, encoding="utf-8") as f:
            text = f.read()
        unaliased = text
        if ALIAS in text:
            unaliased = ALIASED.sub("AllByRecursion", text.replace(ALIAS, "AllByRecursion"))
        out = []
        for line in unaliased.split("\n"):
            out.append(respell_line(line, path, names if path.endswith(".rt") else in_proofs))
        new = "\n".join(out)
        if new != text:
            with open(path, "w", encoding="utf-8") as f:
                f.write(new)
            changed += 1
    print(f"respell: {len(names)} names, {changed} files")
    return 0


def respell_line(line, path, names):
    if path.endswith(".antt") and line.lstrip().startswith("--"):
        return line
    if path.endswith(".rt") and (line.lstrip().startswith("//")):
        return line
    return TOKEN.sub(lambda m: names.get(m[0], m[0]), line)


if __name__ == "__main__":
    raise SystemExit(main(sys.argv[1:]))
