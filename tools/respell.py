#!/usr/bin/env python3
"""Respells the repository's own definitions and lemmas, once, after the kit's port.py.

Words are written in snake case, facts and types in camel case: `greatest-by` becomes `greatest_by`, `Says-all` becomes
`SaysAll`, `recordAt` becomes `record_at`. Only names that a file of specs/ or proofs/ declares are respelled; names of the
library, of goals, and of functions, fields and strings of src/ keep their spelling.

    python3 tools/respell.py        at the top of the repository
"""

import glob
import re

# a declaration: an item, a field of a record, or a constructor
DECLARATION = re.compile(
    r"^(?:  )?(?:abbrev )?(?:unfoldable )?(?:pub )?(?:abbrev )?(?:data |record )?(?:pub )?"
    r"([^\s:(){}]+)(?: \(.*?\)| \{.*?\})*\s*:\s(.*)$"
)

# a name ends at a space, a bracket, a dot, a comma or a semicolon
NAME = re.compile(r"[^\s(){}.,;«»⌜⌝⟦⟧@\[\]`]+")

# names that would fall together with the library's
OTHERS = {"bit-and": "bit_of_and", "bit-or": "bit_of_or"}


def respelled(name):
    if name in OTHERS:
        return OTHERS[name]
    if name[0].isupper():
        first, *rest = name.split("-")
        return first + "".join(word[:1].upper() + word[1:] for word in rest)
    name = name.replace("-", "_")
    return re.sub(r"(?<=[a-z0-9])([A-Z])", lambda found: "_" + found.group(1).lower(), name)


def declared():
    names = set()
    for path in glob.glob("crates/*/specs/**/*.antt", recursive=True) + glob.glob("crates/*/proofs/**/*.antt", recursive=True):
        with open(path, encoding="utf-8") as file:
            for line in file:
                found = DECLARATION.match(line)
                if found and not found.group(2).startswith("goal."):
                    names.add(found.group(1))
    return names


def main():
    spelling = {name: respelled(name) for name in declared()}
    spelling = {old: new for old, new in spelling.items() if old != new}
    paths = [path for kind in ("antt", "rt", "edit") for path in glob.glob(f"crates/**/*.{kind}", recursive=True)]
    for path in sorted(paths):
        if "/out/" in path:
            continue
        with open(path, encoding="utf-8") as file:
            text = file.read()
        new = NAME.sub(lambda found: spelling.get(found.group(0), found.group(0)), text)
        if new != text:
            with open(path, "w", encoding="utf-8") as file:
                file.write(new)
    print(f"{len(spelling)} names respelled")


if __name__ == "__main__":
    main()
