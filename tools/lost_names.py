#!/usr/bin/env python3
"""Which names a proof or a definition takes from a crate of ours that has them no more.

A crate is checked without those above it. So a lemma that nothing in its own crate cites may be dropped there, and a crate above
fails for it, many minutes later. This looks at each `use` of a file of `specs/` or `proofs/`, in a second, and prints a line for each
file that isn't there and each name that the file neither defines nor passes on. It knows names by their text alone: a name that is
there may still have another type. What the kit makes of the code (`declared`, `contracts`, `Goals`, `Given` ..) isn't looked at.

usage: lost_names.py
"""

import functools
import os
import re
import sys

CRATES = os.path.join(os.path.dirname(os.path.abspath(__file__)), "..", "crates")

# `use Rattle.CRATE.specs.FILE.{A, B as C}`, or `proofs`, or `.. as name`
USE = re.compile(r"\buse Rattle\.(\w+)\.(specs|proofs)\.([\w.]+?)(?:\.\{([^}]*)\}|\s+as\b|;|\s*$)", re.M)

# what the kit makes
MADE = {"declared", "contracts", "Given", "Goals", "Statement", "Code", "Key"}

# the words before a name that is defined, and the name of a field, a case or an argument
DEFINED = re.compile(r"^\s*(?:(?:pub|abbrev|unfoldable|record|data)\s+)*([^\s:(){},]+)", re.M)
FIELD = re.compile(r"([^\s:(){},]+)\s+:")
PASSED = re.compile(r"\buse Rattle\.[^{\n]*\{([^}]*)\}")


def texts():
    """Each source of a crate: its path from crates/ on, and its text."""
    for crate in sorted(os.listdir(CRATES)):
        for part in ("src", "specs", "proofs"):
            for at, _, names in os.walk(f"{CRATES}/{crate}/{part}"):
                for name in sorted(names):
                    if name.endswith((".rt", ".antt")):
                        path = f"{at}/{name}"
                        with open(path, encoding="utf-8") as it:
                            yield os.path.relpath(path, CRATES), it.read()


@functools.lru_cache(None)
def names_of(path):
    """All that a file defines or passes on, or None where it isn't there."""
    try:
        with open(f"{CRATES}/{path}", encoding="utf-8") as it:
            text = it.read()
    except OSError:
        return None
    found = set(DEFINED.findall(text)) | set(FIELD.findall(text))
    for names in PASSED.findall(text):
        found |= {it.strip().split(" as ")[-1] for it in names.split(",")}
    return found


def lost_in(text):
    """What a text takes that isn't there, a sentence each."""
    for crate, part, path, names in USE.findall(text):
        steps = path.split(".")
        if not os.path.isdir(f"{CRATES}/{crate}") or MADE & set(steps):
            continue
        file = f"{crate}/{part}/{'/'.join(steps)}.antt"
        found = names_of(file)
        if found is None:
            yield f"no file {file}"
            continue
        for name in names.split(","):
            real = name.strip().split(" as ")[0]
            if real and real not in found:
                yield f"no {real} in {file}"


def main():
    lost = [(path, what) for path, text in texts() for what in lost_in(text)]
    for path, what in lost:
        print(f"{path}: {what}")
    print(f"{len(lost)} names are lost" if lost else "no name is lost")
    return 1 if lost else 0


if __name__ == "__main__":
    sys.exit(main())
