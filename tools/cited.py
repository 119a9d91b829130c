#!/usr/bin/env python3
"""Which definitions of specs/ a definition rests on: those that it cites, those that these cite, and so on.

For docs/DEFINITIONS.md, whose reading lists say what to read for a promise. A definition is named by its crate, its file and
its name. A line is printed for each file, with what is cited there and, behind a bar, what isn't; and at the end, how many
lines of specs/ have that, without blank ones and comments. Types of the code are followed through their ghost fields. Words
of the standard library aren't followed.

usage: cited.py CRATE.FILE.NAME ..
as cited.py rx_serve.Commands.RunEnds
"""

import collections
import glob
import os
import re
import sys

CRATES = os.path.join(os.path.dirname(os.path.abspath(__file__)), "..", "crates")

# `use Rattle.CRATE.specs.FILE.{A, B as C}`, and the same of a type of the code: `declared.FILE.TYPE` in place of FILE
IMPORT = re.compile(r"^(?:pub |ghost |unfoldable )*use Rattle\.(\w+)\.specs\.(\w+)\.\{([^}]*)\}", re.M)
TYPE_IMPORT = re.compile(r"^(?:pub |ghost |unfoldable )*use Rattle\.(\w+)\.specs\.declared\.(\w+)\.(\w+)(?:\.TheVariants)?(?:\.\{([^}]*)\}| as (\w+))", re.M)
BEGIN = re.compile(r"^(?:(?:abbrev|unfoldable|pub|record|data)\s+)+(?!use\s)([^\s:({]+)")
STRUCT = re.compile(r"^pub struct (\w+) \{\n(.*?)^\}", re.M | re.S)
NAME = re.compile(r"[A-Za-z_]\w*|>>=")


class File:
    """What a file imports, and the text of each of its definitions. In Rust these are structs, by their ghost fields."""

    def __init__(self, path):
        with open(path, encoding="utf-8") as source:
            text = source.read()
        self.imports = {}
        self.texts = collections.OrderedDict()
        self.makers = {}  # the constructors of data, and the data that each makes
        for crate, file, names in IMPORT.findall(text):
            for name in names.split(","):
                real, _, other = name.strip().partition(" as ")
                self.imports[other or real] = (crate, "specs/%s.antt" % file, real)
        for crate, file, kind, names, other in TYPE_IMPORT.findall(text):
            for name in [other] if other else names.split(","):
                self.imports[name.strip()] = (crate, "src/%s.rt" % file, kind)
        if path.endswith(".rt"):
            for name, fields in STRUCT.findall(text):
                self.texts[name] = "\n".join(line for line in fields.splitlines() if line.lstrip().startswith("ghost "))
        else:
            self.read_definitions(text)

    def read_definitions(self, text):
        name = None
        for line in text.splitlines():
            found = BEGIN.match(line)
            if found:
                name = found.group(1).strip("◌")
                self.texts.setdefault(name, "")
            if name and not line.lstrip().startswith("--"):
                self.texts[name] += line.split("  --")[0] + "\n"
        for name, text in self.texts.items():
            if text.startswith("pub data"):
                for maker in re.findall(r"^\s+(\w+)\s*:", text, re.M):
                    self.makers[maker] = name


def read_files():
    files = {}
    for pattern in ("specs/*.antt", "src/*.rt"):
        for path in glob.glob(os.path.join(CRATES, "*", pattern)):
            crate, folder, name = path.split(os.sep)[-3:]
            files[crate, folder + "/" + name] = File(path)
    return files


def place_of(files, crate, file, name):
    """Where a name is defined, which may be passed on by an import or made by data; None outside of the crates."""
    found = files.get((crate, file))
    if found is None:
        return None
    if name in found.texts:
        return crate, file, name
    if name in found.makers:
        return crate, file, found.makers[name]
    if name in found.imports:
        return place_of(files, *found.imports[name])
    return (crate, file, name) if file.startswith("src/") else None  # an enum, which has no ghost fields


def cited_by(files, place):
    crate, file, name = place
    for word in set(NAME.findall(files[crate, file].texts.get(name, ""))):
        known = files[crate, file]
        if word in known.texts or word in known.makers or word in known.imports:
            found = place_of(files, crate, file, word)
            if found and found != place:
                yield found


def main():
    names = sys.argv[1:]
    if not names or names[0].startswith("-"):
        sys.exit(__doc__)
    files = read_files()
    waiting = []
    for name in names:
        parts = name.split(".")
        place = place_of(files, parts[0], "specs/%s.antt" % parts[1], parts[2]) if len(parts) == 3 else None
        if place is None:
            sys.exit("cited.py: there is no definition %s" % name)
        waiting.append(place)
    seen = set(waiting)
    while waiting:
        for place in cited_by(files, waiting.pop()):
            if place not in seen:
                seen.add(place)
                waiting.append(place)
    lines = 0
    for crate, file in sorted({place[:2] for place in seen}):
        cited = sorted(name for name in (place[2] for place in seen if place[:2] == (crate, file)))
        texts = [] if file.startswith("src/") else list(files[crate, file].texts)
        ordered = [name for name in texts if name in cited] or cited
        others = [name for name in texts if name not in cited]
        lines += sum(len([line for line in files[crate, file].texts[name].splitlines() if line.strip()]) for name in texts if name in cited)
        print("%s/%s: %s%s" % (crate, file, " ".join(ordered), " | " + " ".join(others) if others else ""))
    print("%d lines of definitions" % lines)


if __name__ == "__main__":
    main()
