#!/usr/bin/env python3
"""How large contracts, definitions and proofs are: a table for the whole repository and one for its tower.

The tower are the crates between the guest and the bytes, TOWER below, or those that --crates names. A function is one of src/ outside of
tests; it is public if it is `pub`, one of a public trait, or one of a form of a trait. A clause is a line that begins with `requires` or
`ensures`, and its characters are those up to the end of its braces, without blanks before a line. `self` is an argument. The body of a
function are the lines between its braces that have a word and aren't a comment. A definition's arguments are those of its type, and a
record's its parameters.

A file mentions the trunk's bytes if what it imports has `trunk` in its name, whatever stands there, or comes from there by a prelude; files of
trunk_wire and of tests, and preludes themselves, aren't counted. Lines of `use` are those of specs/ and proofs/.

usage: house.py [--crates NAME,NAME,..] [--longest N]
With --longest the N functions and definitions that have most are listed too.
"""

import argparse
import collections
import os
import re
import sys

TOP = os.path.dirname(os.path.dirname(os.path.abspath(__file__)))

TOWER = ["session_history", "link_gate", "session_notes", "trials", "recovery", "session_state", "rx_engine", "routes"]

MOST_CLAUSES = 8  # of a public function

FUNCTION = re.compile(r"^([ \t]*)(pub(?:\([a-z]+\))? )?(?:final )?(?:const )?(?:unsafe )?fn (\w+)", re.M)
BLOCK = re.compile(r"^(?:pub )?(?:unsafe )?(?:trait|impl|mod)\b[^\n]*", re.M)
CLAUSE = re.compile(r"^[ \t]*(?:requires|ensures)\b", re.M)
COMMENT = re.compile(r"^[ \t]*//.*", re.M)
USE = re.compile(r"^\s*(?:(?:pub|ghost|unfoldable)\s+)*use\s", re.M)
OF_TRUNK = re.compile(r"\buse .*trunk", re.I)
NAMES = re.compile(r"\buse Rattle\.([\w.]+)\.\{([^}]*)\}")
PRELUDES = ("Terms.antt", "Lemmas.antt")  # as tools/preludes.py writes them
DEFINITION = re.compile(r"^([ \t]*)((?:abbrev|unfoldable|pub|record|data)[ \t]+)+(?!use\b|mod\b)([^\s:({]+)[ \t]*(.*)", re.M)

Function = collections.namedtuple("Function", "crate file name public arguments clauses lines")
Definition = collections.namedtuple("Definition", "crate file name arguments")


def crates():
    """The names of crates.txt, in its order."""
    with open(os.path.join(TOP, "crates.txt"), encoding="utf-8") as it:
        lines = [line.split("#")[0] for line in it]
    return [line.split(":")[0].strip() for line in lines if ":" in line]


def files_below(folder, ending):
    found = []
    for at, _, names in os.walk(folder):
        found += [os.path.join(at, it) for it in names if it.endswith(ending)]
    return sorted(found)


def text_of(path):
    with open(path, encoding="utf-8") as it:
        return it.read()


def is_test(path):
    return os.path.basename(path) == "tests.rt" or path.endswith("_tests.rt")


def passed_on():
    """The names that each prelude passes on of modules that have `trunk` in theirs, by the prelude's module."""
    found = {}
    for name in crates():
        for folder in ("specs", "proofs"):
            for prelude in PRELUDES:
                path = os.path.join(TOP, "crates", name, folder, prelude)
                if os.path.isfile(path):
                    parts = [it.groups() for it in NAMES.finditer(text_of(path))]
                    found[f"{name}.{folder}.{prelude.split('.')[0]}"] = {word for module, words in parts if "trunk" in module.lower() for word in words.split(", ")}
    return found


def mentions_trunk(path, text, of_preludes):
    """Whether a file, which is no prelude, imports something of the trunk, by itself or by a prelude."""
    if os.path.basename(path) in PRELUDES:
        return False
    direct = any(OF_TRUNK.search(line) for line in text.split("\n") if not any(f"Rattle.{it}." in line for it in of_preludes))
    return direct or any(of_preludes.get(module, set()) & set(words.split(", ")) for module, words in NAMES.findall(text))


# Functions.


def closed(text, at):
    """The place behind the bracket that closes the one at this place."""
    depth = 0
    for place in range(at, len(text)):
        if text[place] in "([{":
            depth += 1
        elif text[place] in ")]}":
            depth -= 1
            if depth == 0:
                return place + 1
    return len(text)


def angled(text, at):
    """The same for `<`, past the arrows within."""
    depth = 0
    for place in range(at, len(text)):
        if text[place] == "<":
            depth += 1
        elif text[place] == ">" and text[place - 1] not in "-=":
            depth -= 1
            if depth == 0:
                return place + 1
    return len(text)


def parts(text):
    """What commas separate, outside of brackets."""
    found, depth, begun = [], 0, 0
    for place, mark in enumerate(text):
        if mark in "([{<":
            depth += 1
        elif mark in ")]}" or mark == ">" and text[place - 1] not in "-=":
            depth -= 1
        elif mark == "," and depth == 0:
            found.append(text[begun:place])
            begun = place + 1
    found.append(text[begun:])
    return [it for it in found if it.strip()]


def clauses_of(text, at):
    """The lengths of the clauses that stand from here on, and the place behind them."""
    lengths = []
    while True:
        found = CLAUSE.search(text, at)
        if not found or text[at:found.start()].strip():
            return lengths, at
        end = closed(text, text.index("{", found.end()))
        clause = text[found.start():end]
        lengths.append(len("\n".join(line.strip() for line in clause.split("\n"))))
        at = end


def head_end(text, at):
    """Where a function's result type ends: before its clauses, its body or a semicolon."""
    found = re.compile(r"\n[ \t]*(?:requires|ensures)\b|\s\{\}?[ \t]*(?://.*)?$|\n[ \t]*\{|;", re.M).search(text, at)
    return found.start() if found else len(text)


def body_lines(text, at, indent):
    """How many lines with code the body has that begins here; none where there is no body."""
    rest = text[at:].lstrip()
    if not rest.startswith("{") or rest.startswith("{}"):
        return 0
    lines = rest.split("\n")
    inside = lines[0][1:].strip()
    if inside.endswith("}") and inside.count("}") > inside.count("{"):
        return 1 if inside[:-1].strip() else 0
    count = 0
    for line in lines[1:]:
        if line.startswith(indent + "}"):
            break
        count += 1 if line.strip() else 0
    return count


def functions_of(crate, path):
    text = COMMENT.sub("", text_of(path))
    found = []
    for match in FUNCTION.finditer(text):
        at = match.end()
        if text[at] == "<":
            at = angled(text, at)
        end = closed(text, at)
        arguments = len(parts(text[at + 1:end - 1]))
        clauses, at = clauses_of(text, head_end(text, end))
        public = match[2] == "pub " or is_of_trait(text, match)
        found.append(Function(crate, os.path.basename(path), match[3], public, arguments, clauses, body_lines(text, at, match[1])))
    return found


def is_of_trait(text, match):
    """Whether a function is one of a public trait, or of an `impl` of a trait."""
    heads = [it[0] for it in BLOCK.finditer(text, 0, match.start())]
    return bool(match[1]) and bool(heads) and (heads[-1].startswith("pub trait") or " for " in heads[-1])


# Definitions.


def binders(text):
    """How many names stand in binders `(a b : T)`, `{a : T}` in front of a text."""
    count, at = 0, 0
    while True:
        while at < len(text) and text[at] in " \n\t":
            at += 1
        if at >= len(text) or text[at] not in "({":
            return count, text[at:]
        end = closed(text, at)
        inside = text[at + 1:end - 1]
        if " : " not in inside:
            return count, text[at:]
        count += len(inside.split(" : ")[0].split())
        at = end


def arrows(text):
    """How many arguments a type has."""
    count, depth, begun = 0, 0, 0
    for place, mark in enumerate(text):
        if mark in "([{":
            depth += 1
        elif mark in ")]}":
            depth -= 1
        elif mark == "→" and depth == 0:
            named, _ = binders(text[begun:place])
            count += max(named, 1)
            begun = place + 1
    return count


def definitions_of(crate, path):
    text = "\n".join(line.split("  --")[0] for line in text_of(path).split("\n") if not line.lstrip().startswith("--"))
    found, seen = [], set()
    for match in DEFINITION.finditer(text):
        words, name = match[0].split(), match[3]
        if name in seen or words[1] in ("use", "mod"):
            continue
        indent = match[1]
        rest = match[4]
        for line in text[match.end():].split("\n")[1:]:
            if not line.strip() or len(line) - len(line.lstrip()) <= len(indent):
                break
            rest += "\n" + line
        if "record" in words[:words.index(name)] or "data" in words[:words.index(name)]:
            count, rest = binders(rest.split(" where")[0])
            kind = rest.split(" where")[0]
            count += arrows(kind.partition(":")[2].split("\n")[0]) if "data" in words else 0
        elif ":" in rest.split("\n")[0]:
            count, rest = binders(rest)
            count += arrows(rest.partition(":")[2].split("\n" + indent + name)[0])
        else:
            continue
        seen.add(name)
        found.append(Definition(crate, os.path.basename(path), name, count))
    return found


# The table.


class Count:
    """What some crates have."""

    def __init__(self, names):
        self.names = names
        self.functions, self.definitions = [], []
        self.code = self.specs = self.proofs = self.uses = self.trunk = 0
        of_preludes = passed_on()
        for crate, path in [(name, path) for name in names for path in files_below(os.path.join(TOP, "crates", name), (".rt", ".antt"))]:
            text = text_of(path)
            if crate != "trunk_wire" and not crate.endswith("_tests") and mentions_trunk(path, text, of_preludes):
                self.trunk += 1
            folder = os.path.relpath(path, os.path.join(TOP, "crates", crate)).split(os.sep)[0]
            lines = text.count("\n")
            if folder == "proofs":
                self.uses += len(USE.findall(text))
                self.proofs += lines
            elif folder == "specs":
                self.uses += len(USE.findall(text))
                self.specs += lines
                self.definitions += definitions_of(crate, path)
            elif folder == "src" and not is_test(path):
                self.code += lines
                self.functions += functions_of(crate, path)

    def rows(self):
        by_clauses = max(self.functions, key=lambda it: len(it.clauses))
        longest = max((max(it.clauses), it) for it in self.functions if it.clauses)
        arguments = max(self.functions, key=lambda it: it.arguments)
        definition = max(self.definitions, key=lambda it: it.arguments, default=None)
        yield "crates", len(self.names)
        yield "functions", len(self.functions)
        yield "clauses of all functions", sum(len(it.clauses) for it in self.functions)
        yield "clauses of a function, most", shown(len(by_clauses.clauses), by_clauses)
        yield "public functions of more than %d clauses" % MOST_CLAUSES, sum(
            1 for it in self.functions if it.public and len(it.clauses) > MOST_CLAUSES)
        yield "longest clause, characters", shown(longest[0], longest[1])
        yield "characters of all clauses", sum(sum(it.clauses) for it in self.functions)
        yield "arguments of a function, most", shown(arguments.arguments, arguments)
        yield "arguments of a definition, most", shown(definition.arguments, definition) if definition else "no definition"
        yield "lines of bodies", sum(it.lines for it in self.functions)
        yield "lines of code with clauses", self.code
        yield "lines of definitions (`specs`)", self.specs
        yield "lines of proofs (`proofs`)", self.proofs
        yield "lines of `use`", self.uses
        yield "files that mention the trunk's bytes", self.trunk


def shown(number, of):
    return "%d (`%s` of `%s`)" % (number, of.name, of.crate)


def print_table(counts, heads):
    print("| What | %s |" % " | ".join(heads))
    print("|%s" % ("---|" * (len(heads) + 1)))
    for cells in zip(*[list(it.rows()) for it in counts]):
        print("| %s | %s |" % (cells[0][0], " | ".join(str(it[1]) for it in cells)))


def print_longest(count, how_many):
    print("\nFunctions by clauses (requires and ensures, the longest in characters, arguments):")
    for it in sorted(count.functions, key=lambda it: -len(it.clauses))[:how_many]:
        print("  %3d %5d %3d  %s %s::%s" % (len(it.clauses), max(it.clauses), it.arguments, it.crate, it.file, it.name))
    print("\nFunctions by arguments:")
    for it in sorted(count.functions, key=lambda it: -it.arguments)[:how_many]:
        print("  %3d  %s %s::%s" % (it.arguments, it.crate, it.file, it.name))
    print("\nDefinitions by arguments:")
    for it in sorted(count.definitions, key=lambda it: -it.arguments)[:how_many]:
        print("  %3d  %s %s::%s" % (it.arguments, it.crate, it.file, it.name))


def main():
    parser = argparse.ArgumentParser(description=__doc__, formatter_class=argparse.RawDescriptionHelpFormatter)
    parser.add_argument("--crates", metavar="NAMES", help="the crates of the tower, with commas between")
    parser.add_argument("--longest", type=int, default=0, metavar="N")
    given = parser.parse_args()
    tower = given.crates.split(",") if given.crates else TOWER
    there = [it for it in tower if it in crates()]
    for it in tower:
        if it not in there:
            print("house.py: there is no crate %s" % it, file=sys.stderr)
    counts, heads = [Count(crates())], ["The repository"]
    if there:
        counts.append(Count(there))
        heads.append("The tower")
    print_table(counts, heads)
    if there and there != tower:
        print("\nThe tower is here %s." % ", ".join(there))
    if given.longest:
        print_longest(counts[-1], given.longest)


if __name__ == "__main__":
    main()
