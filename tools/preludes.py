#!/usr/bin/env python3
"""Gathers the imports of a crate's definitions and proofs into preludes, which pass names on by `pub use`.

A crate has up to three preludes, each with its names by the modules that they come from:
  specs/Terms.antt    words of crates below, and types of the crate's code that rest on none of its definitions
  proofs/Terms.antt   the same for proofs, and the crate's own words, and lemmas of crates below
  proofs/Lemmas.antt  the crate's own lemmas, for the proofs of its functions, which no lemma file imports
A file then has a line `use` for each prelude in place of one for each module. A prelude passes on what the crate's files name
of a module that at least two of them name, and nothing else. What stays a line of its own: a module that one file alone names,
a module that is brought in whole (`use .. as goal`), a name under another name, the library's Prelude in definitions, which
`rt ci` wants, and the crate's own words in its definitions and own lemmas in its lemmas, which would go in a circle. Where two modules have things of one name, the one that more files
name is passed on. A file that a prelude rests on doesn't use it. A crate has the preludes with which its lines of `use` are
fewest, if each saves LEAST_SAVED lines at least.

All is found anew from what the files say, and a line of a prelude is first read as the lines that it stands for. So a second
run changes nothing, and a run after edits takes new imports into the preludes and drops what is named no longer. A name that a
file imports from a prelude has to stand in it: where a merge meets a conflict among lines of `use`, keep those of both sides,
and run this. Written are .antt files of specs/ and proofs/ alone, in the layout of `rt fmt`.

usage: preludes.py CRATE ..     rewrites these crates
       preludes.py --all        rewrites each crate of crates.txt
       preludes.py --count      changes nothing, and prints how many lines of `use` each crate has
"""

import glob
import os
import re
import subprocess
import sys

TOP = os.path.join(os.path.dirname(os.path.abspath(__file__)), "..")
LEAST_SAVED = 3

# the preludes by their modules, and the comment at the head of each
WORDS, TERMS, LEMMAS = "specs.Terms", "proofs.Terms", "proofs.Lemmas"
HEADS = {
    WORDS: "-- The words that this crate's definitions are written in: those of crates below, and types of its code.",
    TERMS: "-- The words and lemmas that this crate's proofs are written in: those of crates below, and its own words.",
    LEMMAS: "-- The lemmas that the proofs of this crate's functions cite.",
}
CHOICES = [[], [WORDS], [TERMS], [LEMMAS], [WORDS, TERMS], [WORDS, LEMMAS], [TERMS, LEMMAS], [WORDS, TERMS, LEMMAS]]

USE = re.compile(r"^((?:unfoldable )?pub )?use (\S+?)(?:\.\{(.*)\})?(?: as (\S+))?$")
GHOST_USE = re.compile(r"^\s*(?:pub )?ghost use (Rattle\.\S+?)(?:\.\{[^}]*\})?(?: as \w+)?;", re.M)
UNFOLDABLE = re.compile(r"^\s*(?:pattern )?unfoldable (?:abbrev )?pub (?!use )([^:(\n]+)", re.M)
UNFOLDABLE_USE = re.compile(r"^\s*unfoldable pub use \S+?\.\{(.*)\}$", re.M)


def read(path):
    with open(path, encoding="utf-8") as source:
        return source.read()


def crates_in_order():
    lines = [line.split("#")[0].strip() for line in read(os.path.join(TOP, "crates.txt")).splitlines()]
    return [re.split(r"[\s:]", line)[0] for line in lines if line]


ORDER = crates_in_order()


def crate_of(module):
    return module.split(".")[1] if module.startswith("Rattle.") else None


def path_of(crate, inner):
    return os.path.join(TOP, "crates", crate, *inner.split(".")) + ".antt"


class Line:
    """A line of `use`: the words before it, its module, and either its items or the name that the module is given."""

    def __init__(self, text):
        found = USE.match(text)
        self.mark, self.module, items, self.alias = found.groups()
        self.items = None if items is None else items.split(", ")

    def text(self):
        items = "" if self.items is None else ".{%s}" % ", ".join(self.items)
        return "%suse %s%s%s" % (self.mark or "", self.module, items, " as " + self.alias if self.alias else "")


class File:
    """A file of specs/ or proofs/: what stands before its lines of `use`, these lines, and the rest."""

    def __init__(self, crate, path):
        self.path = path
        inner = os.path.relpath(path, os.path.join(TOP, "crates", crate))[: -len(".antt")]
        self.inner = inner.replace(os.sep, ".")
        self.module = "Rattle.%s.%s" % (crate, self.inner)
        self.is_spec = self.inner.startswith("specs.")
        self.is_answer = not self.is_spec and self.inner.count(".") > 1
        self.source = read(path)
        lines = self.source.split("\n")
        numbers = [number for number, text in enumerate(lines) if USE.match(text)]
        first, end = (numbers[0], numbers[-1] + 1) if numbers else (0, 0)
        if len(numbers) != end - first:
            sys.exit("preludes.py: %s: other lines stand among its lines of `use`" % os.path.relpath(path, TOP))
        self.head, self.rest = lines[:first], lines[end:]
        self.lines = [Line(text) for text in lines[first:end]]


def is_prelude(module):
    return module.startswith("Rattle.") and module.split(".", 2)[2] in HEADS


def passed_on(module, seen={}):
    """What a prelude passes on: the module that each of its names comes from, through other preludes."""
    if module not in seen:
        seen[module] = {}
        crate, inner = module.split(".", 2)[1:]
        path = path_of(crate, inner)
        for line in File(crate, path).lines if os.path.exists(path) else []:
            for name in line.items:
                seen[module][name] = origin(path, line.module, name)
    return seen[module]


def origin(path, module, name):
    """The module that a name comes from which the file at this path imports."""
    if not is_prelude(module):
        return module
    real = name.split(" as ")[0]
    if real not in passed_on(module):
        sys.exit("preludes.py: %s imports %s from %s, which doesn't pass it on" % (os.path.relpath(path, TOP), real, module))
    return passed_on(module)[real]


class Crate:
    def __init__(self, name):
        self.name = name
        paths = [path for folder in ("specs", "proofs") for path in glob.glob(os.path.join(TOP, "crates", name, folder, "**", "*.antt"), recursive=True)]
        files = [File(name, path) for path in sorted(paths)]
        self.files = [it for it in files if it.inner not in HEADS and not it.inner.endswith(".Lib")]
        self.libs = {}  # by the folder, the modules in the order in which its Lib names them
        for folder in ("specs", "proofs"):
            path = path_of(name, folder + ".Lib")
            text = read(path) if os.path.exists(path) else ""
            self.libs[folder] = [it for it in re.findall(r"^(?:pub )?mod (\w+)$", text, re.M)]
        for file in self.files:
            self.expand(file)
        self.plain = {}
        self.edges = {file.module: {line.module for line in file.lines} for file in self.files}

    # a file's imports as if there were no preludes

    def expand(self, file):
        old, file.lines = file.lines, []
        for line in old:
            if line.items is None or not is_prelude(line.module):
                if not self.joins(file, line):
                    file.lines.append(line)
        for line in old:
            if line.items is not None and is_prelude(line.module):
                for name in line.items:
                    self.add(file, Line("use %s.{%s}" % (origin(file.path, line.module, name), name)))

    def joins(self, file, line):
        """Adds a line's items to those of a line of the same module, if the file has one."""
        for other in file.lines:
            if other.module == line.module and not other.mark and not line.mark and None not in (other.items, line.items):
                other.items += [name for name in line.items if name not in other.items]
                return True
        return False

    def add(self, file, line):
        """Adds a line among a file's, to one of the same module or at the place of its module."""
        if not self.joins(file, line):
            rank = self.rank(line)
            places = [place for place, other in enumerate(file.lines) if self.rank(other) > rank]
            file.lines.insert(places[0] if places else len(file.lines), line)

    def rank(self, line):
        """Where a line stands among others: std, then crates below from the bottom up, then the crate's own modules."""
        crate = crate_of(line.module)
        if crate is None or crate == "std":
            return 0, 0, 0, ""
        if crate != self.name:
            return 1, ORDER.index(crate) if crate in ORDER else -1, 0, ""
        parts = line.module.split(".")[2:]
        inner = ".".join(parts)
        if line.alias and parts[-1] in ("Goals", "Given"):
            return 6, 0, 0, ""
        if inner in HEADS:
            return 2, 0, sorted(HEADS).index(inner), ""
        known = self.libs[parts[0]]
        place = known.index(parts[1]) if parts[1] in known else -1
        return 3 if parts[0] == "specs" else 4, 0, place, inner

    # which names a prelude passes on

    def may_pass(self, prelude, file, line):
        """Whether a file takes the names of a line by this prelude, if the prelude passes them on."""
        if line.items is None or line.mark or not line.module.startswith("Rattle."):
            return False
        own = crate_of(line.module) == self.name
        of_specs = line.module.split(".")[2] == "specs"
        if prelude == LEMMAS:
            return file.is_answer and own and not of_specs
        if prelude == TERMS:
            return not file.is_spec and (of_specs or not own)
        if line.module == "Rattle.std.specs.Prelude":
            return False  # `rt ci` wants that definitions import the library's operators and plain words from there
        return of_specs and (not own or self.is_plain(line.module))

    def reached(self, modules, found):
        """Adds to `found` the modules of this crate that these rest on, through those that Rattle makes of the code too."""
        for module in modules:
            if crate_of(module) != self.name or module in found:
                continue
            found.add(module)
            parts = module.split(".")
            if parts[-1] == "Goals":
                self.reached([".".join(parts[:-1] + ["Invariants"])], found)
            if parts[2:4] == ["specs", "declared"]:
                self.reached(self.named_by_code(parts[4:]), found)
            self.reached(self.edges.get(module, ()), found)
        return found

    def named_by_code(self, parts):
        """What the file of the code that stands for `declared.PARTS` names: by `ghost use`, and other files of the crate."""
        folder = os.path.join(TOP, "crates", self.name, "src")
        paths = [os.path.join(folder, *parts[:end]) + ".rt" for end in range(len(parts), 0, -1)]
        roots = [os.path.join(folder, "lib.rt"), os.path.join(folder, "main.rt")]
        path, root = [next(it for it in several if os.path.exists(it)) for several in (paths + roots, roots)]
        text, root_text = read(path), read(root)
        words = re.findall(r"\w+", " ".join(re.findall(r"\b(?:crate|super)::(\{[^}]*\}|[\w:]+(?:\{[^}]*\})?)", text)))
        files = {word for word in words if os.path.exists(os.path.join(folder, word + ".rt"))}
        for word in words:
            files.update(re.findall(r"^pub use (\w+)::[^;]*\b%s\b" % word, root_text, re.M))
        return GHOST_USE.findall(text) + ["Rattle.%s.specs.declared.%s" % (self.name, it) for it in sorted(files)]

    def is_plain(self, module):
        """Whether a module is made of the code, and rests on no definition of this crate."""
        if module not in self.plain:
            self.plain[module] = all(it.split(".")[2:4] == ["specs", "declared"] for it in self.reached([module], set()))
        return self.plain[module]

    def passed_by(self, prelude, barred):
        """The names that a prelude passes on, each with its module. Files in `barred` don't use it."""
        users, of_module, taken = {}, {}, set()
        for file in self.files:
            for line in file.lines:
                for name in () if line.mark else line.items or ():
                    if " as " in name:
                        continue
                    users.setdefault((name, line.module), set()).add(file.module)
                    of_module.setdefault(line.module, set()).add(file.module)
                    if file.module not in barred and self.may_pass(prelude, file, line):
                        taken.add((name, line.module))
        names = {}
        for name, module in sorted(taken, key=lambda it: (-len(users[it]), it)):
            if len(of_module[module]) > 1:
                names.setdefault(name, module)
        return names

    def preludes(self, chosen):
        """For each chosen prelude what it passes on, and the files that can't use it since it rests on them."""
        found, under = {}, set()
        for prelude in (WORDS, TERMS, LEMMAS):
            if prelude not in chosen:
                continue
            barred = set()
            while True:
                names = self.passed_by(prelude, barred)
                rests_on = self.reached(names.values(), set(under))
                more = {file.module for file in self.files if file.module in rests_on}
                if more <= barred:
                    break
                barred |= more
            under = rests_on
            found[prelude] = names, barred
        return found

    # the new files

    def laid_out(self, chosen):
        """The text of each file, by its path, with these preludes; None for a file that goes. And the lines of `use` in all."""
        preludes = self.preludes(chosen)
        texts = {}
        for file in self.files:
            lines = self.lines_with(file, preludes)
            texts[file.path] = "\n".join(file.head + [line.text() for line in lines] + file.rest)
        for prelude in HEADS:
            path = path_of(self.name, prelude)
            if prelude in preludes and preludes[prelude][0]:
                texts[path] = "\n".join([HEADS[prelude]] + self.lines_of(prelude, preludes)) + "\n"
            else:
                texts[path] = None
        for folder in ("specs", "proofs"):
            self.declare(folder, texts)
        return texts, sum(len(re.findall(r"^(?:(?:unfoldable )?pub )?use ", text or "", re.M)) for text in texts.values())

    def lines_with(self, file, preludes):
        kept, taken = [], {}
        for line in file.lines:
            items = line.items
            for prelude, (names, barred) in preludes.items() if items is not None else ():
                if file.module in barred or not self.may_pass(prelude, file, line):
                    continue
                if prelude == WORDS and TERMS in preludes and not file.is_spec:
                    continue
                moved = [name for name in items if names.get(name) == line.module]
                taken.setdefault(prelude, []).extend(moved)
                items = [name for name in items if name not in moved]
            if items is None or items:
                new = Line(line.text())
                new.items = items
                kept.append(new)
        result = File.__new__(File)
        result.lines = kept
        for prelude in (it for it in HEADS if taken.get(it)):
            names = preludes[prelude][0]
            items = sorted(set(taken[prelude]), key=lambda name: self.place_of(names[name], name))
            self.add(result, Line("use Rattle.%s.%s.{%s}" % (self.name, prelude, ", ".join(items))))
        return result.lines

    def place_of(self, module, name):
        is_file = ".specs.declared." not in module
        return self.rank(Line("use %s.{%s}" % (module, name))), is_file, module, name

    def lines_of(self, prelude, preludes):
        groups = {}
        names = preludes[prelude][0]
        for name, module in names.items():
            mark = "unfoldable pub " if is_unfoldable(module, name) else "pub "
            if prelude != WORDS and WORDS in preludes and preludes[WORDS][0].get(name) == module:
                module = "Rattle.%s.%s" % (self.name, WORDS)
            groups.setdefault((module, mark), []).append(name)
        ordered = sorted(groups, key=lambda it: (self.place_of(it[0], ""), it[1]))
        return ["%suse %s.{%s}" % (mark, module, ", ".join(sorted(groups[module, mark]))) for module, mark in ordered]

    def declare(self, folder, texts):
        """Names the preludes in the folder's Lib: Terms first, Lemmas last."""
        path = path_of(self.name, folder + ".Lib")
        old = read(path) if os.path.exists(path) else ""
        inner = [prelude.split(".")[1] for prelude in HEADS if prelude.startswith(folder + ".")]
        lines = [text for text in old.splitlines() if text not in ["pub mod " + it for it in inner]]
        made = [it for it in inner if texts[path_of(self.name, folder + "." + it)] is not None]
        if not made and len(lines) == len(old.splitlines()):
            return
        place = next((number for number, text in enumerate(lines) if re.match(r"(?:pub )?mod ", text)), len(lines))
        first = ["pub mod " + it for it in made if it != "Lemmas"]
        last = ["pub mod " + it for it in made if it == "Lemmas"]
        lines = lines[:place] + first + lines[place:] + last
        texts[path] = "\n".join(lines) + "\n" if lines else None

    def rewrite(self):
        laid_out = []
        for chosen in CHOICES:
            texts, count = self.laid_out(chosen)
            laid_out.append((count + LEAST_SAVED * len(chosen), len(chosen), chosen, texts, count))
        _, _, chosen, texts, count = min(laid_out, key=lambda it: it[:2])
        changed = 0
        for path, text in texts.items():
            old = read(path) if os.path.exists(path) else None
            if text == old:
                continue
            changed += 1
            if text is None:
                os.remove(path)
            else:
                with open(path, "w", encoding="utf-8") as target:
                    target.write(text)
        print("%s: %d lines of `use`, by %s; %d files changed" % (self.name, count, ", ".join(chosen) or "no prelude", changed))


def sources_of(module, seen={}):
    """The texts that a module's definitions may stand in: the repository's file, or the kit's files of that path."""
    if module not in seen:
        crate, inner = module.split(".", 2)[1:]
        paths = [path_of(crate, inner)]
        if crate not in ORDER:
            kit = os.path.join(kit_folder(), "rattle", "*" if crate == "std" else crate, *inner.split("."))
            paths = glob.glob(kit + ".antt") + glob.glob(os.path.join(kit, "Lib.antt"))
        seen[module] = [read(path) for path in paths if os.path.exists(path)]
    return seen[module]


def kit_folder(seen=[]):
    if not seen:
        seen.append(os.path.dirname(subprocess.check_output(["rt", "doc"]).decode().strip()))
    return seen[0]


def is_unfoldable(module, name):
    """Whether a definition may be unfolded by those who import it. One passed on without the word couldn't be."""
    for text in sources_of(module):
        if any(name in names.split() for names in UNFOLDABLE.findall(text)):
            return True
        if any(name in re.split(r", | as ", names) for names in UNFOLDABLE_USE.findall(text)):
            return True
    return False


def count():
    total = 0
    for crate in ORDER:
        paths = [path for folder in ("specs", "proofs") for path in glob.glob(os.path.join(TOP, "crates", crate, folder, "**", "*.antt"), recursive=True)]
        lines = sum(len(re.findall(r"^(?:(?:unfoldable )?pub )?use ", read(path), re.M)) for path in paths)
        total += lines
        print("%6d %s" % (lines, crate))
    print("%6d in all" % total)


def main():
    names = sys.argv[1:]
    if names == ["--count"]:
        return count()
    if names == ["--all"]:
        names = ORDER
    if not names or names[0].startswith("-"):
        sys.exit(__doc__)
    for name in names:
        if name not in ORDER:
            sys.exit("preludes.py: there is no crate %s" % name)
    for crate in [Crate(name) for name in names]:
        crate.rewrite()


if __name__ == "__main__":
    main()
