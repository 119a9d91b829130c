#!/usr/bin/env python3
"""Whether the pages hold together: what they link to and name exists, and their sentences are short.

Pages are all files *.md of the repository. Of each is checked:

- a link's file exists, and its anchor is a heading there;
- a path in backticks exists: from the top, beside the page, in crates/, or as the end of a path there. Capitals and `*` stand for any
  name. Of `CRATE::NAME`, of `crates/CRATE` and of "crate `CRATE`" the crate is one of crates.txt or one of the kit that it names;
- a name in backticks that has a `_`, or a capital within, is a word of crates.txt, crates/, guests/ or of the programs;
- the tables of docs/ARCHITECTURE.md with a column "Crate" have each crate of crates.txt that isn't one of tests, and no other;
- a program of tools/, bench/ or compare/ that is named exists, and so do the options behind it, by its text;
- each option of `rx` that docs/USING.md names is one of crates/command_line, and each one there is named;
- no sentence has more than 25 words in a cell of a table or 35 elsewhere (a text in backticks counts as one word), and no line more
  than 160 characters, tables and blocks of code apart.

Words and lines of each page are printed. The status is 1 where something is wrong.

usage: check_pages.py [PAGE ..]
"""

import glob
import os
import re
import subprocess
import sys

TOP = os.path.dirname(os.path.dirname(os.path.abspath(__file__)))

MOST_IN_CELL, MOST_ELSEWHERE, MOST_CHARACTERS = 25, 35, 160

FENCE = re.compile(r"^```")
CODE = re.compile(r"`([^`]+)`")
LINK = re.compile(r"\[((?:[^\[\]]|`[^`]*`)*)\]\(([^()\s]+)\)")
ENDING = re.compile(r"\.(?:rt|antt|py|md|rs|c|h|s|S|ld|txt|edit|inc|results)$")
SCRIPT = re.compile(r"\b(?:tools|bench|compare|guests|guests/suite)/[\w/]+\.(?:py|rs|c)\b")
OPTION = re.compile(r"(?<![\w-])--[a-z][a-z-]*")
SENTENCE = re.compile(r"(?<=[.!?])[)\"*_]*\s+(?=[\"(*_\[`]*[A-Z0-9`])")

# What isn't in the repository: files that are built or of the kit, and names of the kit.
ELSEWHERE = {"BUILD.bazel", "START-HERE.md", "start_lib", "start_io", "ComputesKey"}


class Page:
    """A page's lines, each with what it is: code, a cell's row, a heading, or text."""

    def __init__(self, path):
        self.path = path
        with open(os.path.join(TOP, path), encoding="utf-8") as it:
            self.text = it.read()
        self.lines = []
        in_code = False
        for number, line in enumerate(self.text.split("\n"), 1):
            if FENCE.match(line.strip()):
                in_code = not in_code
                kind = "fence"
            elif in_code:
                kind = "code"
            elif line.lstrip().startswith("|"):
                kind = "row"
            elif line.startswith("#"):
                kind = "heading"
            else:
                kind = "text"
            self.lines.append((number, kind, line))

    def anchors(self):
        """The anchors of its headings, as GitHub names them."""
        found = {}
        for _, kind, line in self.lines:
            if kind == "heading":
                words = LINK.sub(r"\1", line.lstrip("#").strip()).replace("`", "")
                slug = re.sub(r"[^\w\- ]", "", words.lower()).replace(" ", "-")
                count = found.get(slug, -1) + 1
                found[slug] = count
                if count:
                    found["%s-%d" % (slug, count)] = 0
        return set(found)

    def blocks(self):
        """What sentences stand in, each with its first line: paragraphs, items of lists, cells."""
        begun, words = 0, []
        for number, kind, line in self.lines + [(0, "heading", "")]:
            begins = kind != "text" or not line.strip() or re.match(r"\s*(?:[-*]|\d+\.)\s", line)
            if begins and words:
                yield begun, "text", " ".join(words)
                words = []
            if kind == "text" and line.strip():
                begun = number if not words else begun
                words.append(re.sub(r"^\s*(?:[-*]|\d+\.)\s+", "", line).strip())
            if kind == "row" and not re.match(r"^\s*\|[-| :]*$", line):
                for cell in re.split(r"(?<!\\)\|", line.strip().strip("|")):
                    yield number, "cell", cell.strip()


def tracked(pattern):
    """The files of the repository, by git where it is there."""
    try:
        names = subprocess.run(["git", "ls-files", "-co", "--exclude-standard", pattern], cwd=TOP, check=True, capture_output=True)
        return sorted(it for it in set(names.stdout.decode().split("\n")) if it and os.path.exists(os.path.join(TOP, it)))
    except (OSError, subprocess.CalledProcessError):
        found = glob.glob(os.path.join(TOP, "**", pattern), recursive=True)
        return sorted(os.path.relpath(it, TOP) for it in found if "/out/" not in it)


class Repository:
    """What may be named: crates, paths, and words of sources."""

    def __init__(self):
        with open(os.path.join(TOP, "crates.txt"), encoding="utf-8") as it:
            lines = [line.split("#")[0] for line in it]
        self.crates = {line.split(":")[0].strip() for line in lines if ":" in line}
        self.known = self.crates | {word for line in lines if ":" in line for word in line.split(":")[1].split()}
        self.paths = tracked(".")
        self.folders = {part for path in self.paths for part in parents(path)}
        self.words = set(self.known)
        for path in self.paths:
            if path.endswith((".rt", ".antt", ".py", ".c", ".h", ".S", ".s", ".rs", ".txt", ".ld", ".edit", "Makefile")):
                with open(os.path.join(TOP, path), encoding="utf-8", errors="replace") as it:
                    self.words.update(re.findall(r"[^\s(){}\[\]⟨⟩.,:;|`'\"=+*/<>!&]+", it.read()))
            self.words.update(re.split(r"[/.]", path))

    def has_path(self, name, page):
        pattern = re.sub(r"(?<![A-Za-z])[A-Z]{2}[A-Z_]*(?![A-Z])", "*", name.rstrip("/")) if ENDING.search(name) or "/" in name else name
        if name in self.paths:
            return True
        rule = re.escape(pattern).replace(r"\*", "[^/]*")
        beside = os.path.normpath(os.path.join(os.path.dirname(page), pattern))
        rules = re.compile("^(?:%s|(?:.*/)?%s|%s)$" % (rule, rule, re.escape(beside)))
        return any(rules.match(it) for it in self.paths) or any(rules.match(it) for it in self.folders)


def parents(path):
    while os.path.dirname(path):
        path = os.path.dirname(path)
        yield path


def is_path(name):
    if re.search(r"[\s<>=≡(]", name) or name.startswith(("/", "-", "http", ".")) or "\\" in name:
        return False
    return bool(ENDING.search(name)) or "/" in name and bool(re.match(r"^[\w.*/-]+$", name)) and not re.match(r"^[\d/]+$", name)


def is_name(name):
    """Whether a text in backticks is a name of the sources and no word of a language."""
    if not re.match(r"^[A-Za-z]\w*(?:-[\w-]+)?$", name) or re.match(r"^[A-Z0-9_]+$", name) or re.search(r"[A-Z]_|_[A-Z]{2}", name):
        return False
    return "_" in name or bool(re.search(r"[a-z][A-Z]", name))


class Check:
    def __init__(self):
        self.repository = Repository()
        self.pages = {it: Page(it) for it in tracked("*.md")}
        self.wrong = 0

    def says(self, page, number, what):
        self.wrong += 1
        print("%s:%d: %s" % (page.path, number, what))

    def links(self, page):
        for number, kind, line in page.lines:
            if kind in ("code", "fence"):
                continue
            for _, target in LINK.findall(line):
                if re.match(r"^[a-z]+:", target):
                    continue
                file, _, anchor = target.partition("#")
                path = os.path.normpath(os.path.join(os.path.dirname(page.path), file)) if file else page.path
                if not os.path.exists(os.path.join(TOP, path)):
                    self.says(page, number, "no such file: %s" % target)
                elif anchor and (path not in self.pages or anchor not in self.pages[path].anchors()):
                    self.says(page, number, "no such heading: %s" % target)

    def names(self, page):
        has = self.repository
        for number, kind, line in page.lines:
            if kind in ("code", "fence"):
                continue
            for name in re.findall(r"\bcrates? `([a-z_]+)`", line) + re.findall(r"`crates/([a-z_]+)[/`]", line):
                if name not in has.known:
                    self.says(page, number, "no crate of crates.txt: %s" % name)
            for code in CODE.findall(line):
                head = re.match(r"^([a-z]\w*)::(\w+)", code)
                if code in ELSEWHERE or "out" in code.split("/"):
                    continue
                if is_path(code):
                    if not has.has_path(code, page.path):
                        self.says(page, number, "no such path: %s" % code)
                elif head and head[1] not in has.known | {"std", "crate", "rattle"} and head[1] not in has.words:
                    self.says(page, number, "no crate of crates.txt: %s" % code)
                elif head and head[2] not in has.words:
                    self.says(page, number, "no such name: %s" % code)
                elif is_name(code) and code not in has.words:
                    self.says(page, number, "no such name: %s" % code)

    def programs(self, page):
        for number, kind, line in page.lines:
            if kind == "fence":
                continue
            for found in SCRIPT.finditer(line):
                path = os.path.join(TOP, found[0])
                if not os.path.exists(path):
                    self.says(page, number, "no such program: %s" % found[0])
                    continue
                with open(path, encoding="utf-8") as it:
                    text = it.read()
                behind = re.split(r"[`|]|&&", line[found.end():])[0]
                for option in OPTION.findall(behind):
                    if option not in text:
                        self.says(page, number, "%s has no option %s" % (found[0], option))

    def options(self):
        """The options of rx and docs/USING.md, both ways."""
        page = self.pages.get("docs/USING.md")
        if page is None:
            return
        known = set()
        for path in self.repository.paths:
            if path.startswith("crates/command_line/src/") and path.endswith(".rt"):
                with open(os.path.join(TOP, path), encoding="utf-8") as it:
                    text = it.read()
                known.update("--" + it for it in re.findall(r"RowOf \{\s*name: \"([a-z][a-z-]*)\",", text))
                known.update(re.findall(r": &str = \"(--[a-z-]+)\";", text))
        named = set()
        for number, _, line in page.lines:
            for option in OPTION.findall(line):
                named.add(option)
                if option not in known:
                    self.says(page, number, "rx has no option %s" % option)
        for option in sorted(known - named):
            self.says(page, 1, "the option %s of rx isn't named" % option)

    def map(self):
        """The map of crates and crates.txt, both ways."""
        page = self.pages.get("docs/ARCHITECTURE.md")
        if page is None:
            return
        place, found = None, {}
        for number, kind, line in page.lines:
            cells = [it.strip() for it in line.strip().strip("|").split("|")] if kind == "row" else []
            if not cells:
                place = None
            elif "Crate" in cells:
                place = cells.index("Crate")
            elif place is not None and place < len(cells):
                found.update((it, number) for it in CODE.findall(cells[place]))
        crates = {it for it in self.repository.crates if not it.startswith("test_") and not it.endswith("_tests")}
        for it in sorted(crates - set(found)):
            self.says(page, 1, "the crate %s isn't on the map" % it)
        for it in sorted(set(found) - self.repository.crates):
            self.says(page, found[it], "no crate of crates.txt: %s" % it)

    def sentences(self, page):
        for number, kind, text in page.blocks():
            plain = LINK.sub(r"\1", CODE.sub("`C`", text))
            for sentence in SENTENCE.split(plain):
                count = len([it for it in sentence.split() if re.search(r"\w", it)])
                if count > (MOST_IN_CELL if kind == "cell" else MOST_ELSEWHERE):
                    self.says(page, number, "a sentence of %d words: %s .." % (count, sentence[:60]))
        for number, kind, line in page.lines:
            if kind not in ("row", "code", "fence") and len(line) > MOST_CHARACTERS:
                self.says(page, number, "a line of %d characters" % len(line))

    def sizes(self, names):
        rows = [(it, len(self.pages[it].text.split()), self.pages[it].text.count("\n")) for it in names]
        print("%-28s %7s %7s" % ("Page", "Words", "Lines"))
        for it in rows + [("all", sum(it[1] for it in rows), sum(it[2] for it in rows))]:
            print("%-28s %7d %7d" % it)


def main(words):
    if words and words[0].startswith("-"):
        sys.exit(__doc__)
    check = Check()
    names = [os.path.relpath(os.path.abspath(it), TOP) for it in words] or list(check.pages)
    for it in names:
        page = check.pages.get(it) or sys.exit("check_pages.py: no page %s" % it)
        check.links(page)
        check.names(page)
        check.programs(page)
        check.sentences(page)
    if "docs/USING.md" in names:
        check.options()
    if "docs/ARCHITECTURE.md" in names:
        check.map()
    check.sizes(names)
    print("%d things are wrong" % check.wrong if check.wrong else "nothing is wrong")
    return 1 if check.wrong else 0


if __name__ == "__main__":
    sys.exit(main(sys.argv[1:]))
