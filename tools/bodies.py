#!/usr/bin/env python3
"""Tries the wrong bodies of both shelves: those of crates/NAME/must-fail, which the merge gate tries, and those of bodies/NAME, which it doesn't.

First each is looked at without the prover: its file is there, each `old:` text stands there exactly once, something changes, and no name stands
on both shelves of a crate. One that fails is BAD, and isn't tried. --check does this look alone, in a second.

Then crates.txt, HANDLES and crates/ are copied as they stand here, new files too, into a folder of their own, with the other shelf laid into the first.
`rt must-fail NAME` runs there for one crate after another. It begins with what checks on this machine kept, and tries only what has
changed since it was tried; --anew tries all. Nothing of this copy of the repository is touched. --keep leaves the folder, and prints where it is.

A line for each: `refused`, `NOT REFUSED` (the crate is still proved with it), `BAD` (it can't be laid, compiled or read) or `NOT TRIED` (nothing is
known of it). Behind the last three stands the reason, and behind `refused` what the prover said first.

Then come the counts, and `all refused` with status 0 where at least one was tried and each was refused. Else the status is 1.

usage: bodies.py [--check] [--anew] [--jobs N] [--keep] [CRATE ..]
Without names it is all crates of crates.txt.
"""

import argparse
import os
import re
import shutil
import signal
import subprocess
import sys
import tempfile

TOP = os.path.dirname(os.path.dirname(os.path.abspath(__file__)))

GATE, OTHER = "crates/{}/must-fail", "bodies/{}"

NAME = re.compile(r"[A-Za-z0-9_-][A-Za-z0-9_.-]*\.edit")

# What rt says of one: `rt: must-fail CRATE/NAME.edit: WHAT`
SAID = re.compile(r"must-fail (\w+)/(\S+)\.edit: (.*)")

REFUSED, MISSED, BAD, UNTRIED = "refused", "NOT REFUSED", "BAD", "NOT TRIED"

# How rt begins what it says of each.
BEGINS = {"refused, as it must be": REFUSED, "NOT REFUSED": MISSED, "BAD EDIT": BAD, "NOT TRIED": UNTRIED}

# Refusals that say less: rt's words for them.
BY_LIMIT, BY_NAME = "only by a limit of the prover", "only because a proof file names what the edit took away"


def crates():
    """The names of crates.txt, in its order."""
    with open(f"{TOP}/crates.txt", encoding="utf-8") as it:
        lines = [line.split("#")[0] for line in it]
    return [line.split(":")[0].split()[0] for line in lines if ":" in line]


def text_of(path):
    with open(path, encoding="utf-8") as it:
        return it.read()


# The look without the prover.


def files_of(shelf, crate):
    """The files of a crate's shelf, but pages."""
    folder = f"{TOP}/{shelf.format(crate)}"
    found = os.listdir(folder) if os.path.isdir(folder) else []
    return [it for it in sorted(found) if not it.endswith(".md")]


def flaw_of(text, folder):
    """Why an edit can't be laid over the crate of a folder, or None."""
    path, old, texts, was = "", None, {}, {}
    for line in text.split("\n"):
        if line.startswith("file: "):
            path = line[len("file: ") :].strip()
            if os.path.normpath(path) != path or not path.startswith(("src/", "specs/", "proofs/")):
                return "a 'file:' line names no file below src/, specs/ or proofs/"
        elif line.startswith("old: "):
            old = line[len("old: ") :]
        elif line.startswith("new:"):
            if not path or not old:
                return "a 'new:' line stands before any 'file:' or 'old:' line"
            if path not in texts:
                if not os.path.isfile(f"{folder}/{path}"):
                    return f"there is no file {path}"
                texts[path] = was[path] = text_of(f"{folder}/{path}")
            found = texts[path].count(old)
            if found != 1:
                return f"an 'old:' text is in {path} {found} times, and not once"
            new = line[len("new:") :]
            texts[path] = texts[path].replace(old, new[1:] if new.startswith(" ") else new)
            old = None
        elif line.strip():
            return f"a line begins with none of 'file: ', 'old: ' and 'new: ': {line.strip()[:60]}"
    if not texts:
        return "it has no 'old:' and 'new:' pair"
    return None if texts != was else "it changes nothing"


def look(crate):
    """Each wrong body of a crate: its name, where it stands, and why it can't be laid, or None."""
    here = files_of(GATE, crate)
    for shelf, names in ((GATE, here), (OTHER, files_of(OTHER, crate))):
        for name in names:
            path = f"{shelf.format(crate)}/{name}"
            if not NAME.fullmatch(name) or not os.path.isfile(f"{TOP}/{path}"):
                flaw = "its name isn't one of letters, digits, _, - and . that ends in .edit"
            elif shelf == OTHER and name in here:
                flaw = f"{GATE.format(crate)} has the name too"
            else:
                flaw = flaw_of(text_of(f"{TOP}/{path}"), f"{TOP}/crates/{crate}")
            yield re.sub(r"\.edit$", "", name), path, flaw


def strangers():
    """What stands in bodies/ for no crate."""
    found = sorted(os.listdir(f"{TOP}/bodies")) if os.path.isdir(f"{TOP}/bodies") else []
    return [it for it in found if it not in crates() and not it.endswith(".md")]


# The try.


def sources():
    """The files that are copied, by git: those that it knows, and new ones that aren't ignored."""
    words = ["git", "ls-files", "-zco", "--exclude-standard", "crates.txt", "HANDLES", "crates"]
    names = subprocess.run(words, cwd=TOP, check=True, stdout=subprocess.PIPE).stdout.decode().split("\0")
    return [it for it in sorted(set(names)) if it and os.path.isfile(f"{TOP}/{it}")]


def copy(path, to):
    os.makedirs(os.path.dirname(to), exist_ok=True)
    shutil.copy2(f"{TOP}/{path}", to)


def lay(room, bodies):
    """Copies the crates, with these bodies alone in their first shelves."""
    for path in sources():
        if "/must-fail/" not in path:
            copy(path, f"{room}/{path}")
    for crate, name, path in bodies:
        copy(path, f"{room}/{GATE.format(crate)}/{name}.edit")


def run(room, crate, anew, jobs):
    """What rt says in the folder of a crate's wrong bodies: of each by its name what it came to, and why; and its whole output."""
    words = ["rt", "must-fail", *(["--anew"] if anew else []), crate]
    env = dict(os.environ, **({"RT_JOBS": str(jobs)} if jobs else {}))
    how = {"cwd": room, "env": env, "stdin": subprocess.DEVNULL, "stdout": subprocess.PIPE, "stderr": subprocess.STDOUT}
    ran = subprocess.Popen(words, start_new_session=True, **how)
    try:
        out = ran.communicate()[0].decode(errors="replace")
    except BaseException:
        stop(ran)
        raise
    return read(crate, out), out


def stop(ran):
    """Ends rt and what it started: as at a keyboard, so that it takes its folders away, and else by force."""
    for how in (signal.SIGINT, signal.SIGTERM, signal.SIGKILL):
        try:
            os.killpg(ran.pid, how)
            ran.wait(timeout=20)
            return
        except subprocess.TimeoutExpired:
            pass
        except ProcessLookupError:
            return


def read(crate, out):
    """What rt says of each wrong body of a crate: what it came to, and why, with the first error that stands below."""
    came, name = {}, None
    for line in out.split("\n"):
        said = SAID.search(line)
        if said:
            name = None
            for words, kind in BEGINS.items():
                if said[1] == crate and said[3].startswith(words):
                    name, why = said[2], said[3][len(words) :].strip(": ")
                    came[name] = kind, why
        elif name and "error" in line and came[name][1].endswith("what it said"):
            came[name] = came[name][0], f"{came[name][1]}: {line.strip()}"
    return came


def tell(kind, crate, name, why):
    print(f"{kind} {crate}/{name}" + (f": {why}" if why else ""), flush=True)


def try_all(bodies, anew, jobs, keep):
    """Tries these bodies, each with its crate, its name and its path, and answers what each came to."""
    room = tempfile.mkdtemp(prefix="rx-bodies-")
    try:
        lay(room, bodies)
        kinds = []
        for crate in sorted({it[0] for it in bodies}, key=crates().index):
            came, out = run(room, crate, anew, jobs)
            mine = [name for where, name, _ in bodies if where == crate]
            for name in mine:
                kind, why = came.get(name, (UNTRIED, "rt says nothing of it"))
                tell(kind, crate, name, why)
                kinds.append((kind, why))
            if not all(it in came for it in mine):
                print("\n".join(["rt says:", *out.rstrip("\n").split("\n")[-20:]]), flush=True)
        return kinds
    finally:
        if keep:
            print(f"the copy stands in {room}")
        else:
            shutil.rmtree(room, ignore_errors=True)


def print_counts(kinds):
    counts = {kind: len([it for it in kinds if it[0] == kind]) for kind in BEGINS.values()}
    less = [(len([it for it in kinds if words in it[1]]), words) for words in (BY_LIMIT, BY_NAME)]
    of_less = "; ".join(f"{count} {words}" for count, words in less if count)
    print(f"{counts[REFUSED]} refused{f' ({of_less})' if of_less else ''}, {counts[MISSED]} not refused, {counts[BAD]} bad, {counts[UNTRIED]} not tried")


def main():
    parser = argparse.ArgumentParser(description=__doc__, formatter_class=argparse.RawDescriptionHelpFormatter)
    parser.add_argument("names", nargs="*", metavar="CRATE", help="crates of crates.txt")
    parser.add_argument("--check", action="store_true", help="look at them without the prover, and try none")
    parser.add_argument("--anew", action="store_true", help="try those too that were tried before and haven't changed")
    parser.add_argument("--jobs", type=int, help="how many are tried side by side: as many as there are processors, unless it is given")
    parser.add_argument("--keep", action="store_true", help="leave the copy in which they are tried")
    given = parser.parse_intermixed_args()
    unknown = [it for it in given.names if it not in crates()]
    if unknown:
        parser.error(f"no crate of crates.txt: {' '.join(unknown)}")
    kinds, bodies = [], []
    if not given.names:
        for it in strangers():
            print(f"{BAD} bodies/{it}: no crate of crates.txt")
            kinds.append((BAD, ""))
    for crate in [it for it in crates() if not given.names or it in given.names]:
        for name, path, flaw in look(crate):
            if flaw:
                tell(BAD, crate, name, f"{path}: {flaw}")
                kinds.append((BAD, flaw))
            else:
                bodies.append((crate, name, path))
    if given.check:
        print(f"{len(bodies)} wrong bodies can be tried, {len(kinds)} can't")
        return 1 if kinds or not bodies else 0
    signal.signal(signal.SIGTERM, lambda *_: sys.exit(143))
    tried = try_all(bodies, given.anew, given.jobs, given.keep) if bodies else []
    print_counts(kinds + tried)
    if not [it for it in tried if it[0] != UNTRIED]:
        print("none was tried")
        return 1
    if not kinds and all(it[0] == REFUSED for it in tried):
        print("all refused")
        return 0
    return 1


if __name__ == "__main__":
    sys.exit(main())
