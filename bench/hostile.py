#!/usr/bin/env python3
"""What the built rx does where the world around it is against it.

1. Outputs that can't be written: standard output that is closed, that nobody reads any more, or that is full; a record or a report on a full disk (/dev/full,
   and a file size limit that is reached in mid-session), in a folder that isn't there, that is a directory, that this user may not write, that is a link to
   the other one, or a pipe.
2. Programs and records that are as large as may be, and one byte larger; a program that is written anew all the time while it is loaded; inputs that aren't there.
3. Limits of memory from 4 to 64 MiB.
4. Executables, inputs, records, texts of the assembler and lines, with random bytes changed, left out or put in: so many of each.

Each run has to end by itself within a time, by none of the system's signals, with a status of docs/USING.md; where that isn't 0, standard error has to begin with
one sentence of rx. No file may be touched but those that the command writes. Each run is in a folder of its own.

usage: hostile.py [--runs N] [--seed N] [RX]

RX is the built rx, crates/rx/out/rx unless it is given. It is to be run as root, which it leaves for what a user may not write. The status is 0 where all went so.
"""

import argparse
import collections
import hashlib
import os
import random
import resource
import shutil
import signal
import subprocess
import sys
import tempfile
import threading

HERE = os.path.dirname(os.path.abspath(__file__))
TOP = os.path.join(HERE, "..")
sys.path.insert(0, os.path.join(TOP, "compare"))

# pylint: disable=wrong-import-position
from second.guests import text_of  # noqa: E402
from second.trunk import OPENS, frame, piece_frame  # noqa: E402

SECONDS = 30  # for a run
LARGE_SECONDS = 240  # for one that reads 4 GiB
MIB = 1 << 20
PROGRAM_LIMIT, RECORD_LIMIT = 16 * MIB, 4096 * MIB
NOBODY = 65534
NO_LOADER = 127  # the system's loader had too little memory for the C library
STATUSES = range(11)

OVERRUN = frame(OPENS, 0) + piece_frame(0, b'hand saw 12",steel,19.90\n')
RUN = ["run", "p", "--record", "r", "--report", "t"]

Ended = collections.namedtuple("Ended", "status said output")


class Trial:
    """Runs of rx, counted, each looked at."""

    def __init__(self, rx):
        self.rx, self.counts, self.wrong = os.path.abspath(rx), collections.Counter(), []

    def sums(self, folder):
        found = {}
        for name in os.listdir(folder):
            path = os.path.join(folder, name)
            if os.path.isfile(path) and not os.path.islink(path):
                with open(path, "rb") as file:
                    found[name] = hashlib.file_digest(file, "sha256").digest()
        return found

    def run(self, what, folder, words, wanted, stream=b"", written=("r", "t"), seconds=SECONDS, **how):
        """Runs rx in a folder, and says what is wrong of how it ended, if anything is."""
        before = self.sums(folder)
        try:
            made = subprocess.run([self.rx, *words], cwd=folder, input=None if "stdin" in how else stream, timeout=seconds, check=False,
                                  **{"stdout": subprocess.PIPE, "stderr": subprocess.PIPE, **how})  # fmt: skip
        except subprocess.TimeoutExpired:
            self.counts[what, "no end"] += 1
            self.wrong.append("%s: no end within %d seconds: %s" % (what, seconds, words))
            return None
        said = (made.stderr or b"").decode(errors="replace")
        self.counts[what, made.returncode] += 1
        after = self.sums(folder)
        touched = sorted(it for it in {*before, *after} if before.get(it) != after.get(it) and it not in written)
        if made.returncode not in wanted:
            self.wrong.append("%s: status %d, %r: %s" % (what, made.returncode, said[:200], words))
        elif made.returncode not in (0, NO_LOADER) and not said.startswith("rx: "):
            self.wrong.append("%s: status %d without a sentence, %r" % (what, made.returncode, said[:200]))
        if touched:
            self.wrong.append("%s: touched %s" % (what, touched))
        return Ended(made.returncode, said, made.stdout or b"")


    def says(self, what, ended, front):
        """Standard error has to be one line that begins so."""
        if ended is not None and (not ended.said.startswith(front) or ended.said.count("\n") != 1):
            self.wrong.append("%s: it said %r" % (what, ended.said[:200]))


def folder_of(program="overrun"):
    folder = tempfile.mkdtemp()
    shutil.copy(os.path.join(TOP, "guests", program), os.path.join(folder, "p"))
    os.chmod(folder, 0o755)
    return folder


def outputs(trial):
    for what, wanted in (("closed", {8}), ("broken", {8}), ("full", {8})):
        folder = folder_of()
        if what == "closed":
            trial.run("standard output is closed", folder, RUN, wanted, OVERRUN, stdout=None, preexec_fn=lambda: os.close(1))
        elif what == "broken":
            ours, theirs = os.pipe()
            os.close(ours)
            trial.run("nobody reads standard output", folder, RUN, wanted, OVERRUN, stdout=theirs)
            os.close(theirs)
        else:
            with open("/dev/full", "wb") as full:
                trial.run("standard output is full", folder, RUN, wanted, OVERRUN, stdout=full)
    for name in ("r", "t"):
        option = "--record" if name == "r" else "--report"
        words = RUN[:]
        at = words.index(option) + 1
        for what, path, status in (
            ("on a full device", "/dev/full", {9}),
            ("in a folder that isn't there", "none/x", {9}),
            ("that is a directory", "d", {9}),
            ("that is the program", "p", {2}),
        ):
            folder = folder_of()
            os.mkdir(os.path.join(folder, "d"))
            words[at] = path
            trial.run("a file %s" % what, folder, words, status, OVERRUN)
        folder = folder_of()
        os.mkdir(os.path.join(folder, "kept"), 0o755)
        words[at] = "kept/x"
        shutil.chown(folder, NOBODY)
        trial.run("a file that this user may not write", folder, words, {9}, OVERRUN, user=NOBODY)
        folder = folder_of()
        with open(os.path.join(folder, "text"), "w", encoding="ascii") as file:
            file.write("kept\n")
        words[at] = "text"
        trial.run("a file that would be lost", folder, words, {9}, OVERRUN)
    folder = folder_of()
    open(os.path.join(folder, "t"), "wb").close()
    os.symlink("t", os.path.join(folder, "r"))
    trial.run("a record that is a link to the report", folder, RUN, {2}, OVERRUN, written=())
    folder = folder_of()
    os.mkfifo(os.path.join(folder, "r"))
    trial.run("a record that is a pipe", folder, RUN, {9}, OVERRUN, written=())
    # in mid-session: the file size limit is reached, whose signal is ignored as a supervisor may do
    many = frame(OPENS, 0) + b"".join(piece_frame(0, b'hand saw 12",steel,19.90\n') for _ in range(200))

    def limited():
        signal.signal(signal.SIGXFSZ, signal.SIG_IGN)
        resource.setrlimit(resource.RLIMIT_FSIZE, (4096, 4096))

    ended = trial.run("a record that may not grow any more", folder_of(), RUN, {9}, many, preexec_fn=limited, restore_signals=False)
    trial.says("a record that may not grow any more", ended, "rx: the file r couldn't be written: ")
    few = frame(OPENS, 0) + b"".join(piece_frame(0, b'nail 2",iron,0.10\n') for _ in range(200))
    folder = folder_of()
    ended = trial.run("a record that stops", folder, [*RUN, "--record-full", "stop"], {0}, few, preexec_fn=limited, restore_signals=False)
    trial.says("a record that stops", ended, "rx: the record r can't be written any more, and stops here: ")
    with open(os.path.join(folder, "r"), "rb") as record, open(os.path.join(folder, "t"), "rb") as report:
        if b"end " in record.read() or not report.read().splitlines()[-1].startswith(b"end 0 "):
            trial.wrong.append("a record that stops: it has an end, or the report hasn't")
    folder = folder_of()
    trial.run("no record", folder, ["run", "p", "--record", "none", "--report", "t"], {0}, few, written=("t",))


def sizes(trial):
    for what, size, wanted in (("as large as may be", PROGRAM_LIMIT, {0}), ("one byte larger", PROGRAM_LIMIT + 1, {3})):
        folder = folder_of()
        with open(os.path.join(folder, "p"), "ab") as file:
            file.truncate(size)
        trial.run("a program %s" % what, folder, RUN, wanted, OVERRUN)
    # it is read whole, so memory may run out
    for what, size in (("as large as may be", RECORD_LIMIT), ("one byte larger", RECORD_LIMIT + 1)):
        folder = folder_of()
        with open(os.path.join(folder, "r"), "wb") as file:
            file.write(b"rx record 2 window 4 frame line\n")
            file.truncate(size)
        trial.run("a record %s" % what, folder, ["replay", "p", "r"], {3, 10}, OVERRUN, written=(), seconds=LARGE_SECONDS)
        shutil.rmtree(folder)
    folder = folder_of()
    trial.run("no program", folder, ["run", "none", *RUN[2:]], {9}, OVERRUN, written=())
    trial.run("a program that is a directory", folder, ["run", ".", *RUN[2:]], {9}, OVERRUN, written=())
    trial.run("a closed input", folder, RUN, {7}, stdin=None, preexec_fn=lambda: os.close(0))
    with open("/proc/self/mem", "rb") as unread:
        trial.run("an input that can't be read", folder, RUN, {7}, stdin=unread)
    # a program that is written anew all the time
    with open(os.path.join(TOP, "guests", "store"), "rb") as file:
        others = [open(os.path.join(folder, "p"), "rb").read(), file.read(), b"", b"\x7fELF"]
    stop = threading.Event()

    def write_anew():
        number = 0
        while not stop.is_set():
            with open(os.path.join(folder, "p"), "wb") as file:
                file.write(others[number % len(others)])
            number += 1

    writer = threading.Thread(target=write_anew)
    writer.start()
    for _ in range(200):
        trial.run("a program that changes while it is loaded", folder, RUN, {0, 3, 4, 5, 9}, OVERRUN, written=("r", "t", "p"))
    stop.set()
    writer.join()


def memory(trial):
    for limit in range(4, 65):
        folder = folder_of()

        def limited(limit=limit):
            resource.setrlimit(resource.RLIMIT_AS, (limit * MIB, limit * MIB))

        trial.run("%d to %d MiB of memory" % (limit // 16 * 16, limit // 16 * 16 + 15), folder, RUN, {0, 10, NO_LOADER}, OVERRUN, preexec_fn=limited)
        shutil.rmtree(folder)


def spoilt(draw, content):
    """A file with some bytes changed, left out or put in."""
    content = bytearray(content)
    for _ in range(draw.choice([1, 1, 1, 2, 4, 16])):
        at = draw.randrange(len(content) + 1)
        kind = draw.random()
        if kind < 0.5 and at < len(content):
            content[at] = draw.choice([draw.randrange(256), content[at] ^ (1 << draw.randrange(8)), 0, 255])
        elif kind < 0.75:
            del content[at:at + draw.choice([1, 1, 4, 64])]
        else:
            content[at:at] = bytes(draw.randrange(256) for _ in range(draw.choice([1, 1, 4, 64])))
    return bytes(content)


def put(folder, name, content):
    with open(os.path.join(folder, name), "wb") as file:
        file.write(content)


def changed(trial, runs, seed):
    guests = {}
    for name in ("overrun", "store", "dangling", "echo"):
        with open(os.path.join(TOP, "guests", name), "rb") as file:
            guests[name] = file.read()
    folder = folder_of()
    trial.run("a session", folder, RUN, {0}, OVERRUN)
    with open(os.path.join(folder, "r"), "rb") as file:
        record = file.read()
    text = text_of("keys").encode()
    lines = b"+0\n0>get x\\\n1<Rome\\x41\n-0\nsettle\n# none\n"
    budget = ["--budget", "20000"]
    for number in range(runs):
        draw = random.Random("%d %d" % (seed, number))
        put(folder, "p", spoilt(draw, guests[draw.choice(sorted(guests))]))
        trial.run("executables", folder, [*RUN, *budget], STATUSES, OVERRUN)
        put(folder, "p", guests["overrun"])
        trial.run("inputs", folder, [*RUN, *budget], STATUSES, spoilt(draw, OVERRUN))
        put(folder, "r", spoilt(draw, record))
        trial.run("records", folder, ["replay", "p", "r"], STATUSES, OVERRUN, written=())
        put(folder, "r", b"")
        put(folder, "s", spoilt(draw, text))
        trial.run("texts", folder, ["asm", "s", "o"], STATUSES, written=("o",))
        trial.run("lines", folder, ["frame"], {0, 4}, spoilt(draw, lines), written=())
        trial.run("frames", folder, ["unframe"], {0, 4}, spoilt(draw, OVERRUN), written=())
    shutil.rmtree(folder)


def main():
    parser = argparse.ArgumentParser(description=__doc__.split("\n", maxsplit=1)[0])
    parser.add_argument("--runs", type=int, default=1500)
    parser.add_argument("--seed", type=int, default=1)
    parser.add_argument("rx", nargs="?", default=os.path.join(TOP, "crates", "rx", "out", "rx"))
    asked = parser.parse_args()
    trial = Trial(asked.rx)
    outputs(trial)
    sizes(trial)
    memory(trial)
    changed(trial, asked.runs, asked.seed)
    by_what = collections.defaultdict(list)
    for (what, status), count in trial.counts.items():
        by_what[what].append("%s: %d" % (status, count))
    print("| What | Runs by their status |\n|---|---|")
    for what, told in by_what.items():
        print("| %s | %s |" % (what, ", ".join(sorted(told, key=lambda it: (len(it.split(":")[0]), it)))))
    for line in trial.wrong:
        print(line)
    print("%d runs, of which %d went otherwise than they should" % (sum(trial.counts.values()), len(trial.wrong)))
    return 1 if trial.wrong else 0


if __name__ == "__main__":
    sys.exit(main())
