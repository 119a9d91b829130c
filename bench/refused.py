#!/usr/bin/env python3
"""What becomes of a command that is refused memory, at each of its calls for it.

The program crates/test_end runs a command of rx and tells the whole of how it ended. Here it does so again and again, while refuse.c (by gcc, preloaded)
refuses it the first call by which it asks for memory, the second, and so on to the last; and then the same with all calls behind it refused too.

A row is a command with what it is run over. What it comes to is said by the second engine of compare/, and has to come where nothing is refused. Where a call
is refused, a run has to end as its row says, with the same output and files; or it answers Memory. Then all that it wrote is a beginning of what the row
writes. Of a session the record of its first `recorded` answers, its tail, steps and items is completed, and replayed over the same events: the replay is
Finished, and what the session passed to each connection is a beginning of what the replay passes there.

usage: refused.py [--only WORD] [--jobs N] [TEST_END]

TEST_END is the built program, crates/test_end/out/test_end unless it is given (`rt run` there builds it). With --only those rows are run whose name has the
word. The status is 0 where all went so.
"""

import argparse
import collections
import concurrent.futures
import os
import re
import subprocess
import sys
import tempfile
import threading

HERE = os.path.dirname(os.path.abspath(__file__))
TOP = os.path.join(HERE, "..")
sys.path.insert(0, os.path.join(TOP, "compare"))

# pylint: disable=wrong-import-position
from second import guests  # noqa: E402
from second.command import drill, run_session  # noqa: E402
from second.heap import Ask, CALLOC, Choice, MALLOC, REALLOC  # noqa: E402
from second.machine import executable  # noqa: E402
from second.outside import MemoryFiles, MemoryListener, MemorySink, MemorySource, PortLink, TrunkLink  # noqa: E402
from second.record import choice_lines, end_line  # noqa: E402
from second.session import Options  # noqa: E402
from second.trunk import CLOSES, OPENS, frame, payloads, piece_frame  # noqa: E402

SECONDS = 30  # for a run
NOT_BEGUN = 11  # test_end's status where memory ran out before the command
MEMORY = "Memory, status 10, "
OPEN = frame(OPENS, 0)
RUN = ["run", "p", "--record", "r", "--report", "t"]
LONG = b"x" * 39 + b"\n"

CHOICE = re.compile(r"tail Choice \{ ask: (\w+) \{ (?:(?:count|old): (\d+), )?size: (\d+) \}, at: (\d+), zeroed: (true|false), carried: (\d+) \}")
GAVE = re.compile(r"call (?:Accepted\((\d+)\)|Gave \{ conn: (\d+), bytes: Listed \{ values: \[([\d, ]*)\] \}, .*)")
CALLS = {"Malloc": MALLOC, "Calloc": CALLOC, "Realloc": REALLOC}

# A command: its words, the files and the standard input that it is run over, what it writes to standard output and to files, and how it ends. Of a session
# also the frames of its events, and what is passed to each connection.
Row = collections.namedtuple("Row", "name words files stream output wrote end events passed")

# How a command ended: its output, the line of its end, what it told to differ from a record, the answers behind those of the record, what was given to
# each client, and its files.
Told = collections.namedtuple("Told", "output end differs tail given files")


# ---- rows


def end_of(answer, done):
    return "%s, status %d, recorded %d, steps %d, taken %d" % (answer, done.status, done.recorded, done.steps, done.taken)


def written(files):
    return {name: content for name, content in files.files.items() if name != "p"}


def session(name, guest, lines, words=(), answer="Finished", diagnoses=False, **options):
    """A session over a trunk, of one client that sends these lines."""
    stream = OPEN + b"".join(piece_frame(0, line) for line in lines)
    files, sink = MemoryFiles({"p": b""}), MemorySink()
    done = run_session(guests.image(guest), Options(**options), TrunkLink(MemorySource(stream), sink), files, diagnoses=diagnoses)
    assert done.answer[0] == answer.split(" ")[0], done.answer
    head = ["diagnose", *RUN[1:], "--diagnosis", "d", "--guard", "off"] if diagnoses else RUN
    return Row(name, [*head, *words], {"p": executable(*guests.program(guest))}, stream, sink.content, written(files), end_of(answer, done),
               stream, payloads(sink.content))


def served(name, guest, inputs):
    """A session over a port, of one client after another."""
    files, listener = MemoryFiles({}), MemoryListener(inputs)
    done = run_session(guests.image(guest), Options(), PortLink(listener, len(inputs)), files)
    assert done.answer == ("Finished",), done.answer
    words = ["serve", "p", "80", str(len(inputs)), *RUN[2:]]
    events = b"".join(frame(OPENS, client) + piece_frame(client, sent) + frame(CLOSES, client) for client, sent in enumerate(inputs))
    return Row(name, words, {"p": executable(*guests.program(guest))}, b"|".join(inputs), b"", written(files), end_of("Finished", done), events,
               dict(enumerate(listener.outputs)))


def other(name, words, files, stream=b"", output=b"", wrote=None):
    """A command without a session of its own."""
    return Row(name, words, files, stream, output, wrote or {}, "Finished, status 0, recorded 0, steps 0, taken 0", None, None)


def rows():
    """Each row of a kind of command. The ring of one checkpoint has answers of the allocator written into the record early."""
    overflow = session("`overflow`, recovered by padding", "overflow", [LONG])
    grow = session("`grow`, by realloc", "grow", [b"a\n", b"b\n"])
    keys = [b"".join(b"set k%d v%d\n" % (key, key) for key in range(99)) + b"set " + b"a" * 40 + b" z\n",
            b"".join(b"get k%d\n" % key for key in range(99)) + b"get k0\n"]
    record, asked = overflow.wrote["r"], guests.text_of("keys").encode()
    first = re.sub(rb"(?m)^r (\w+ [-z]).*$", rb"m \1", grow.wrote["r"]).replace(b"rx record 2", b"rx record 1")
    yield overflow
    yield session("`stale`, recovered at the ninth trial", "stale", [b"a\n", b"b\n"])
    yield served("`keys` over a port, two clients, 200 messages", "keys", keys)
    yield grow
    yield session("`tell_over` with `--hold 2`, recovered", "tell_over", [b"a\n"], ["--hold", "2"], hold=2)
    yield session("`tell_over`, given up behind ten trials", "tell_over", [b"a\n"], answer="GaveUp { point: 2, cause: AssertFailed(5) }")
    yield session("`overflow` with `--ring 1`, recovered twice", "overflow", [LONG, b"\n", b"\n", b"\n", LONG], ["--ring", "1"], ring=1)
    yield session("`diagnose` of `stale`", "stale", [b"a\n", b"b\n"], diagnoses=True)
    yield other("`replay` of the first row's record", ["replay", "p", "r"], {**overflow.files, "r": record}, overflow.stream, overflow.output)
    yield other("`convert` of a record of `grow` of version 1", ["convert", "p", "r", "o"], {**grow.files, "r": first}, grow.stream,
                wrote={"o": grow.wrote["r"]})
    yield other("`asm` of `keys`", ["asm", "s", "o"], {"s": asked}, wrote={"o": executable(*guests.program("keys"))})
    yield other("`drill 0 20`", ["drill", "0", "20"], {}, output=drill(guests.image("keys"), 0, 20)[0])
    lines = b"+0\n0>get x\\\n0>y\n-0\nsettle\n"
    frames = OPEN + piece_frame(0, b"get x") + piece_frame(0, b"y\n") + frame(CLOSES, 0) + frame(4, 0)
    yield other("`frame`", ["frame"], {}, lines, frames)
    yield other("`unframe`", ["unframe"], {}, frames, lines.replace(b">", b"<"))


# ---- runs


def choice_of(line):
    call, first, size, at, zeroed, carried = CHOICE.fullmatch(line).groups()
    ask = Ask(CALLS[call], int(size), 0) if call == "Malloc" else Ask(CALLS[call], int(first), int(size))
    return Choice(int(at), zeroed == "true", ask, int(carried))


def given_in(lines):
    """What each client was given, by the calls on the port."""
    given = {}
    for line in lines:
        found = GAVE.fullmatch(line)
        if found and found[1]:
            given[int(found[1])] = b""
        elif found:
            given[int(found[2])] += bytes(int(byte) for byte in found[3].split(",") if byte)
    return given


class Program:
    """The program test_end, to which memory may be refused."""

    def __init__(self, path, folder):
        self.path, self.shim, self.folder, self.places = os.path.abspath(path), os.path.join(folder, "refuse.so"), folder, threading.local()
        subprocess.run(["gcc", "-O2", "-shared", "-fPIC", "-o", self.shim, os.path.join(HERE, "refuse.c")], check=True)

    def place(self):
        """A folder for the runs of a thread."""
        if not hasattr(self.places, "folder"):
            self.places.folder = tempfile.mkdtemp(dir=self.folder)
        return self.places.folder

    def start(self, words, files, stream, refused="0"):
        """Runs it over these files. Its status, standard output, standard error, which has how many calls it made, and the files that it wrote."""
        place = self.place()
        for name in os.listdir(place):
            os.unlink(os.path.join(place, name))
        for name, content in {**files, ".in": stream}.items():
            with open(os.path.join(place, name), "wb") as file:
                file.write(content)
        with open(os.path.join(place, ".in"), "rb") as given:
            made = subprocess.run([self.path, *words], cwd=place, stdin=given, stdout=subprocess.PIPE, stderr=subprocess.PIPE, timeout=SECONDS, check=False,
                                  close_fds=False, env={"LD_PRELOAD": self.shim, "REFUSE": refused, "REFUSE_COUNT": "2"})
        left = {}
        for name in os.listdir(place):
            with open(os.path.join(place, name), "rb") as file:
                left[name] = file.read()
        return made.returncode, made.stdout, made.stderr, {name: it for name, it in left.items() if files.get(name) != it and name != ".in"}

    def told(self, words, files, stream, refused="0"):
        """How a command ended, None where it wasn't begun; and its calls. A status that isn't told is an error."""
        status, wrote, said, left = self.start(words, files, stream, refused)
        if status == NOT_BEGUN and not wrote and not left:
            return None, int(said)
        output, found, lines = wrote.rpartition(b"\nend ")
        end, *lines = lines.decode().splitlines() or [""]
        if not found or ", status %d, " % status not in end:
            raise AssertionError("it ended with status %d, %r" % (status, said))
        differs = [line for line in lines if line.startswith("differs ")]
        tail = [choice_of(line) for line in lines if line.startswith("tail ")]
        return Told(output, end, differs, tail, given_in(lines), left), int(said)


# ---- what is wrong of a run


def are_beginnings(parts, whole):
    """Whether each is a beginning of what has its name in the whole."""
    return all(whole.get(name, b"").startswith(content) for name, content in parts.items())


def record_of(row, told):
    """The record of a session that was broken off, completed."""
    recorded, steps, taken = (int(it) for it in re.findall(r"(?:recorded|steps|taken) (\d+)", told.end))
    lines = told.files.get("r", b"").splitlines(keepends=True)[:1 + recorded]
    if recorded and (len(lines) != 1 + recorded or not lines[-1].endswith(b"\n")):
        raise AssertionError("the record doesn't have its first %d answers" % recorded)
    head = row.wrote["r"].splitlines(keepends=True)[0]
    return head + b"".join(lines[1:]) + choice_lines(told.tail) + end_line(steps, taken)


class Replays:
    """Replays of completed records of a row; each record is replayed once."""

    def __init__(self, program, row):
        self.program, self.row, self.outputs, self.lock = program, row, {}, threading.Lock()

    def passed(self, record):
        """What a replay passes to each connection."""
        with self.lock:
            known = self.outputs.get(record)
        if known is None:
            told, _ = self.program.told(["replay", "p", "c"], {"p": self.row.files["p"], "c": record}, self.row.events)
            if told is None or not told.end.startswith("Finished, status 0, "):
                raise AssertionError("the replay of %r ended with %s" % (record, told and told.end))
            known = payloads(told.output)
            with self.lock:
                self.outputs[record] = known
        return known


def check_whole(row, told):
    """That a command ended as its row says. In no row a replay isn't the recorded run."""
    if told.end != row.end or told.differs:
        raise AssertionError("it ended with %s, %s, not with %s" % (told.end, told.differs, row.end))
    if told.output != row.output or told.files != row.wrote or told.tail:
        raise AssertionError("it wrote %r, %r, %r" % (told.output, told.files, told.tail))
    if told.given and told.given != row.passed:
        raise AssertionError("it gave %r" % told.given)


def check_broken_off(row, told, replays):
    """That a command that answered Memory left what it may. Nothing differs there."""
    if told.differs:
        raise AssertionError("it told %s" % told.differs)
    if not row.output.startswith(told.output) or not told.files.keys() <= row.wrote.keys() or not are_beginnings(told.files, row.wrote):
        raise AssertionError("it wrote %r, %r, which isn't a beginning of what its row writes" % (told.output, told.files))
    if row.events is None:
        if told.end != MEMORY + "recorded 0, steps 0, taken 0" or told.tail:
            raise AssertionError("it ended with %s" % told.end)
        return
    passed = told.given or payloads(told.output)
    if not are_beginnings(passed, replays.passed(record_of(row, told))):
        raise AssertionError("it passed %r, which isn't what its replay passes" % passed)


class Tried:
    """A row with its runs, and what came of them."""

    FORMS = ("%d", "%d..")  # one call refused, and all calls behind it too

    def __init__(self, program, row):
        self.program, self.row, self.replays = program, row, Replays(program, row)
        self.kinds, self.counts, self.wrong, self.lock = {}, collections.Counter(), [], threading.Lock()
        told, self.calls = program.told(row.words, row.files, row.stream)
        check_whole(row, told)

    def kind_of(self, refused):
        """What comes of a run with calls refused, as a word."""
        told, _ = self.program.told(self.row.words, self.row.files, self.row.stream, refused)
        if told is None:
            return "before"
        if not told.end.startswith(MEMORY):
            check_whole(self.row, told)
            return "whole"
        check_broken_off(self.row, told, self.replays)
        return "memory" if told.end.endswith("steps 0, taken 0") else "midst"

    def try_run(self, form, number):
        try:
            kind = self.kind_of(form % number)
        except Exception as wrong:  # pylint: disable=broad-except
            kind = "other"
            with self.lock:
                self.wrong.append("%s, REFUSE=%s: %s: %s" % (self.row.name, form % number, type(wrong).__name__, wrong))
        with self.lock:
            self.kinds[form, number] = kind

    def try_all(self, jobs):
        with concurrent.futures.ThreadPoolExecutor(jobs) as pool:
            for form in self.FORMS:
                for number in range(1, self.calls + 1):
                    pool.submit(self.try_run, form, number)
        # The first calls are made before the command is begun. With one of them refused it may begin all the same, but not with all behind it refused too.
        before = max((number for (_, number), kind in self.kinds.items() if kind == "before"), default=0)
        self.calls -= before
        self.counts.update((form, kind) for (form, number), kind in self.kinds.items() if before < number)

    def told(self):
        """The row's line of the table."""
        cells = [self.calls]
        for form in self.FORMS:
            memory, midst = self.counts[form, "memory"], self.counts[form, "midst"]
            cells += [self.counts[form, "whole"], "%d (%d)" % (memory + midst, midst)]
        return "| %s | %s | %d |" % (self.row.name, " | ".join(str(it) for it in cells), len(self.replays.outputs))


def main():
    parser = argparse.ArgumentParser(description=__doc__.split("\n", maxsplit=1)[0])
    parser.add_argument("--only", default="")
    parser.add_argument("--jobs", type=int, default=2)
    parser.add_argument("program", nargs="?", default=os.path.join(TOP, "crates", "test_end", "out", "test_end"))
    asked = parser.parse_args()
    counts, wrong, replays = collections.Counter(), [], 0
    print("| Row | Calls | One refused: whole | Memory (in its session) | All behind it too: whole | Memory (in its session) | Records replayed |")
    print("|---|---|---|---|---|---|---|", flush=True)
    with tempfile.TemporaryDirectory() as folder:
        program = Program(asked.program, folder)
        for row in rows():
            if asked.only in row.name:
                tried = Tried(program, row)
                tried.try_all(asked.jobs)
                print(tried.told(), flush=True)
                for (_, kind), count in tried.counts.items():
                    counts[kind] += count
                replays += len(tried.replays.outputs)
                wrong += tried.wrong
    for line in wrong:
        print(line[:2000])
    memory = counts["memory"] + counts["midst"]
    print("%d runs: %d ended as their rows say, %d answered Memory, of which %d in their sessions; %d records were replayed; %d others"
          % (counts["whole"] + memory + counts["other"], counts["whole"], memory, counts["midst"], replays, counts["other"]))
    return 1 if wrong else 0


if __name__ == "__main__":
    sys.exit(main())
