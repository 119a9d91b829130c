"""Small tools of the worked rows: what a row has to say, and a count of what agreed."""

import contextlib
import io

from second import guests, trunk
from second.command import run
from second.machine import MIB
from second.outside import MemoryFiles, MemorySink, MemorySource
from second.session import Options

OPENS_0 = bytes.fromhex("0100000000")
ROWS = []


def row(name):
    """Marks a function as a worked row."""
    def mark(function):
        ROWS.append((name, function))
        return function
    return mark


def say(ours, expected, what=""):
    if ours != expected:
        raise AssertionError("%s is %r, and the row says %r" % (what or "value", ours, expected))


def piece(connection, content):
    return trunk.frame(trunk.PIECE, connection, content)


def out(*pairs):
    return b"".join(piece(connection, content) for connection, content in pairs)


def lines_in(*lines, connection=0):
    """Opens connection 0 and gives each line as a piece."""
    return OPENS_0 + b"".join(piece(connection, line) for line in lines)


class Ran:
    """A guest that was run over a trunk, with its output and files."""

    def __init__(self, guest, stream, form="text", source=None, sink=None, files=None, diagnoses=False, **options):
        options.setdefault("window", 4 * MIB)
        image = guest if not isinstance(guest, str) else guests.image(guest, options["window"])
        self.source = source or MemorySource(stream)
        self.sink = sink or MemorySink()
        self.files = files or MemoryFiles({"p": b""})
        self.done = run(image, self.source, self.sink, Options(**options), self.files, form, diagnoses)
        self.output = self.sink.content
        self.heap = image.heap_start

    @property
    def record(self):
        return self.files.files["r"].decode()

    @property
    def report(self):
        return self.files.files["t"].decode()

    @property
    def diagnosis(self):
        return self.files.files["d"].decode()

    @property
    def episodes(self):
        return self.done.session.notes.episodes

    def says(self, answer, status, output=None, taken=None, steps=None):
        say(self.done.answer, answer, "answer")
        say(self.done.status, status, "status")
        if output is not None:
            say(self.output, output, "output")
        if taken is not None:
            say(self.done.taken, taken, "taken")
        if steps is not None:
            say(self.done.steps, steps, "steps")

    def tried(self, point, cause, *expected):
        """The one episode: each expected try is (checkpoint, environment, result)."""
        say(len(self.episodes), 1, "episodes")
        say((self.episodes[0].point, self.episodes[0].cause), (point, cause), "failure")
        say([tuple(t) for t in self.episodes[0].tries], list(expected), "tries")

    def choices(self):
        """The address of each block that was asked for, and whether it was zeroed."""
        return [(choice.at, choice.zeroed) for choice in self.done.session.survivor.choices]


def run_rows(rows):
    """Runs the rows; how many differ."""
    wrong = 0
    for name, function in rows:
        try:
            with contextlib.redirect_stdout(io.StringIO()):
                function()
        except AssertionError as differs:
            wrong += 1
            print("%s differs: %s" % (name, differs))
    print("%d rows agree, %d differ" % (len(rows) - wrong, wrong))
    return wrong
