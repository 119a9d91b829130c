"""One host of a session at random, as both engines are given it: a first one, or one that goes on for a host that was killed.

In the second engine all that it writes is noted in its order, so that it can be cut behind any byte.
"""

import collections
import dataclasses
import random

from second import inputs, programs, takeover_check, trunk, wild
from second.command import image_maker, run_session
from second.items import WHOLE
from second.machine import Image, MIB
from second.outside import MemoryFiles, MemorySink, MemorySource, TrunkLink
from second.record import read_unfinished
from second.self_check import HeapWriter
from second.takeover import resume

OLD = {"n": b"rx record 1 what was there", "m": b"rx report 1 what was there"}
NAMES = {"r": "n", "t": "m"}  # of the files in the second engine, and in the folder of rx

# What came of a host: answer, status, output, and what record and report have.
Came = collections.namedtuple("Came", "answer status output record report")
Left = collections.namedtuple("Left", "output record report")


class NotedSink(MemorySink):
    """Notes each call in a journal of all that is written."""

    def __init__(self, journal):
        super().__init__()
        self.journal = journal

    def give(self, content):
        self.journal.append(("output", content))
        return super().give(content)


class NotedFiles(MemoryFiles):
    def __init__(self, journal):
        super().__init__({rx_name: OLD[NAMES[rx_name]] for rx_name in NAMES})
        self.journal = journal

    def start(self, name):
        self.journal.append((name, None))
        super().start(name)

    def add(self, name, content):
        self.journal.append((name, content))
        super().add(name, content)


def cut(rng, journal):
    """What is left where a host is killed within one of the calls of a journal, or behind all of them."""
    left = {"output": b"", "r": OLD["n"], "t": OLD["m"]}
    place = rng.randrange(len(journal) + 1)
    for number, (name, content) in enumerate(journal[:place + 1]):
        part = content[:rng.randrange(len(content) + 1)] if content and number == place else content
        left[name] = b"" if part is None else left[name] + part
    return Left(left["output"], left["r"], left["t"])


class Drawn:
    """What hosts of one session share: the program, the events, and the options that they can't choose."""

    def __init__(self, name, guards):
        rng = self.rng = random.Random(name)
        self.guards = guards
        self.options = self.some_options()
        self.budget = self.options.budget
        self.segments = programs.some_server(rng) if rng.random() < 0.95 else wild.some_program(rng, HeapWriter, self.options.window)
        self.events = inputs.some_events(rng, self.options.frame)
        self.breaks = rng.random() < 0.1

    def some_options(self):
        options = inputs.some_options(self.rng)
        return options if self.guards else dataclasses.replace(options, guard="off")

    def stream(self):
        """The input, at times with the same bytes in other pieces."""
        events = self.events
        if not self.breaks and self.options.frame != WHOLE and self.rng.random() < 0.4:
            events = takeover_check.cut_anew(self.rng, events)
        return b"".join(trunk.frame_of(event) for event in events) + b"\x09" * self.breaks

    def next_options(self, of_record):
        """Those of a next host: what its files don't fix is free, but that it keeps environments for as many items, over the same one. The budget may be larger
        than that of the host before, but where that came to its end: a run that hung there would go on, past the record's last line."""
        if read_unfinished(of_record).finish is None:
            self.budget *= self.rng.choice([1, 1, 2])
        return dataclasses.replace(self.some_options(), window=self.options.window, frame=self.options.frame, guard=self.options.guard, budget=self.budget,
                                   keep=self.options.keep, env=self.options.env)

    def first(self):
        return Host(self, dataclasses.replace(self.options), None)

    def next(self, texts):
        return Host(self, self.next_options(texts[0]), texts)


class Host:
    """One host: what it is given, in both engines. `texts` are the record, the report and the counts; None is that of a first one."""

    def __init__(self, drawn, options, texts):
        self.drawn, self.options, self.texts = drawn, options, texts
        self.stream, self.form = drawn.stream(), drawn.rng.choice(["text", "json"])

    def changed(self, texts):
        """The same with other files."""
        other = Host(self.drawn, dataclasses.replace(self.options), texts)
        other.stream, other.form = self.stream, self.form
        return other

    def words(self):
        names = ["hold", "ring", "every", "frames", "budget", "keep", "env"] + ["guard"] * self.drawn.guards
        if self.texts is None:
            names += ["frame", "window"]
        given = {name: getattr(self.options, name) // (MIB if name == "window" else 1) if name not in ("frame", "guard", "env") else getattr(self.options, name)
                 for name in names}
        command = ["run", "p"] if self.texts is None else ["resume", "p", "r", "t", "c"]
        return command + ["--record", "n", "--report", "m", "--form", self.form, "--tell", "off"] + [
            word for name, value in given.items() for word in ("--" + name, str(value))]

    def in_second_engine(self):
        """What comes of it, how it was done, and the journal of what was written."""
        journal = []
        sink, files, source = NotedSink(journal), NotedFiles(journal), MemorySource(self.stream)
        options = dataclasses.replace(self.options)
        if self.texts is None:
            image = Image(*self.drawn.segments, self.options.window)
            done = run_session(image, options, TrunkLink(source, sink), files, self.form)
        else:
            done = resume(image_maker(*self.drawn.segments), self.texts, source, sink, options, files, self.form)
        return Came(done.answer, done.status, sink.content, files.files["r"], files.files["t"]), done, journal
