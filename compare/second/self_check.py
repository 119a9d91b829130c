"""Whole sessions of the second engine at random: run, checked against what each promises, and counted."""

import collections
import itertools
import random
import re

from second import inputs, programs, trunk, wild
from second.anew import Broken, must
from second.command import run_session
from second.guard import MODES
from second.heap import ENVIRONMENTS, PLAIN
from second.machine import Image
from second.outside import MemoryFiles, MemoryLink, MemoryListener, MemorySink, MemorySource, PortLink, TrunkLink
from second.promises import WatchedSession, check_session
from second.session import BEHIND, CONTRADICTS, SURVIVED


# ---- sessions at random


class HeapWriter(wild.Writer):
    """Random words that also allocate, free and send to several connections."""

    def receive(self, safe):
        super().receive(safe)
        rng = self.rng
        if rng.random() < 0.5:
            self.allocate()
            if rng.random() < 0.4:
                self.resize()
            if rng.random() < 0.5:
                self.words.append(wild.i_type(0, 10, 0, self.register()))  # so that where the block stands is sent
            if rng.random() < 0.9:
                self.words += [wild.i_type(rng.choice([0, 0, 0, 16]), 10, 0, 10)] * (rng.random() < 0.3)
                self.words += [wild.i_type(4, 0, 0, 17), wild.ECALL]
                self.words += [wild.ECALL] * (rng.random() < 0.1)

    def size(self):
        return self.rng.choice([0, 1, 16, 100, 5000, 1 << 20])

    def allocate(self):
        rng = self.rng
        if rng.random() < 0.6:
            self.words += wild.load_number(10, self.size()) + [wild.i_type(3, 0, 0, 17), wild.ECALL]
        else:
            self.words += wild.load_number(10, rng.choice([0, 1, 3, 65536, 0xFFFFFFFF]))
            self.words += wild.load_number(11, rng.choice([self.size(), 65536])) + [wild.i_type(7, 0, 0, 17), wild.ECALL]

    def resize(self):
        """Another size of the block whose address the last call answered, or of something else."""
        rng = self.rng
        if rng.random() < 0.2:
            self.words += rng.choice([[wild.i_type(16, 10, 0, 10)], wild.load_number(10, rng.choice([0, 0, 1, self.edges[5], 0xFFFFFFF0]))])
        self.words += wild.load_number(11, self.size()) + [wild.i_type(8, 0, 0, 17), wild.ECALL]


FAULTS = 0.12


class Some:
    """A session at random, by its seed."""

    def __init__(self, seed):
        rng = self.rng = random.Random(seed)
        self.options = inputs.some_options(rng)
        segments = programs.some_server(rng) if rng.random() < 0.9 else wild.some_program(rng, HeapWriter, self.options.window)
        self.image = Image(*segments, self.options.window)
        self.form = rng.choice(["text", "json"])
        self.files = MemoryFiles({"p": b""}, self.fails(12))
        self.events = inputs.some_events(rng, self.options.frame)
        self.stream = None
        self.link = self.some_link()
        self.session = self.answer = None

    def fails(self, most, chance=FAULTS / 3):
        return [self.rng.randrange(1, most)] if self.rng.random() < chance else []

    def some_link(self):
        rng, kind = self.rng, self.rng.random()
        if kind < 0.6:
            self.stream = b"".join(trunk.frame_of(event) for event in self.events)
            if rng.random() < 0.25:
                self.stream = inputs.break_stream(rng, self.events)
            self.sink = MemorySink(self.fails(60), rng.choice([1, 3, 1 << 30]))
            return TrunkLink(MemorySource(self.stream, self.fails(60), rng.choice([1, 2, 7, 1 << 30])), self.sink)
        if kind < 0.9:
            if rng.random() < 0.2:
                self.options.max_items = rng.randrange(1, 20)
            if rng.random() < 0.2:
                self.options.max_events = rng.randrange(1, 20)
            gones = [(n, rng.choice([0, 1, 2, 100])) for n in self.fails(40, 0.2)]
            return MemoryLink(self.events, self.fails(60), gones)
        given = {event[1]: [] for event in self.events if event[0] == "opens"}
        for event in self.events:
            if event[0] == "piece":
                given[event[1]].append(event[2])
        fails = [(rng.choice(["accept", "take", "give", "give"]), n) for n in self.fails(10, 0.3)]
        self.listener = MemoryListener([b"".join(pieces) for pieces in given.values()], fails, rng.choice([1, 5, 1 << 30]))
        return PortLink(self.listener, len(given))

    def output(self):
        """By connection, the bytes that went out."""
        if isinstance(self.link, TrunkLink):
            return trunk.payloads(self.sink.content)
        if isinstance(self.link, PortLink):
            return dict(enumerate(self.listener.outputs))
        given = collections.defaultdict(bytes)
        for entry in self.session.journal:
            if entry[0] == "gave":
                given[entry[1]] += entry[2]
        return given

    def run(self, anew, diagnoses):
        done = run_session(self.image, self.options, self.link, self.files, self.form,
                           lambda *of_session: WatchedSession(*of_session, anew), diagnoses)
        self.session, self.answer = done.session, done.answer
        if not self.session:
            must(self.answer == ("FileFault",), "no session, and no fault")
            return
        check_session(self.session, self.answer, self.files, self.form, self.output(), self.stream)

    def came(self):
        """What a client, and who reads the record and the report, sees of the session."""
        return self.answer, dict(self.output()), self.files.files["r"], self.files.files["t"]


KINDS = {
    "answers": ["Finished", "Exited", "GaveUp", "MessageTooLong", "LimitItems", "LimitEvents", "ReadFault", "WriteFault", "FileFault"] + [
        "InputRefused %d" % kind for kind in range(1, 7)],
    "causes": ["BadAccess", "BadJump", "BadInstruction", "AssertFailed", "Hang", "BadFree", "BadCall"],
    "guards": MODES,
    "results of tries": [SURVIVED, CONTRADICTS, BEHIND],
    "choices": ["%s, %s" % pair for pair in itertools.product(["malloc", "calloc", "realloc of null", "realloc"], ["a block", "zeros", "null"])
                if pair != ("calloc", "a block")] + ["realloc, carried"],
    "in force from the start": [PLAIN, *ENVIRONMENTS],
    "adopted": ENVIRONMENTS,
    "adopted at": ["the newest checkpoint", "an older one", "the start"],
}


def lacking(kinds, counters):
    """The kinds of each name that its counter hasn't."""
    return ["%s (%s)" % (kind, name) for name, of_name in kinds.items() for kind in of_name if not counters[name][kind]]


class Counts:
    """How often each kind of thing was seen."""

    def __init__(self):
        self.of = collections.defaultdict(collections.Counter)

    def session(self, some):
        of, session = self.of, some.session
        detail = " %s" % some.answer[1] if some.answer[0] == "InputRefused" else ""
        of["answers"][some.answer[0] + detail] += 1
        of["links"][type(some.link).__name__] += 1
        if not session:
            return
        of["guards"][session.options.guard] += 1
        of["in force from the start"][session.options.env] += 1
        of["sessions"].update(name for name, holds in (
            ("with an episode", session.notes.episodes), ("with several", len(session.notes.episodes) > 1),
            ("that are diagnosed", session.tables is not None),
            ("with held bytes", some.options.hold), ("whose frames dropped a checkpoint", session.left_by_frames),
            ("with a client gone", session.gone), ("with bytes past a close", self.unpassed(session))) if holds)
        of["sums"].update({"items": session.survivor.taken, "choices": len(session.survivor.choices),
                           "null answers": sum(choice.at == 0 for choice in session.survivor.choices), "episodes": len(session.notes.episodes),
                           "pieces": sum(entry[0] == "gave" for entry in session.journal),
                           "instructions": session.steps_of_all + session.survivor.steps - session.began})
        self.choices(session.survivor.choices)
        for episode in session.notes.episodes:
            self.episode(episode)

    def choices(self, choices):
        for choice in choices:
            call = "realloc of null" if choice.ask.call == "realloc" and not choice.ask.replaced else choice.ask.call
            self.of["choices"]["%s, %s" % (call, "null" if not choice.at else "zeros" if choice.zeroed else "a block")] += 1
            self.of["choices"]["realloc, carried"] += choice.carried != 0

    @staticmethod
    def unpassed(session):
        return any(session.owed(connection, 1 << 64) for connection in session.shut)

    def episode(self, episode):
        of, last = self.of, episode.tries[-1]
        of["causes"][re.sub(r" \d+", "", episode.cause)] += 1
        of["results of tries"].update(re.sub(r" \d+", "", tried.result) for tried in episode.tries)
        if last.result == SURVIVED:
            of["adopted"][last.environment] += 1
            newest = last.checkpoint == episode.tries[0].checkpoint
            of["adopted at"]["the newest checkpoint" if newest else "the start" if last.checkpoint == 0 else "an older one"] += 1

    def lines(self):
        found = ["%s: %s" % (name, ", ".join("%s %d" % pair for pair in sorted(counter.items()))) for name, counter in self.of.items()]
        missing = lacking(KINDS, self.of)
        return found + ["not seen: %s" % ", ".join(missing)] * bool(missing)


def check_undisturbed(some, seed):
    """A session that was diagnosed went as without a diagnosis. A file's fault comes at another call."""
    plain = Some(seed)
    plain.run(False, False)
    must(("FileFault",) in (some.answer, plain.answer) or some.came() == plain.came(), "a session goes otherwise where it is diagnosed")


def check(runs, seed):
    """Checks so many sessions; how many break a promise."""
    counts, wrong = Counts(), 0
    for number in range(runs):
        name, diagnoses = "%d %d" % (seed, number), number % 3 == 0
        some = Some(name)
        try:
            some.run(number % 2 == 0, diagnoses)
            counts.session(some)
            if diagnoses:
                check_undisturbed(some, name)
        except Broken as broken:
            wrong += 1
            print("session %d of seed %d: %s" % (number, seed, broken))
    print("%d sessions keep what they promise, %d don't" % (runs - wrong, wrong))
    print("\n".join(counts.lines()))
    return wrong
