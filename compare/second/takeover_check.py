"""Hosts that are killed at any byte of what they write, and taken over by the next one with the true counts.

A first host serves a session at random; it is killed within some call, of which a first part was done, or comes to its end. The next one takes
over by what is left: its record, its report, and how many bytes each client has. It may be killed too. Behind the last one each client's bytes, of
all hosts together, have to be those that one run sends to it: the last survivor's, which is also the run that a replay of the last record does.
Every third first host comes to its end, and one that stands by goes on by its record.
"""

import collections
import dataclasses
import random
import struct

from second import inputs, programs, record, report, trunk, wild
from second.anew import Broken, must
from second.command import ENDS, image_maker, replay, run_session
from second.counts import counts_text
from second.items import WHOLE
from second.machine import Image
from second.outside import MemoryFiles, MemorySink, MemorySource, TrunkLink
from second.self_check import HeapWriter
from second.takeover import resume, standby

MOST_HOSTS = 4


class Killed(BaseException):
    """The host is no more."""


class Clock:
    """Counts the calls that write, and kills within one of them."""

    def __init__(self, rng, at):
        self.rng, self.at, self.calls = rng, at, 0

    def part(self, content):
        """How much of a call's content is written, and whether the host dies behind it."""
        self.calls += 1
        if self.calls != self.at:
            return len(content), False
        return self.rng.randrange(len(content) + 1), True


class DyingSink(MemorySink):
    def __init__(self, clock):
        super().__init__()
        self.clock = clock

    def give(self, content):
        count, dies = self.clock.part(content)
        super().give(content[:count])
        if dies:
            raise Killed
        return count


class DyingFiles(MemoryFiles):
    def __init__(self, clock):
        super().__init__({"p": b""})
        self.clock = clock

    def start(self, name):
        _, dies = self.clock.part(b"")
        super().start(name)
        if dies:
            raise Killed

    def add(self, name, content):
        count, dies = self.clock.part(content)
        super().add(name, content[:count])
        if dies:
            raise Killed


TOO_LONG = struct.pack("<I", 4097)  # the length before a message that is refused
MOST_JOINED = 1000


def may_join(first, second):
    """Whether two events are pieces of one connection, of which no message is too long: a piece with one is refused whole."""
    if not first[0] == second[0] == "piece" or first[1] != second[1]:
        return False
    joined = first[2] + second[2]
    return len(joined) <= MOST_JOINED and TOO_LONG not in joined


def cut_anew(rng, events):
    """The same bytes of each connection in other pieces, at the same places among the other events."""
    joined = []
    for event in events:
        if joined and may_join(joined[-1], event):
            joined[-1] = ("piece", event[1], joined[-1][2] + event[2])
        else:
            joined.append(event)
    found = []
    for event in joined:
        split = event[0] == "piece" and event[2] and rng.random() < 0.5
        found += [("piece", event[1], piece) for piece in inputs.cuts(rng, event[2])] if split else [event]
    return found


class Hosts:
    """One session, served by one host after another."""

    def __init__(self, seed):
        rng = self.rng = random.Random(seed)
        self.options = inputs.some_options(rng)
        self.segments = programs.some_server(rng) if rng.random() < 0.95 else wild.some_program(rng, HeapWriter, self.options.window)
        self.image = Image(*self.segments, self.options.window)
        self.form = rng.choice(["text", "json"])
        self.events = inputs.some_events(rng, self.options.frame)
        self.breaks = rng.random() < 0.1
        self.held = collections.defaultdict(bytes)  # what each client has
        self.followed = self.killed = 0

    def stream(self):
        if self.breaks:
            return b"".join(trunk.frame_of(event) for event in self.events) + b"\x09"
        events = self.events
        if self.options.frame != WHOLE and self.rng.random() < 0.4:
            events = cut_anew(self.rng, events)
        return b"".join(trunk.frame_of(event) for event in events)

    def next_options(self):
        """Options of the next host: what the report doesn't fix is free, but that it keeps environments for as many items, over the same one; and the budget
        may be larger."""
        other = inputs.some_options(self.rng)
        return dataclasses.replace(other, window=self.options.window, frame=self.options.frame, guard=self.options.guard,
                                   budget=self.options.budget * self.rng.choice([1, 1, 2]), keep=self.options.keep, env=self.options.env)

    def run(self):
        """Lets hosts serve until one isn't killed; what it came to."""
        texts = None
        for number in range(MOST_HOSTS):
            dies_at = 0 if number == MOST_HOSTS - 1 else self.rng.choice([0, self.rng.randrange(1, 8), self.rng.randrange(1, 60)])
            clock = Clock(self.rng, dies_at)
            sink, files = DyingSink(clock), DyingFiles(clock)
            try:
                done = self.host(texts, sink, files)
            except Killed:
                done = None
                self.killed += 1
            for connection, content in trunk.payloads(sink.content).items():
                self.held[connection] += content
            left = (files.files.get("r", b""), files.files.get("t", b""))
            if done:
                given = trunk.payloads(sink.content)
                must(not any(c in given for c in getattr(done.session, "shut_before", ())), "a closed connection is given bytes")
                return done, left
            if b"\n" in left[0] and b"\n" in left[1]:
                texts = left
            else:
                # a host that hadn't begun both files passed nothing: the files before are taken
                must(not sink.content, "a host passed bytes before its files had their heads")
        return None

    def host(self, texts, sink, files):
        source = MemorySource(self.stream())
        if texts is None:
            return run_session(self.image, dataclasses.replace(self.options), TrunkLink(source, sink), files, self.form)
        self.followed += len(report.read_report(texts[1]).adopted)
        counts = counts_text({c: len(content) for c, content in self.held.items() if content})
        return resume(image_maker(*self.segments), (*texts, counts), source, sink, self.next_options(), files, self.rng.choice(["text", "json"]))


def check_one_run(hosts, machine, shut, of_record):
    """Tests that clients have the bytes of the run that a machine did, and that the record is of this run."""
    sent = collections.defaultdict(bytes)
    for connection, content, _, _ in machine.sends:
        sent[connection] += content
    for connection, content in hosts.held.items():
        must(sent[connection].startswith(content), "connection %d has what one run doesn't send" % connection)
    for connection in machine.emitted:
        must(connection in shut or hosts.held[connection] == sent[connection], "connection %d lacks bytes" % connection)
    reading = record.read_record(of_record)
    must((reading.steps, reading.taken) == (machine.steps, machine.taken), "the record is of another run")
    sink = MemorySink()
    again = replay(image_maker(*hosts.segments), of_record, MemorySource(hosts.stream()), sink)
    must(again.answer == ("Finished",), "a replay of the last record answers %s" % (again.answer,))
    must(trunk.payloads(sink.content) == {c: content for c, content in sent.items() if content}, "a replay gives other bytes")


def check_standby(hosts):
    """A first host that came to an end, and one that stands by: clients have some first bytes of what was passed."""
    events, sink, files = hosts.events, MemorySink(), MemoryFiles({"p": b""})
    hosts.events = events[:hosts.rng.randrange(len(events) + 1)]
    first = run_session(hosts.image, dataclasses.replace(hosts.options), TrunkLink(MemorySource(hosts.stream()), sink), files, hosts.form)
    hosts.events = events
    if first.answer[0] != "Finished":
        return first
    for connection, content in trunk.payloads(sink.content).items():
        hosts.held[connection] = content[:hosts.rng.choice([len(content), hosts.rng.randrange(len(content) + 1)])]
    of_counts = counts_text({c: len(content) for c, content in hosts.held.items() if content})
    sink, files_behind = MemorySink(), MemoryFiles({})
    budget = hosts.options.budget * 2
    done = standby(image_maker(*hosts.segments), files.files["r"], of_counts, MemorySource(hosts.stream()), sink, budget, files_behind)
    must(done.answer[0] in ENDS, "a standby answers %s" % (done.answer,))
    for connection, content in trunk.payloads(sink.content).items():
        hosts.held[connection] += content
    check_one_run(hosts, done.session.machine, done.session.shut, files_behind.files["r"])
    return done


def check_hosts(hosts):
    """Tests what the last host came to."""
    done, (of_record, of_report) = hosts.run()
    session = done.session
    must(session is not None and done.answer[0] in ENDS, "a host answers %s" % (done.answer,))
    check_one_run(hosts, session.survivor, session.shut, of_record)
    told = report.read_report(of_report)
    adopted = [episode for episode in session.notes.episodes if episode.tries and episode.tries[-1].result == report.SURVIVED]
    must(told.ended and told.adopted == adopted, "the report lacks an episode")
    return done


def check(runs, seed):
    """Checks so many sessions; how many break a promise."""
    counts, wrong = collections.Counter(), 0
    for number in range(runs):
        hosts, stands_by = Hosts("%d %d" % (seed, number)), number % 3 == 2
        try:
            done = (check_standby if stands_by else check_hosts)(hosts)
            counts[done.answer[0]] += 1
            counts.update({"hosts killed": hosts.killed, "episodes followed": hosts.followed})
            counts.update({"taken over": hosts.killed > 0, "stood by": stands_by})
        except Broken as broken:
            wrong += 1
            print("hosts %d of seed %d: %s" % (number, seed, broken))
    print("%d sessions of killed hosts are one run, %d aren't" % (runs - wrong, wrong))
    print(", ".join("%s %d" % pair for pair in sorted(counts.items())))
    return wrong
