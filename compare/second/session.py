"""A session: the run that counts, the pieces that clients were given, and recovery.

Written from the loop of a session, the definitions of owed bytes, of a checkpoint ring, of the table of entries, of an attempt's result
and of the plan of environments. The survivor is the run that counts. Its sends are passed in order; what was passed is never taken
back. Where the survivor fails, copies of earlier states run again in other environments, and the first that stays true to what clients
were given takes its place.
"""

import bisect
import collections
import dataclasses

from second.diagnosis import fault
from second.guard import OFF
from second.heap import ENVIRONMENTS, PLAIN
from second.instructions import Failure
from second.items import Items, LINE, MOST_EVENTS, MOST_ITEMS
from second.machine import MIB, Machine
from second.outside import FileFault, ReadFault, WriteFault
from second.report import Episode, SURVIVED, Try
from second.trunk import Refused

CONTRADICTS, BEHIND = "Contradicts", "Behind"
EVER = 1 << 64

Checkpoint = collections.namedtuple("Checkpoint", "machine pages")  # pages written since the checkpoint before it


@dataclasses.dataclass
class Options:
    """Of a session; the window in bytes, frames in multiples of the window's pages."""

    window: int = 4 * MIB
    frame: str = LINE
    hold: int = 0
    ring: int = 8
    every: int = 1
    frames: int = 4
    budget: int = 1_000_000
    keep: int = 4  # how many items after the point an environment stays in force
    env: str = PLAIN  # the one that is in force from the first instruction on, and where no other is
    guard: str = OFF
    max_items: int = MOST_ITEMS
    max_events: int = MOST_EVENTS
    table: tuple = ENVIRONMENTS
    tried: int = 16  # how many checkpoints, from the newest, are tried


class Notes:
    """Keeps choices and episodes. The calls named in `fails` fail, counted from 1."""

    def __init__(self, fails=()):
        self.kept, self.episodes, self.fails, self.calls = [], [], set(fails), 0

    def call(self):
        self.calls += 1
        if self.calls in self.fails:
            raise FileFault

    def choices(self, choices):
        self.call()
        self.kept += choices

    def episode(self, episode):
        self.call()
        self.episodes.append(episode)


class Plan:
    """An environment for each count of items taken."""

    def __init__(self, base=PLAIN, parts=None):
        self.base, self.parts = base, parts or [(0, base)]  # (first count, environment)

    def at(self, count):
        return self.parts[bisect.bisect_right(self.parts, (count, "~")) - 1][1]

    def adopt(self, checkpoint, environment, point, keep):
        """The plan after an adoption, which stays for so many items; then the base is in force. At its request a checkpoint keeps its environment; the start doesn't."""
        first = checkpoint + 1 if checkpoint else 0
        kept = [part for part in self.parts if part[0] < first]
        return Plan(self.base, kept + [(first, environment), (point + keep, self.base)])


class Passed:
    """The bytes that each connection was given, with their stamps."""

    def __init__(self):
        self.content = collections.defaultdict(bytearray)
        self.stamps = collections.defaultdict(list)  # by connection, (stamp, bytes with at most this stamp), rising

    def count(self, connection):
        return len(self.content[connection]) if connection in self.content else 0

    def add(self, connection, content, stamp):
        self.content[connection] += content
        self.stamps[connection].append((stamp, len(self.content[connection])))

    def count_until(self, connection, stamp):
        i = bisect.bisect_right(self.stamps[connection], (stamp, EVER))
        return self.stamps[connection][i - 1][1] if i else 0

    def agrees(self, connection, content, end):
        """Whether a send that ends as byte `end` of its connection has the passed bytes, as far as there are some."""
        start = end - len(content)
        seen = self.content[connection][start:end] if connection in self.content else b""
        return content[:len(seen)] == seen

    def is_emitted(self, machine, stamp=EVER):
        """Whether the machine emitted every byte that was passed with at most this stamp."""
        return all(self.count_until(c, stamp) <= machine.emitted.get(c, 0) for c in self.content)


class Session:
    """A session of a program over a link. After `serve`, its fields tell what came of it."""

    def __init__(self, image, options, link, notes):
        self.image, self.options, self.link, self.notes = image, options, link, notes
        self.items = Items(options.frame, options.max_items, options.max_events)
        self.survivor = Machine(image, options.budget, guard=options.guard)
        self.plan, self.passed = Plan(options.env), Passed()
        self.survivor.environment = self.plan.at(0)
        self.ring = [Checkpoint(self.survivor.copy(), 0)]
        self.recorded, self.next_send = 0, 0
        self.shut = set()  # connections that are closed or gone
        self.gone = set()
        self.journal = []  # ("event", event, refusal or None) and ("gave", connection, bytes, whether it is gone)
        self.steps_of_all = 0  # instructions of the survivors and of all tries
        self.tables = None  # of each failure the tries of the whole table, where this is a list
        self.faults = []  # and what is most likely wrong there

    # -- the loop

    def serve(self):
        """Serves to an end or a fault; the answer is a tuple."""
        try:
            answer = self.to_an_end()
            self.pass_sends(EVER)
            return answer
        except ReadFault:
            return ("ReadFault",)
        except WriteFault:
            return ("WriteFault",)
        except FileFault:
            return ("FileFault",)

    def to_an_end(self):
        while True:
            try:
                event = self.survivor.run_to_event()
            except Failure as failure:
                point = self.survivor.taken
                if not self.recover(failure.args[0]):
                    return ("GaveUp", point, failure.args[0])
                self.pass_due()
                if self.survivor.exited is not None:
                    return ("Exited", self.survivor.exited)
                continue
            if event[0] == "sent":
                self.pass_due()
            elif event[0] == "exits":
                return ("Exited", event[1])
            elif event[0] == "asks":
                answer = self.request()
                if answer:
                    return answer

    def request(self):
        """A request of the survivor: a checkpoint, and the next item; or the end."""
        machine = self.survivor
        if machine.taken - self.ring[-1].machine.taken >= self.options.every:
            self.save()
        while len(self.items.received) == machine.taken:
            answer = self.take_event()
            if answer:
                return answer
        machine.take(self.items.received[machine.taken])
        machine.environment = self.plan.at(machine.taken)
        self.pass_due()
        return None

    def take_event(self):
        try:
            event = self.link.next()
        except Refused as refused:
            return ("InputRefused",) + refused.args
        if event[0] == "ends":
            self.journal.append(("event", event, None))
            return ("Finished",)
        refusal = self.items.event(event)
        self.journal.append(("event", event, refusal))
        if refusal:
            return refusal
        if event[0] == "settles":
            self.pass_sends(EVER)
        elif event[0] == "closes":
            self.pass_to(event[1])
            self.shut.add(event[1])
        return None

    # -- pieces

    def give_rest(self, send):
        """Gives the part of a send that its connection wasn't passed yet."""
        connection, content, _, end = send
        passed = self.passed.count(connection)
        if connection in self.shut or passed >= end:
            return
        piece = content[max(0, passed - (end - len(content))):]
        try:
            gone = self.link.give(connection, piece)
        except WriteFault as fault:
            if fault.args and fault.args[0]:
                self.given(connection, fault.args[0], False)
            raise
        self.given(connection, piece if gone is None else piece[:gone], gone is not None)
        if gone is not None:
            self.gone.add(connection)
            self.shut.add(connection)

    def given(self, connection, piece, gone):
        self.journal.append(("gave", connection, piece, gone))
        self.passed.add(connection, piece, len(self.items.received))

    def pass_sends(self, until):
        """Passes the sends that were made with at most so many items taken."""
        sends = self.survivor.sends
        while self.next_send < len(sends) and sends[self.next_send][2] <= until:
            self.give_rest(sends[self.next_send])
            self.next_send += 1

    def pass_due(self):
        self.pass_sends(self.survivor.taken - self.options.hold)

    def pass_to(self, connection):
        for send in self.survivor.sends[self.next_send:]:
            if send[0] == connection:
                self.give_rest(send)

    # -- checkpoints

    def save(self):
        machine, options = self.survivor, self.options
        self.ring.append(Checkpoint(machine.copy(), len(machine.memory.written)))
        machine.memory.written = set()
        while len(self.ring) > options.ring or self.is_full():
            del self.ring[0]
        new = machine.choices[self.recorded:len(self.ring[0].machine.choices)]
        if new:
            self.notes.choices(new)
            self.recorded += len(new)

    def is_full(self):
        pages = self.image.pages
        return pages + sum(c.pages for c in self.ring[1:]) + pages > self.options.frames * pages

    # -- recovery

    def recover(self, cause):
        """Tries the table. Whether an entry survived, which is the survivor then."""
        failed, tries, adopted = self.survivor, [], None
        self.steps_of_all += failed.steps - self.began
        if self.tables is not None:
            self.tables.append(self.whole_table(failed.taken))
            self.faults.append(fault(cause, failed, self.tables[-1]))
        for checkpoint, environment in self.table():
            trial, result = self.attempt(checkpoint, environment, failed.taken)
            self.steps_of_all += trial.steps - checkpoint.machine.steps
            tries.append(Try(checkpoint.machine.taken, environment, result))
            if result == SURVIVED:
                adopted = checkpoint
                break
        if adopted:
            self.adopt(adopted, trial, environment, failed.taken)
        self.notes.episode(Episode(failed.taken, cause, failed.pc, tries))
        return adopted is not None

    def whole_table(self, point):
        """The tries of all entries, each of them given up."""
        return [Try(checkpoint.machine.taken, environment, self.attempt(checkpoint, environment, point)[1])
                for checkpoint, environment in self.table()]

    began = 0  # instructions of the survivor before it became it

    def table(self):
        newest = self.ring[::-1][:self.options.tried]
        return [(checkpoint, environment) for checkpoint in newest for environment in self.options.table]

    def adopt(self, checkpoint, trial, environment, point):
        while self.ring[-1] is not checkpoint:
            del self.ring[-1]
        self.plan = self.plan.adopt(checkpoint.machine.taken, environment, point, self.options.keep)
        self.survivor, self.next_send, self.began = trial, 0, trial.steps

    def attempt(self, checkpoint, environment, point):
        """A run from the checkpoint on, in the environment, and its result."""
        trial = checkpoint.machine.copy()
        trial.environment = environment
        while True:
            try:
                event = trial.run_to_event()
            except Failure as failure:
                return trial, failure.args[0]
            if event[0] == "sent":
                if not self.passed.agrees(event[1], event[2], trial.emitted[event[1]]):
                    return trial, CONTRADICTS
            elif event[0] == "exits" or event[0] == "asks" and trial.taken == point:
                return trial, SURVIVED if self.passed.is_emitted(trial) else BEHIND
            elif event[0] == "asks":
                if not self.passed.is_emitted(trial, trial.taken):
                    return trial, BEHIND
                trial.take(self.items.received[trial.taken])

    # -- what came of it

    def left(self):
        """How many choices were noted, the choices behind them, and the survivor's instructions and items."""
        machine = self.survivor
        return self.recorded, machine.choices[self.recorded:], machine.steps, machine.taken
