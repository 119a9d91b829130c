"""Runs from a program's start, to hold beside what a session came to by way of its checkpoints.

Written from the definitions of the run, the served run, the plan of environments, an attempt's result and the checkpoint ring. A
promise that doesn't hold raises Broken.
"""

from second.heap import Heap, Illegal, PLAIN
from second.instructions import Failure
from second.machine import Machine
from second.session import BEHIND, CONTRADICTS, SURVIVED


class Broken(Exception):
    """A promise doesn't hold; the argument says which."""


def must(holds, what):
    if not holds:
        raise Broken(what)


def environment_at(base, adoptions, count):
    """The environment at a count of items taken, after adoptions of (checkpoint, environment, the last count of items that it is in force at),
    over a base."""
    found = base
    for checkpoint, environment, last in adoptions:
        if count > checkpoint or checkpoint == 0:
            found = environment if count <= last else base
    return found


def take(machine, items, base=PLAIN, adoptions=()):
    """Takes the next item, at a request."""
    must(machine.taken < len(items), "a run asks for an item that wasn't received")
    machine.take(items[machine.taken])
    machine.environment = environment_at(base, adoptions, machine.taken)


def go_on(machine, items, steps, base=PLAIN, adoptions=()):
    """Runs a machine for so many instructions over the items."""
    try:
        while machine.steps < steps:
            must(machine.exited is None, "a run goes on after its exit")
            event = machine.step()
            if event and event[0] == "asks":
                take(machine, items, base, adoptions)
    except (Failure, Illegal) as failure:
        raise Broken("a run from the start fails: %s" % failure) from None


def served_machine(session, adoptions):
    machine = Machine(session.image, session.options.budget, Heap(session.image.heap_start, session.image.heap_end),
                      guard=session.options.guard)
    machine.environment = environment_at(session.options.env, adoptions, 0)
    return machine


def result_anew(session, checkpoint, environment, point):
    """The result of an attempt, by one run from the program's start."""
    adoptions, passed = session.adoptions + [(checkpoint, environment, point + session.options.keep - 1)], session.passed
    machine = served_machine(session, adoptions)
    began = checkpoint == 0
    while True:
        try:
            event = machine.run_to_event()
        except Failure as failure:
            return machine, failure.args[0]
        if event[0] == "sent" and began:
            sent = b"".join(send[1] for send in machine.sends if send[0] == event[1])
            seen = bytes(passed.content.get(event[1], b""))
            if sent[:len(seen)] != seen[:len(sent)]:
                return machine, CONTRADICTS
        if event[0] in ("asks", "exits"):
            began = began or machine.taken == checkpoint
            is_end = event[0] == "exits" or machine.taken == point
            stamp = None if is_end else machine.taken
            if began and not covers(passed, machine, stamp):
                return machine, BEHIND
            if is_end:
                return machine, SURVIVED
            take(machine, session.items.received, session.options.env, adoptions)


def covers(passed, machine, stamp):
    """Whether each passed byte of at most this stamp is among the machine's bytes; of every stamp where it is None."""
    for connection, marks in passed.stamps.items():
        count = max([end for mark, end in marks if stamp is None or mark <= stamp], default=0)
        if sum(len(send[1]) for send in machine.sends if send[0] == connection) < count:
            return False
    return True


def ring_anew(session):
    """The names of the ring's checkpoints after a save, by the pages that a run from the program's start writes between them."""
    names, options, pages = [c.machine.taken for c in session.ring], session.options, session.image.pages
    machine, written = served_machine(session, session.adoptions), {}
    while machine.taken < session.survivor.taken:
        event = machine.run_to_event()
        if event[0] == "asks":
            if machine.taken in names and machine.taken:
                written[machine.taken], machine.memory.written = machine.memory.written, set()
            take(machine, session.items.received, session.options.env, session.adoptions)
    while machine.run_to_event()[0] != "asks":
        pass
    names.append(machine.taken)
    written[machine.taken] = machine.memory.written
    while len(names) > options.ring or 2 * pages + sum(len(written[name]) for name in names[1:]) > options.frames * pages:
        names = names[1:]
    return names
