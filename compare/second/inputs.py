"""What clients do, at random: connections that open, send in any cut, settle and close; streams that break the grammar; and options."""

import dataclasses
import struct

from second import trunk
from second.guard import BLOCK, EXTENT, OFF
from second.heap import ENVIRONMENTS, PLAIN
from second.items import FRAMINGS, LENGTH, LINE
from second.machine import MIB
from second.session import Options

NUMBERS = [0, 1, 2, 3, 4095]
MOST_PIECE = 65535
TOO_LONG = 0.01  # how likely a message is about too long


def some_message(rng):
    """The bytes of a message, without what its framing adds."""
    length = rng.choice([1, 1, 2, 3, 5, 8, 20, 100]) if rng.random() < 0.99 else rng.choice([4090, 4095, 4096])
    return bytes(rng.choice(b"abcdefgh") for _ in range(length))


def framed(rng, frame, message, too_long=TOO_LONG):
    if frame == LINE:
        return message + b"\n"
    if frame == LENGTH:
        length = len(message) if rng.random() < 1 - too_long else 4097
        return struct.pack("<I", length) + message
    return message


def cuts(rng, content):
    """The bytes cut in pieces."""
    pieces = []
    while content:
        count = rng.randrange(1, len(content) + 1)
        pieces.append(content[:count])
        content = content[count:]
    return pieces


def some_pieces(rng, frame, large, too_long=TOO_LONG):
    """The pieces of a message or a few, or an empty piece; where `large` says so, now and then a piece as large as a frame holds."""
    kind = rng.random()
    if kind < 0.03:
        return [b""]
    content = framed(rng, frame, some_message(rng), too_long)
    if kind < 0.15:
        content += framed(rng, frame, some_message(rng), too_long)
    if kind < 0.25:
        return cuts(rng, content)
    if kind < 0.25 + too_long:
        return [b"z" * rng.choice([4096, 4097])]
    if kind < 0.265 and large:
        return [(framed(rng, frame, b"y" * 4090) * 17)[:MOST_PIECE]]
    return [content]


class Clients:
    """Writes the events of a session."""

    ACTS, TOO_LONG = [4, 8, 12, 20, 30], TOO_LONG

    def __init__(self, rng, frame, large):
        self.rng, self.frame, self.large, self.events = rng, frame, large, []
        self.unopened = rng.sample(NUMBERS, rng.choice([1, 1, 2, 3, 4]))
        if rng.random() < 0.8 and 0 not in self.unopened:
            self.unopened[0] = 0
        self.open = []

    def act(self):
        rng, kind = self.rng, self.rng.random()
        if not self.open or self.unopened and kind < 0.15:
            if self.unopened:
                self.open.append(self.unopened.pop())
                self.events.append(("opens", self.open[-1]))
        elif kind < 0.21:
            self.events.append(("closes", self.open.pop(rng.randrange(len(self.open)))))
        elif kind < 0.26:
            self.events.append(("settles",))
        else:
            self.say()

    def say(self):
        connection = self.rng.choice(self.open)
        self.events += [("piece", connection, piece) for piece in some_pieces(self.rng, self.frame, self.large, self.TOO_LONG)]

    def session(self):
        for _ in range(self.rng.choice(self.ACTS)):
            self.act()
        if self.rng.random() < 0.3:
            self.events += [("closes", connection) for connection in self.open]
        return self.events


class SteadyClients(Clients):
    """Clients of a long session, who seldom open, settle or close."""

    ACTS, TOO_LONG = [60, 120, 250], 0.001

    def act(self):
        if self.open and self.rng.random() < 0.8:
            self.say()
        else:
            super().act()


def some_events(rng, frame, large=False):
    return Clients(rng, frame, large).session()


def many_events(rng, frame):
    return SteadyClients(rng, frame, False).session()


def break_stream(rng, events):
    """Frames of the events, with one rule of the grammar broken somewhere; it may be one that isn't broken there."""
    place = rng.randrange(len(events) + 1)
    before = b"".join(trunk.frame_of(event) for event in events[:place])
    behind = b"".join(trunk.frame_of(event) for event in events[place:])
    opened = [event[1] for event in events[:place] if event[0] == "opens"]
    closed = [event[1] for event in events[:place] if event[0] == "closes"]
    kind = rng.randrange(9)
    if kind == 0:
        wrong = trunk.frame(rng.choice([0, 5, 255]), rng.choice([0, 5000]))
    elif kind == 1:
        wrong = trunk.frame(rng.choice([1, 2, 3, 4]), rng.choice([4096, 65535]), rng.choice([b"", b"x"]))
    elif kind == 2:
        wrong = trunk.frame(rng.choice([1, 3, 4]), rng.choice(NUMBERS), b"x")
    elif kind == 3:
        wrong = trunk.frame(1, rng.choice(opened + closed + [0]))
    elif kind == 4:
        wrong = trunk.frame(rng.choice([2, 3]), rng.choice(closed + [77]), b"")
    elif kind == 5:
        wrong = trunk.frame(2, rng.choice(opened + [0]), b"some bytes\n")[:-rng.randrange(1, 12)]
        behind = b""
    elif kind == 6:
        # any header: which refusal goes first
        wrong = struct.pack("<BHH", rng.choice([0, 1, 2, 3, 4, 5]), rng.choice(NUMBERS + [77, 4096, 65535]), rng.choice([0, 1, 3, 65535]))
        behind = rng.choice([b"", b"x", b"xy\n", behind])
    else:
        whole = before + behind
        return whole[:rng.randrange(len(whole) + 1)]
    return before + wrong + behind


def some_options(rng):
    return Options(
        window=rng.choice([1, 1, 1, 1, 2]) * MIB,
        frame=rng.choice(sorted(FRAMINGS)),
        hold=rng.choice([0, 0, 0, 1, 2, 5, 1000]),
        ring=rng.choice([1, 2, 3, 4, 8, 16]),
        every=rng.choice([1, 1, 1, 2, 3, 10]),
        frames=rng.choice([2, 3, 3, 4, 16]),
        budget=rng.choice([400, 2000, 5000, 5000, 5000, 20000]),
        keep=rng.choice([1, 2, 4, 4, 4, 8, 100]),
        env=rng.choice([PLAIN, PLAIN, PLAIN, *ENVIRONMENTS]),
        guard=rng.choice([OFF, OFF, OFF, EXTENT, EXTENT, BLOCK]))


def wide_options(rng):
    """Options of which ring and frames have any value, and hold and every large ones too."""
    return dataclasses.replace(some_options(rng), ring=rng.randrange(1, 17), frames=rng.randrange(2, 17),
                               every=rng.choice([1, 1, 2, 5, 16, 64]), hold=rng.choice([0, 0, 1, 3, 20, 100]))
