"""What the guest receives: the events of a link cut into items.

Written from the three framings and the limits of a session. An item is (kind, connection, bytes).
"""

from second.machine import CLOSE, MESSAGE, OPEN

LINE, LENGTH, WHOLE = "line", "length", "whole"
MOST_MESSAGE = 4096
MOST_ITEMS, MOST_EVENTS = 1 << 20, 1 << 32


class TooLong(Exception):
    """A message is refused."""


def lines(rest):
    """Whole messages at the front, and the rest."""
    *whole, rest = rest.split(b"\n")
    if len(rest) > MOST_MESSAGE or any(len(line) + 1 > MOST_MESSAGE for line in whole):
        raise TooLong
    return [line + b"\n" for line in whole], rest


def counted(rest):
    """The same, where each message has its length before it."""
    whole = []
    while len(rest) >= 4:
        length = int.from_bytes(rest[:4], "little")
        if length > MOST_MESSAGE:
            raise TooLong
        if len(rest) < 4 + length:
            break
        whole.append(rest[4:4 + length])
        rest = rest[4 + length:]
    return whole, rest


def pieces(piece):
    """The same, where each piece is a message."""
    if len(piece) > MOST_MESSAGE:
        raise TooLong
    return [piece] if piece else [], b""


FRAMINGS = {LINE: lines, LENGTH: counted, WHOLE: pieces}


class Items:
    """The items received so far. `event` answers None, or why the event was refused; a refused one changes nothing."""

    def __init__(self, framing, most_items=MOST_ITEMS, most_events=MOST_EVENTS):
        self.cut, self.most_items, self.most_events = FRAMINGS[framing], most_items, most_events
        self.received, self.rests, self.events = [], {}, 0

    def event(self, event):
        self.events += 1
        if self.events > self.most_events:
            return ("LimitEvents",)
        new, rest = [], None
        if event[0] == "opens":
            new = [(OPEN, event[1], b"")]
        elif event[0] == "closes":
            new = [(CLOSE, event[1], b"")]
        elif event[0] == "piece":
            try:
                messages, rest = self.cut(self.rests.get(event[1], b"") + event[2])
            except TooLong:
                return ("MessageTooLong", event[1])
            new = [(MESSAGE, event[1], message) for message in messages]
        if len(self.received) + len(new) > self.most_items:
            return ("LimitItems",)
        self.received += new
        if rest is not None:
            self.rests[event[1]] = rest
        return None
