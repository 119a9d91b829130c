"""What a session reads and writes: a source, a sink, files and a listener in memory, and the three links over them.

Written from the rules of links. Each thing may have calls that are to fail, counted from 1, and a greatest number of bytes per
call. A link's `next` answers an event; `give` answers None, or how many bytes went out to a connection that is gone.
"""

import struct

from second import trunk


class ReadFault(Exception):
    """The input failed."""


class WriteFault(Exception):
    """The output failed; the argument is what went out."""


class FileFault(Exception):
    """A file call failed."""


class MemorySource:
    def __init__(self, content, fails=(), most=1 << 30):
        self.content, self.at, self.fails, self.most, self.calls = content, 0, set(fails), most, 0

    def take(self, room):
        self.calls += 1
        if self.calls in self.fails:
            raise ReadFault
        taken = self.content[self.at:self.at + min(room, self.most)]
        self.at += len(taken)
        return taken


class MemorySink:
    def __init__(self, fails=(), most=1 << 30):
        self.content, self.fails, self.most, self.calls = b"", set(fails), most, 0

    def give(self, content):
        self.calls += 1
        if self.calls in self.fails:
            raise WriteFault
        self.content += content[:self.most]
        return min(len(content), self.most)


class MemoryFiles:
    """Files by name. All calls are counted together."""

    def __init__(self, files, fails=()):
        self.files, self.fails, self.calls = dict(files), set(fails), 0

    def call(self):
        self.calls += 1
        if self.calls in self.fails:
            raise FileFault

    def load(self, name):
        self.call()
        if name not in self.files:
            raise FileFault
        return self.files[name]

    def start(self, name):
        self.call()
        self.files[name] = b""

    def add(self, name, content):
        self.call()
        self.files[name] += content


class MemoryListener:
    """Clients with their inputs, one after another. Calls are counted by kind: "bind", "accept", "take", "give"."""

    def __init__(self, inputs, fails=(), most=1 << 30):
        self.inputs, self.fails, self.most = list(inputs), set(fails), most
        self.counts, self.accepted, self.at, self.outputs = {}, 0, 0, []

    def fails_now(self, kind):
        self.counts[kind] = self.counts.get(kind, 0) + 1
        return (kind, self.counts[kind]) in self.fails

    def accept(self):
        if self.fails_now("accept") or self.accepted == len(self.inputs):
            raise ReadFault
        self.accepted, self.at = self.accepted + 1, 0
        self.outputs.append(b"")

    def take(self, room):
        """Bytes, none at the end, or None where the call failed."""
        if self.fails_now("take"):
            return None
        taken = self.inputs[self.accepted - 1][self.at:self.at + min(room, self.most)]
        self.at += len(taken)
        return taken

    def give(self, content):
        """How many bytes were taken, or None where the call failed."""
        if self.fails_now("give"):
            return None
        self.outputs[-1] += content[:self.most]
        return min(len(content), self.most)


# ---- links


class TrunkLink:
    """Frames of a source, and frames to a sink. No byte is read past a frame."""

    def __init__(self, source, sink):
        self.source, self.sink, self.offset, self.spans = source, sink, 0, trunk.Spans()

    def take(self, count):
        """So many bytes, or fewer at the end."""
        taken = b""
        while len(taken) < count:
            more = self.source.take(count - len(taken))
            if not more:
                break
            taken += more
        return taken

    def next(self):
        header = self.take(trunk.HEADER)
        if not header:
            return ("ends",)
        if len(header) < trunk.HEADER:
            raise trunk.Refused(trunk.TRUNCATED, self.offset)
        kind, connection, length = struct.unpack("<BHH", header)
        wrong = self.spans.refusal(kind, connection, length, length)
        content = b"" if wrong else self.take(length)
        if wrong or len(content) < length:
            raise trunk.Refused(wrong or trunk.TRUNCATED, self.offset)
        self.spans.note(kind, connection)
        self.offset += trunk.HEADER + length
        return trunk.event_of(kind, connection, content)

    def give(self, connection, content):
        left = trunk.piece_frame(connection, content)
        try:
            while left:
                left = left[self.sink.give(left):]
        except WriteFault:
            raise WriteFault(content[:max(0, len(content) - len(left))]) from None


class MemoryLink:
    """A list of events. Calls of `next` and `give` are counted together; `gones` are pairs of a call and how many bytes went out."""

    def __init__(self, events, fails=(), gones=()):
        self.events, self.fails, self.gones, self.calls = list(events), set(fails), dict(gones), 0
        self.at, self.spans = 0, trunk.Spans()

    def next(self):
        self.calls += 1
        if self.calls in self.fails:
            raise ReadFault
        if self.at == len(self.events):
            return ("ends",)
        event = self.events[self.at]
        if event[0] != "ends" and self.is_out_of_order(event):
            raise trunk.Refused(trunk.NOT_OPEN, self.at)
        self.at += 1
        return event

    def is_out_of_order(self, event):
        kind = {"opens": trunk.OPENS, "piece": trunk.PIECE, "closes": trunk.CLOSES, "settles": trunk.SETTLES}[event[0]]
        connection = event[1] if len(event) > 1 else 0
        wrong = self.spans.refusal(kind, connection, 0, 0)
        if not wrong:
            self.spans.note(kind, connection)
        return wrong is not None

    def give(self, _, content):
        self.calls += 1
        if self.calls in self.fails:
            raise WriteFault(b"")
        return min(self.gones[self.calls], len(content)) if self.calls in self.gones else None


class PortLink:
    """The clients of a listener, one after another, numbered from 0. A client that can't be written to is gone, and is closed next."""

    TAKES = 4096

    def __init__(self, listener, count):
        self.listener, self.count = listener, count
        self.accepted, self.is_open, self.gone = 0, False, False

    def next(self):
        if not self.is_open:
            if self.accepted == self.count:
                return ("ends",)
            self.listener.accept()
            self.accepted, self.is_open, self.gone = self.accepted + 1, True, False
            return ("opens", self.accepted - 1)
        taken = None if self.gone else self.listener.take(self.TAKES)
        if not taken:
            self.is_open = False
            return ("closes", self.accepted - 1)
        return ("piece", self.accepted - 1, taken)

    def give(self, _, content):
        done = 0
        while done < len(content):
            count = self.listener.give(content[done:])
            if count is None:
                self.gone = True
                return done
            done += count
        return None
