"""The trunk: frames of many connections on one stream, in and out.

Written from the grammar of frames. A frame is a kind, a connection and a length, little-endian, and as many bytes. An event is
("opens", c), ("piece", c, bytes), ("closes", c), ("settles",) or ("ends",).
"""

import struct

OPENS, PIECE, CLOSES, SETTLES = 1, 2, 3, 4
KIND, CONN, REOPENED, NOT_OPEN, TRUNCATED, EXTRA = 1, 2, 3, 4, 5, 6  # kinds of refusals
HEADER = 5
MOST_CONNECTIONS = 4096


class Refused(Exception):
    """No event stands there: the kind and the offset."""


class Spans:
    """Which connections were opened and which were closed."""

    def __init__(self):
        self.opened, self.closed = set(), set()

    def refusal(self, kind, connection, length, left):
        """The first refusal that holds of a whole header, or None; `left` is how many bytes are behind it."""
        if not OPENS <= kind <= SETTLES:
            return KIND
        if connection >= MOST_CONNECTIONS:
            return CONN
        if kind != PIECE and length:
            return EXTRA
        if kind == OPENS and connection in self.opened:
            return REOPENED
        if kind in (PIECE, CLOSES) and (connection not in self.opened or connection in self.closed):
            return NOT_OPEN
        if left < length:
            return TRUNCATED
        return None

    def note(self, kind, connection):
        if kind == OPENS:
            self.opened.add(connection)
        elif kind == CLOSES:
            self.closed.add(connection)


def event_of(kind, connection, content):
    return {OPENS: ("opens", connection), PIECE: ("piece", connection, content),
            CLOSES: ("closes", connection), SETTLES: ("settles",)}[kind]


def events(stream):
    """The events of a whole stream, and behind them the refusal (kind, offset) or None."""
    found, offset, spans = [], 0, Spans()
    while offset < len(stream):
        if offset + HEADER > len(stream):
            return found, (TRUNCATED, offset)
        kind, connection, length = struct.unpack_from("<BHH", stream, offset)
        wrong = spans.refusal(kind, connection, length, len(stream) - offset - HEADER)
        if wrong:
            return found, (wrong, offset)
        spans.note(kind, connection)
        found.append(event_of(kind, connection, stream[offset + HEADER:offset + HEADER + length]))
        offset += HEADER + length
    return found, None


def frame(kind, connection, content=b""):
    return struct.pack("<BHH", kind, connection, len(content)) + content


def piece_frame(connection, content):
    return frame(PIECE, connection, content)


def frame_of(event):
    """The frame of an event that isn't the end."""
    kind = {"opens": OPENS, "piece": PIECE, "closes": CLOSES, "settles": SETTLES}[event[0]]
    return frame(kind, event[1] if len(event) > 1 else 0, event[2] if len(event) > 2 else b"")


def payloads(stream):
    """The bytes of each connection's frames on the way out; a last frame may be cut short."""
    found, offset = {}, 0
    while offset + HEADER <= len(stream):
        _, connection, length = struct.unpack_from("<BHH", stream, offset)
        found[connection] = found.get(connection, b"") + stream[offset + HEADER:offset + HEADER + length]
        offset += HEADER + length
    return found
