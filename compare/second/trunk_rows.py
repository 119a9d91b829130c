"""Worked rows of the trunk, of framing, limits, holding, listeners and broken links."""

from second import guests
from second.checks import OPENS_0, Ran, lines_in, out, piece, row, say
from second.command import serve
from second.outside import MemoryLink, MemoryListener, MemorySink, MemorySource
from second.session import Notes, Options, Session

HI = b"hi\n"
ROW_1 = OPENS_0 + piece(0, HI)
REPLY_1 = out((0, HI))


def session(guest, link, notes=None, **options):
    """A session over a link in memory, and its answer."""
    found = Session(guests.image(guest), Options(**options), link, notes or Notes())
    return found, found.serve()


def given(found):
    return [entry[1:3] for entry in found.journal if entry[0] == "gave"]


# ---- trunk and framing


@row("a line is echoed")
def _():
    ran = Ran("echo", ROW_1)
    ran.says(("Finished",), 0, REPLY_1, taken=2)
    say(ran.record.splitlines()[-1][-2:], " 2")


@row("a line in five pieces, byte for byte")
def _():
    stream = lines_in(b"h", b"e", b"l", b"l", b"o\n")
    Ran("echo", b"", source=MemorySource(stream, most=1)).says(("Finished",), 0, out((0, b"hello\n")))


@row("two connections in pieces")
def _():
    stream = OPENS_0 + bytes.fromhex("0101000000") + piece(1, b"x") + piece(0, b"a\nb\n") + piece(1, b"y\n")
    Ran("echo", stream).says(("Finished",), 0, out((0, b"a\n"), (0, b"b\n"), (1, b"xy\n")))


@row("the longest line, and one byte more")
def _():
    line = b"a" * 4095 + b"\n"
    Ran("echo", lines_in(line)).says(("Finished",), 0, bytes.fromhex("0200000010") + line)
    Ran("echo", lines_in(b"a" + line)).says(("MessageTooLong", 0), 4, b"")


@row("a frame that is cut short after a reply")
def _():
    Ran("echo", ROW_1 + b"\x02\0\0").says(("InputRefused", 5, 13), 4, REPLY_1)


@row("messages with their length before them")
def _():
    Ran("echo", lines_in(bytes.fromhex("020000006869")), frame="length").says(("Finished",), 0, out((0, b"hi")))
    Ran("echo", lines_in(bytes.fromhex("00000000")), frame="length").says(("Finished",), 0, b"", taken=2)
    Ran("echo", lines_in(bytes.fromhex("01100000")), frame="length").says(("MessageTooLong", 0), 4)


@row("a connection that opens twice")
def _():
    Ran("echo", OPENS_0 * 2).says(("InputRefused", 3, 5), 4)


@row("a connection that closes")
def _():
    Ran("echo", OPENS_0 + bytes.fromhex("0300000000")).says(("Finished",), 0, taken=2)


@row("the input of one line cut at each byte")
def _():
    for n in range(13):
        ran = Ran("echo", ROW_1[:n])
        if n == 0:
            ran.says(("Finished",), 0, b"", taken=0)
        elif n < 5:
            ran.says(("InputRefused", 5, 0), 4, b"")
        elif n == 5:
            ran.says(("Finished",), 0, b"", taken=1)
        else:
            ran.says(("InputRefused", 5, 5), 4, b"", taken=1)


@row("a settle of a connection past the last")
def _():
    Ran("echo", OPENS_0 + bytes.fromhex("04ff0f0000")).says(("Finished",), 0)
    Ran("echo", OPENS_0 + bytes.fromhex("0400100000")).says(("InputRefused", 2, 5), 4)


# ---- failing calls


@row("a source that fails at its second call")
def _():
    Ran("echo", b"", source=MemorySource(ROW_1, fails=[2])).says(("ReadFault",), 7)


@row("one failing call of a source that gives a byte per call")
def _():
    for n in range(1, 15):
        ran = Ran("echo", b"", source=MemorySource(ROW_1, fails=[n], most=1))
        ran.says(("ReadFault",), 7, REPLY_1 if n == 14 else b"")


@row("one failing call of a sink that takes a byte per call")
def _():
    for n in range(1, 9):
        Ran("echo", ROW_1, sink=MemorySink(fails=[n], most=1)).says(("WriteFault",), 8, REPLY_1[:n - 1])


# ---- sessions over a link in memory


@row("limits of items and events")
def _():
    events = [("opens", 0), ("piece", 0, b"a\n"), ("piece", 0, b"b\n")]
    found, answer = session("echo", MemoryLink(events), max_items=2)
    say((answer, given(found), found.left()[3]), (("LimitItems",), [(0, b"a\n")], 2))
    found, answer = session("echo", MemoryLink(events), max_events=1)
    say((answer, given(found), found.left()[3]), (("LimitEvents",), [], 1))


@row("a client that is gone")
def _():
    found, answer = session("echo", MemoryLink([("opens", 0), ("piece", 0, HI)], gones=[(3, 1)]))
    say((answer, given(found)), (("Finished",), [(0, b"h")]))


@row("replies that are held until a settle")
def _():
    events = [("opens", 0), ("piece", 0, b"a\n"), ("settles",), ("piece", 0, b"b\n")]
    found, answer = session("echo", MemoryLink(events), hold=5)
    say(answer, ("Finished",))
    kinds = [entry[1][0] if entry[0] == "event" else entry[2] for entry in found.journal]
    say(kinds, ["opens", "piece", "settles", b"a\n", "piece", "ends", b"b\n"])


@row("two checkpoints and what is kept")
def _():
    events = [("opens", 0)] + [("piece", 0, bytes([letter]) + b"\n") for letter in b"abcde"]
    found, answer = session("echo", MemoryLink(events), ring=2)
    say((answer, found.left()[3]), (("Finished",), 6))
    say([checkpoint.machine.taken for checkpoint in found.ring], [5, 6])
    say(len(found.ring[0].machine.sends), 4)


# ---- listeners


SETS = b"".join(b"set k%d v%d\n" % (n, n) for n in range(99)) + b"set " + b"a" * 40 + b" z\n"
GETS = b"".join(b"get k%d\n" % n for n in range(99)) + b"get k0\n"


@row("two clients of guest keys")
def _():
    listener = MemoryListener([SETS, GETS])
    done = serve(guests.image("keys"), listener, 2)
    say((done.answer, done.status), (("Finished",), 0))
    say(listener.outputs, [b"ok\n" * 100, b"".join(b"v%d\n" % n for n in range(99)) + b"v0\n"])
    episodes = done.session.notes.episodes
    say(len(episodes), 1)
    say((episodes[0].point, [tuple(t) for t in episodes[0].tries]), (101, [(100, "pad", "survived")]))


@row("a client that breaks at the second byte")
def _():
    listener = MemoryListener([HI, HI], fails=[("give", 2)], most=1)
    done = serve(guests.image("echo"), listener, 2)
    say((done.answer, listener.outputs), (("Finished",), [b"h", HI]))


@row("a client that breaks at each byte")
def _():
    for n in range(1, 7):
        listener = MemoryListener([HI, HI], fails=[("give", n)], most=1)
        done = serve(guests.image("echo"), listener, 2)
        expected = [HI[:n - 1], HI] if n < 4 else [HI, HI[:n - 4]]
        say((done.answer, listener.outputs), (("Finished",), expected))
    listener = MemoryListener([HI, HI], fails=[("accept", 2)], most=1)
    done = serve(guests.image("echo"), listener, 2)
    say((done.answer, listener.outputs), (("ReadFault",), [HI]))
