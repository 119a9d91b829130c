"""Worked rows of recovery: environments, the table, the ring, stamps, holding and the report."""

from second import guests
from second.assembler import assemble
from second.checks import OPENS_0, Ran, lines_in, out, piece, row, say
from second.heap import ENVIRONMENTS, PAD, Choice, malloc_of
from second.machine import Image, MIB
from second.outside import MemoryLink
from second.session import Notes, Options, Session

HI = b"hi\n"
OVERRUN = b"a" * 39 + b"\n"
ALL_FIVE = ("pad", "zero", "isolate", "delay", "all")


def same_at(checkpoint, result, environments=ALL_FIVE):
    return [(checkpoint, environment, result) for environment in environments]


def told(number):
    return b"%08x\n" % number


@row("a word of address 0")
def _():
    ran = Ran("null", lines_in(HI))
    ran.says(("GaveUp", 2, "BadAccess"), 5, b"")
    ran.tried(2, "BadAccess", *same_at(1, "BadAccess"), *same_at(0, "BadAccess"))
    say(len(ran.report.splitlines()), 13)


@row("a word of address 0, with no entry")
def _():
    Ran("null", lines_in(HI), table=()).says(("GaveUp", 2, "BadAccess"), 5, b"")


@row("an overrun")
def _():
    ran = Ran("overflow", lines_in(OVERRUN))
    ran.says(("Finished",), 0, out((0, OVERRUN)))
    ran.tried(2, "AssertFailed 1", (1, "pad", "survived"))
    say(ran.report.splitlines()[2], "try 0 checkpoint 1 env pad result survived")
    say(ran.choices(), [(ran.heap + 256, False), (ran.heap + 784, False)])


@row("an overrun, with one entry")
def _():
    ran = Ran("overflow", lines_in(OVERRUN), table=(PAD,), tried=1, ring=1)
    ran.says(("Finished",), 0, out((0, OVERRUN)))
    say(ran.choices(), [(ran.heap + 256, False), (ran.heap + 784, False)])


@row("a word that was never written")
def _():
    ran = Ran("unset", lines_in(HI))
    ran.says(("Finished",), 0, out((0, HI)))
    ran.tried(2, "AssertFailed 2", (1, "pad", "AssertFailed 2"), (1, "zero", "survived"))


@row("a block that is freed twice")
def _():
    ran = Ran("twice", lines_in(HI))
    ran.says(("Finished",), 0, out((0, HI)))
    ran.tried(2, "BadFree", *same_at(1, "BadFree", ALL_FIVE[:3]), (1, "delay", "survived"))


@row("a block that is used after it was freed")
def _():
    ran = Ran("stale", lines_in(b"a\n", b"b\n"))
    ran.says(("Finished",), 0, out((0, b"a\n"), (0, b"b\n")))
    ran.tried(3, "AssertFailed 3", *same_at(2, "AssertFailed 3"), *same_at(1, "AssertFailed 3", ALL_FIVE[:3]),
              (1, "delay", "survived"))


@row("a block that is used where it stood before it grew")
def _():
    ran = Ran("stale_grow", lines_in(b"a\n"))
    ran.says(("Finished",), 0, out((0, b"a\n")))
    ran.tried(2, "AssertFailed 7", *same_at(1, "AssertFailed 7", ALL_FIVE[:3]), (1, "delay", "survived"))
    say(ran.choices(), [(ran.heap, False), (ran.heap + 32, False), (ran.heap + 96, False)])
    lines = "m %08x - 00000020\nr %08x - %08x 00000040\nm %08x - 00000020\n" % (ran.heap, ran.heap + 32, ran.heap, ran.heap + 96)
    say(ran.record.partition("\n")[2].rpartition("end")[0], lines)


# It keeps all messages in a block, which it makes twice as large where the next one has no room, once; sums up all, and sends all back.
GROWS_ONCE = """
    li   a0, 16
    li   s4, 16                 # the block's size
    li   a7, 3                  # malloc
    ecall
    mv   s2, a0                 # the block
    li   s3, 0                  # how many bytes are in it
    li   s5, 0                  # their sum
receive:
    la   a0, buffer
    li   a1, 4096
    li   a7, 1                  # recv
    ecall
    li   t0, 2
    bne  a2, t0, receive        # it isn't a message
    mv   s0, a1
    mv   s1, a0
    add  t0, s3, s1
    bgeu s4, t0, copy           # it has room
    slli s4, s4, 1              # the fault: it may have none still
    mv   a0, s2
    mv   a1, s4
    li   a7, 8                  # realloc
    ecall
    mv   s2, a0
copy:
    la   t0, buffer
    add  t1, t0, s1
    add  t2, s2, s3
copy_byte:
    beq  t0, t1, copied
    lbu  t3, 0(t0)
    sb   t3, 0(t2)
    add  s5, s5, t3
    addi t0, t0, 1
    addi t2, t2, 1
    j    copy_byte
copied:
    add  s3, s3, s1
    mv   t0, s2
    add  t1, s2, s3
    li   t2, 0
sum_byte:
    beq  t0, t1, summed
    lbu  t3, 0(t0)
    add  t2, t2, t3
    addi t0, t0, 1
    j    sum_byte
summed:
    beq  t2, s5, reply
    li   a0, 9
    li   a7, 6                  # assertion failed
    ecall
reply:
    mv   a0, s0
    mv   a1, s2
    mv   a2, s3
    li   a7, 2                  # send
    ecall
    j    receive

.data
buffer:
    .space 4096
"""


@row("a block that is made larger behind a write past its end")
def _():
    ran = Ran(Image(*assemble(GROWS_ONCE), 4 * MIB), lines_in(OVERRUN, b"b\n"))
    ran.says(("Finished",), 0, out((0, OVERRUN), (0, OVERRUN + b"b\n")))
    ran.tried(3, "AssertFailed 9", *same_at(2, "AssertFailed 9"), (1, "pad", "survived"))
    at = ran.heap, ran.heap + 0x110, ran.heap + 0x330
    lines = "m %08x - 00000010\nr %08x - %08x 00000020\nr %08x - %08x 00000040 00000100\n" % (at[0], at[1], at[0], at[2], at[1])
    say(ran.record.partition("\n")[2].rpartition("end")[0], lines)


@row("an address that was told before a bad free")
def _():
    ran = Ran("tell_free", lines_in(b"a\n"))
    ran.says(("Finished",), 0, out((0, told(ran.heap))))
    ran.tried(2, "BadFree", (1, "pad", "Contradicts"), (1, "zero", "BadFree"), (1, "isolate", "Contradicts"), (1, "delay", "survived"))


@row("an address that was told before a bad free, with no entry")
def _():
    ran = Ran("tell_free", lines_in(b"a\n"), table=())
    ran.says(("GaveUp", 2, "BadFree"), 5, out((0, told(ran.heap))))


@row("two connections, one of which was given bytes")
def _():
    stream = OPENS_0 + bytes.fromhex("0101000000") + piece(1, b"go\n")
    ran = Ran("pair", stream)
    ran.says(("Finished",), 0, out((0, b"a\n"), (1, b"b\n")))
    ran.tried(3, "BadFree", (2, "pad", "Contradicts"), (2, "zero", "BadFree"), (2, "isolate", "Contradicts"), (2, "delay", "survived"))


@row("two connections, with one entry")
def _():
    stream = OPENS_0 + bytes.fromhex("0101000000") + piece(1, b"go\n")
    ran = Ran("pair", stream, table=(PAD,), tried=1, ring=1)
    ran.says(("GaveUp", 3, "BadFree"), 5, out((0, b"a\n")))
    ran.tried(3, "BadFree", (2, "pad", "Contradicts"))


TOLD_OVER = ("Contradicts", "AssertFailed 5", "Contradicts", "AssertFailed 5", "Contradicts")


@row("an address that was told before an overrun")
def _():
    ran = Ran("tell_over", lines_in(b"a\n"))
    ran.says(("GaveUp", 2, "AssertFailed 5"), 5, out((0, told(ran.heap))))
    ran.tried(2, "AssertFailed 5", *[(q, e, r) for q in (1, 0) for e, r in zip(ALL_FIVE, TOLD_OVER)])


@row("an address that is held back before an overrun")
def _():
    ran = Ran("tell_over", lines_in(b"a\n"), hold=2)
    ran.says(("Finished",), 0, out((0, told(ran.heap + 256))))
    ran.tried(2, "AssertFailed 5", (1, "pad", "survived"))


@row("an address that was told before an overrun, with one entry")
def _():
    ran = Ran("tell_over", lines_in(b"a\n"), table=(PAD,), tried=1, ring=1)
    ran.says(("GaveUp", 2, "AssertFailed 5"), 5, out((0, told(ran.heap))))
    ran.tried(2, "AssertFailed 5", (1, "pad", "Contradicts"))


@row("a budget of three and four instructions")
def _():
    Ran("three", b"", budget=4).says(("Finished",), 0, b"")
    ran = Ran("three", b"", budget=3)
    ran.says(("GaveUp", 0, "Hang"), 5, b"")
    expected = ["rx report 1", "failure 0 point 0 cause Hang at 0001000c"]
    expected += ["try %d checkpoint 0 env %s result Hang" % pair for pair in enumerate(ALL_FIVE)]
    say(ran.report.splitlines(), expected + ["end 5 taken 0 steps 3"])


@row("a budget of three, with a report in JSON")
def _():
    ran = Ran("three", b"", budget=3, form="json")
    begins = ('{"cause":"Hang","failure":0,"pc":"0001000c","point":0,"tries":[{"checkpoint":0,"env":"pad","result":"Hang"},')
    say(ran.report.splitlines()[1][:len(begins)], begins)
    say(ran.report.splitlines()[2], '{"end":5,"steps":3,"taken":0}')


@row("a pool of two windows")
def _():
    ran = Ran("dirty", lines_in(b"a\n", b"b\n", b"c\n"), window=MIB, frames=2)
    ran.says(("Finished",), 0, out((0, b"a\n"), (0, b"b\n"), (0, b"c\n")))
    say(len(ran.done.session.ring), 1)


@row("a byte that was seen before an item")
def _():
    ran = Ran("late", lines_in(b"x\n"))
    ran.says(("Finished",), 0, out((0, b"a\n")))
    ran.tried(2, "BadFree", (1, "pad", "Behind"), (1, "zero", "BadFree"), (1, "isolate", "Behind"), (1, "delay", "survived"))


@row("an episode that can't be noted")
def _():
    image = guests.image("overflow")
    events = [("opens", 0), ("piece", 0, OVERRUN)]
    session = Session(image, Options(), MemoryLink(events), Notes(fails=[1]))
    say(session.serve(), ("FileFault",))
    say([entry for entry in session.journal if entry[0] == "gave"], [])
    say(session.left()[1], [Choice(image.heap_start + 256, False, malloc_of(16)), Choice(image.heap_start + 784, False, malloc_of(16))])
    say(len(ENVIRONMENTS), 5)
