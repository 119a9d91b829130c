"""Worked rows of the guard: what it refuses of a program's heap, and what recovery makes of it."""

from second import guests
from second.assembler import assemble
from second.checks import OPENS_0, Ran, lines_in, out, row, say
from second.guard import BLOCK, EXTENT, MODES, OFF, guard_of
from second.heap import ALL, BadFree, DELAY, Heap, ISOLATE, PAD, PLAIN, ZERO, calloc_of, malloc_of, realloc_of
from second.instructions import Failure
from second.machine import Image, Machine, MIB
from second.recovery_rows import ALL_FIVE, OVERRUN, same_at

START, END = 0x12000, 0x20000


# ---- worked sessions


@row("an overrun, with the guard of extents")
def _():
    ran = Ran("overflow", lines_in(OVERRUN), guard=EXTENT)
    ran.says(("Finished",), 0, out((0, OVERRUN)))
    ran.tried(2, "BadAccess", (1, "pad", "survived"))
    say(ran.choices(), [(ran.heap + 256, False), (ran.heap + 784, False)])


@row("an overrun, with the guard of blocks")
def _():
    ran = Ran("overflow", lines_in(OVERRUN), guard=BLOCK)
    ran.says(("GaveUp", 2, "BadAccess"), 5, b"")
    ran.tried(2, "BadAccess", *same_at(1, "BadAccess"), *same_at(0, "BadAccess"))


@row("a block that is used after it was freed, with the guard of extents")
def _():
    ran = Ran("stale", lines_in(b"a\n", b"b\n"), guard=EXTENT)
    ran.says(("Finished",), 0, out((0, b"a\n"), (0, b"b\n")))
    ran.tried(3, "AssertFailed 3", *same_at(2, "AssertFailed 3"), *same_at(1, "AssertFailed 3", ALL_FIVE[:3]), (1, "delay", "survived"))


@row("a line that fits, with each guard")
def _():
    for mode in MODES:
        ran = Ran("overflow", lines_in(b"hi\n"), guard=mode)
        ran.says(("Finished",), 0, out((0, b"hi\n")))
        say(ran.episodes, [])


@row("a run that a guard let pass is replayed without one")
def _():
    ran = Ran("overflow", lines_in(OVERRUN), guard=EXTENT)
    off = Ran("overflow", lines_in(OVERRUN))
    say((ran.record, ran.done.steps), (off.record, off.done.steps))


# ---- which bytes are permitted


class Blocks:
    """A heap with blocks of these sizes, one after another."""

    def __init__(self, environment, *asks):
        self.heap = Heap(START, END)
        self.at = [self.heap.serve(environment, malloc_of(ask) if isinstance(ask, int) else ask).at for ask in asks]

    def permits(self, at, length):
        """What no guard, that of extents and that of blocks say."""
        guards = [guard_of(mode, self.heap) for mode in MODES]
        return tuple(guard is None or guard.permits(at, length) for guard in guards)


def permitted(blocks, *rows):
    for at, length, extent, block in rows:
        say(blocks.permits(at, length), (True, extent, block), "access of %d bytes at %x" % (length, at))


@row("the bytes of a block of 20 and of one of 0 bytes, side by side")
def _():
    blocks = Blocks(PLAIN, 20, 0)
    say(blocks.at, [START, START + 32])
    permitted(blocks, (START, 32, True, True), (START + 31, 1, True, True), (START + 28, 4, True, True), (START + 30, 4, False, False),
              (START, 48, False, False), (START + 32, 16, True, True), (START + 44, 4, True, True), (START + 45, 4, False, False),
              (START + 48, 1, False, False), (END - 4, 4, False, False))


@row("accesses at the edges of the heap")
def _():
    blocks = Blocks(PLAIN, END - START)
    permitted(blocks, (START - 4, 4, True, True), (START - 2, 4, False, False), (START, 4, True, True), (END - 4, 4, True, True),
              (END - 2, 4, False, False), (END, 4, True, True), (START - 4, END - START + 8, False, False), (START, END - START, True, True))
    blocks.heap.free(PLAIN, START)
    permitted(blocks, (START - 4, 4, True, True), (START - 1, 2, False, False), (START, 1, False, False), (END, 1, True, True))


@row("an access without a byte")
def _():
    blocks = Blocks(PLAIN, 16)
    permitted(blocks, (START, 0, True, True), (START + 100, 0, True, True), (START - 4, 0, True, True), (0, 0, True, True))


@row("the padding of a block")
def _():
    for environment in (PAD, ALL):
        blocks = Blocks(environment, 16, 16)
        at = blocks.at[0]
        say(blocks.at[1], at + 528)
        permitted(blocks, (at, 16, True, True), (at - 256, 4, True, False), (at - 2, 4, True, False), (at + 14, 4, True, False),
                  (at + 268, 4, True, False), (at - 256, 528, True, False), (at + 270, 4, False, False), (at + 272, 4, True, False))
        say(blocks.permits(at - 258, 4), (True, False, False))


@row("the bytes of a freed block")
def _():
    for environment in (PLAIN, PAD, ZERO, ISOLATE):
        blocks = Blocks(environment, 16)
        blocks.heap.free(environment, blocks.at[0])
        permitted(blocks, (blocks.at[0], 4, False, False))
    for environment in (DELAY, ALL):
        blocks = Blocks(environment, 16)
        blocks.heap.free(environment, blocks.at[0])
        permitted(blocks, (blocks.at[0], 4, True, False))


@row("the bytes of a delayed block when its environment has gone")
def _():
    blocks = Blocks(DELAY, 16)
    blocks.heap.free(DELAY, blocks.at[0])
    permitted(blocks, (START, 16, True, False))
    try:
        blocks.heap.free(PLAIN, START)
        say("freed", "BadFree")
    except BadFree:
        permitted(blocks, (START, 16, True, False))
    blocks.heap.recycle()
    permitted(blocks, (START, 16, False, False))


@row("the bytes of a block that got another size")
def _():
    blocks = Blocks(PLAIN, 16, realloc_of(START, 40), calloc_of(3, 5))
    say(blocks.at, [START, START + 16, START])
    permitted(blocks, (START, 16, True, True), (START + 12, 8, False, False), (START + 16, 48, True, True), (START + 62, 4, False, False))
    blocks = Blocks(DELAY, 16, realloc_of(START, 40))
    permitted(blocks, (START, 16, True, False), (START + 16, 48, True, True))


# ---- which instructions ask


def machine_of(text, mode, budget=1000):
    return Machine(Image(*assemble(text), MIB), budget, guard=mode)


def came_of(text, mode, items=(), budget=1000):
    """The exit code of a program, or the cause of its failure and how many instructions went before it."""
    machine = machine_of(text, mode, budget)
    try:
        while machine.exited is None:
            event = machine.step()
            if event == ("asks",):
                machine.take(items[machine.taken])
        return machine.exited
    except Failure as failure:
        return failure.args[0], machine.steps


A_BLOCK = "li a0, 16\nli a7, 3\necall\nmv s0, a0\n"
LEAVE = "li a7, 5\necall\n"


def asked(work, extent, block, items=(), behind=""):
    """What comes of the work behind a block of 16 bytes, whose address is in s0: `extent` and `block` say whether it is done."""
    text = A_BLOCK + work + "\n" + LEAVE + behind
    free = came_of(text, OFF, items)
    for mode, holds in ((EXTENT, extent), (BLOCK, block)):
        ours = came_of(text, mode, items)
        say(ours if holds else ours[0], free if holds else "BadAccess", "%s with %s" % (work, mode))
    return free


@row("loads and stores that the guard is asked for")
def _():
    say(asked("li a0, 7\nsw a0, 12(s0)\nlw a0, 12(s0)", True, True), 7)
    for work in ("lw a0, 16(s0)", "lw a0, 13(s0)", "lhu a0, 15(s0)", "lbu a0, 16(s0)", "lw zero, 16(s0)", "sw a0, 14(s0)", "sh a0, 16(s0)",
                 "sb a0, 16(s0)"):
        asked(work, False, False)
    for work in ("lbu a0, 15(s0)", "lh a0, 14(s0)", "sb a0, 15(s0)", "lw a0, -4(sp)", "sw a0, -4(sp)", "la t0, A\nlw a0, 0(t0)"):
        asked(work, True, True, behind=".data\nA: .word 5\n")


PAGE_OF_DATA = ".data\nA: .space 4092\nB: .word 77\n"


@row("a word across the start of the heap")
def _():
    asked("la t0, B\nlw a0, 0(t0)", True, True, behind=PAGE_OF_DATA)
    asked("la t0, B\nlw a0, 2(t0)", False, False, behind=PAGE_OF_DATA)
    asked("la t0, B\nsw a0, 2(t0)", False, False, behind=PAGE_OF_DATA)


HI = [(1, 0, b""), (2, 0, b"hi\n")]
OPENED = "li a0, 0\nli a1, 0\nli a7, 1\necall\n"


@row("the buffer of a recv that the guard is asked for")
def _():
    say(came_of(A_BLOCK + OPENED + LEAVE, BLOCK, HI), 0)
    recv = OPENED + "mv a0, s0\nli a1, %d\nli a7, 1\necall"
    say(asked(recv % 16, True, True, HI), 3)
    asked(recv % 17, False, False, HI)  # though the message has three bytes
    asked(OPENED + "addi a0, s0, 100\nli a1, 0\nli a7, 1\necall", True, True, HI)
    asked(OPENED + "la a0, B\nli a1, 5\nli a7, 1\necall", False, False, HI, PAGE_OF_DATA)


@row("the bytes of a send that the guard is asked for")
def _():
    send = OPENED + "li a0, %d\nmv a1, s0\nli a2, %d\nli a7, 2\necall"
    say(asked(send % (0, 16), True, True, HI), 0)
    asked(send % (0, 17), False, False, HI)
    say(asked(send % (1, 17), True, True, HI), 1)  # no such connection
    say(asked(send % (0, 65536), True, True, HI), 2)  # too long
    say(asked(OPENED + "li a0, 0\naddi a1, s0, 100\nli a2, 0\nli a7, 2\necall", True, True, HI), 0)


@row("what a call does to blocks by itself is no access")
def _():
    asked("mv a0, s0\nli a1, 64\nli a7, 8\necall\nlw a0, 60(a0)", True, True)
    asked("li a0, 5\nli a1, 5\nli a7, 7\necall\nlw a0, 28(a0)", True, True)


@row("a refused access at the budget's end is Hang")
def _():
    text = A_BLOCK + "lw a0, 16(s0)\n" + LEAVE
    for mode in (EXTENT, BLOCK):
        say(came_of(text, mode), ("BadAccess", 6))
        say(came_of(text, mode, budget=7), ("BadAccess", 6))
        say(came_of(text, mode, budget=6), ("Hang", 6))


@row("a guest that uses its blocks rightly, with each guard")
def _():
    for name in ("echo", "keys", "grow", "divide", "counter", "dirty"):
        for mode in (EXTENT, BLOCK):
            stream = lines_in(b"set a b\n", b"get a\n", b"7 2\n")
            ran, off = Ran(name, stream, guard=mode), Ran(name, stream)
            say((ran.done.answer, ran.output, ran.record, ran.report), (off.done.answer, off.output, off.record, off.report), name)
            say(ran.episodes, [])
    say(guests.image("three").heap_start, Ran("three", OPENS_0, guard=BLOCK).heap)
