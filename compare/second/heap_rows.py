"""Rows of the heap: small ones worked by hand, and long ones beside a heap that looks at every address."""

import random

from second.checks import row, say
from second.heap import ALL, BadFree, Block, DELAY, Heap, ISOLATE, PAD, PLAIN, ZERO, calloc_of, malloc_of, realloc_of, reserved

START, END = 0x20000, 0x22000
EVERY = (PLAIN, PAD, ZERO, ISOLATE, DELAY, ALL)


def place(heap, size, side, least):
    """Places a block with room on both sides, at or above an address; its address or None."""
    length = reserved(size) + 2 * side
    start = heap.fit(length, least)
    if start is None:
        return None
    heap.put(start, start + length, Block(start + side, size, True))
    return start + side


def serve(heap, environment, ask):
    """Address and mark of the answer, or None where it is a bad free."""
    try:
        choice = heap.serve(environment, ask)
    except BadFree:
        return None
    say(choice.ask, ask)
    return choice.at, choice.zeroed


def carried(heap, environment, ask):
    """The same, and how many bytes are carried."""
    try:
        choice = heap.serve(environment, ask)
    except BadFree:
        return None
    say(choice.ask, ask)
    return choice.at, choice.zeroed, choice.carried


def malloc(heap, environment, size):
    return serve(heap, environment, malloc_of(size))


def is_bad_free(heap, environment, at):
    try:
        heap.free(environment, at)
        return False
    except BadFree:
        return True


@row("places in a heap of 64 bytes")
def _():
    heap = Heap(4096, 4160)
    say([place(heap, size, 0, 0) for size in (17, 0, 16, 1)], [4096, 4128, 4144, None])
    heap.free(PLAIN, 4128)
    say([place(heap, 16, 16, 0), place(heap, 16, 0, 4144), place(heap, 16, 0, 4096)], [None, None, 4128])


@row("a block in each environment")
def _():
    for environment in EVERY:
        heap = Heap(START, END)
        at, zeroed = malloc(heap, environment, 100)
        start = 0x21000 if environment in (ISOLATE, ALL) else START
        say(at, start + (256 if environment in (PAD, ALL) else 0), environment)
        say(zeroed, environment in (ZERO, ALL), environment)
        say(malloc(heap, environment, 0x3000), (0, False), environment)
        heap.free(environment, at)
        say(bool(heap.blocks), environment in (DELAY, ALL), environment)
        say(malloc(heap, PLAIN, 0x2000), (START, False), environment)


@row("delayed blocks stay when Plain returns")
def _():
    heap = Heap(START, END)
    say(malloc(heap, ZERO, 0), (START, True))
    heap.free(DELAY, START)
    say([is_bad_free(heap, e, START) for e in EVERY], [True, True, True, True, False, False])
    say(malloc(heap, PLAIN, 16), (START + 16, False))
    say(malloc(heap, PLAIN, 0x1FF0), (0, False))
    say(heap.find(START), None)
    say(is_bad_free(heap, DELAY, START), True)


@row("padding stays until a block is released")
def _():
    heap = Heap(START, END)
    say([malloc(heap, PAD, 16)[0], malloc(heap, PLAIN, 16)[0]], [START + 0x100, START + 0x210])
    say(malloc(heap, ALL, 16), (0x21100, True))
    heap.free(PLAIN, START + 0x100)
    say(malloc(heap, PLAIN, 16), (START, False))


@row("a count and a size whose product passes an address")
def _():
    for environment in EVERY:
        heap = Heap(START, END)
        malloc(heap, PLAIN, 16)
        malloc(heap, PLAIN, 16)
        heap.free(DELAY, START)
        before = heap.copy().blocks
        for count, size in ((65536, 65536), (1 << 31, 2), (0xFFFFFFFF, 0xFFFFFFFF)):
            say(serve(heap, environment, calloc_of(count, size)), (0, False), environment)
            say(heap.blocks, before, environment)
        say(serve(heap, environment, calloc_of(65537, 65535)), (0, False), environment)
        say(len(heap.blocks), 1, environment)


@row("a zeroed block in each environment")
def _():
    for environment in EVERY:
        heap = Heap(START, END)
        start = (0x21000 if environment in (ISOLATE, ALL) else START) + (256 if environment in (PAD, ALL) else 0)
        say(serve(heap, environment, calloc_of(3, 7)), (start, True), environment)
        say(heap.find(start), Block(start, 21, True), environment)
        say(serve(heap, environment, calloc_of(0, 7))[1], True, environment)


@row("a new size of what isn't live")
def _():
    for environment in EVERY:
        heap = Heap(START, END)
        malloc(heap, PLAIN, 16)
        malloc(heap, PLAIN, 16)
        heap.free(DELAY, START)
        before = heap.copy().blocks
        for old in (START, START + 1, START + 32, 16, END):
            say(serve(heap, environment, realloc_of(old, 16)), None, environment)
        say(heap.blocks, before, environment)


@row("a new size of nothing is a new block")
def _():
    say(serve(Heap(START, END), PLAIN, realloc_of(0, 16)), (START, False))
    for environment in EVERY:
        heap, other = Heap(START, END), Heap(START, END)
        say(serve(heap, environment, realloc_of(0, 100)), malloc(other, environment, 100), environment)
        say(heap.blocks, other.blocks, environment)


@row("a new size in each environment")
def _():
    for environment in EVERY:
        heap = Heap(START, END)
        malloc(heap, PLAIN, 16)
        expected = {PLAIN: START + 16, ZERO: START + 16, DELAY: START + 16, PAD: START + 272, ISOLATE: 0x21000, ALL: 0x21100}[environment]
        say(serve(heap, environment, realloc_of(START, 8)), (expected, environment in (ZERO, ALL)), environment)
        say(heap.find(START), Block(START, 16, False) if environment in (DELAY, ALL) else None, environment)
        say(heap.find(expected), Block(expected, 8, True), environment)


@row("what is carried in each environment")
def _():
    for environment in EVERY:
        heap, other = Heap(START, END), Heap(START, END)
        malloc(heap, PLAIN, 20)
        # reserves 32; kept are 20, or 8
        say(carried(heap, environment, realloc_of(START, 40))[2], 12 if environment in (PAD, ALL) else 0, environment)
        malloc(other, PLAIN, 20)
        say(carried(other, environment, realloc_of(START, 8))[2], 24 if environment in (PAD, ALL) else 0, environment)


@row("what is carried from padding")
def _():
    heap = Heap(START, END)
    say(malloc(heap, PAD, 32), (START + 256, False))
    say(carried(heap, PAD, realloc_of(START + 256, 64)), (START + 800, False, 256))
    say(carried(heap, PAD, realloc_of(START + 800, 0)), (START + 256, False, 272))
    say(carried(heap, PLAIN, realloc_of(START + 256, 100)), (START + 528, False, 0))
    say(carried(heap, PAD, realloc_of(0, 16)), (START + 256, False, 0))
    say(carried(heap, PAD, realloc_of(START + 256, 0x2000)), (0, False, 0))


@row("a new size for which there is no room")
def _():
    heap = Heap(START, END)
    malloc(heap, PLAIN, 0x1000)
    malloc(heap, PLAIN, 0x800)
    heap.free(DELAY, START + 0x1000)
    say(serve(heap, DELAY, realloc_of(START, 0x1001)), (0, False))
    say(heap.blocks, [Block(START, 0x1000, True)])
    say(serve(heap, DELAY, realloc_of(START, 0x1000)), (START + 0x1000, False))
    say(heap.blocks, [Block(START, 0x1000, False), Block(START + 0x1000, 0x1000, True)])


@row("a new size where 4096 blocks stand")
def _():
    heap = Heap(START, START + 16 * 5000)
    for _ in range(4096):
        malloc(heap, PLAIN, 16)
    say(serve(heap, PLAIN, realloc_of(START, 8)), (0, False))
    heap.free(DELAY, START + 16)
    say(serve(heap, PLAIN, realloc_of(START, 8)), (START + 16, False))
    say(heap.find(START), None)


class EveryAddress:
    """A heap that knows of each 16 bytes who has them, and tries every place."""

    def __init__(self, start, end):
        self.start, self.units, self.blocks, self.sizes = start, [None] * ((end - start) // 16), {}, {}

    def fit(self, length, least):
        for i in range(least, len(self.units) - length + 1):
            if all(owner is None for owner in self.units[i:i + length]):
                return i
        return None

    def place(self, environment, size):
        side = 16 if environment in ("pad", "all") else 0
        length = max(1, -(-size // 16)) + 2 * side
        found = None
        if environment in ("isolate", "all"):
            found = self.fit(length, len(self.units) // 2)
        found = self.fit(length, 0) if found is None else found
        if found is None:
            return None
        at = self.start + 16 * (found + side)
        self.units[found:found + length] = [at] * length
        self.blocks[at], self.sizes[at] = "live", size
        return at

    def release(self, at):
        self.units = [None if owner == at else owner for owner in self.units]
        del self.blocks[at]

    def malloc(self, environment, size):
        at = self.place(environment, size)
        if at is None:
            for delayed in [at for at, state in self.blocks.items() if state == "delayed"]:
                self.release(delayed)
            at = self.place(environment, size)
        return (at, environment in ("zero", "all")) if at else (0, False)

    def calloc(self, environment, count, size):
        if count * size >= 1 << 32:
            return 0, False
        at = self.malloc(environment, count * size)[0]
        return at, at != 0

    def reach(self, at):
        """How many bytes it has from its address on."""
        return 16 * sum(owner == at for owner in self.units[(at - self.start) // 16:])

    def realloc(self, environment, old, size):
        """The answer, or None where it is a bad free."""
        if old and self.blocks.get(old) != "live":
            return None
        answer, behind = self.malloc(environment, size), 0
        if old and answer[0]:
            if environment in ("pad", "all"):
                behind = min(self.reach(old) - min(self.sizes[old], size), self.reach(answer[0]) - min(self.sizes[old], size))
            self.free(environment, old)
        return (*answer, behind)

    def free(self, environment, at):
        """Whether the free is a bad one."""
        keeps, state = environment in ("delay", "all"), self.blocks.get(at)
        if state == "live":
            if keeps:
                self.blocks[at] = "delayed"
            else:
                self.release(at)
        return not (at == 0 or state == "live" or state == "delayed" and keeps)


@row("heaps beside one that looks at every address")
def _():
    for seed in range(60):
        rng = random.Random(seed)
        end = START + 16 * rng.choice([2, 20, 70, 150, 300])
        heap, every = Heap(START, end), EveryAddress(START, end)
        environment, known = PLAIN, [0, START + 16]
        for _ in range(150):
            if rng.random() < 0.1:
                environment = rng.choice(EVERY)
            size, old, kind = rng.choice([0, 1, 16, 17, 40, 100, 400, 1 << 31]), rng.choice(known[-12:]), rng.random()
            if kind < 0.4:
                choices = malloc(heap, environment, size), every.malloc(environment, size)
            elif kind < 0.5:
                count = rng.choice([0, 1, 2, 3, 1 << 16])
                choices = serve(heap, environment, calloc_of(count, size)), every.calloc(environment, count, size)
            elif kind < 0.7:
                choices = carried(heap, environment, realloc_of(old, size)), every.realloc(environment, old, size)
            else:
                say(is_bad_free(heap, environment, old), every.free(environment, old), "free of seed %d" % seed)
                continue
            say(*choices, "choice of seed %d" % seed)
            known.append(choices[0][0] if choices[0] else 0)
