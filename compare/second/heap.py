"""The blocks of a guest's heap, and the six environments that malloc, calloc, realloc and free can have.

Written from ISO C (9899:2018, 7.22.3) and the table of environments. A standing block is live or delayed. Its extent is what it
takes of the heap: its bytes, rounded up to 16, and its padding. A choice is an answer of one of the first three calls, together with
what was asked. It carries so many bytes from a replaced block's place, beside those that both blocks have.
"""

import bisect
import collections

PLAIN, PAD, ZERO, ISOLATE, DELAY, ALL = "plain", "pad", "zero", "isolate", "delay", "all"
ENVIRONMENTS = (PAD, ZERO, ISOLATE, DELAY, ALL)  # in the order in which they are tried

PADDING = 256
MOST_BLOCKS = 4096
MOST_FREED = 256
STEPS_DOWN = 256
MOST_BYTES = (1 << 32) - 1

MALLOC, CALLOC, REALLOC = "malloc", "calloc", "realloc"

Block = collections.namedtuple("Block", "at size live")
Choice = collections.namedtuple("Choice", "at zeroed ask carried", defaults=(0,))  # what is asked is None where a record doesn't say it


class Ask(collections.namedtuple("Ask", "call first second")):
    """A call that asks for a block, and its numbers: of malloc the size and 0, of calloc count and size, of realloc the old address
    and the size."""

    @property
    def bytes(self):
        """How many bytes are asked for; more than an address counts, maybe."""
        return {MALLOC: self.first, CALLOC: self.first * self.second, REALLOC: self.second}[self.call]

    @property
    def replaced(self):
        """The address of the block that the new one takes the place of, or 0."""
        return self.first if self.call == REALLOC else 0


def malloc_of(size):
    return Ask(MALLOC, size, 0)


def calloc_of(count, size):
    return Ask(CALLOC, count, size)


def realloc_of(old, size):
    return Ask(REALLOC, old, size)


def reserved(size):
    """How many bytes a block of the size has."""
    return max(16, (size + 15) // 16 * 16)


class BadFree(Exception):
    """free or realloc of what isn't a block."""


class Illegal(Exception):
    """A recorded choice that can't be used."""


class Heap:
    """The standing blocks between two addresses, in the order of their extents, which never meet."""

    def __init__(self, start, end):
        self.start, self.end = start, end
        self.middle = start + (end - start) // 2
        self.starts, self.ends, self.blocks = [], [], []
        self.place_of = {}  # the start of the extent, by the block's address
        self.freed = []  # the extents of the blocks that were freed last, the latest first

    def copy(self):
        other = Heap(self.start, self.end)
        other.starts, other.ends, other.blocks = list(self.starts), list(self.ends), list(self.blocks)
        other.place_of, other.freed = dict(self.place_of), list(self.freed)
        return other

    def fit(self, length, least):
        """The lowest multiple of 16 at or above `least` at which `length` bytes are free, or None."""
        at = (max(least, self.start) + 15) // 16 * 16
        i = bisect.bisect_right(self.starts, at)
        if i and self.ends[i - 1] > at:
            at = self.ends[i - 1]
        while i < len(self.starts) and at + length > self.starts[i]:
            at = self.ends[i]
            i += 1
        return at if at + length <= self.end else None

    def put(self, start, end, block):
        i = bisect.bisect_left(self.starts, start)
        self.starts.insert(i, start)
        self.ends.insert(i, end)
        self.blocks.insert(i, block)
        self.place_of[block.at] = start

    def adopt(self, at, size):
        """Takes a live block as it stands."""
        self.put(at, at + reserved(size), Block(at, size, True))

    def index(self, at):
        return bisect.bisect_left(self.starts, self.place_of[at])

    def remove(self, at):
        i = self.index(at)
        del self.starts[i], self.ends[i], self.blocks[i], self.place_of[at]

    def find(self, at):
        return self.blocks[self.index(at)] if at in self.place_of else None

    def recycle(self):
        for block in [b for b in self.blocks if not b.live]:
            self.remove(block.at)

    def place(self, environment, size):
        """Places a block and returns its address, or None where 4096 stand or nothing fits."""
        if len(self.blocks) >= MOST_BLOCKS:
            return None
        side = PADDING if environment in (PAD, ALL) else 0
        length = reserved(size) + 2 * side
        start = None
        if environment in (ISOLATE, ALL):
            start = self.fit(length, self.middle)
        if start is None:
            start = self.fit(length, self.start)
        if start is None:
            return None
        self.put(start, start + length, Block(start + side, size, True))
        return start + side

    def standing(self, at):
        """Which block has the byte in its extent, or None."""
        i = bisect.bisect_right(self.starts, at) - 1
        return i if i >= 0 and at < self.ends[i] else None

    def is_in_extent(self, at, end):
        """Whether the bytes lie in the extent of one block."""
        i = self.standing(at)
        return i is not None and end <= self.ends[i]

    def is_in_live_block(self, at, end):
        """Whether the bytes lie in those of one live block, without its padding."""
        i = self.standing(at)
        block = None if i is None else self.blocks[i]
        return block is not None and block.live and block.at <= at and end <= block.at + reserved(block.size)

    def was_freed(self, at):
        """Whether the byte was in the extent of one of the blocks that were freed last."""
        return any(start <= at < end for start, end in self.freed)

    def below(self, at):
        """The block that begins at the address or next below it, of 256 multiples of 16, or None."""
        places = range(at // 16, max(-1, at // 16 - STEPS_DOWN), -1)
        return next((self.find(16 * place) for place in places if 16 * place in self.place_of), None)

    def is_behind(self, block, at):
        """Whether the address is less than 16 bytes past the extent of a live block."""
        return block.live and block.at + block.size <= at < self.end_of(block) + 16

    def end_of(self, block):
        """The address behind the extent of a standing block."""
        return self.ends[self.index(block.at)]

    def live_size(self, at):
        """The size of the live block at an address, or None."""
        block = self.find(at)
        return block.size if block is not None and block.live else None

    def reach(self, at):
        """How many bytes a block's extent has from the block's address on."""
        return self.ends[self.index(at)] - at

    def serve(self, environment, ask):
        """The choice. The old block of a realloc stands while the new one is placed. Where it pads, an environment brings all of the old one's extent
        from its address on, as far as that of the new one goes."""
        if ask.replaced and self.live_size(ask.replaced) is None:
            raise BadFree
        choice = self.choose(environment, ask)
        if choice.at and ask.replaced:
            if environment in (PAD, ALL):
                brought = min(self.reach(ask.replaced), self.reach(choice.at))
                choice = choice._replace(carried=brought - min(self.live_size(ask.replaced), ask.bytes))
            self.free(environment, ask.replaced)
        return choice

    def choose(self, environment, ask):
        if ask.bytes > MOST_BYTES:
            return Choice(0, False, ask)
        at = self.place(environment, ask.bytes)
        if at is None:
            self.recycle()
            at = self.place(environment, ask.bytes)
        if at is None:
            return Choice(0, False, ask)
        return Choice(at, ask.call == CALLOC or environment in (ZERO, ALL), ask)

    def free(self, environment, at):
        if at == 0:
            return
        block = self.find(at)
        if block is not None and block.live:
            i = self.index(at)
            self.freed = [(self.starts[i], self.ends[i]), *self.freed[:MOST_FREED - 1]]
            if environment in (DELAY, ALL):
                self.blocks[self.index(at)] = block._replace(live=False)
            else:
                self.remove(at)
        elif block is None or environment not in (DELAY, ALL):
            raise BadFree


class RecordedHeap:
    """A heap that answers what a record says, where C allows it. free of what isn't live does nothing."""

    def __init__(self, start, end, choices):
        self.start, self.end, self.choices, self.used = start, end, choices, 0
        self.live, self.starts = {}, []

    def copy(self):
        other = RecordedHeap(self.start, self.end, self.choices)
        other.used, other.live, other.starts = self.used, dict(self.live), list(self.starts)
        return other

    def live_size(self, at):
        return self.live.get(at)

    def is_in_live_block(self, at, end):
        return any(block <= at and end <= block + reserved(size) for block, size in self.live.items())

    def is_clear(self, at, size):
        """Whether a block may stand there; one of size 0 counts as one byte."""
        end = at + max(size, 1)
        if at % 16 or at < self.start or end > self.end:
            return False
        i = bisect.bisect_left(self.starts, at)
        if i < len(self.starts) and self.starts[i] < end:
            return False
        return i == 0 or self.starts[i - 1] + max(self.live[self.starts[i - 1]], 1) <= at

    def allows(self, choice):
        """Whether C allows the answer to what it says was asked."""
        if choice.at == 0:
            return not choice.zeroed and not choice.carried
        if choice.ask.bytes > MOST_BYTES or choice.ask.call == CALLOC and not choice.zeroed:
            return False
        return self.is_clear(choice.at, choice.ask.bytes) and (choice.carried == 0 or self.may_carry(choice))

    def may_carry(self, choice):
        """Whether all that comes of a replaced block's place lies in the heap there, and goes where no block stands, nor what it comes from."""
        old, new = choice.ask.replaced, choice.at
        if old == 0:
            return False
        count = min(self.live[old], choice.ask.bytes) + choice.carried
        return self.start <= old and old + count <= self.end and self.is_clear(new, count) and (old + count <= new or new + count <= old)

    def serve(self, _, ask):
        """The choice, with what is asked."""
        if ask.replaced and ask.replaced not in self.live:
            raise BadFree
        if self.used == len(self.choices):
            raise Illegal
        choice = self.choices[self.used]
        if choice.ask not in (None, ask):
            raise Illegal
        choice = choice._replace(ask=ask)
        if not self.allows(choice) or choice.at and len(self.live) >= MOST_BLOCKS:
            raise Illegal
        if choice.at:
            self.live[choice.at] = ask.bytes
            bisect.insort(self.starts, choice.at)
            self.free(None, ask.replaced)
        self.used += 1
        return choice

    def free(self, _, at):
        if at in self.live:
            del self.live[at]
            del self.starts[bisect.bisect_left(self.starts, at)]
