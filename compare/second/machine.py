"""A guest's machine: areas exact to the byte, registers, the calls 1 to 8, and what the guest did.

Written from the RISC-V unprivileged manual and from the tables of areas, calls and causes. A machine is saved by a copy of all of it,
and restored by running a copy of the copy.
"""

import struct

from second.guard import OFF, guard_of
from second.heap import BadFree, Heap, PLAIN, RecordedHeap, calloc_of, malloc_of, realloc_of
from second.instructions import (
    BAD_ACCESS, BAD_CALL, BAD_FREE, CALLS, EXECUTE, Failure, HANG, MASK, READ, WRITE, action_of, assert_failed)

PAGE, MIB = 4096, 1 << 20
STACK, STACK_AND_GUARD = 65536, 69632
MOST_SENT = 65535
RECV, SEND, MALLOC, FREE, EXIT, ASSERTION, CALLOC, REALLOC = 1, 2, 3, 4, 5, 6, 7, 8
ALL_CALLS = (RECV, SEND, MALLOC, FREE, EXIT, ASSERTION, CALLOC, REALLOC)
OPEN, MESSAGE, CLOSE = 1, 2, 3  # kinds of items


class Image:
    """A program: its segments as (address, content, flags), its entry, and the ends of its areas."""

    def __init__(self, segments, entry, window=4 * MIB):
        self.segments, self.entry, self.window = segments, entry, window
        self.base = min(at for at, _, _ in segments) // PAGE * PAGE
        end = max(at + len(content) for at, content, _ in segments)
        self.heap_start = (end + PAGE - 1) // PAGE * PAGE
        self.heap_end = self.base + window - STACK_AND_GUARD
        self.stack_top = self.base + window
        self.areas = sorted(
            [(at, at + len(content), flags) for at, content, flags in segments if content]
            + [(self.heap_start, self.heap_end, READ | WRITE), (self.stack_top - STACK, self.stack_top, READ | WRITE)])
        # what stands at a pc may be kept where no byte can be both written and executed
        self.keeps_code = not any(flags & EXECUTE and flags & WRITE for _, _, flags in self.areas)
        self.code = {}

    @property
    def pages(self):
        return self.window // PAGE


class Memory:
    """Areas with permissions over pages of bytes. A page that isn't there is zeros."""

    guard = None  # which accesses of the heap are permitted, where not all are

    def __init__(self, areas):
        self.areas, self.pages, self.written = areas, {}, set()

    def copy(self):
        """A copy of the contents; no page of it counts as written, and it has no guard."""
        other = Memory(self.areas)
        other.pages = {number: bytearray(page) for number, page in self.pages.items()}
        return other

    def permits(self, at, length, permission):
        """Whether each of the bytes is in an area that permits it. No byte always is."""
        end = at + length
        if length == 0:
            return True
        for start, stop, flags in self.areas:
            if start <= at < stop:
                if not flags & permission:
                    return False
                if end <= stop:
                    return True
                at = stop
        return False

    def parts(self, at, length):
        """The pages that the bytes lie in, each with the first and the last place there."""
        while length:
            number, place = divmod(at, PAGE)
            count = min(length, PAGE - place)
            yield number, place, place + count
            at, length = at + count, length - count

    def read(self, at, length):
        number, place = divmod(at, PAGE)
        if place + length <= PAGE:
            page = self.pages.get(number)
            return bytes(length) if page is None else bytes(page[place:place + length])
        return b"".join(self.read(number * PAGE + first, last - first) for number, first, last in self.parts(at, length))

    def write(self, at, content):
        done = 0
        for number, first, last in self.parts(at, len(content)):
            page = self.pages.get(number)
            if page is None:
                page = self.pages[number] = bytearray(PAGE)
            page[first:last] = content[done:done + last - first]
            self.written.add(number)
            done += last - first

    def access(self, at, length, permission):
        """Refuses an access that the areas or the guard don't permit."""
        if not self.permits(at, length, permission) or self.guard and not self.guard.permits(at, length):
            raise Failure(BAD_ACCESS)

    def load(self, at, length):
        self.access(at, length, READ)
        return self.read(at, length)

    def store(self, at, content):
        self.access(at, len(content), WRITE)
        self.write(at, content)

    def fetched(self, at):
        """The word of an instruction. A fetch is no access to the guard."""
        if not self.permits(at, 4, EXECUTE):
            raise Failure(BAD_ACCESS)
        return int.from_bytes(self.read(at, 4), "little")


class Machine:
    """A machine at the start of its program."""

    def __init__(self, image, budget, heap=None, calls=ALL_CALLS, guard=OFF):
        self.image, self.budget, self.calls, self.guard = image, budget, calls, guard
        self.memory = Memory(image.areas)
        for at, content, _ in image.segments:
            self.memory.write(at, content)
        self.memory.written = set()
        self.heap = heap or Heap(image.heap_start, image.heap_end)
        self.memory.guard = guard_of(guard, self.heap)
        self.environment = PLAIN
        self.x = [0] * 33  # the last one takes what is written to x0
        self.x[2] = image.stack_top & MASK
        self.pc = image.entry
        self.since = self.taken = self.steps = 0
        self.connections = set()
        self.sends, self.emitted = [], {}  # (connection, bytes, items taken, bytes to it so far)
        self.choices = []
        self.exited = None

    def copy(self):
        other = Machine.__new__(Machine)
        other.__dict__.update(self.__dict__)
        other.memory, other.heap = self.memory.copy(), self.heap.copy()
        other.memory.guard = guard_of(self.guard, other.heap)
        other.x, other.connections = list(self.x), set(self.connections)
        other.sends, other.emitted, other.choices = list(self.sends), dict(self.emitted), list(self.choices)
        return other

    def state(self):
        """All that a later instruction can depend on, but for the heap's layout."""
        pages = {number: bytes(page) for number, page in self.memory.pages.items() if any(page)}
        return (self.pc, self.x[:32], pages, self.taken, self.since, self.steps, self.connections, self.sends, self.choices, self.exited)

    # -- instructions

    def fetch(self):
        action = self.image.code.get(self.pc)
        if action is None:
            action = action_of(self.memory.fetched(self.pc))
            if self.image.keeps_code:
                self.image.code[self.pc] = action
        return action

    def step(self):
        """Does an instruction. What it did besides is returned: ("asks",), in which nothing was done yet, ("sent", connection,
        bytes), ("chose", choice) or ("exits", code). A sensor raises Failure, and nothing was done."""
        if self.since >= self.budget:
            raise Failure(HANG)
        action = self.fetch()
        if action is CALLS:
            return self.call()
        following = action(self, self.pc)
        self.advance(self.pc + 4 if following is None else following)
        return None

    def advance(self, pc):
        self.pc = pc & MASK
        self.since += 1
        self.steps += 1

    def run_to_event(self):
        """Goes on until an instruction does something besides; what, as of `step`."""
        code, pc, since, steps = self.image.code, self.pc, self.since, self.steps
        try:
            while True:
                action = code.get(pc)
                if action is None or action is CALLS or since >= self.budget:
                    self.pc, self.since, self.steps = pc, since, steps
                    event = self.step()
                    if event is not None:
                        return event
                    pc, since, steps = self.pc, self.since, self.steps
                    continue
                following = action(self, pc)
                pc = pc + 4 & MASK if following is None else following
                since += 1
                steps += 1
        except Failure:
            self.pc, self.since, self.steps = pc, since, steps
            raise

    # -- calls

    def call(self):
        number, a0, a1, a2 = self.x[17], self.x[10], self.x[11], self.x[12]
        if number not in self.calls:
            raise Failure(BAD_CALL)
        if number == RECV:
            self.memory.access(a0, a1, WRITE)
            return ("asks",)
        event = None
        if number == SEND:
            event = self.send(a0, a1, a2)
        elif number == MALLOC:
            event = self.allocate(malloc_of(a0))
        elif number == CALLOC:
            event = self.allocate(calloc_of(a0, a1))
        elif number == REALLOC:
            event = self.allocate(realloc_of(a0, a1))
        elif number == FREE:
            self.free(a0)
        elif number == EXIT:
            self.exited = a0
            event = ("exits", a0)
        else:
            raise Failure(assert_failed(a0))
        self.advance(self.pc + 4)
        return event

    def take(self, item):
        """Does the recv at which it stands."""
        kind, connection, content = item
        self.memory.write(self.x[10], content[:self.x[11]])
        self.x[10:13] = [len(content), connection, kind]
        if kind == OPEN:
            self.connections.add(connection)
        elif kind == CLOSE:
            self.connections.discard(connection)
        self.taken += 1
        self.advance(self.pc + 4)
        self.since = 0

    def send(self, connection, at, length):
        if length > MOST_SENT:
            self.x[10] = 2
        elif connection not in self.connections:
            self.x[10] = 1
        else:
            content = self.memory.load(at, length)
            self.x[10] = 0
            if content:
                end = self.emitted[connection] = self.emitted.get(connection, 0) + length
                self.sends.append((connection, content, self.taken, end))
                return ("sent", connection, content)
        return None

    def allocate(self, ask):
        """The new block begins with what is kept of the old one and what is carried behind it; where it is zeroed, the rest of it is zeros."""
        kept = min(self.heap.live_size(ask.replaced) or 0, ask.bytes)
        try:
            choice = self.heap.serve(self.environment, ask)
        except BadFree:
            raise Failure(BAD_FREE) from None
        if choice.at:
            content = self.memory.read(ask.replaced, kept + choice.carried)
            if choice.zeroed:
                content = content.ljust(ask.bytes, b"\0")
            self.memory.write(choice.at, content)
        self.choices.append(choice)
        self.x[10] = choice.at
        return ("chose", choice)

    def free(self, at):
        try:
            self.heap.free(self.environment, at)
        except BadFree:
            raise Failure(BAD_FREE) from None


def recorded_machine(image, choices, guard=OFF):
    """A machine at its start whose blocks stand where a list says, without a budget. A guard may be BLOCK."""
    return Machine(image, 1 << 63, RecordedHeap(image.heap_start, image.heap_end, choices), guard=guard)


def executable(segments, entry):
    """The program as an ELF file."""
    ident = b"\x7fELF\x01\x01\x01" + bytes(9)
    header = ident + struct.pack("<HHIIIIIHHHHHH", 2, 243, 1, entry, 52, 0, 0, 52, 32, len(segments), 0, 0, 0)
    offset, headers = 52 + 32 * len(segments), b""
    for at, content, flags in segments:
        headers += struct.pack("<8I", 1, offset, at, at, len(content), len(content), flags, 1)
        offset += len(content)
    return header + headers + b"".join(content for _, content, _ in segments)
