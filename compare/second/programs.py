"""Servers with planted faults of the heap, as assembler texts.

A program works on each item that it receives, by small pieces of work that are put together at random: some are right, and some overrun
a block, use one that was freed or where it stood before it got another size, free twice or what isn't live, read what was never
written, or test contents. Most depend on the message's first byte or on the number of items, so that a session goes well for a while.
Some send where a block stands. Blocks come of malloc, calloc and realloc.

s0 to s3 are the item's length, connection, kind and number; s4 is its first byte; s5 is a sum that replies tell; s6 to s9 are for a
piece of work.
"""

from second.assembler import PAGE, assemble
from second.heap import PADDING, reserved

BUFFER = 256
SLOTS = 6
MAGIC = 0x600DCAFE


class Author:
    """Writes one program. One that is sound has no fault, and tells more often where its blocks stand."""

    def __init__(self, rng, sound=False):
        self.rng, self.sound, self.lines, self.labels = rng, sound, [], 0
        self.later = rng.choice(["overrun", "stale", "unset"]) if rng.random() < 0.25 and not sound else None
        self.spoiled = None if rng.random() < 0.2 else rng.randrange(1, 8)  # the item, or None for the start

    # -- words

    def add(self, *lines):
        self.lines += lines

    def label(self):
        self.labels += 1
        return "l%d" % self.labels

    def call(self, number):
        self.add("li a7, %d" % number, "ecall")

    def malloc(self, size, register):
        self.add("li a0, %d" % size)
        self.call(3)
        self.add("mv %s, a0" % register)

    def calloc(self, count, size, register):
        self.add("li a0, %d" % count, "li a1, %d" % size)
        self.call(7)
        self.add("mv %s, a0" % register)

    def realloc(self, old, size, register):
        self.add("mv a0, %s" % old, "li a1, %d" % size)
        self.call(8)
        self.add("mv %s, a0" % register)

    def allocate(self, size, register):
        """A new block by one of the three calls."""
        kind = self.rng.random()
        if kind < 0.6:
            self.malloc(size, register)
        elif kind < 0.8:
            count = self.rng.choice([count for count in (1, 2, 3, 5) if size % count == 0])
            self.calloc(count, size // count, register)
        else:
            self.realloc("zero", size, register)

    def free(self, register):
        self.add("mv a0, %s" % register)
        self.call(4)

    def send(self, connection, register, length):
        """Sends bytes from where the register says, to a connection that is a register or a number."""
        self.add("mv a1, %s" % register, "li a2, %d" % length)
        self.add(("mv a0, %s" if isinstance(connection, str) else "li a0, %d") % connection)
        self.call(2)
        self.add("add s5, s5, a0")

    def fail_unless(self, first, second, code):
        holds = self.label()
        self.add("beq %s, %s, %s" % (first, second, holds), "li a0, %d" % code)
        self.call(6)
        self.add(holds + ":")

    def fill(self, register, length, value):
        """Writes a word again and again, to so many bytes from the register on."""
        again = self.label()
        self.add("mv t0, %s" % register, "li t1, %d" % length, "add t1, t1, t0", "li t2, %d" % value)
        self.add(again + ":", "sw t2, 0(t0)", "addi t0, t0, 4", "bltu t0, t1, %s" % again)

    def mark(self, register):
        self.add("li t0, %d" % MAGIC, "sw t0, 0(%s)" % register)

    def holds_mark(self, register, code):
        self.add("lw t0, 0(%s)" % register, "li t1, %d" % MAGIC)
        self.fail_unless("t0", "t1", code)

    def size(self):
        return self.rng.choice([0, 1, 15, 16, 17, 24, 32, 40, 64, 100])

    def word_size(self):
        return self.rng.choice([16, 32, 64, 96])

    def connection(self):
        return self.rng.choice(["s1", "s1", "s1", 0, 1, 2, 4095, 70000])

    def tell(self, register):
        """Sends a register as four bytes."""
        self.add("la t0, told", "sw %s, 0(t0)" % register)
        self.send(self.connection(), "t0", 4)

    def perhaps_tell(self, register, chance=0.2):
        if self.rng.random() < (0.8 if self.sound else chance):
            self.tell(register)

    # -- work that is right

    def echo(self):
        self.add("la a1, buffer", "mv a2, s0", "mv a0, s1")
        self.call(2)

    def reply_sum(self):
        self.tell("s5")

    def two_sends(self):
        self.add("la s6, told", "sw s3, 0(s6)")
        for _ in range(2):
            self.send(self.connection(), "s6", self.rng.choice([0, 1, 2, 4]))

    def use_block(self):
        size = self.word_size()
        self.allocate(size, "s6")
        self.fill("s6", size, self.rng.choice([1, 2, 0x41414141]))
        self.perhaps_tell("s6", 0.05)
        self.free("s6")

    def keep_block(self):
        """Puts a new block in a slot; the old one is lost."""
        self.allocate(self.word_size(), "s6")
        self.mark("s6")
        self.perhaps_tell("s6", 0.05)
        self.add("la t0, slots", "sw s6, %d(t0)" % (4 * self.rng.randrange(SLOTS)))

    def give_up_block(self):
        """Frees the block of a slot and empties it."""
        offset = 4 * self.rng.randrange(SLOTS)
        self.add("la t0, slots", "lw s6, %d(t0)" % offset, "sw zero, %d(t0)" % offset)
        self.free("s6")

    def touch_pages(self):
        """Writes to many pages of a block."""
        again, pages = self.label(), self.rng.choice([5, 30, 80])
        self.malloc(4096 * pages, "s6")
        self.add("mv t0, s6", "li t1, %d" % pages, "li t2, 4096")
        self.add(again + ":", "sb s3, 0(t0)", "add t0, t0, t2", "addi t1, t1, -1", "bnez t1, %s" % again)
        self.free("s6")

    def ask_too_much(self):
        self.malloc(self.rng.choice([0x100000, 0x7FFFFFFF, -1]), "s6")
        self.add("add s5, s5, s6")
        if self.rng.random() < 0.5:
            self.realloc("zero", self.rng.choice([0x200000, -1]), "s6")
            self.add("add s5, s5, s6")
            self.calloc(*self.rng.choice([(65536, 65536), (-1, -1), (2, -0x80000000), (65537, 65535), (1024, 4096)]), "s6")
            self.add("add s5, s5, s6")

    def grow_too_much(self):
        """Asks for more than there is in place of a block, which stays."""
        self.allocate(16, "s6")
        self.mark("s6")
        self.realloc("s6", self.rng.choice([0x200000, 0x7FFFFFFF, -1]), "s7")
        self.fail_unless("s7", "zero", 10)
        self.holds_mark("s6", 10)
        self.free("s6")

    def use_zeros(self):
        """Looks at a word of a block of zeros, and uses it."""
        size = self.word_size()
        self.calloc(size // 4, 4, "s6")
        self.add("lw t0, %d(s6)" % (4 * self.rng.randrange(size // 4)))
        self.fail_unless("t0", "zero", 11)
        self.fill("s6", size, 4)
        self.perhaps_tell("s6", 0.05)
        self.free("s6")

    def resize(self):
        """Gives a block another size, and looks at what it kept."""
        first, second = self.word_size(), self.rng.choice([4, 8, 16, 17, 31, 32, 64, 100, 200])
        self.allocate(first, "s6")
        self.fill("s6", first, 7)
        self.realloc("s6", second, "s7")
        self.perhaps_tell("s7", 0.05)
        self.add("li t0, 7", "lw t1, %d(s7)" % (4 * self.rng.randrange(min(first, second) // 4)))
        self.fail_unless("t0", "t1", 12)
        self.free("s7")

    def resize_to_nothing(self):
        self.allocate(self.size(), "s6")
        self.realloc("s6", 0, "s6")
        self.realloc("s6", self.size(), "s6")
        self.free("s6")

    def resize_slot(self):
        """Gives the block of a slot another size, or makes one."""
        self.add("la s8, slots", "addi s8, s8, %d" % (4 * self.rng.randrange(SLOTS)), "lw s6, 0(s8)")
        self.realloc("s6", self.word_size(), "s6")
        self.mark("s6")
        self.add("sw s6, 0(s8)")

    def resize_pages(self):
        """Moves a block of some pages, of which each has a byte."""
        again, pages, others = self.label(), self.rng.choice([1, 3, 9]), self.rng.choice([1, 2, 5, 20])
        self.malloc(4096 * pages, "s6")
        self.add("mv t0, s6", "li t1, %d" % pages, "li t2, 4096")
        self.add(again + ":", "sb s3, 5(t0)", "add t0, t0, t2", "addi t1, t1, -1", "bnez t1, %s" % again)
        self.realloc("s6", 4096 * others, "s7")
        self.add("lbu t0, 5(s7)", "andi t1, s3, 255")
        self.fail_unless("t0", "t1", 12)
        self.free("s7")

    def append(self):
        """Adds the item's first byte to a block that grows, and sends the last ones of it."""
        self.add("la s8, grown", "lw s6, 0(s8)", "lw s7, 4(s8)", "addi s7, s7, 1", "mv a0, s6", "mv a1, s7")
        self.call(8)
        self.add("sw a0, 0(s8)", "sw s7, 4(s8)", "add s6, a0, s7", "addi s6, s6, -1", "sb s4, 0(s6)")
        self.send(self.connection(), "s6", 1)

    def stack(self):
        self.add("sw s3, -8(sp)", "lw t0, -8(sp)", "mul s5, s5, t0", "addi s5, s5, 7")

    def lag(self):
        """Sends a byte, where blocks stand as under Plain; else the byte is owed and sent at a later item."""
        done, again = self.label(), self.label()
        self.malloc(16, "s6")
        self.free("s6")
        self.malloc(16, "s7")
        self.malloc(16, "s9")
        self.free("s7")
        self.free("s9")
        self.add("sub t0, s6, s7", "addi t1, s9, -16", "sub t1, t1, s7", "or t1, t1, t0")
        self.add("la s8, lagging", "lw t0, 0(s8)", "addi t0, t0, 1", "sw t0, 0(s8)", "beqz t1, %s" % again)
        self.add("andi t0, s3, %d" % self.rng.choice([1, 1, 3]), "bnez t0, %s" % done, again + ":")
        self.add("lw t0, 0(s8)", "beqz t0, %s" % done, "addi t0, t0, -1", "sw t0, 0(s8)")
        self.send(0, "s8", 1)
        self.add("j %s" % again, done + ":")

    # -- faults that an environment may repair

    def overrun(self, twice=False):
        size = self.size()
        behind = max(16, (size + 15) // 16 * 16) + self.rng.choice([4, 4, 16, 60, 200, 252, 300, 500, 520])
        self.allocate(size, "s6")
        self.allocate(16, "s7")
        self.mark("s7")
        self.perhaps_tell("s6")
        self.fill("s6", behind, 0x41414141)
        self.holds_mark("s7", 1)
        self.free("s7")
        self.free("s6")
        if twice:
            self.free("s6")

    def overrun_and_twice(self):
        self.overrun(True)

    def unset(self):
        size = self.word_size()
        self.malloc(size, "s6")
        self.fill("s6", size, 1)
        self.free("s6")
        self.malloc(size, "s6")
        self.perhaps_tell("s6", 0.3)
        self.add("lw t0, %d(s6)" % (4 * self.rng.randrange(size // 4)))
        self.fail_unless("t0", "zero", 2)
        self.free("s6")

    def unset_of_the_past(self):
        """As `unset`, where the block was used at an earlier item."""
        size = self.word_size()
        self.malloc(size, "s6")
        self.add("lw t0, %d(s6)" % (4 * self.rng.randrange(1, size // 4)))
        self.fail_unless("t0", "zero", 2)
        self.fill("s6", size, 3)
        self.free("s6")

    def twice(self):
        self.malloc(self.size(), "s6")
        self.perhaps_tell("s6")
        self.free("s6")
        self.free("s6")

    def stale(self):
        size = self.word_size()
        self.malloc(size, "s6")
        self.mark("s6")
        self.free("s6")
        self.malloc(size, "s7")
        self.perhaps_tell("s7")
        self.fill("s7", size, 2)
        self.holds_mark("s6", 3)
        self.free("s7")

    def stale_grow(self):
        """Uses a block where it stood before it got another size."""
        size = self.word_size()
        self.allocate(size, "s6")
        self.mark("s6")
        self.realloc("s6", self.rng.choice([size, size // 2, 2 * size, 300]), "s8")
        self.allocate(size, "s7")
        self.perhaps_tell(self.rng.choice(["s7", "s8"]))
        self.fill("s7", size, 2)
        self.holds_mark("s6", 14)
        self.free("s7")
        self.free("s8")

    def free_grown(self):
        """Frees a block where it stood before it got another size."""
        self.allocate(self.size(), "s6")
        self.realloc("s6", self.size(), "s7")
        self.perhaps_tell("s7")
        self.free("s6")
        self.free("s7")

    def grow_twice(self):
        """Gives a block another size where it doesn't stand any more: nothing helps where it did so."""
        other, done = self.label(), self.label()
        self.allocate(16, "s6")
        self.free("s6")
        self.add("la t0, kept", "lw t1, 0(t0)")
        if self.rng.random() < 0.7:
            self.add("bne s6, t1, %s" % other)
        self.realloc("s6", 32, "s6")
        self.add("j %s" % done, other + ":")
        self.malloc(32, "s6")
        self.add(done + ":")
        self.free("s6")

    def unset_rest(self):
        """Takes it that what is new in a larger block is 0."""
        self.allocate(16, "s6")
        self.malloc(96, "s7")
        self.fill("s7", 96, 9)
        self.free("s7")
        self.realloc("s6", 96, "s6")
        self.perhaps_tell("s6", 0.3)
        self.add("lw t0, %d(s6)" % (16 + 4 * self.rng.randrange(20)))
        self.fail_unless("t0", "zero", 15)
        self.free("s6")

    def overrun_shrunk(self):
        """Writes as many bytes as a block had before it was made smaller."""
        self.allocate(self.rng.choice([100, 300]), "s6")
        self.realloc("s6", 16, "s6")
        self.allocate(16, "s7")
        self.mark("s7")
        self.fill("s6", self.rng.choice([20, 32, 100, 300]), 6)
        self.holds_mark("s7", 16)
        self.free("s7")
        self.free("s6")

    def write_at_old_place(self):
        """Writes by the address of a large block that was freed at the start."""
        self.malloc(self.word_size(), "s6")
        self.mark("s6")
        self.add("la t0, kept", "lw s7, 0(t0)")
        self.fill("s7", self.rng.choice([16, 400, 600, 600]), 5)
        self.holds_mark("s6", 4)
        self.free("s6")

    def free_slot(self):
        """Frees the block of a slot and leaves its address there."""
        self.add("la t0, slots", "lw s6, %d(t0)" % (4 * self.rng.randrange(SLOTS)))
        self.free("s6")

    def test_slot(self):
        """Tests what stands at a slot's address, where there is one."""
        none = self.label()
        self.add("la t0, slots", "lw s6, %d(t0)" % (4 * self.rng.randrange(SLOTS)), "beqz s6, %s" % none)
        self.holds_mark("s6", 6)
        self.add(none + ":")

    def same_place(self):
        """Goes wrong where a block gets the address that malloc answered at the start."""
        other, done = self.label(), self.label()
        self.allocate(600, "s6")
        self.add("la t0, kept", "lw t1, 0(t0)", "bne s6, t1, %s" % other)
        if self.rng.random() < 0.7:
            self.send(self.connection(), "t0", 2)
        self.free("s6")
        self.free("s6")
        self.add("j %s" % done, other + ":")
        end = self.rng.random()
        if end < 0.3:
            self.send(self.connection(), "t0", 1)
        elif end < 0.5:
            self.add("li a0, %d" % self.rng.choice([0, 3]))
            self.call(5)
        self.free("s6")
        self.add(done + ":")

    # -- faults that a guard alone may see

    def touch(self, register, offset):
        """Loads, stores, sends or receives some bytes at an offset of a register."""
        kind = self.rng.random()
        if kind < 0.4:
            self.add("%s t0, %d(%s)" % (self.rng.choice(["lb", "lbu", "lh", "lhu", "lw", "lw"]), offset, register), "add s5, s5, t0")
        elif kind < 0.75:
            self.add("%s s3, %d(%s)" % (self.rng.choice(["sb", "sh", "sw", "sw"]), offset, register))
        elif kind < 0.9:
            self.add("addi s7, %s, %d" % (register, offset))
            self.send(self.connection(), "s7", self.rng.choice([0, 1, 4, 8, 300]))
        else:
            self.add("addi a0, %s, %d" % (register, offset), "li a1, %d" % self.rng.choice([0, 1, 4, 8, 300]))
            self.call(1)

    def edge(self):
        """Touches bytes at an edge of a block, of the bytes that it has, or of its padding; it may be freed before."""
        size, freed = self.size(), self.rng.random() < 0.3
        self.allocate(size, "s6")
        if freed:
            self.free("s6")
        edges = [0, 0, size, reserved(size), reserved(size), -PADDING, reserved(size) + PADDING]
        self.touch("s6", self.rng.choice(edges) + self.rng.choice([-5, -4, -3, -2, -1, 0, 1, 4]))
        if not freed:
            self.free("s6")

    def seam(self):
        """Touches bytes at the end of the data, behind which the heap begins."""
        self.add("la s6, seam")
        self.touch("s6", self.rng.choice([0, 1, 2, 3, 4]))

    # -- faults that show at a later item

    def spoil(self, kind):
        """Spoils a block, and keeps where it is."""
        size = self.word_size()
        self.malloc(size, "s6")
        if kind == "overrun":
            self.malloc(16, "s7")
            self.mark("s7")
            self.fill("s6", size + 16, 0x41414141)
        elif kind == "stale":
            self.mark("s6")
            if self.rng.random() < 0.5:
                self.free("s6")
            else:
                self.realloc("s6", 2 * size, "s7")
            self.allocate(size, "s8")
            self.fill("s8", size, 2)
            self.add("mv s7, s6")
        else:
            self.fill("s6", size, 3)
            self.free("s6")
            self.malloc(size, "s7")
        self.perhaps_tell("s7")
        self.add("la t0, far", "sw s7, 0(t0)")

    def see(self, kind):
        """Looks at the block."""
        none = self.label()
        self.add("la t0, far", "lw s6, 0(t0)", "beqz s6, %s" % none)
        if kind == "unset":
            self.add("lw t0, 12(s6)")
            self.fail_unless("t0", "zero", 8)
        else:
            self.holds_mark("s6", 7)
        self.add(none + ":")

    def spoil_and_see(self, kind, item):
        """Spoils a block at an item, where the start wasn't meant, and looks at it some items later."""
        for work, at in ((self.spoil, item), (self.see, (item or 0) + self.rng.randrange(1, 6))):
            if at is not None:
                done = self.label()
                self.add("li t0, %d" % at, "bne s3, t0, %s" % done)
                work(kind)
                self.add(done + ":")

    # -- faults that nothing repairs, and ends

    def hopeless(self):
        kind = self.rng.randrange(10)
        if kind == 0:
            self.add("lw t0, 0(zero)")
        elif kind == 1:
            self.add("la t0, told", "jalr ra, 2(t0)")
        elif kind == 2:
            self.add(".word 0")
        elif kind == 3:
            self.call(self.rng.choice([0, 9, 77]))
        elif kind == 4:
            self.add("ebreak")
        elif kind == 5:
            self.add("li a0, 0x12340")
            self.call(self.rng.choice([4, 8]))
        elif kind == 6:
            here = self.label()
            self.add(here + ":", "j %s" % here)
        elif kind == 7:
            self.add("addi t0, sp, -2", "sw s3, 0(t0)")
        elif kind == 8:
            self.add("li a0, 9")
            self.call(6)
        else:
            self.send("s1", "zero", 3)

    def leave(self):
        self.add("li a0, %d" % self.rng.choice([0, 1, 255]))
        self.call(5)

    # -- the whole

    RIGHT = ["echo", "echo", "reply_sum", "two_sends", "use_block", "keep_block", "give_up_block", "touch_pages", "ask_too_much", "stack",
             "grow_too_much", "use_zeros", "resize", "resize_to_nothing", "resize_slot", "resize_pages", "append"]
    FAULTS = ["overrun", "overrun", "overrun_and_twice", "overrun_and_twice", "unset", "unset", "unset_of_the_past", "twice", "stale",
              "write_at_old_place", "write_at_old_place", "same_place", "same_place", "free_slot", "test_slot",
              "stale_grow", "stale_grow", "free_grown", "free_grown", "grow_twice", "unset_rest", "unset_rest", "overrun_shrunk",
              "edge", "edge", "edge", "seam"]

    def sometimes(self, work):
        """Does a piece of work for some items alone."""
        done, do, kind = self.label(), self.label(), self.rng.random()
        if kind < 0.55:
            self.add("andi t0, s4, %d" % self.rng.choice([1, 3, 3, 7]), "li t1, %d" % self.rng.randrange(4))
        elif kind < 0.85:
            self.add("mv t0, s3", "li t1, %d" % self.rng.randrange(1, 12))
        else:
            self.add("mv t0, s2", "li t1, %d" % self.rng.choice([1, 3]))
        self.add("beq t0, t1, %s" % do, "j %s" % done, do + ":")
        getattr(self, work)()
        self.add(done + ":")

    def begin(self):
        rng = self.rng
        self.malloc(600, "s6")
        self.add("la t0, kept", "sw s6, 0(t0)")
        if rng.random() < 0.85:
            self.free("s6")
        for _ in range(rng.choice([0, 0, 1])):
            getattr(self, rng.choice(["use_block", "keep_block", "two_sends", "resize"]))()
        if rng.random() < 0.02 and not self.sound:
            getattr(self, rng.choice(["unset", "twice", "overrun", "stale", "stale_grow"]))()
        if self.later and self.spoiled is None:
            self.spoil(self.later)

    def receive(self):
        rng = self.rng
        self.add("receive:", "la a0, buffer", "li a1, %d" % rng.choice([0, 1, 8, BUFFER, BUFFER]))
        self.call(1)
        self.add("mv s0, a0", "mv s1, a1", "mv s2, a2", "addi s3, s3, 1", "la t0, buffer", "lbu s4, 0(t0)", "add s5, s5, s4")
        if rng.random() < 0.5:
            self.add("li t0, 2", "bne a2, t0, receive")

    def text(self):
        rng = self.rng
        self.begin()
        self.receive()
        works = rng.choices(self.RIGHT, k=rng.randrange(1, 4))
        works += rng.choices(["use_block", "keep_block"] if self.sound else self.FAULTS, k=rng.choice([0, 1, 1, 2, 2]))
        if self.later and rng.random() < 0.5:
            works = ["lag"] * rng.choice([1, 2]) + rng.choices(["use_block", "stack"], k=1)
        rng.shuffle(works)
        for work in works:
            if work in self.FAULTS or rng.random() < 0.4:
                self.sometimes(work)
            else:
                getattr(self, work)()
        if self.later:
            self.spoil_and_see(self.later, self.spoiled)
        if rng.random() < 0.08:
            self.sometimes("hopeless")
        if rng.random() < 0.05:
            self.sometimes("leave")
        self.add("j receive", ".data", "buffer:", ".space %d" % BUFFER, "slots:", ".space %d" % (4 * SLOTS))
        self.add("kept:", ".space 4", "told:", ".space 4", "far:", ".space 4", "lagging:", ".space 4", "grown:", ".space 8")
        self.add(".space %d" % (PAGE - BUFFER - 4 * SLOTS - 28), "seam:", ".space 4")  # the data ends with its page
        return "\n".join(self.lines) + "\n"


def some_server(rng, sound=False):
    """Segments and entry of a server."""
    return assemble(Author(rng, sound).text())
