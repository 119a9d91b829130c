"""Programs of pseudo-random words.

Arithmetic, loads, stores, jumps and calls, with addresses at the edges of segments, heap and stack, and now and then a word that is
no instruction, a call that isn't there, or a loop without an end. They send their registers, so a wrong value shows in a reply.
"""

from second.assembler import b_type, i_type, j_type, load_number, r_type, s_type
from second.instructions import ECALL, MASK, READ, WRITE
from second.machine import MIB, PAGE

WORKING = list(range(5, 10)) + list(range(18, 32))  # registers that calls don't use


class Writer:
    """Writes a pseudo-random program."""

    def __init__(self, rng, edges):
        self.rng, self.edges, self.words = rng, edges, []

    def register(self):
        return self.rng.choice(WORKING)

    def arithmetic(self):
        rng = self.rng
        if rng.random() < 0.2:
            self.words += load_number(self.register(), rng.choice([0, 1, MASK, 0x80000000, 0x7FFFFFFF, rng.randrange(1 << 32)]))
        elif rng.random() < 0.5:
            funct7, funct3 = rng.choice([(0, rng.randrange(8)), (1, rng.randrange(8)), (0x20, 0), (0x20, 5)])
            self.words.append(r_type(funct7, self.register(), self.register(), funct3, self.register()))
        else:
            funct3 = rng.randrange(8)
            imm = rng.choice([0, 1, -1, 2047, -2048, rng.randrange(-2048, 2048)])
            if funct3 in (1, 5):
                imm = rng.randrange(32) | (rng.choice([0, 0x400]) if funct3 == 5 else 0)
            self.words.append(i_type(imm, self.register(), funct3, self.register()))

    def address(self, safe):
        """An address of the stack, or one at the edge of an area."""
        if safe:
            return self.edges[0] - 64 + 4 * self.rng.randrange(8)
        return self.rng.choice(self.edges) + self.rng.choice([-5, -4, -3, -2, -1, 0, 1, 2, 4])

    def access(self, safe):
        rng, base = self.rng, 8
        imm = rng.choice([0, 0, 4, -4, 2047, -2048])
        self.words += load_number(base, self.address(safe) - imm & MASK)
        if rng.random() < 0.5:
            self.words.append(i_type(imm, base, rng.choice([0, 1, 2, 4, 5]), rng.choice([0, self.register()]), 0x03))
        else:
            self.words.append(s_type(imm, self.register(), base, rng.choice([0, 1, 2])))

    def jump(self, safe):
        rng = self.rng
        far = rng.choice([4, 8, 12]) if safe else rng.choice([2, 6, -2, 4094, -4096])
        if rng.random() < 0.6:
            self.words.append(b_type(far, self.register(), self.register(), rng.choice([0, 1, 4, 5, 6, 7])))
        elif rng.random() < 0.6:
            self.words.append(j_type(far, rng.choice([0, 1, self.register()])))
        else:
            rd = self.register()
            self.words += [rd << 7 | 0x17, i_type(8 + far - 4 + rng.choice([0, 1]), rd, 0, rng.choice([0, 1, rd]), 0x67)]
        self.words += [i_type(0, 0, 0, 0)] * 3

    def receive(self, safe):
        self.words += load_number(10, self.edges[0] - 8192 if safe else self.address(False))
        self.words += load_number(11, self.rng.choice([0, 1, 5, 64, 4096] if safe else [1, 4, 65536, 65537, MASK]))
        self.words += [i_type(1, 0, 0, 17), ECALL]

    def reply(self, safe):
        """Sends the registers that it works with, by way of the stack."""
        for i, register in enumerate(WORKING):
            self.words.append(s_type(4 * i - 1024, register, 2, 2))
        length = 4 * len(WORKING) if safe else self.rng.choice([0, 1, 65535, 65536, MASK])
        self.words += load_number(11, self.edges[0] - 1024 if safe else self.address(False)) + load_number(12, length)
        self.words += [i_type(0 if safe else self.rng.choice([0, 0, 1, 4095]), 0, 0, 10), i_type(2, 0, 0, 17), ECALL]
        self.words.append(r_type(0, 10, self.register(), 4, self.register()))

    def oddity(self):
        rng = self.rng
        kind = rng.randrange(5)
        if kind == 0:
            self.words.append(rng.choice([0, MASK, 0x00100073, 0x00200073, 0x30200073, 0x0000100F, rng.randrange(1 << 32)]))
        elif kind == 1:
            self.words += [i_type(rng.choice([0, 3, 4, 6, 7, 8, 9, 2047]), 0, 0, 17), ECALL]
        elif kind == 2:
            self.words += load_number(10, rng.choice([0, 1, MASK])) + [i_type(5, 0, 0, 17), ECALL]
        elif kind == 3:
            self.words.append(rng.choice([0x0FF0000F, 0x8330000F]))
        elif rng.random() < 0.1:
            self.words.append(j_type(0, 0))

    def program(self):
        rng = self.rng
        self.receive(True)
        for _ in range(rng.randrange(10, 120)):
            kind, safe = rng.random(), rng.random() < 0.96
            if kind < 0.5:
                self.arithmetic()
            elif kind < 0.7:
                self.access(safe)
            elif kind < 0.8:
                self.jump(safe)
            elif kind < 0.87:
                self.receive(safe)
            elif kind < 0.97:
                self.reply(safe)
            elif rng.random() < 0.3:
                self.oddity()
        self.reply(True)
        self.receive(True)
        if rng.random() < 0.5:
            self.words.append(j_type(-4 * len(self.words) & 0x1FFFFF, 0))
        return b"".join(word.to_bytes(4, "little") for word in self.words)


def some_program(rng, writer=Writer, window=4 * MIB):
    """Segments and entry of a program: text, and data that touches it or lies on a page of its own."""
    vaddr = rng.choice([0x10000, 0x10000, 0x10004, 0x20000000])
    data = bytes(rng.randrange(256) for _ in range(rng.choice([1, 6, 100])))
    touching, flags = rng.random() < 0.5, rng.choice([READ, READ | WRITE, WRITE])
    top = vaddr // PAGE * PAGE + window
    for guess in (0, 1):
        state = rng.getstate()
        behind = vaddr + (len(text) if guess else 4096)
        start = behind if touching else behind // PAGE * PAGE + PAGE
        heap = (start + len(data) + PAGE - 1) // PAGE * PAGE
        edges = [top, vaddr, behind, start, start + len(data), heap, top - 69632, top - 65536, 0, 1 << 32]
        text = writer(rng, edges).program()
        if not guess:
            rng.setstate(state)
    start = vaddr + len(text) if touching else (vaddr + len(text)) // PAGE * PAGE + PAGE
    return [(vaddr, text, rng.choice([5, 5, 1, 7])), (start, data, flags)], vaddr
