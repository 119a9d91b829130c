"""Programs of random instructions for the suite, in assembly. A number makes the same program each time."""

import random

OPERATIONS = "add sub sll slt sltu xor srl sra or and mul mulh mulhsu mulhu div divu rem remu".split()
IMMEDIATE = "addi slti sltiu xori ori andi".split()
SHIFTS = "slli srli srai".split()
BRANCHES = "beq bne blt bge bltu bgeu".split()
LOADS = "lb lh lw lbu lhu".split()
STORES = "sb sh sw".split()

EDGES = [0, 1, 2, 3, 0x7FF, 0x800, 0x7FFFFFFF, 0x80000000, 0x80000001, 0xFFFFFFFE, 0xFFFFFFFF]

INSTRUCTIONS = 500


class Program:
    def __init__(self, number):
        self.draw = random.Random(number)
        self.lines = []
        self.labels = 0
        # Three registers that the instructions leave alone: the next result's address, the middle of 4096 bytes, and a
        # jump's target. The rest are free.
        self.out, self.base, self.link = self.draw.sample(range(1, 32), 3)
        self.free = [r for r in range(32) if r not in (self.out, self.base, self.link)]

    def say(self, text, *words):
        self.lines.append("    " + text.format(*words))

    def put(self, register):
        self.say("sw x{}, 0(x{})", register, self.out)
        self.say("addi x{0}, x{0}, 4", self.out)

    def source(self):
        return self.draw.choice(self.free)

    def target(self):
        return self.draw.choice(self.free)

    def offset(self):
        return self.draw.randint(-2048, 2044)

    def label(self):
        self.labels += 1
        return ".Lnext%d" % self.labels

    def skipped(self, label):
        """One to four instructions that a branch or jump may pass over."""
        for _ in range(self.draw.randint(1, 4)):
            self.plain()
        self.lines.append(label + ":")

    def plain(self):
        """An instruction that goes on behind itself."""
        kind = self.draw.choices(range(6), [8, 6, 2, 1, 4, 3])[0]
        if kind == 0:
            operation = self.draw.choice(OPERATIONS)
            self.say("{} x{}, x{}, x{}", operation, self.target(), self.source(), self.source())
        elif kind == 1:
            operation = self.draw.choice(IMMEDIATE)
            self.say("{} x{}, x{}, {}", operation, self.target(), self.source(), self.draw.randint(-2048, 2047))
        elif kind == 2:
            operation = self.draw.choice(SHIFTS)
            self.say("{} x{}, x{}, {}", operation, self.target(), self.source(), self.draw.randint(0, 31))
        elif kind == 3:
            operation = self.draw.choice(["lui", "auipc"])
            self.say("{} x{}, {}", operation, self.target(), self.draw.getrandbits(20))
        elif kind == 4:
            self.say("{} x{}, {}(x{})", self.draw.choice(LOADS), self.target(), self.offset(), self.base)
        else:
            self.say("{} x{}, {}(x{})", self.draw.choice(STORES), self.source(), self.offset(), self.base)

    def jump(self):
        """A branch or jump forwards."""
        label = self.label()
        kind = self.draw.randint(0, 5)
        if kind == 0:
            self.say("jal x{}, {}", self.target(), label)
        elif kind == 1:
            by = self.draw.randint(-2048, 2047)
            self.say("la x{}, {} + {} - ({})", self.link, label, self.draw.randint(0, 1), by)
            self.say("jalr x{}, {}(x{})", self.target(), by, self.link)
        else:
            self.say("{} x{}, x{}, {}", self.draw.choice(BRANCHES), self.source(), self.source(), label)
        self.skipped(label)

    def text(self):
        self.lines += ["    .option norelax", "    .option norvc", "    .text", "    .globl program", "program:"]
        self.say("la t0, return_address")
        self.say("sw ra, 0(t0)")
        if self.out != 10:
            self.say("mv x{}, a0", self.out)
        self.say("la x{}, middle", self.base)
        for register in self.free:
            number = self.draw.choice([self.draw.choice(EDGES), self.draw.getrandbits(32)])
            self.say("li x{}, {:#x}", register, number)
        for k in range(INSTRUCTIONS):
            self.jump() if self.draw.random() < 0.15 else self.plain()
            if k % 8 == 7:
                self.put(self.source())
        for register in self.free:
            self.put(register)
        self.sum_memory()
        return "\n".join(self.lines) + "\n"

    def sum_memory(self):
        """A number of all the memory that the instructions may touch, and the return."""
        at, end, value, total = [r for r in self.free if r != 0][:4]
        self.say("la x{}, middle - 2048", at)
        self.say("la x{}, middle + 2048", end)
        self.say("li x{}, 0", total)
        self.lines.append("1:")
        self.say("lw x{}, 0(x{})", value, at)
        self.say("add x{0}, x{0}, x{1}", value, total)
        self.say("slli x{0}, x{0}, 1", total)
        self.say("add x{0}, x{0}, x{1}", total, value)
        self.say("addi x{0}, x{0}, 4", at)
        self.say("bne x{}, x{}, 1b", at, end)
        self.put(total)
        if self.out != 10:
            self.say("mv a0, x{}", self.out)
        self.say("la t0, return_address")
        self.say("lw ra, 0(t0)")
        self.say("ret")
        self.lines += ["    .bss", "    .balign 4", "return_address: .space 4"]
        self.lines += ["    .space 2048", "middle: .space 2052"]


def random_program(number):
    return Program(number).text()
