#!/usr/bin/env python3
"""Whether `rx asm` gives the words and bytes that GNU as and ld give.

Programs of every statement of the language are generated: with operands at the edges of their ranges and pseudo-random
ones, labels forwards and backwards, and the spellings that the language allows for numbers, registers and blanks. Each
program is written twice. GNU's form has plain numbers, and what the two define otherwise is written out in it: `li` and
`la` as lui and addi, `call` as jal x1 (RISC-V ELF psABI, "Relocations": %hi and %lo are for absolute addresses). Text is
linked to 0x10000 and data to the next page, without relaxation.

Wants GNU binutils for RISC-V: as, ld and objcopy with the prefix riscv64-unknown-elf-, as Debian's package
binutils-riscv64-unknown-elf has them.

usage: compare_assembler.py [RX [SEED]]
RX is the built rx, crates/rx/out/rx unless it is given.
"""

import os
import random
import struct
import subprocess
import sys
import tempfile

HERE = os.path.dirname(os.path.abspath(__file__))

GNU = "riscv64-unknown-elf-"
TEXT_START = 0x10000
PAGE = 4096

OP = "add sub sll slt sltu xor srl sra or and mul mulh mulhsu mulhu div divu rem remu".split()
OP_IMM = "addi slti sltiu xori ori andi".split()
SHIFT = "slli srli srai".split()
LOAD = "lb lh lw lbu lhu jalr".split()
STORE = "sb sh sw".split()
BRANCH = "beq bne blt bge bltu bgeu".split()
BRANCH_ZERO = "beqz bnez".split()
PLAIN = "ecall ebreak fence nop ret".split()

REGISTERS = ["x%d" % n for n in range(32)] + (
    "zero ra sp gp tp t0 t1 t2 s0 fp s1 a0 a1 a2 a3 a4 a5 a6 a7 s2 s3 s4 s5 s6 s7 s8 s9 s10 s11 t3 t4 t5 t6".split()
)

IMMEDIATES = [-2048, -2047, -1025, -1, 0, 1, 1023, 1024, 2046, 2047]
UPPERS = [0, 1, 0x7FF, 0x800, 0x7FFFF, 0x80000, 0xFFFFE, 0xFFFFF]
WORDS = [
    0, 1, -1, 2047, 2048, 2049, 4095, 4096, 4097, 6143, 6144, -2047, -2048, -2049, -4095, -4096, -4097, 0x12345678,
    0x123457FF, 0x12345800, 0x12345FFF, 0x600DCAFE, 0x7FFFF7FF, 0x7FFFF800, 0x7FFFFFFF, -(2**31), -(2**31) + 1,
    0x80000000, 0x800007FF, 0x80000800, 0xDEADBEEF, 0xFFFFF000, 0xFFFFF7FF, 0xFFFFF800, 0xFFFFFFFE, 0xFFFFFFFF,
]  # fmt: skip
BYTES = [-128, -127, -1, 0, 1, 127, 128, 254, 255]
SPACES = [0, 1, 2, 3, 4, 5, 63, 64, 255, 1000, 4096, 4097, 65536]


class Statement:
    """A statement: its form in both languages, and the bytes that it gives."""

    def __init__(self, section, size, ours, theirs):
        self.section, self.size, self.ours, self.theirs = section, size, ours, theirs
        self.name = ours.split()[0]
        self.labels = []


class Program:
    """A list of statements, with the place of each in its section."""

    def __init__(self, rng):
        self.rng = rng
        self.statements = []
        self.section = "text"
        self.size = {"text": 0, "data": 0}
        self.waiting = []  # labels of the next statement
        self.count = 0  # labels so far

    # Pieces of text.

    def number(self, value):
        """A spelling of a number."""
        way = self.rng.randrange(6)
        if value >= 0 and way < 2:
            digits = "%x" % value if way == 0 else "%X" % value
            return "0x" + digits.zfill(self.rng.choice([1, 1, 4, 8]))
        if value == 0 and way == 2:
            return "-0"
        sign = "-" if value < 0 else ""
        return sign + "0" * (self.rng.randrange(3) if way == 3 else 0) + str(abs(value))

    def register(self):
        return self.rng.choice(REGISTERS)

    def blanks(self):
        return self.rng.choice(["", "", " ", "  ", "\t", " \t "])

    def operands(self, *words):
        text = ""
        for at, word in enumerate(words):
            text += word if at == 0 else self.blanks() + "," + self.rng.choice([" ", self.blanks()]) + word
        return text

    # Statements.

    def add(self, size, name, ours, theirs=None):
        """Appends a statement; `theirs` is the same for GNU as, where it has other operands or lines."""
        gap = self.rng.choice([" ", "\t", "  "]) if ours else ""
        if theirs is None:
            theirs = [name + " " + ours]
        statement = Statement(self.section, size, name + gap + ours, theirs)
        statement.labels, self.waiting = self.waiting, []
        self.statements.append(statement)
        self.size[self.section] += size

    def into(self, section):
        self.section = section
        self.add(0, "." + section, "")

    def label(self):
        """A new label for the next statement."""
        name = self.rng.choice(["place_%d", "_%d", "Q%dz", "at_%d_", "L%d"]) % self.count
        self.count += 1
        self.waiting.append(name)
        return name

    def op(self, name):
        self.add(4, name, self.operands(self.register(), self.register(), self.register()))

    def immediate(self, name, value):
        rd, rs1 = self.register(), self.register()
        self.add(4, name, self.operands(rd, rs1, self.number(value)), ["%s %s, %s, %d" % (name, rd, rs1, value)])

    def indexed(self, name, value):
        reg, base = self.register(), self.register()
        ours = self.operands(reg, "%s(%s)" % (self.number(value), base))
        self.add(4, name, ours, ["%s %s, %d(%s)" % (name, reg, value, base)])

    def branch(self, name, label):
        self.add(4, name, self.operands(self.register(), self.register(), label))

    def branch_zero(self, name, label):
        self.add(4, name, self.operands(self.register(), label))

    def jal(self, label):
        self.add(4, "jal", self.operands(self.register(), label))

    def jump(self, label):
        self.add(4, "j", label)

    def call(self, label):
        self.add(4, "call", label, ["jal x1, " + label])

    def upper(self, name, value):
        rd = self.register()
        self.add(4, name, self.operands(rd, self.number(value)), ["%s %s, %d" % (name, rd, value)])

    def move(self):
        self.add(4, "mv", self.operands(self.register(), self.register()))

    def plain(self, name):
        self.add(4, name, "")

    def load_number(self, value):
        rd = self.register()
        low = (value & 0xFFF) - (4096 if value & 0x800 else 0)
        high = (value - low) // 4096 % 2**20
        theirs = ["lui %s, %d" % (rd, high), "addi %s, %s, %d" % (rd, rd, low)]
        self.add(8, "li", self.operands(rd, self.number(value)), theirs)

    def load_address(self, label):
        rd = self.register()
        theirs = ["lui %s, %%hi(%s)" % (rd, label), "addi %s, %s, %%lo(%s)" % (rd, rd, label)]
        self.add(8, "la", self.operands(rd, label), theirs)

    def word(self, value):
        self.add(4, ".word", self.number(value), [".word %d" % value])

    def word_label(self, label):
        self.add(4, ".word", label)

    def byte(self, value):
        self.add(1, ".byte", self.number(value), [".byte %d" % value])

    def space(self, count):
        self.add(count, ".space", self.number(count), [".space %d" % count])

    def ascii(self, text):
        self.add(len(text), ".ascii", '"%s"' % text.replace("\n", "\\n"))

    # The whole.

    def sources(self):
        """The text in our language and in GNU's."""
        ours, theirs = "", ".option norelax\n"
        for statement in self.statements:
            for name in statement.labels:
                theirs += name + ":\n"
                ours += self.blanks() + name + ":" + self.rng.choice(["\n", " ", "\t", "", "  # a label\n", "\n\n"])
                if name != statement.labels[-1] and not ours.endswith("\n"):
                    ours += "\n"
            ours += self.blanks() + statement.ours
            ours += self.rng.choice(["", "", "", " ", "\t# why: \"it\" `is` so", "#"]) + "\n"
            theirs += "\n".join(statement.theirs) + "\n"
        if self.rng.randrange(2):
            ours = ours[:-1]
        return ours, theirs


def characters(rng, count):
    allowed = [chr(c) for c in range(0x20, 0x7F) if chr(c) not in '"\\'] + ["\n"]
    return "".join(rng.choice(allowed) for _ in range(count))


def every_form(rng):
    """Each statement with operands at the edges."""
    p = Program(rng)
    start = p.label()
    for name in OP:
        p.op(name)
    for register in REGISTERS:
        p.add(4, "add", p.operands(register, register, register))
        p.add(4, "sw", p.operands(register, "0(%s)" % register))
    for name in OP_IMM:
        for value in IMMEDIATES:
            p.immediate(name, value)
    for name in SHIFT:
        for value in (0, 1, 15, 16, 30, 31):
            p.immediate(name, value)
    for name in LOAD + STORE:
        for value in IMMEDIATES:
            p.indexed(name, value)
    for name in ("lui", "auipc"):
        for value in UPPERS:
            p.upper(name, value)
    for name in PLAIN:
        p.plain(name)
    p.move()
    for value in WORDS:
        p.load_number(value)
        p.word(value)
    middle = p.label()
    p.word_label(start)
    p.into("data")
    first = p.label()
    for value in BYTES:
        p.byte(value)
    for value in WORDS:
        p.word(value)
    for count in SPACES:
        p.space(count)
    inner = p.label()
    p.ascii("".join(chr(c) for c in range(0x20, 0x7F) if chr(c) not in '"\\') + "\n")
    p.ascii("")
    p.ascii("# no comment\n\n, (x0): .word")
    for name in (start, middle, first, inner):
        p.word_label(name)
    last = p.label()
    p.into("text")
    for name in (start, middle, first, inner, last):
        p.load_address(name)
        p.word_label(name)
    for name in BRANCH:
        p.branch(name, p.waiting[-1] if p.waiting else p.label())  # to itself
    behind = "behind"
    p.jal(behind)
    p.jump(behind)
    p.call(behind)
    for name in BRANCH_ZERO:
        p.branch_zero(name, behind)
    p.waiting.append(behind)
    p.jal(start)
    p.jump(start)
    p.call(middle)
    p.jal(behind)
    return p


def far_labels(rng):
    """Branches to the last places that they reach, and long jumps."""
    p = Program(rng)
    front = p.label()
    names = BRANCH + BRANCH_ZERO
    near = ["forward_%d" % at for at in range(len(names))]
    for name, label in zip(names, near):  # 4092 bytes forwards
        (p.branch if name in BRANCH else p.branch_zero)(name, label)
    for _ in range(1023 - len(names)):
        p.word(rng.choice(WORDS))
    for label in near:
        p.waiting.append(label)
        p.plain("nop")
    back = []
    for _ in names:  # 4096 bytes backwards
        back.append(p.label())
        p.plain("nop")
    for _ in range(1024 - len(names)):
        p.word(rng.choice(WORDS))
    for name, label in zip(names, back):
        (p.branch if name in BRANCH else p.branch_zero)(name, label)
    p.jal("far")
    p.call("far")
    for _ in range(6000):
        p.word(rng.randrange(2**32))
    p.waiting.append("far")
    p.jump(front)
    p.jal(front)
    p.jal(back[3])
    return p


def whole_page(rng):
    """Text that ends at the end of a page, and data from there on."""
    p = Program(rng)
    p.load_address("data_start")
    p.load_address("data_end")
    while p.size["text"] < PAGE:
        p.immediate(rng.choice(OP_IMM), rng.randrange(-2048, 2048))
    p.into("data")
    p.waiting.append("data_start")
    p.word_label("data_end")
    p.ascii("odd")
    p.waiting.append("data_end")
    p.byte(255)
    return p


def random_number(rng, low, high):
    """A number of any size in a range."""
    value = rng.randrange(low, high)
    return value >> rng.randrange(value.bit_length() + 1) if rng.randrange(2) else value


def add_random(p, rng, reach, anywhere):
    """A statement of a random form; `reach` are labels that a branch reaches."""
    if p.section == "data":
        way = rng.randrange(5)
        if way == 0:
            p.word(random_number(rng, -(2**31), 2**32))
        elif way == 1:
            p.word_label(rng.choice(anywhere))
        elif way == 2:
            p.byte(rng.randrange(-128, 256))
        elif way == 3:
            p.space(rng.randrange(40))
        else:
            p.ascii(characters(rng, rng.randrange(30)))
        return
    forms = [
        lambda: p.op(rng.choice(OP)),
        lambda: p.immediate(rng.choice(OP_IMM), random_number(rng, -2048, 2048)),
        lambda: p.immediate(rng.choice(SHIFT), rng.randrange(32)),
        lambda: p.indexed(rng.choice(LOAD + STORE), random_number(rng, -2048, 2048)),
        lambda: p.branch(rng.choice(BRANCH), rng.choice(reach)),
        lambda: p.branch_zero(rng.choice(BRANCH_ZERO), rng.choice(reach)),
        lambda: rng.choice([p.jal, p.jump, p.call])(rng.choice(reach)),
        lambda: p.upper(rng.choice(["lui", "auipc"]), random_number(rng, 0, 2**20)),
        lambda: p.move(),
        lambda: p.plain(rng.choice(PLAIN)),
        lambda: p.load_number(random_number(rng, -(2**31), 2**32)),
        lambda: p.load_address(rng.choice(anywhere)),
        lambda: p.word(random_number(rng, -(2**31), 2**32)),
        lambda: p.word_label(rng.choice(anywhere)),
    ]
    rng.choice(forms)()


def mixed(rng, count):
    """Random statements, with labels in both sections, and the sections in turns."""
    p = Program(rng)
    # Text has at most 8 bytes a statement, so each of its labels is in reach of each branch.
    in_text = ["t%d" % at for at in range(12)]
    in_data = ["d%d" % at for at in range(12)]
    assert count * 8 < 4092
    places = {at: [] for at in range(count)}
    for name in in_text + in_data:
        places[rng.randrange(count)].append(name)
    p.plain("nop")
    for at in range(count):
        if rng.randrange(12) == 0:
            p.into("data" if p.section == "text" else "text")
        for name in places[at]:
            wanted = "text" if name in in_text else "data"
            if p.section != wanted:
                p.into(wanted)
            p.waiting.append(name)
            add_random(p, rng, in_text, in_text + in_data)
        add_random(p, rng, in_text, in_text + in_data)
    return p


def run(words):
    done = subprocess.run(words, capture_output=True, text=True)
    if done.returncode != 0:
        sys.exit("%s: status %d\n%s%s" % (" ".join(words), done.returncode, done.stdout, done.stderr))


def sections_of_gnu(folder, source, text_size):
    """The bytes of text and of data by GNU as and ld."""
    names = [os.path.join(folder, "theirs." + end) for end in ("s", "o", "elf")]
    with open(names[0], "w") as file:
        file.write(source)
    run([GNU + "as", "-march=rv32im", "-mabi=ilp32", "-mno-relax", "-o", names[1], names[0]])
    data = (TEXT_START + text_size + PAGE - 1) // PAGE * PAGE
    places = ["-Ttext=0x%x" % TEXT_START, "-Tdata=0x%x" % data, "-e", "0x%x" % TEXT_START]
    run([GNU + "ld", "-m", "elf32lriscv", "--no-relax", *places, "-o", names[2], names[1]])
    sections = []
    for section in (".text", ".data"):
        name = os.path.join(folder, "theirs" + section)
        run([GNU + "objcopy", "-O", "binary", "-j", section, names[2], name])
        with open(name, "rb") as file:
            sections.append(file.read())
    return sections


def sections_of_ours(rx, folder, source):
    """The bytes of the segments with the flags of text and of data (System V ABI, "Program Header")."""
    text, out = os.path.join(folder, "ours.s"), os.path.join(folder, "ours")
    with open(text, "w") as file:
        file.write(source)
    run([rx, "asm", text, out])
    with open(out, "rb") as file:
        image = file.read()
    sections = {5: b"", 6: b""}
    table, count = struct.unpack_from("<I", image, 28)[0], struct.unpack_from("<H", image, 44)[0]
    for at in range(count):
        _, offset, _, _, size, _, flags, _ = struct.unpack_from("<8I", image, table + 32 * at)
        sections[flags] = image[offset : offset + size]
    return sections[5], sections[6]


def compare(program, ours, theirs):
    """How many statements give the same bytes; the others are printed."""
    offset = {"text": 0, "data": 0}
    same = 0
    for statement in program.statements:
        which = 0 if statement.section == "text" else 1
        start = offset[statement.section]
        offset[statement.section] = end = start + statement.size
        a, b = ours[which][start:end], theirs[which][start:end]
        if a == b and len(a) == statement.size:
            same += 1
        else:
            first = next((at for at in range(min(len(a), len(b))) if a[at] != b[at]), 0)
            pair = a[first : first + 8].hex(), b[first : first + 8].hex()
            print("%s at 0x%x: %s: ours %s, GNU's %s" % (statement.section, start + first, statement.ours, *pair))
    for which, name in enumerate(("text", "data")):
        if not len(ours[which]) == len(theirs[which]) == offset[name]:
            print("%s has %d bytes, GNU's %d, wanted %d" % (name, len(ours[which]), len(theirs[which]), offset[name]))
            same = -1
    return same


def main():
    if len(sys.argv) > 3:
        sys.exit(__doc__)
    rx = sys.argv[1] if len(sys.argv) > 1 else os.path.join(HERE, "..", "crates", "rx", "out", "rx")
    rng = random.Random(int(sys.argv[2]) if len(sys.argv) == 3 else 1)
    programs = [every_form(rng), far_labels(rng), whole_page(rng)] + [mixed(rng, 200) for _ in range(3)]
    statements = agreeing = fill = words = data = wrong = 0
    names = set()
    with tempfile.TemporaryDirectory() as folder:
        for program in programs:
            source, gnu_source = program.sources()
            theirs = sections_of_gnu(folder, gnu_source, program.size["text"])
            ours = sections_of_ours(rx, folder, source)
            same = compare(program, ours, theirs)
            wrong += same < len(program.statements)
            statements += len(program.statements)
            agreeing += max(same, 0)
            fill += sum(statement.name == ".word" for statement in program.statements)
            names |= {statement.name for statement in program.statements}
            words += len(theirs[0]) // 4
            data += len(theirs[1])
    print("%d of %d statements agree; %d of them are .word, and %d names occur" % (agreeing, statements, fill, len(names)))
    print("%d programs, %d words of text, %d bytes of data" % (len(programs), words, data))
    sys.exit(1 if wrong else 0)


if __name__ == "__main__":
    main()
