"""A small assembler, for the programs that the second engine runs.

Written from the table of statements of the assembler's language and the encodings of the RISC-V unprivileged manual. It is for texts
that are right: a wrong one raises an error of Python's.
"""

import re

TEXT_START, PAGE = 0x10000, 4096
TEXT_FLAGS, DATA_FLAGS = 5, 6

NAMES = ["zero", "ra", "sp", "gp", "tp", "t0", "t1", "t2", "s0", "s1"] + ["a%d" % i for i in range(8)] + [
    "s%d" % i for i in range(2, 12)] + ["t%d" % i for i in range(3, 7)]
REGISTERS = {"fp": 8, **{name: i for i, name in enumerate(NAMES)}, **{"x%d" % i: i for i in range(32)}}

OP = {
    "add": (0, 0), "sub": (0x20, 0), "sll": (0, 1), "slt": (0, 2), "sltu": (0, 3), "xor": (0, 4), "srl": (0, 5), "sra": (0x20, 5),
    "or": (0, 6), "and": (0, 7), "mul": (1, 0), "mulh": (1, 1), "mulhsu": (1, 2), "mulhu": (1, 3), "div": (1, 4), "divu": (1, 5),
    "rem": (1, 6), "remu": (1, 7)}
OP_IMM = {"addi": 0, "slti": 2, "sltiu": 3, "xori": 4, "ori": 6, "andi": 7}
SHIFT = {"slli": (0, 1), "srli": (0, 5), "srai": (0x20, 5)}
LOAD = {"lb": 0, "lh": 1, "lw": 2, "lbu": 4, "lhu": 5}
STORE = {"sb": 0, "sh": 1, "sw": 2}
BRANCH = {"beq": 0, "bne": 1, "blt": 4, "bge": 5, "bltu": 6, "bgeu": 7}
WORDS = {"ecall": 0x73, "ebreak": 0x100073, "fence": 0x0FF0000F, "nop": 0x13, "ret": 0x8067}
LABEL = re.compile(r"([A-Za-z_][A-Za-z0-9_]*):\s*")


# ---- encodings


def r_type(funct7, rs2, rs1, funct3, rd, opcode=0x33):
    return funct7 << 25 | rs2 << 20 | rs1 << 15 | funct3 << 12 | rd << 7 | opcode


def i_type(imm, rs1, funct3, rd, opcode=0x13):
    return (imm & 0xFFF) << 20 | rs1 << 15 | funct3 << 12 | rd << 7 | opcode


def s_type(imm, rs2, rs1, funct3):
    return (imm >> 5 & 0x7F) << 25 | rs2 << 20 | rs1 << 15 | funct3 << 12 | (imm & 31) << 7 | 0x23


def b_type(far, rs2, rs1, funct3):
    assert -4096 <= far < 4096, "a branch doesn't reach its label"
    return ((far >> 12 & 1) << 31 | (far >> 5 & 0x3F) << 25 | rs2 << 20 | rs1 << 15 | funct3 << 12
            | (far >> 1 & 0xF) << 8 | (far >> 11 & 1) << 7 | 0x63)


def j_type(far, rd):
    return (far >> 20 & 1) << 31 | (far >> 1 & 0x3FF) << 21 | (far >> 11 & 1) << 20 | (far >> 12 & 0xFF) << 12 | rd << 7 | 0x6F


def load_number(rd, value):
    low = (value & 0xFFF) - (0x1000 if value & 0x800 else 0)
    return [(value - low & 0xFFFFF000) | rd << 7 | 0x37, i_type(low, rd, 0, rd)]


# ---- texts


def bare(line):
    """The line without its comment and the blanks round it."""
    quoted = False
    for i, letter in enumerate(line):
        if letter == '"':
            quoted = not quoted
        elif letter == "#" and not quoted:
            return line[:i].strip()
    return line.strip()


def statements(text):
    """The labels and statements of a text: (label, name, operands), where one is None."""
    for line in text.split("\n"):
        line = bare(line)
        label = LABEL.match(line)
        if label:
            yield label.group(1), None, None
            line = line[label.end():]
        if line:
            name, _, rest = line.partition(" ") if "\t" not in line else line.replace("\t", " ", 1).partition(" ")
            operands = [rest.strip()] if name == ".ascii" else [o.strip() for o in rest.split(",") if o.strip()]
            yield None, name, operands


def number(word):
    return int(word, 0) if word.lstrip("-").startswith("0x") else int(word)


def size(name, operands):
    if name == ".space":
        return number(operands[0])
    if name == ".ascii":
        return len(ascii_bytes(operands[0]))
    return {".byte": 1, "li": 8, "la": 8}.get(name, 4)


def ascii_bytes(quoted):
    return quoted[1:-1].replace("\\n", "\n").encode()


class Encoder:
    """Encodes a statement at its place, with all labels known."""

    def __init__(self, labels):
        self.labels = labels

    def value(self, word):
        return self.labels[word] if word in self.labels else number(word)

    def indexed(self, word):
        """The number and the register of `number(register)`."""
        offset, _, register = word.rstrip(")").partition("(")
        return number(offset), REGISTERS[register]

    def branch(self, name, operands, at):
        if name in ("beqz", "bnez"):
            name, operands = name[:3], [operands[0], "zero", operands[1]]
        first, second = REGISTERS[operands[0]], REGISTERS[operands[1]]
        return b_type(self.labels[operands[2]] - at, second, first, BRANCH[name])

    def words(self, name, operands, at):
        if name in WORDS:
            return [WORDS[name]]
        if name in ("j", "call"):
            return [j_type(self.labels[operands[0]] - at, 1 if name == "call" else 0)]
        if name in BRANCH or name in ("beqz", "bnez"):
            return [self.branch(name, operands, at)]
        if name == ".word":
            return [self.value(operands[0]) & 0xFFFFFFFF]
        first = REGISTERS[operands[0]]
        if name in ("li", "la"):
            return load_number(first, self.value(operands[1]))
        if name == "jal":
            return [j_type(self.labels[operands[1]] - at, first)]
        if name in ("lui", "auipc"):
            return [number(operands[1]) << 12 | first << 7 | (0x37 if name == "lui" else 0x17)]
        if name in STORE:
            imm, base = self.indexed(operands[1])
            return [s_type(imm, first, base, STORE[name])]
        if name in LOAD or name == "jalr":
            imm, base = self.indexed(operands[1])
            return [i_type(imm, base, LOAD.get(name, 0), first, 0x67 if name == "jalr" else 0x03)]
        second = REGISTERS[operands[1]]
        if name == "mv":
            return [i_type(0, second, 0, first)]
        if name in OP_IMM:
            return [i_type(number(operands[2]), second, OP_IMM[name], first)]
        if name in SHIFT:
            funct7, funct3 = SHIFT[name]
            return [i_type(funct7 << 5 | number(operands[2]), second, funct3, first)]
        funct7, funct3 = OP[name]
        return [r_type(funct7, REGISTERS[operands[2]], second, funct3, first)]

    def content(self, name, operands, at):
        if name == ".space":
            return bytes(number(operands[0]))
        if name == ".ascii":
            return ascii_bytes(operands[0])
        if name == ".byte":
            return bytes([number(operands[0]) & 0xFF])
        return b"".join(word.to_bytes(4, "little") for word in self.words(name, operands, at))


def assemble(text):
    """The segments (address, content, flags) and the entry of a text."""
    sizes, places, section = {"text": 0, "data": 0}, [], "text"
    found = {}
    for label, name, operands in statements(text):
        if label:
            found[label] = (section, sizes[section])
        elif name in (".text", ".data"):
            section = name[1:]
        else:
            places.append((section, sizes[section], name, operands))
            sizes[section] += size(name, operands)
    starts = {"text": TEXT_START, "data": (TEXT_START + sizes["text"] + PAGE - 1) // PAGE * PAGE}
    encoder = Encoder({label: starts[where] + offset for label, (where, offset) in found.items()})
    contents = {"text": b"", "data": b""}
    for where, offset, name, operands in places:
        contents[where] += encoder.content(name, operands, starts[where] + offset)
    segments = [(starts["text"], contents["text"], TEXT_FLAGS), (starts["data"], contents["data"], DATA_FLAGS)]
    return [segment for segment in segments if segment[1]], TEXT_START
