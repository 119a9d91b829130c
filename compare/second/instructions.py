"""What a word of RV32IM does.

Written from the RISC-V unprivileged manual, RV32I and "M". `action_of` makes of a word a function on the machine. Called with the
machine and the pc, it does the instruction; it returns the next pc, or None for the word behind. A failing instruction raises
Failure and changes nothing.
"""

import operator

MASK = 0xFFFFFFFF
EXECUTE, WRITE, READ = 1, 2, 4

BAD_ACCESS, BAD_JUMP, BAD_INSTRUCTION = "BadAccess", "BadJump", "BadInstruction"
HANG, BAD_FREE, BAD_CALL = "Hang", "BadFree", "BadCall"

ECALL, EBREAK = 0x00000073, 0x00100073
DROPPED = 32  # where a write to x0 goes


class Failure(Exception):
    """A sensor fired; the cause is its argument, in the report's spelling."""


def assert_failed(code):
    return "AssertFailed %d" % code


def signed(value, bits=32):
    value &= (1 << bits) - 1
    return value - (1 << bits) if value >> (bits - 1) else value


def bits(word, low, count):
    return word >> low & (1 << count) - 1


# ---- numbers


def divide(a, b):
    """The quotient and the remainder of signed numbers, rounded towards zero."""
    s, t = signed(a), signed(b)
    if t == 0:
        return MASK, a
    quotient = abs(s) // abs(t)
    if (s < 0) != (t < 0):
        quotient = -quotient
    return quotient & MASK, s - quotient * t & MASK


PLAIN = {
    0: operator.add,
    1: lambda a, b: a << (b & 31),
    2: lambda a, b: int(signed(a) < signed(b)),
    3: lambda a, b: int(a < b),
    4: operator.xor,
    5: lambda a, b: a >> (b & 31),
    6: operator.or_,
    7: operator.and_,
}
OTHER = {0: operator.sub, 5: lambda a, b: signed(a) >> (b & 31)}
MULTIPLY = {
    0: operator.mul,
    1: lambda a, b: signed(a) * signed(b) >> 32,
    2: lambda a, b: signed(a) * b >> 32,
    3: lambda a, b: a * b >> 32,
    4: lambda a, b: divide(a, b)[0],
    5: lambda a, b: a // b if b else MASK,
    6: lambda a, b: divide(a, b)[1],
    7: lambda a, b: a % b if b else a,
}
BY_FUNCT7 = {0x00: PLAIN, 0x20: OTHER, 0x01: MULTIPLY}
HOLDS = {
    0: operator.eq,
    1: operator.ne,
    4: lambda a, b: signed(a) < signed(b),
    5: lambda a, b: signed(a) >= signed(b),
    6: operator.lt,
    7: operator.ge,
}


# ---- the forms


def set_number(rd, number, from_pc):
    if from_pc:
        def act(machine, pc):
            machine.x[rd] = pc + number & MASK
    else:
        def act(machine, _):
            machine.x[rd] = number
    return act


def jump(rd, far):
    def act(machine, pc):
        target = pc + far & MASK
        if target % 4:
            raise Failure(BAD_JUMP)
        machine.x[rd] = pc + 4 & MASK
        return target
    return act


def jump_to_register(rd, rs1, imm):
    def act(machine, pc):
        target = machine.x[rs1] + imm & MASK & ~1
        if target % 4:
            raise Failure(BAD_JUMP)
        machine.x[rd] = pc + 4 & MASK
        return target
    return act


def branch(holds, rs1, rs2, far):
    def act(machine, pc):
        if not holds(machine.x[rs1], machine.x[rs2]):
            return None
        target = pc + far & MASK
        if target % 4:
            raise Failure(BAD_JUMP)
        return target
    return act


def load(rd, rs1, imm, size, with_sign):
    def act(machine, _):
        value = int.from_bytes(machine.memory.load(machine.x[rs1] + imm & MASK, size), "little")
        machine.x[rd] = signed(value, 8 * size) & MASK if with_sign else value
    return act


def store(rs1, rs2, imm, size):
    mask = (1 << 8 * size) - 1

    def act(machine, _):
        machine.memory.store(machine.x[rs1] + imm & MASK, (machine.x[rs2] & mask).to_bytes(size, "little"))
    return act


def of_number(compute, rd, rs1, number):
    def act(machine, _):
        machine.x[rd] = compute(machine.x[rs1], number) & MASK
    return act


def of_registers(compute, rd, rs1, rs2):
    def act(machine, _):
        machine.x[rd] = compute(machine.x[rs1], machine.x[rs2]) & MASK
    return act


def nothing(_machine, _pc):
    return None


def fails_with(cause):
    def act(_machine, _pc):
        raise Failure(cause)
    return act


# ---- words


def far_of_jump(word):
    return signed(word >> 31 << 20 | bits(word, 12, 8) << 12 | bits(word, 20, 1) << 11 | bits(word, 21, 10) << 1, 21)


def far_of_branch(word):
    return signed(word >> 31 << 12 | bits(word, 7, 1) << 11 | bits(word, 25, 6) << 5 | bits(word, 8, 4) << 1, 13)


def of_immediate(funct3, funct7, rd, rs1, word):
    if funct3 not in (1, 5):
        return of_number(PLAIN[funct3], rd, rs1, signed(word >> 20, 12) & MASK)
    table = {(1, 0): PLAIN, (5, 0): PLAIN, (5, 0x20): OTHER}.get((funct3, funct7))
    return of_number(table[funct3], rd, rs1, bits(word, 20, 5)) if table else None


def recognised(word):
    """What the word does, or None where it is no instruction."""
    opcode, funct3, funct7 = word & 0x7F, bits(word, 12, 3), word >> 25
    rd, rs1, rs2 = bits(word, 7, 5) or DROPPED, bits(word, 15, 5), bits(word, 20, 5)
    imm = signed(word >> 20, 12)
    if opcode in (0x37, 0x17):
        return set_number(rd, word & 0xFFFFF000, opcode == 0x17)
    if opcode == 0x6F:
        return jump(rd, far_of_jump(word))
    if opcode == 0x67 and funct3 == 0:
        return jump_to_register(rd, rs1, imm)
    if opcode == 0x63 and funct3 in HOLDS:
        return branch(HOLDS[funct3], rs1, rs2, far_of_branch(word))
    if opcode == 0x03 and funct3 in (0, 1, 2, 4, 5):
        return load(rd, rs1, imm, 1 << (funct3 & 3), funct3 < 4)
    if opcode == 0x23 and funct3 in (0, 1, 2):
        return store(rs1, rs2, signed(funct7 << 5 | bits(word, 7, 5), 12), 1 << funct3)
    if opcode == 0x13:
        return of_immediate(funct3, funct7, rd, rs1, word)
    if opcode == 0x33 and funct3 in BY_FUNCT7.get(funct7, ()):
        return of_registers(BY_FUNCT7[funct7][funct3], rd, rs1, rs2)
    if opcode == 0x0F and funct3 == 0:
        return nothing
    if word == EBREAK:
        return fails_with(assert_failed(0))
    return None


CALLS = object()  # what ECALL does is the machine's own
ACTIONS = {ECALL: CALLS}


def action_of(word):
    """What the word does, or CALLS."""
    if word not in ACTIONS:
        ACTIONS[word] = recognised(word) or fails_with(BAD_INSTRUCTION)
    return ACTIONS[word]
