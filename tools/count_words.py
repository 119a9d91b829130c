#!/usr/bin/env python3
"""How many words of a pseudo-random million are RV32IM instructions.

Written from the RISC-V unprivileged manual, "RV32/64G Instruction Set Listings" (tables RV32I and RV32M), as the bits of
a word that a listing's line fixes and the values that it fixes them to. FENCE is any word with its opcode and funct3 000,
whatever the other fields are (the manual has implementations treat reserved ones as a plain fence); FENCE.I and the
instructions on control and status registers are left out.

The words are x' = (1664525 x + 1013904223) mod 2^32 from x = 0; the word is x'.

usage: count_words.py [--by-name] [COUNT]
"""

import sys

OPCODE = 0x0000007F  # bits 6 to 0
FUNCT3 = 0x00007000  # bits 14 to 12
FUNCT7 = 0xFE000000  # bits 31 to 25
WHOLE = 0xFFFFFFFF

# name, fixed bits, their values
LISTING = [
    ("lui", OPCODE, 0b0110111),
    ("auipc", OPCODE, 0b0010111),
    ("jal", OPCODE, 0b1101111),
]


def by_funct3(opcode, names):
    for name, funct3 in names:
        LISTING.append((name, OPCODE | FUNCT3, funct3 << 12 | opcode))


def by_funct7(opcode, names):
    for name, funct7, funct3 in names:
        LISTING.append((name, OPCODE | FUNCT3 | FUNCT7, funct7 << 25 | funct3 << 12 | opcode))


by_funct3(0b1100111, [("jalr", 0b000)])
by_funct3(0b1100011, [("beq", 0b000), ("bne", 0b001), ("blt", 0b100), ("bge", 0b101), ("bltu", 0b110), ("bgeu", 0b111)])
by_funct3(0b0000011, [("lb", 0b000), ("lh", 0b001), ("lw", 0b010), ("lbu", 0b100), ("lhu", 0b101)])
by_funct3(0b0100011, [("sb", 0b000), ("sh", 0b001), ("sw", 0b010)])
by_funct3(0b0010011, [("addi", 0b000), ("slti", 0b010), ("sltiu", 0b011), ("xori", 0b100), ("ori", 0b110), ("andi", 0b111)])
by_funct7(0b0010011, [("slli", 0b0000000, 0b001), ("srli", 0b0000000, 0b101), ("srai", 0b0100000, 0b101)])
by_funct7(
    0b0110011,
    [
        ("add", 0b0000000, 0b000),
        ("sub", 0b0100000, 0b000),
        ("sll", 0b0000000, 0b001),
        ("slt", 0b0000000, 0b010),
        ("sltu", 0b0000000, 0b011),
        ("xor", 0b0000000, 0b100),
        ("srl", 0b0000000, 0b101),
        ("sra", 0b0100000, 0b101),
        ("or", 0b0000000, 0b110),
        ("and", 0b0000000, 0b111),
        ("mul", 0b0000001, 0b000),
        ("mulh", 0b0000001, 0b001),
        ("mulhsu", 0b0000001, 0b010),
        ("mulhu", 0b0000001, 0b011),
        ("div", 0b0000001, 0b100),
        ("divu", 0b0000001, 0b101),
        ("rem", 0b0000001, 0b110),
        ("remu", 0b0000001, 0b111),
    ],
)
by_funct3(0b0001111, [("fence", 0b000)])
LISTING.append(("ecall", WHOLE, 0x00000073))
LISTING.append(("ebreak", WHOLE, 0x00100073))


def main():
    words = [word for word in sys.argv[1:] if word != "--by-name"]
    count = int(words[0]) if words else 1_000_000
    found = {name: 0 for name, _, _ in LISTING}
    x = 0
    for _ in range(count):
        x = (1664525 * x + 1013904223) % 2**32
        for name, fixed, value in LISTING:
            if x & fixed == value:
                found[name] += 1
                break
    if "--by-name" in sys.argv[1:]:
        for name, times in found.items():
            print(name, times)
    print(sum(found.values()))


main()
