"""Servers that go where code and memory meet, on purpose: each is a program (segments and entry), and the options and messages of its session.

They write the code that they run, jump into a second segment of code and back, jump to an address that no instruction has, load and store across
two pages and two segments, and store into pages that a checkpoint shares, by one register after another. Each sends what it found, so a
wrong value shows in a reply.
"""

from second.assembler import assemble
from second.beside_rx import Pair
from second.checks import lines_in
from second.session import Options

READ_EXECUTE, ALL = 5, 7
FAR = 0x14000  # where the second segment of code is, behind the data

# Each message begins with a letter. s3 is that letter, s1 the connection; at `answer` s0 is sent as a word.
FRAME = """
receive:
    la   a0, buffer
    li   a1, 64
    li   a7, 1
    ecall
    li   t0, 2
    bne  a2, t0, receive
    mv   s1, a1
    la   t0, buffer
    lbu  s3, 0(t0)
    li   s0, 0
%s
answer:
    la   t0, word
    sw   s0, 0(t0)
    mv   a0, s1
    la   a1, word
    li   a2, 4
    li   a7, 2
    ecall
    j    receive
%s
.data
word:
    .word 0
buffer:
    .space 64
behind:
    .space 8192
"""


def program(work, more="", flags=READ_EXECUTE, far=None):
    """A program of this work on a message and this code behind it, with the flags of its code; and a second segment of code."""
    ((start, text, _), data), entry = assemble(FRAME % (work, more))
    others = [] if far is None else [(FAR, assemble(far)[0][0][1], READ_EXECUTE)]
    return [(start, text, flags), data] + others, entry


# -- code that is written

# The instruction at `here` adds 1. Each message makes it add the message's letter, and it is run before and behind that.
WRITES_AHEAD = """
    la   t1, here
    lw   t2, 0(t1)
here:
    addi s0, s0, 1
    li   t3, 0xfffff
    and  t2, t2, t3
    slli t4, s3, 20
    or   t2, t2, t4
    sw   t2, 0(t1)
    li   t5, 1000
    bltu s0, t5, once
once:
    addi s4, s4, 1
    andi t6, s4, 1
    bnez t6, here
"""

# A loop whose body is rewritten while it runs: the store is in the loop, one instruction before the word that it writes.
WRITES_IN_LOOP = """
    la   t1, body
    la   t3, first
    lw   t2, 0(t3)
    li   t5, 0
loop:
    sw   t2, 0(t1)
body:
    addi s0, s0, 1
    xor  t2, t2, t4
    lw   t2, 4(t3)
    addi t5, t5, 1
    li   t6, 20
    bltu t5, t6, loop
"""
TWO_WORDS = """
first:
    addi s0, s0, 3
    addi s0, s0, 5
"""

# Code that is copied to the data and run there.
RUNS_DATA = """
    la   t1, piece
    la   t2, behind
    lw   t3, 0(t1)
    sw   t3, 0(t2)
    lw   t3, 4(t1)
    sw   t3, 4(t2)
    jalr ra, 0(t2)
"""
PIECE = """
piece:
    addi s0, s0, 7
    jalr zero, 0(ra)
"""

# A jump to the middle of an instruction, where the letter is `b`; else its branch goes there, where it is `c`.
HALF = """
    li   t0, 98
    bne  s3, t0, whole
    la   t1, whole
    jalr ra, 2(t1)
whole:
    addi s0, s0, 1
"""
HALF_BIT = """
    la   t1, whole
    jalr ra, 1(t1)
    addi s0, s0, 100
whole:
    addi s0, s0, 1
"""

# -- a second segment of code

TO_FAR = """
    li   t1, 0x14000
    li   t3, 0
again:
    jalr ra, 0(t1)
    addi t3, t3, 1
    li   t4, 50
    bltu t3, t4, again
"""
FAR_CODE = """
    addi s0, s0, 3
    mul  t5, s0, s0
    remu s0, t5, s0
    addi s0, s0, 1
    jalr zero, 0(ra)
"""

# -- memory

# Words of each width at each offset around the border of two pages of the data, and around that of the text and the data.
ACROSS = """
    la   t1, behind
    li   t2, 4096
    add  t1, t1, t2
    li   t3, 0xfffff000
    and  t1, t1, t3
    addi t1, t1, -8
    li   t4, 0
    li   t5, 0x01020304
turn:
    add  t5, t5, s3
    sw   t5, 0(t1)
    lw   t6, 0(t1)
    add  s0, s0, t6
    lhu  t6, 1(t1)
    xor  s0, s0, t6
    sh   s0, 2(t1)
    lw   t6, 1(t1)
    add  s0, s0, t6
    sb   t6, 3(t1)
    lb   t6, 3(t1)
    add  s0, s0, t6
    addi t1, t1, 1
    addi t4, t4, 1
    li   t6, 12
    bltu t4, t6, turn
"""

# Each message goes through pages of a block by three registers, of which two point into one page; then it fails on `b`, where the word before it
# tells what stood in a page that the checkpoint shares.
SHARES = """
    la   t0, word
    lw   t1, 4(t0)
    bnez s5, stands
    li   a0, 20480
    li   a7, 3
    ecall
    mv   s5, a0
    li   t1, 4096
    add  s6, s5, t1
    add  s7, s5, t1
    addi s7, s7, 64
stands:
    li   t3, 0
turn:
    lw   t4, 0(s5)
    add  s0, s0, t4
    add  t4, t4, s3
    sw   t4, 0(s5)
    lw   t5, 0(s6)
    lw   t6, -64(s7)
    sub  s0, s0, t5
    add  s0, s0, t6
    add  s0, s0, t5
    sw   t4, 0(s7)
    sw   s0, 64(s6)
    lw   t4, 0(s7)
    add  s0, s0, t4
    addi t3, t3, 1
    li   t6, 9
    bltu t3, t6, turn
    li   t0, 98
    bne  s3, t0, answer
    lw   t1, 0(s5)
    li   t2, 10000
    remu t2, t1, t2
    addi s8, s8, 1
    li   a0, 3
    li   a7, 6
    ecall
"""

# A block that was never written is read on `b`, and is zero in some environments: the trial that survives goes over shared pages again.
UNSET = """
    li   a0, 64
    li   a7, 3
    ecall
    mv   s5, a0
    lw   t1, 32(s5)
    add  s0, s0, s3
    li   t2, 0x5a5a5a5a
    sw   t2, 32(s5)
    sw   s0, 0(s5)
    lw   t3, 0(s5)
    la   t4, behind
    lw   t5, 0(t4)
    add  t5, t5, t3
    sw   t5, 0(t4)
    mv   s0, t5
    mv   a0, s5
    li   a7, 4
    ecall
    beqz t1, answer
    li   a0, 4
    li   a7, 6
    ecall
"""

MESSAGES = [b"a", b"c", b"b", b"d", b"b", b"a", b"e"]

PROGRAMS = {
    "code that writes the word ahead": program(WRITES_AHEAD, flags=ALL),
    "code that may not be written, and is": program(WRITES_AHEAD),
    "a loop that writes its body": program(WRITES_IN_LOOP, TWO_WORDS, ALL),
    "data that is run": program(RUNS_DATA, PIECE),
    "a jump to half of an instruction": program(HALF),
    "a jump with its lowest bit set": program(HALF_BIT),
    "a second segment of code": program(TO_FAR, far=FAR_CODE),
    "a second segment of code, the first may be written": program(TO_FAR, flags=ALL, far=FAR_CODE),
    "words across two pages": program(ACROSS),
    "stores into shared pages": program(SHARES),
    "a block that was never written": program(UNSET),
}
OPTIONS = [{}, {"every": 1}, {"every": 1, "hold": 2}, {"ring": 2, "every": 2}, {"budget": 64}, {"guard": "extent"}, {"every": 1, "guard": "block"}]


class CodePair(Pair):
    """The session of one of these programs, with these options."""

    def __init__(self, rx, segments, options):
        self.rx, self.segments, self.options, self.form, self.is_patient = rx, segments, Options(**options), "text", False
        self.stream = lines_in(*[message + b"\n" for message in MESSAGES])
        self.words = ["run", "p", "--record", "r", "--report", "t"] + [word for name, value in options.items() for word in ("--" + name, str(value))]


def compare(rx):
    """Compares the session of each program with each of the options; how many differ."""
    wrong = runs = 0
    for name, segments in PROGRAMS.items():
        for options in OPTIONS if rx.guards else [options for options in OPTIONS if "guard" not in options]:
            pair, runs = CodePair(rx, segments, options), runs + 1
            found = pair.differences()[1]
            if found:
                wrong += 1
                print("%s differs, rx %s\n  %s" % (name, " ".join(pair.words), "\n  ".join(found)))
    print("%d sessions agree, %d differ" % (runs - wrong, wrong))
    return wrong
