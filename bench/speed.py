#!/usr/bin/env python3
"""How many instructions a second rx does, and a plain interpreter in Rust (interpreter.rs) beside it.

A program does a loop of nine instructions, a load and a store among them, 100,000 times for each of 112 messages. That
is 100.8 million instructions. It is run twice: with the words that it loads and stores in a data segment, and on the stack.
A third program does eleven in its loop, two loads and two stores, by turns in both places. Then come three programs in C of
guests/suite: sha256, sort and calculator. For each message they do all their work 6, 3 and 70 times, some 870,000
instructions, and send their results once. Each run's replies are checked, and that both do as many instructions.

It tells how many instructions of the host each of the two does for one of the guest, as valgrind's callgrind counts them:
that doesn't move with what else the machine does. It is the difference between a run of six messages and one of two.
Then it tells processor times. The runs of both take turns, and each run of rx is set beside the interpreter's run that
follows it: of these ratios it tells the middle one, the lowest and the highest. With --count it tells no times.
With --bars it counts rx alone, and ends with 1 where a count is above its bar: no proof sees that a function of the loop over
entries is no longer put in place.

usage: speed.py [--runs N] [--messages N] [--count | --bars] [RX] [OPTION ..]

RX is the built rx, crates/rx/out/rx unless it is given; where it isn't there, the interpreter is measured alone. The options
are further ones of `rx run`, such as `--window 1`. The interpreter is compiled by `rustc -O`; where there is no rustc, rx is
measured alone, and where there is no valgrind, nothing is counted. A program of the suite that isn't shipped is built by
guests/suite/compare.py, with what that needs, or else left out. Programs and input are made in a temporary folder.
"""

import argparse
import os
import re
import shutil
import statistics
import struct
import subprocess
import sys
import tempfile

HERE = os.path.dirname(os.path.abspath(__file__))
SUITE = os.path.join(HERE, "..", "guests", "suite")

TURNS = 100_000
BUDGET = 2_000_000  # instructions between two items
SEEDS = [1, 0x12345678, 0x80000000, 0xFFFFFFFF]

TEXT, DATA = 0x10000, 0x11000

# Registers by their names in the RISC-V calling convention.
ZERO, SP, T0, T1, T2, S0, S1, A0, A1, A2, A7, S2 = 0, 2, 5, 6, 7, 8, 9, 10, 11, 12, 17, 18

ECALL = 0x00000073


# Instruction words, by the formats of the RISC-V unprivileged manual.
def register_form(funct3, rd, rs1, rs2):
    return rs2 << 20 | rs1 << 15 | funct3 << 12 | rd << 7 | 0x33


def immediate_form(opcode, funct3, rd, rs1, imm):
    return (imm & 0xFFF) << 20 | rs1 << 15 | funct3 << 12 | rd << 7 | opcode


def add(rd, rs1, rs2):
    return register_form(0, rd, rs1, rs2)


def xor(rd, rs1, rs2):
    return register_form(4, rd, rs1, rs2)


def addi(rd, rs1, imm):
    return immediate_form(0x13, 0, rd, rs1, imm)


def slli(rd, rs1, by):
    return immediate_form(0x13, 1, rd, rs1, by)


def srli(rd, rs1, by):
    return immediate_form(0x13, 5, rd, rs1, by)


def lw(rd, imm, rs1):
    return immediate_form(0x03, 2, rd, rs1, imm)


def sw(rs2, imm, rs1):
    return (imm >> 5 & 0x7F) << 25 | rs2 << 20 | rs1 << 15 | 2 << 12 | (imm & 0x1F) << 7 | 0x23


def lui(rd, upper):
    return upper << 12 | rd << 7 | 0x37


def bne(rs1, rs2, by):
    fields = (by >> 12 & 1) << 31 | (by >> 5 & 0x3F) << 25 | (by >> 1 & 0xF) << 8 | (by >> 11 & 1) << 7
    return fields | rs2 << 20 | rs1 << 15 | 1 << 12 | 0x63


def jal(rd, by):
    fields = (by >> 20 & 1) << 31 | (by >> 1 & 0x3FF) << 21 | (by >> 11 & 1) << 20 | (by >> 12 & 0xFF) << 12
    return fields | rd << 7 | 0x6F


def li(rd, number):
    upper = (number + 0x800) >> 12
    return [lui(rd, upper), addi(rd, rd, number - (upper << 12))]


def loop(load):
    """What a turn does. The word at s0 is the message, and the one behind it is the reply."""
    body = load + [
        add(T1, T1, T0),
        slli(T2, T1, 7),
        xor(T1, T1, T2),
        srli(T2, T1, 9),
        xor(T1, T1, T2),
        sw(T1, 4, S0),
        addi(S1, S1, -1),
    ]
    return body + [bne(S1, ZERO, -4 * len(body))]


LOOP = loop([lw(T0, 0, S0)])
BY_WAY_OF_THE_STACK = loop([lw(T0, 0, S0), sw(T0, -8, SP), lw(T0, -8, SP)])


# A segment's kind, and what may be done with it.
LOAD = 1
READ_EXECUTE, READ_WRITE = 5, 6

BUILDERS = ["riscv64-unknown-elf-gcc", "qemu-riscv32"]


def executable(entry, segments):
    """An executable of segments, as a linker would make it. Each has its address, its bytes, its size in memory and its flags."""
    ident = b"\x7fELF\1\1\1" + bytes(9)
    at = 52 + 32 * len(segments)
    headers = ident + struct.pack("<HHIIIIIHHHHHH", 2, 243, 1, entry, 52, 0, 0, 52, 32, len(segments), 0, 0, 0)
    for start, content, size, flags in segments:
        headers += struct.pack("<8I", LOAD, at, start, start, len(content), size, flags, 4)
        at += len(content)
    return headers + b"".join(content for _, content, _, _ in segments)


def reply_to(seed):
    """What the program replies to a message."""
    value = 0
    for _ in range(TURNS):
        value = (value + seed) & 0xFFFFFFFF
        value ^= value << 7 & 0xFFFFFFFF
        value ^= value >> 9
    return value


class Program:
    """The program, with its two words at an address that the given code puts into s0."""

    def __init__(self, place, turn):
        receive = [addi(A0, S0, 0), addi(A1, ZERO, 4), addi(A7, ZERO, 1), ECALL]
        skip = [addi(T0, ZERO, 2), bne(A2, T0, -4 * 5)]  # an item that is no message
        begin = [addi(S2, A1, 0), addi(T1, ZERO, 0)] + li(S1, TURNS)
        send = [addi(A0, S2, 0), addi(A1, S0, 4), addi(A2, ZERO, 4), addi(A7, ZERO, 2), ECALL]
        around = receive + skip + begin + turn + send
        self.code = place + around + [jal(ZERO, -4 * len(around))]
        self.at_start = len(place) + len(receive + skip)  # to the open
        self.per_message = len(around) + 1 + (TURNS - 1) * len(turn)
        self.at_end = len(receive) - 1  # the last receive isn't done

    def steps(self, messages):
        return self.at_start + messages * self.per_message + self.at_end

    def file(self):
        text = struct.pack("<%dI" % len(self.code), *self.code)
        return executable(TEXT, [(TEXT, text, len(text), READ_EXECUTE), (DATA, bytes(8), 4096, READ_WRITE)])

    def conversation(self, messages):
        return conversation(messages)


PROGRAMS = [
    ("data segment", Program(li(S0, DATA), LOOP)),
    ("stack", Program([addi(S0, SP, -16)], LOOP)),
    ("both", Program(li(S0, DATA), BY_WAY_OF_THE_STACK)),
]

# Of guests/suite, and how often each does its work for a message.
OF_THE_SUITE = [("sha256", 6), ("sort", 3), ("calculator", 70)]

# At most so many instructions of the host for one of the guest.
BARS = {"data segment": 10.6, "stack": 10.6, "both": 14.3, "sha256": 14.9, "sort": 13.6, "calculator": 17.7}


def frame(kind, payload=b""):
    return struct.pack("<BHH", kind, 0, len(payload)) + payload


def conversation(messages):
    """The input, and the output that it has to give."""
    asked = [struct.pack("<I", seed) for seed in SEEDS]
    replied = [struct.pack("<I", reply_to(seed)) for seed in SEEDS]
    turns = [k % len(SEEDS) for k in range(messages)]
    return (
        frame(1) + b"".join(frame(2, asked[k]) for k in turns),
        b"".join(frame(2, replied[k]) for k in turns),
    )


class Server:
    """A program of the suite that answers each message. By its own start (start_rx.S) it does its work once, sends the results
    and exits. Here the words before the send go by way of new ones behind the code, which count in s1, and the exit goes to the
    start."""

    RECEIVING = 4 * 6  # bytes of the start, up to where the work begins
    ENDING = struct.pack("<5I", addi(A0, ZERO, 0), addi(A7, ZERO, 2), ECALL, addi(A7, ZERO, 5), ECALL)

    def __init__(self, path, often):
        with open(path, "rb") as file:
            self.given = file.read()
        with open(path + ".results", "rb") as file:
            self.results = file.read()
        self.often = often

    def segments(self):
        first, count = struct.unpack_from("<I", self.given, 28)[0], struct.unpack_from("<H", self.given, 44)[0]
        for number in range(count):
            kind, offset, start, _, filled, size, flags, _ = struct.unpack_from("<8I", self.given, first + 32 * number)
            if kind == LOAD and size:
                yield start, self.given[offset : offset + filled], size, flags

    def turned(self, code, begin):
        """The code that goes on after its work; its start is so far behind its first byte."""
        ending, behind = code.index(self.ENDING), len(code)
        counting = [addi(S1, S1, 1), addi(T0, ZERO, self.often)]
        counting += [bne(S1, T0, begin + self.RECEIVING - (behind + 4 * 2)), addi(S1, ZERO, 0), addi(A0, ZERO, 0)]
        counting += [jal(ZERO, ending + 4 - (behind + 4 * 5))]
        words = list(struct.unpack("<%dI" % (behind // 4), code))
        words[ending // 4] = jal(ZERO, behind - ending)
        words[ending // 4 + 3] = jal(ZERO, begin - (ending + 4 * 3))
        return struct.pack("<%dI" % (len(words) + len(counting)), *words, *counting)

    def file(self):
        entry = struct.unpack_from("<I", self.given, 24)[0]
        (start, code, _, flags), *others = self.segments()
        code = self.turned(code, entry - start)
        return executable(entry, [(start, code, len(code), flags)] + others)

    def conversation(self, messages):
        return frame(1) + messages * frame(2, b"go"), messages * frame(2, self.results)


def of_the_suite(folder):
    """The programs of the suite that are shipped or can be built."""
    for name, often in OF_THE_SUITE:
        path = os.path.join(SUITE, "shipped", name)
        if not os.path.exists(path):
            path = os.path.join(folder, name)
            if not all(map(shutil.which, BUILDERS)):
                print("%s: it isn't shipped, and %s aren't there" % (name, " and ".join(BUILDERS)))
                continue
            build = [sys.executable, os.path.join(SUITE, "compare.py"), "--random", "0", "--write", folder, name]
            subprocess.run(build, check=True)
        yield name, Server(path, often)


def timed(words, frames, output):
    """The processor time of a run, in seconds, and what it wrote on standard error. Its output is checked."""
    with tempfile.TemporaryFile() as given, tempfile.TemporaryFile() as got, tempfile.TemporaryFile() as said:
        given.write(frames)
        given.seek(0)
        process = subprocess.Popen(words, stdin=given, stdout=got, stderr=said)
        _, ended, usage = os.wait4(process.pid, 0)
        status = os.WEXITSTATUS(ended) if os.WIFEXITED(ended) else -os.WTERMSIG(ended)
        process.returncode = status
        got.seek(0)
        said.seek(0)
        note = said.read().decode(errors="replace").strip()
        if status != 0 or got.read() != output:
            sys.exit("%s: status %d, %s" % (words[0], status, note or "a wrong output"))
    return usage.ru_utime + usage.ru_stime, note


def report(name, what, steps, seconds):
    listed = " ".join("%.2f" % s for s in seconds)
    print("%-13s %-12s %7.1f million a second  (%s seconds)" % (name, what, steps / min(seconds) / 1e6, listed))


def compare(name, of_rx, of_interpreter):
    """The ratios of the times of runs that took turns."""
    ratios = sorted(one / other for one, other in zip(of_rx, of_interpreter))
    middle = statistics.median(ratios)
    print("%-13s %-12s %7.2f times the interpreter's time (%.2f to %.2f)" % (name, "rx", middle, ratios[0], ratios[-1]))


class Engines:
    """Both, and the folder in which they run. One that isn't there is None."""

    def __init__(self, rx, options, interpreter, folder):
        self.rx, self.options, self.interpreter, self.folder = rx, options, interpreter, folder

    def words(self, program):
        """The words that run a program in rx, and in the interpreter."""
        path = os.path.join(self.folder, "program")
        with open(path, "wb") as file:
            file.write(program.file())
        names = ["--record", self.folder + "/record", "--report", self.folder + "/report"]
        options = ["--frame", "whole"] + ["--budget", str(BUDGET)] * ("--budget" not in self.options) + self.options
        return [self.rx, "run", path] + names + options, [self.interpreter, path]

    def by_name(self, program):
        """Those that are there, by their names: the words, and what tells after a run how many instructions it did."""
        of_rx, of_interpreter = self.words(program)
        if self.rx:
            yield "rx", of_rx, lambda note: self.reported()
        if self.interpreter:
            yield "interpreter", of_interpreter, int

    def reported(self):
        """How many instructions the report says that rx did."""
        with open(self.folder + "/report", encoding="ascii") as file:
            return int(re.search(r"steps\D+(\d+)", file.readlines()[-1]).group(1))


def agreed(name, told):
    """How many instructions a run did, which everyone tells alike."""
    if len(set(told)) > 1:
        sys.exit("%s: instructions are told as %s" % (name, " and as ".join(map(str, sorted(set(told))))))
    return told[0]


def measure(name, program, runs, messages, engines):
    frames, output = program.conversation(messages)
    seconds, told = {}, []
    for _ in range(runs):
        for what, words, steps_of in engines.by_name(program):
            spent, note = timed(words, frames, output)
            seconds.setdefault(what, []).append(spent)
            told.append(steps_of(note))
    if isinstance(program, Program):
        told.append(program.steps(messages))
    steps = agreed(name, told)
    for what, of_one in seconds.items():
        report(name, what, steps, of_one)
    if len(seconds) > 1:
        compare(name, seconds["rx"], seconds["interpreter"])


def host_instructions(words, frames):
    """How many instructions of the host a run does, as callgrind counts them."""
    with tempfile.TemporaryFile() as given:
        given.write(frames)
        given.seek(0)
        counted = ["valgrind", "--tool=callgrind", "--callgrind-out-file=/dev/null"] + words
        done = subprocess.run(counted, stdin=given, stdout=subprocess.DEVNULL, stderr=subprocess.PIPE, text=True, check=True)
    return int(re.search(r"Collected : (\d+)", done.stderr).group(1))


def count(name, program, engines):
    few, many = program.conversation(2), program.conversation(6)
    counts = {}
    for what, words, steps_of in engines.by_name(program):
        steps = [steps_of(timed(words, *talk)[1]) for talk in (few, many)]
        host = host_instructions(words, many[0]) - host_instructions(words, few[0])
        counts[what] = host / (steps[1] - steps[0])
        print("%-13s %-12s %7.1f host instructions for one of the guest" % (name, what, counts[what]))
    return counts


def compiled(folder):
    """The interpreter, built in a folder, or None where there is no rustc."""
    if not shutil.which("rustc"):
        return None
    out = os.path.join(folder, "interpreter")
    subprocess.run(["rustc", "--edition", "2021", "-O", "-o", out, os.path.join(HERE, "interpreter.rs")], check=True)
    return out


def main():
    parser = argparse.ArgumentParser(description="Measures how many instructions a second rx does.")
    parser.add_argument("--runs", type=int, default=5)
    parser.add_argument("--messages", type=int, default=112)
    parser.add_argument("--count", action="store_true")
    parser.add_argument("--bars", action="store_true")
    parser.add_argument("rx", nargs="?", default=os.path.join(HERE, "..", "crates", "rx", "out", "rx"))
    parser.add_argument("options", nargs=argparse.REMAINDER)
    words = parser.parse_args()
    rx = os.path.abspath(words.rx) if os.path.exists(words.rx) else None
    if words.bars and not (rx and shutil.which("valgrind")):
        sys.exit("--bars needs a built rx, and valgrind")
    with tempfile.TemporaryDirectory() as folder:
        engines = Engines(rx, words.options, None if words.bars else compiled(folder), folder)
        above = []
        for name, program in PROGRAMS + list(of_the_suite(folder)):
            if shutil.which("valgrind"):
                counts = count(name, program, engines)
                if words.bars and not counts.get("rx", 0) <= BARS[name]:
                    above.append("%s: %.1f, above %.1f" % (name, counts["rx"], BARS[name]))
            if not words.count and not words.bars:
                measure(name, program, words.runs, words.messages, engines)
        if above:
            sys.exit("\n".join(above))
    print("load of the machine: %.1f %.1f %.1f" % os.getloadavg())


if __name__ == "__main__":
    main()
