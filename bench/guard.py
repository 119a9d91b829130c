#!/usr/bin/env python3
"""What a guard of the heap costs: runs with --guard extent and --guard block, each beside a run with --guard off.

A program does the loop of speed.py, nine instructions with a load and a store among them, 100,000 times for each of 28
messages. The words that it loads and stores lie in a data segment, on the stack, or in a block of the heap. The heap then has
1, 64 or 4000 blocks, and theirs is the one in the middle, since a guard looks for it by halves.

It tells how many instructions of the host a run does for one of the guest, as valgrind's callgrind counts them, where that is
there: the difference between a run of six messages and one of two. Then it tells processor times. The runs of the three modes
take turns, and each guarded one is set beside the run without a guard before it: of these ratios it tells the middle one, the
lowest and the highest. Each run's replies are checked. With --count it tells no times.

usage: guard.py [--runs N] [--messages N] [--count] [RX]

RX is the built rx, crates/rx/out/rx unless it is given. Programs and input are made in a temporary folder.
"""

import argparse
import os
import shutil
import statistics
import sys
import tempfile

from speed import A0, A7, BUDGET, DATA, ECALL, HERE, LOOP, S0, S1, SP, ZERO, Program, addi, bne, host_instructions, li, timed

MODES = ["off", "extent", "block"]
MALLOC = 3
SIZE = 64  # bytes of a block


def blocks(count):
    """The words that ask for so many blocks."""
    if count == 0:
        return []
    turn = [addi(A0, ZERO, SIZE), addi(A7, ZERO, MALLOC), ECALL, addi(S1, S1, -1)]
    return li(S1, count) + turn + [bne(S1, ZERO, -4 * len(turn))]


def in_the_heap(count):
    """The words that ask for so many blocks, and put the address of the one in the middle into s0."""
    before = (count + 1) // 2
    return blocks(before) + [addi(S0, A0, 0)] + blocks(count - before)


PROGRAMS = [
    ("data segment", li(S0, DATA)),
    ("stack", [addi(S0, SP, -16)]),
    ("1 block", in_the_heap(1)),
    ("64 blocks", in_the_heap(64)),
    ("4000 blocks", in_the_heap(4000)),
]


def words_of(rx, folder, program):
    """The words that run a program, by the mode of the guard."""
    path = os.path.join(folder, "program")
    with open(path, "wb") as file:
        file.write(program.file())
    run = [rx, "run", path, "--record", folder + "/record", "--report", folder + "/report", "--frame", "whole", "--budget", str(BUDGET)]
    return {mode: run + ["--guard", mode] for mode in MODES}


def report(name, mode, what):
    print("%-13s %-7s %s" % (name, mode, what), flush=True)


def count(name, program, modes):
    few, many = program.conversation(2)[0], program.conversation(6)[0]
    steps = program.steps(6) - program.steps(2)
    for mode, words in modes.items():
        host = host_instructions(words, many) - host_instructions(words, few)
        report(name, mode, "%7.1f host instructions for one of the guest" % (host / steps))


def measure(name, program, modes, runs, messages):
    frames, output = program.conversation(messages)
    seconds = {mode: [] for mode in modes}
    for _ in range(runs):
        for mode, words in modes.items():
            seconds[mode].append(timed(words, frames, output)[0])
    for mode, of_mode in seconds.items():
        ratios = sorted(one / other for one, other in zip(of_mode, seconds["off"]))
        told = "%7.1f million a second" % (program.steps(messages) / min(of_mode) / 1e6)
        if mode != "off":
            told += ", %.2f times the time without a guard (%.2f to %.2f)" % (statistics.median(ratios), ratios[0], ratios[-1])
        report(name, mode, told)


def main():
    parser = argparse.ArgumentParser(description="Measures what a guard of the heap costs.")
    parser.add_argument("--runs", type=int, default=5)
    parser.add_argument("--messages", type=int, default=28)
    parser.add_argument("--count", action="store_true")
    parser.add_argument("rx", nargs="?", default=os.path.join(HERE, "..", "crates", "rx", "out", "rx"))
    words = parser.parse_args()
    if not os.path.exists(words.rx):
        sys.exit("%s isn't there: it is built by `rt run` in crates/rx" % words.rx)
    with tempfile.TemporaryDirectory() as folder:
        for name, place in PROGRAMS:
            program = Program(place, LOOP)
            modes = words_of(os.path.abspath(words.rx), folder, program)
            if shutil.which("valgrind"):
                count(name, program, modes)
            if not words.count:
                measure(name, program, modes, words.runs, words.messages)
    print("load of the machine: %.1f %.1f %.1f" % os.getloadavg())


if __name__ == "__main__":
    main()
