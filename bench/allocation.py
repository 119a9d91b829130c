#!/usr/bin/env python3
"""What the calls of the allocator cost: calloc and realloc of 1 MiB beside the host's memset and memcpy, and malloc.

A program does one kind of call over and over: calloc of 1 MiB and free; realloc of a block of 1 MiB to 1 MiB, which moves it,
since the old block stands while the new one is placed; or malloc of 64 bytes and free. It is run with few and with many
messages, and does so many calls for each message; the difference of both runs' processor times, by the calls, is what one
costs. Beside each run stands the host's own memset or memcpy of 1 MiB in this process, and the middle of the ratios is told.
The pages that a checkpoint shares are copied once a message, at the first call that writes them, which is in the figures.

usage: allocation.py [--runs N] [RX]

RX is the built rx, crates/rx/out/rx unless it is given.
"""

import argparse
import ctypes
import os
import statistics
import struct
import sys
import tempfile
import time

from speed import A0, A1, A2, A7, DATA, ECALL, HERE, READ_EXECUTE, READ_WRITE, S0, S1, S2, T0, TEXT, ZERO
from speed import addi, bne, executable, frame, jal, li, timed

MIB = 1 << 20
SEND, MALLOC, FREE, CALLOC, REALLOC = 2, 3, 4, 7, 8
FEW, MANY = 4, 24  # messages


def call(number, *arguments):
    """The words of a guest call behind those that set its arguments."""
    return [word for argument in arguments for word in argument] + [addi(A7, ZERO, number), ECALL]


FREE_IT = call(FREE)  # the address is in a0

# Each kind of call: what comes before all, what a turn does, how many turns there are for a message, and what stands beside it.
KINDS = {
    "calloc": ([], call(CALLOC, li(A0, 1), li(A1, MIB)) + FREE_IT, 64, ctypes.memset),
    "realloc": (call(MALLOC, li(A0, MIB)) + [addi(S2, A0, 0)], call(REALLOC, [addi(A0, S2, 0)], li(A1, MIB)) + [addi(S2, A0, 0)], 64, ctypes.memmove),
    "malloc": ([], call(MALLOC, li(A0, 64)) + FREE_IT, 4096, None),
}


def program(before, turn, turns):
    """Answers each message with four bytes behind so many turns."""
    receive = call(1, [addi(A0, S0, 0), addi(A1, ZERO, 4)])
    receive += [addi(T0, ZERO, 2), bne(A2, T0, -4 * (len(receive) + 1))]  # an item that is no message
    around = turn + [addi(S1, S1, -1)]
    body = receive + li(S1, turns) + around + [bne(S1, ZERO, -4 * len(around))]
    body += call(SEND, [addi(A0, ZERO, 0), addi(A1, S0, 0), addi(A2, ZERO, 4)])
    words = li(S0, DATA) + before + body + [jal(ZERO, -4 * len(body))]
    text = struct.pack("<%dI" % len(words), *words)
    return executable(TEXT, [(TEXT, text, len(text), READ_EXECUTE), (DATA, bytes(8), 4096, READ_WRITE)])


def of_the_host(what, calls):
    """The seconds of so many memset or memcpy, between two places by turns."""
    places = [ctypes.create_string_buffer(MIB) for _ in range(2)]
    began = time.process_time()
    for number in range(calls):
        one, other = places[number % 2], places[1 - number % 2]
        what(one, 0 if what is ctypes.memset else other, MIB)
    return time.process_time() - began


def measure(rx, folder, name, runs):
    before, turn, turns, beside = KINDS[name]
    path = os.path.join(folder, name)
    with open(path, "wb") as file:
        file.write(program(before, turn, turns))
    words = [rx, "run", path, "--record", folder + "/record", "--report", folder + "/report", "--window", "8", "--frame", "whole"]
    calls = (MANY - FEW) * turns
    costs, ratios = [], []
    for _ in range(runs):
        few, many = (timed(words, frame(1) + n * frame(2, b"turn"), n * frame(2, b"turn"))[0] for n in (FEW, MANY))
        costs.append((many - few) / calls)
        if beside:
            ratios.append(costs[-1] * calls / of_the_host(beside, calls))
    told = "%-8s %8.2f us a call (%.2f to %.2f)" % (name, 1e6 * statistics.median(costs), 1e6 * min(costs), 1e6 * max(costs))
    if beside:
        told += ", %.2f times the host's own (%.2f to %.2f)" % (statistics.median(ratios), min(ratios), max(ratios))
    print(told)


def main():
    parser = argparse.ArgumentParser(description="Measures what the calls of the allocator cost.")
    parser.add_argument("--runs", type=int, default=7)
    parser.add_argument("rx", nargs="?", default=os.path.join(HERE, "..", "crates", "rx", "out", "rx"))
    words = parser.parse_args()
    if not os.path.exists(words.rx):
        sys.exit("%s isn't there: it is built by `rt run` in crates/rx" % words.rx)
    with tempfile.TemporaryDirectory() as folder:
        for name in KINDS:
            measure(os.path.abspath(words.rx), folder, name, words.runs)
    print("load of the machine: %.1f %.1f %.1f" % os.getloadavg())


if __name__ == "__main__":
    main()
