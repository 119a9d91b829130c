#!/usr/bin/env python3
"""Runs the programs of the suite on rx and on another machine, qemu-riscv32, and compares their results.

usage: compare.py [--rx RX] [--random N] [--write FOLDER] [NAME...]
       compare.py --shipped --rx RX

Builds the programs, in a temporary folder: each to an object file, and this object file with two starts, one for rx and
one for Linux. Runs the second under qemu-riscv32, and, with RX, the first on rx. These are all programs of the folder
`programs`, those in C in three ways (NAME, NAME-O0, NAME-Os), and N programs of random instructions (random1 and so on),
20 unless N is given; or those of them that are named.

--write puts rx's executables and the results under qemu-riscv32 into a folder. --shipped runs the executables of the
folder `shipped` on rx and compares with the results that stand there. That needs no compiler and no qemu.
"""

import argparse
import glob
import hashlib
import os
import struct
import subprocess
import sys
import tempfile

sys.dont_write_bytecode = True
from random_program import random_program

HERE = os.path.dirname(os.path.abspath(__file__))
SHIPPED = os.path.join(HERE, "shipped")

GCC = "riscv64-unknown-elf-gcc"
COMPILE = ["-march=rv32im", "-mabi=ilp32", "-std=c11", "-Wall", "-Wextra", "-ffreestanding", "-mno-relax", "-I" + HERE]
COMPILE += ["-fno-tree-loop-distribute-patterns"]
LINK = ["-nostdlib", "-nostartfiles", "-static", "-T", os.path.join(HERE, "suite.ld")]
LINK += ["-Wl,--no-relax,--build-id=none,-s"]

# A C program is compiled in each of these ways. The last one makes misaligned loads and stores: gcc makes them for a
# processor that is fast at them.
WAYS = {"": ["-O2"], "-O0": ["-O0"], "-Os": ["-Os", "-mno-strict-align", "-mtune=thead-c906"]}

# Results that come from neither machine.
TEXTS = [b"", b"abc", b"abcdbcdecdefdefgefghfghighijhijkijkljklmklmnlmnomnopnopq", b"a" * 1000]
KNOWN = {"sha256": b"".join(hashlib.sha256(text).digest() for text in TEXTS)}


def gcc(*words):
    subprocess.run([GCC] + COMPILE + list(words), check=True)


class Case:
    """A program in one of the ways in which it is compiled."""

    def __init__(self, name, source, way, folder):
        self.name = name
        self.base = name.split("-")[0]
        self.source = source
        self.way = way
        self.path = os.path.join(folder, name)

    def linked(self, start, *more):
        out = self.path + "." + start
        sources = [self.path + ".o", os.path.join(HERE, "start_%s.S" % start), os.path.join(HERE, "..", "string.c")]
        gcc(*LINK, "-O2", *more, "-o", out, *sources, "-lgcc")
        return out

    def build(self):
        """The executables for rx and for Linux. Linux maps the file by pages; for rx it isn't padded."""
        gcc(*self.way, "-c", "-o", self.path + ".o", self.source)
        return self.linked("rx", "-Wl,-n"), self.linked("linux", "-Wl,-z,max-page-size=4096")


def cases(names, count, folder):
    found = []
    for source in sorted(glob.glob(os.path.join(HERE, "programs", "*.[cS]"))):
        base, kind = os.path.splitext(os.path.basename(source))
        for suffix, way in WAYS.items() if kind == ".c" else [("", [])]:
            found.append(Case(base + suffix, source, way, folder))
    for number in range(1, count + 1):
        source = os.path.join(folder, "random%d.S" % number)
        with open(source, "w") as file:
            file.write(random_program(number))
        found.append(Case("random%d" % number, source, [], folder))
    return [case for case in found if not names or case.name in names]


class Failed(Exception):
    """A run that ended with another status than 0."""


def output_of(words, given=b""):
    done = subprocess.run(words, input=given, stdout=subprocess.PIPE, stderr=subprocess.PIPE)
    if done.returncode != 0:
        raise Failed("status %d: %s" % (done.returncode, done.stderr.decode(errors="replace").strip()))
    return done.stdout


def on_qemu(program):
    return output_of(["qemu-riscv32", program])


def payloads(output):
    """The bytes of rx's frames."""
    whole = b""
    while output:
        _, _, length = struct.unpack_from("<BHH", output)
        whole, output = whole + output[5 : 5 + length], output[5 + length :]
    return whole


def on_rx(rx, program, folder):
    """What the program sends to connection 0, on which there is one message."""
    files = ["--record", os.path.join(folder, "record"), "--report", os.path.join(folder, "report")]
    words = [rx, "run", program] + files + ["--frame", "whole"]
    return payloads(output_of(words, b"\1\0\0\0\0" + b"\2\0\0\2\0go"))


def difference(wanted, got):
    """Where two results differ, or None."""
    for at in range(0, max(len(wanted), len(got)), 4):
        w, g = wanted[at : at + 4], got[at : at + 4]
        if w != g:
            words = (at // 4, g[::-1].hex() or "not there", w[::-1].hex() or "not there")
            return "word %d is %s and should be %s" % words
    return None


class Tally:
    def __init__(self):
        self.good, self.bad = 0, 0

    def judge(self, name, machine, wanted, run):
        """Runs a program, and compares its results where it is known what they should be."""
        got = None
        try:
            got = run()
            found = None if wanted is None else difference(wanted, got)
        except Failed as failed:
            found = str(failed)
        if found is not None:
            self.bad += 1
            print("%s on %s: %s" % (name, machine, found))
        elif wanted is not None:
            self.good += 1
        return got

    def end(self):
        print("%d results agree, %d differ" % (self.good, self.bad))
        return 1 if self.bad or not self.good else 0


def shipped(rx):
    tally = Tally()
    with tempfile.TemporaryDirectory() as folder:
        for results in sorted(glob.glob(os.path.join(SHIPPED, "*.results"))):
            program = results[: -len(".results")]
            with open(results, "rb") as file:
                wanted = file.read()
            tally.judge(os.path.basename(program), "rx", wanted, lambda: on_rx(rx, program, folder))
    return tally.end()


def write(folder, name, program, results):
    os.makedirs(folder, exist_ok=True)
    with open(program, "rb") as file:
        executable = file.read()
    for path, content, mode in [(name, executable, 0o755), (name + ".results", results, 0o644)]:
        path = os.path.join(folder, path)
        with open(path, "wb") as file:
            file.write(content)
        os.chmod(path, mode)


def compare(words):
    tally = Tally()
    known = dict(KNOWN)
    with tempfile.TemporaryDirectory() as folder:
        for case in cases(words.names, words.random, folder):
            for_rx, for_linux = case.build()
            results = tally.judge(case.name, "qemu", known.get(case.base), lambda: on_qemu(for_linux))
            if results is None:
                continue
            # However a program is compiled, it has the same results.
            known.setdefault(case.base, results)
            if words.rx:
                tally.judge(case.name, "rx", results, lambda: on_rx(words.rx, for_rx, folder))
            if words.write:
                write(words.write, case.name, for_rx, results)
    return tally.end() if words.rx or not words.write else 0


def main():
    parser = argparse.ArgumentParser(description="Compares rx with qemu-riscv32.")
    parser.add_argument("--rx", metavar="RX", type=os.path.abspath)
    parser.add_argument("--random", metavar="N", type=int, default=20)
    parser.add_argument("--write", metavar="FOLDER")
    parser.add_argument("--shipped", action="store_true")
    parser.add_argument("names", metavar="NAME", nargs="*")
    words = parser.parse_args()
    if words.shipped and not words.rx:
        parser.error("--shipped needs --rx")
    return shipped(words.rx) if words.shipped else compare(words)


if __name__ == "__main__":
    sys.exit(main())
