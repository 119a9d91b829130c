#!/usr/bin/env python3
"""Runs a program as `rx run` or `rx diagnose` does, in the second engine (compare/second) in place of rx.

Standard input, standard output, the record, the report, the diagnosis and the status are those of rx. The program has to be one that rx takes:
that isn't looked at here. Options that aren't given have the values that rx gives them. All of the input is read at once.

usage: run_second.py run PROGRAM --record RECORD --report REPORT [--form text|json] [--frame line|length|whole] [--window MIB] [--hold N]
                         [--ring N] [--every N] [--frames N] [--budget N] [--keep N] [--env plain|pad|zero|isolate|delay|all]
                         [--guard off|extent|block]
       run_second.py diagnose PROGRAM --record RECORD --report REPORT --diagnosis DIAGNOSIS, with the options of run
"""

import argparse
import os
import struct
import sys

HERE = os.path.dirname(os.path.abspath(__file__))
sys.path.insert(0, os.path.join(HERE, "..", "compare"))

# pylint: disable=wrong-import-position
from second.command import run  # noqa: E402
from second.guard import EXTENT, MODES  # noqa: E402
from second.heap import ENVIRONMENTS, PLAIN  # noqa: E402
from second.items import FRAMINGS  # noqa: E402
from second.machine import Image, MIB  # noqa: E402
from second.outside import MemoryFiles, MemorySink, MemorySource  # noqa: E402
from second.report import JSON, TEXT  # noqa: E402
from second.session import Options  # noqa: E402

PT_LOAD = 1


def image_of(file, window=4 * MIB):
    """The image of an executable that rx takes, in a window of so many bytes."""
    entry, at = struct.unpack_from("<II", file, 24)
    (count,) = struct.unpack_from("<H", file, 44)
    segments = []
    for k in range(count):
        kind, offset, vaddr, _, filesz, memsz, flags, _ = struct.unpack_from("<8I", file, at + 32 * k)
        if kind == PT_LOAD and memsz > 0:
            segments.append((vaddr, file[offset:offset + filesz] + bytes(memsz - filesz), flags))
    return Image(segments, entry, window)


def words_of(words):
    defaults = Options()
    parser = argparse.ArgumentParser(prog="run_second.py", allow_abbrev=False)
    parser.add_argument("command", choices=["run", "diagnose"])
    parser.add_argument("program")
    parser.add_argument("--record", required=True)
    parser.add_argument("--report", required=True)
    parser.add_argument("--diagnosis")
    parser.add_argument("--guard", choices=MODES)
    parser.add_argument("--env", choices=[PLAIN, *ENVIRONMENTS], default=defaults.env)
    parser.add_argument("--form", choices=[TEXT, JSON], default=TEXT)
    parser.add_argument("--frame", choices=sorted(FRAMINGS), default=defaults.frame)
    parser.add_argument("--window", type=int, default=defaults.window // MIB)
    for name in ("hold", "ring", "every", "frames", "budget", "keep"):
        parser.add_argument("--" + name, type=int, default=getattr(defaults, name))
    asked = parser.parse_args(words)
    if asked.guard is None:
        asked.guard = EXTENT if asked.command == "diagnose" else defaults.guard
    if (asked.command == "diagnose") != (asked.diagnosis is not None):
        parser.error("diagnose takes --diagnosis, and run doesn't")
    return asked


def session(asked, content):
    """A session on these bytes: what came of it, its output, and its files."""
    with open(asked.program, "rb") as file:
        image = image_of(file.read(), asked.window * MIB)
    options = Options(image.window, asked.frame, asked.hold, asked.ring, asked.every, asked.frames, asked.budget, asked.keep, asked.env, asked.guard)
    sink, files = MemorySink(), MemoryFiles({"p": b""})
    return run(image, MemorySource(content), sink, options, files, asked.form, asked.diagnosis is not None), sink, files


def main(words):
    asked = words_of(words)
    done, sink, files = session(asked, sys.stdin.buffer.read())
    for path, name in ((asked.record, "r"), (asked.report, "t"), (asked.diagnosis, "d")):
        if path is not None:
            with open(path, "wb") as file:
                file.write(files.files[name])
    sys.stdout.buffer.write(sink.content)
    if done.status:
        print(*done.answer, file=sys.stderr)
    return done.status


if __name__ == "__main__":
    sys.exit(main(sys.argv[1:]))
