#!/usr/bin/env python3
"""Whether `rx replay` and `rx convert` read records, and run them again, as a second engine does.

The second engine is the folder `second`: its reader of records is written from the form of a record, its replay from the rules of one. It
shares nothing with rx.

With --sessions, sessions at random run in rx, as in compare_runs.py; then rx replays and converts the record that each left, over the
same input, and what version 1 says of it. What a replay writes has to be the frames of all sends of the recorded run, and what a
conversion writes the record that was left. Then something of either record or of the input is changed at random (what was asked and
answered, the number of instructions or of items, the version, a byte of the trunk), and what rx answers and writes has to be what the
second engine does. A new record that was there before a conversion that fails has to stay.

With --spoil, records at random, of both versions, are spoilt: a byte is changed, put in or taken out, a line is dropped, doubled, moved or
cut, a number written otherwise, the file cut short. The line that rx refuses has to be that of the second reader; a record that still has a
reading is replayed or converted in both.

usage: compare_records.py (--sessions [--no-guard] | --spoil) [--runs N] [--seed N] [RX]
RX is the built rx, crates/rx/out/rx unless it is given. With --no-guard it knows no guard. The status is 0 where none differs.
"""

import argparse
import os
import sys

from second import spoilt_records

HERE = os.path.dirname(os.path.abspath(__file__))


def main(words):
    parser = argparse.ArgumentParser(description=__doc__, formatter_class=argparse.RawDescriptionHelpFormatter)
    what = parser.add_mutually_exclusive_group(required=True)
    what.add_argument("--sessions", action="store_true")
    what.add_argument("--spoil", action="store_true")
    parser.add_argument("--no-guard", action="store_true")
    parser.add_argument("--runs", type=int, default=1000)
    parser.add_argument("--seed", type=int, default=1)
    parser.add_argument("rx", nargs="?", default=os.path.join(HERE, "..", "crates", "rx", "out", "rx"))
    asked = parser.parse_args(words)
    rx = os.path.abspath(asked.rx)
    if asked.sessions:
        return spoilt_records.compare_replays(rx, asked.runs, asked.seed, not asked.no_guard)
    return spoilt_records.compare_readings(rx, asked.runs, asked.seed)


if __name__ == "__main__":
    sys.exit(1 if main(sys.argv[1:]) else 0)
