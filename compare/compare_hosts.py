#!/usr/bin/env python3
"""Whether `rx standby` takes over from a host that stopped as a second engine does.

The second engine is the folder `second`: its standby is written from the rules of one, and shares nothing with rx.

A first host serves the front of a session at random in rx, and comes to its end. Then rx stands by, over the whole input, by the record
that was left and by counts of what each client has. Most records and counts are true; others say more than a client was passed, are
spoilt, or are those of another run. Output, status, the answer as standard error tells it, and the new record have to be what the second
engine comes to; a new record that was there before has to stay where it isn't started. With true counts the bytes of both hosts have to be
those of one run, as `rx replay` gives it, and a third host has nothing to give. A first host that is killed leaves a record that is refused.

usage: compare_hosts.py [--sessions N] [--seed S] [--no-guard] [RX]
RX is the built rx, crates/rx/out/rx unless it is given. With --no-guard it knows no guard. The status is 0 where none differs.
"""

import argparse
import os
import sys

from second import hosts

HERE = os.path.dirname(os.path.abspath(__file__))


def main(words):
    parser = argparse.ArgumentParser(description=__doc__, formatter_class=argparse.RawDescriptionHelpFormatter)
    parser.add_argument("--sessions", type=int, default=1000)
    parser.add_argument("--seed", type=int, default=1)
    parser.add_argument("--no-guard", action="store_true")
    parser.add_argument("rx", nargs="?", default=os.path.join(HERE, "..", "crates", "rx", "out", "rx"))
    asked = parser.parse_args(words)
    return hosts.compare(os.path.abspath(asked.rx), asked.sessions, asked.seed, not asked.no_guard)


if __name__ == "__main__":
    sys.exit(1 if main(sys.argv[1:]) else 0)
