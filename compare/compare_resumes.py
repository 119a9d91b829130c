#!/usr/bin/env python3
"""Whether `rx resume` goes on for a host that was killed as a second engine does.

The second engine is the folder `second`: its second host is written from the rules of one, and shares nothing with rx.

A first host serves a session at random by `rx run`, and is killed. So is the next one at times, which goes on by `rx resume`. Mostly a host is cut: it runs
to its end, and what it left is cut at some byte of what it wrote, in the order of the second engine. With --kill so many more sessions have hosts that get
SIGKILL at some moment. Output, status, the answer as standard error tells it, and both files of each host have to be what the second engine comes to; what
is left by one that got a signal has to begin it. Behind the last host each client has the bytes of one run, all of them unless its connection is closed. A
client may lose its last bytes on the way. Beside some hosts stands one with a false count, or with a file that is changed.

usage: compare_resumes.py [--sessions N] [--kill N] [--seed S] [--no-guard] [RX]
RX is the built rx, crates/rx/out/rx unless it is given. With --no-guard it knows no guard. The status is 0 where none differs.
"""

import argparse
import os
import sys

from second import killed

HERE = os.path.dirname(os.path.abspath(__file__))


def main(words):
    parser = argparse.ArgumentParser(description=__doc__, formatter_class=argparse.RawDescriptionHelpFormatter)
    parser.add_argument("--sessions", type=int, default=1000)
    parser.add_argument("--kill", type=int, default=0)
    parser.add_argument("--seed", type=int, default=1)
    parser.add_argument("--no-guard", action="store_true")
    parser.add_argument("rx", nargs="?", default=os.path.join(HERE, "..", "crates", "rx", "out", "rx"))
    asked = parser.parse_args(words)
    return killed.compare(os.path.abspath(asked.rx), asked.sessions, asked.kill, asked.seed, not asked.no_guard)


if __name__ == "__main__":
    sys.exit(1 if main(sys.argv[1:]) else 0)
