#!/usr/bin/env python3
"""How long clients wait for the first new reply behind a kill: of a host that goes on by `rx resume`, and of one that is begun again and fed everything.

The first host serves so many messages, some of which guests/overrun fails by, and gets SIGKILL when all replies have come. Then a second one is given the
same input with one message more. The time is from its start to the first byte that clients didn't have. What is begun again gives all replies once more, and
makes the trials again; both run the program from its start. They take turns.

usage: takeover.py [--messages N] [--failing N] [--runs N] [RX]
RX is the built rx, crates/rx/out/rx unless it is given. Of N messages one fails by its quote. The status is 0 where each reply was right, and `resume`
takes at most 1.1 of the other time.
"""

import argparse
import os
import statistics
import subprocess
import sys
import tempfile
import threading
import time

HERE = os.path.dirname(os.path.abspath(__file__))
sys.path.insert(0, os.path.join(HERE, "..", "compare"))

# pylint: disable=wrong-import-position
from second.trunk import OPENS, frame, piece_frame  # noqa: E402

SERVER = os.path.join(HERE, "..", "guests", "overrun")
PLAIN = (b"hand saw 12,steel,19.90\n", b"<tr><td>hand saw 12</td><td>steel</td><td>19.90</td></tr>\n")
FAILS = (b'hand saw 12",steel,19.90\n', b"<tr><td>hand saw 12&quot;</td><td>steel</td><td>19.90</td></tr>\n")
MOST_RATIO = 1.1


def lines(messages, failing):
    return [FAILS if number % failing == failing - 1 else PLAIN for number in range(messages)]


def words_of(rx, folder, name, *handed):
    command = [rx, "resume" if handed else "run", SERVER, *handed]
    return [*command, "--record", os.path.join(folder, name + ".record"), "--report", os.path.join(folder, name + ".report"), "--tell", "off"]


def read(stream, count):
    content = b""
    while len(content) < count:
        piece = stream.read(count - len(content))
        if not piece:
            sys.exit("takeover.py: the output ended")
        content += piece
    return content


def first_host(rx, folder, came, given):
    """A host that is killed when these bytes have come from it."""
    host = subprocess.Popen(words_of(rx, folder, "first"), stdin=subprocess.PIPE, stdout=subprocess.PIPE)
    feeder = threading.Thread(target=lambda: (host.stdin.write(came), host.stdin.flush()))
    feeder.start()
    if read(host.stdout, len(given)) != given:
        sys.exit("takeover.py: the first host gave other replies")
    feeder.join()
    host.kill()
    host.wait()


def second_host(words, source, before, new):
    """The seconds from the start of a host to its first byte behind these, which are those of the new reply."""
    with open(source, "rb") as came:
        began = time.perf_counter()
        with subprocess.Popen(words, stdin=came, stdout=subprocess.PIPE) as host:
            if read(host.stdout, len(before)) != before:
                sys.exit("takeover.py: the second host gave other replies")
            first = read(host.stdout, 1)
            took = time.perf_counter() - began
            if first + host.stdout.read() != new:
                sys.exit("takeover.py: another new reply")
        if host.returncode != 0:
            sys.exit(f"takeover.py: status {host.returncode}")
    return took


def main():
    parser = argparse.ArgumentParser()
    parser.add_argument("--messages", type=int, default=20000)
    parser.add_argument("--failing", type=int, default=100)
    parser.add_argument("--runs", type=int, default=5)
    parser.add_argument("rx", nargs="?", default=os.path.join(HERE, "..", "crates", "rx", "out", "rx"))
    asked = parser.parse_args()
    rx = os.path.abspath(asked.rx)
    told = lines(asked.messages, asked.failing)
    came = frame(OPENS, 0) + b"".join(piece_frame(0, line) for line, _ in told)
    given = b"".join(piece_frame(0, row) for _, row in told)
    new = piece_frame(0, PLAIN[1])
    resumed, begun = [], []
    with tempfile.TemporaryDirectory() as folder:
        first_host(rx, folder, came, given)
        source, counts = os.path.join(folder, "came"), os.path.join(folder, "counts")
        with open(source, "wb") as file:
            file.write(came + piece_frame(0, PLAIN[0]))
        with open(counts, "w", encoding="ascii") as file:
            file.write(f"0 {sum(len(row) for _, row in told)}\n")
        handed = [os.path.join(folder, "first.record"), os.path.join(folder, "first.report"), counts]
        for _ in range(asked.runs):
            resumed.append(second_host(words_of(rx, folder, "second", *handed), source, b"", new))
            begun.append(second_host(words_of(rx, folder, "again"), source, given, new))
    ratio = statistics.median(resumed) / statistics.median(begun)
    print(f"{asked.messages} messages, one of {asked.failing} failed")
    print(f"from the start of resume to the new reply: {statistics.median(resumed) * 1e3:.0f} milliseconds")
    print(f"from the start of run to the new reply: {statistics.median(begun) * 1e3:.0f} milliseconds, so {ratio:.2f} of it")
    return 0 if ratio <= MOST_RATIO else 1


if __name__ == "__main__":
    sys.exit(main())
