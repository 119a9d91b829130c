#!/usr/bin/env python3
"""What --durable costs: a server that fails again and again and is recovered each time, with the report on the disk before the reply, and without.

One message is given after another, and the time from it to its reply is taken. guests/overrun fails by a line with a double quote, but while the
environment that helped is in force. Sessions with and without take turns, in a folder of the disk that is to be measured. By how much a reply that was
recovered is dearer is the difference of all times, by the number of recoveries; beside that stands an fdatasync of as many bytes alone.

usage: durable.py [--messages N] [--runs N] [--folder FOLDER] [RX]
RX is the built rx, crates/rx/out/rx unless it is given. The status is 0 where each reply was right.
"""

import argparse
import os
import statistics
import subprocess
import sys
import tempfile
import time

HERE = os.path.dirname(os.path.abspath(__file__))
sys.path.insert(0, os.path.join(HERE, "..", "compare"))

# pylint: disable=wrong-import-position
from second.trunk import OPENS, frame, piece_frame  # noqa: E402

SERVER = os.path.join(HERE, "..", "guests", "overrun")
LINE = b'hand saw 12",steel,19.90\n'
ROW = b"<tr><td>hand saw 12&quot;</td><td>steel</td><td>19.90</td></tr>\n"
EPISODE = 120  # bytes of an episode's text, about


def replies(rx, folder, durable, messages):
    """The seconds from all messages to their replies, and how often the server was recovered."""
    words = [rx, "run", SERVER, "--record", os.path.join(folder, "r"), "--report", os.path.join(folder, "t"), "--tell", "off", "--durable", durable]
    server = subprocess.Popen(words, stdin=subprocess.PIPE, stdout=subprocess.PIPE, bufsize=0)
    server.stdin.write(frame(OPENS, 0))
    took, message = [], piece_frame(0, LINE)
    for _ in range(messages):
        began = time.perf_counter()
        server.stdin.write(message)
        header = read(server, 5)
        content = read(server, header[3] + 256 * header[4])
        took.append(time.perf_counter() - began)
        if content != ROW:
            sys.exit(f"durable.py: another reply: {content!r}")
    server.stdin.close()
    if server.wait() != 0:
        sys.exit(f"durable.py: status {server.returncode}")
    with open(os.path.join(folder, "t"), encoding="ascii") as report:
        return sum(took), sum(line.startswith("failure ") for line in report)


def read(server, count):
    content = b""
    while len(content) < count:
        piece = server.stdout.read(count - len(content))
        if not piece:
            sys.exit("durable.py: the output ended")
        content += piece
    return content


def syncs(folder, count):
    """The seconds of each fdatasync behind so many bytes more."""
    took = []
    with open(os.path.join(folder, "s"), "wb", buffering=0) as file:
        for _ in range(count):
            file.write(b"x" * EPISODE)
            began = time.perf_counter()
            os.fdatasync(file.fileno())
            took.append(time.perf_counter() - began)
    return took


def main():
    parser = argparse.ArgumentParser()
    parser.add_argument("--messages", type=int, default=1000)
    parser.add_argument("--runs", type=int, default=5)
    parser.add_argument("--folder")
    parser.add_argument("rx", nargs="?", default=os.path.join(HERE, "..", "crates", "rx", "out", "rx"))
    asked = parser.parse_args()
    dearer = []
    with tempfile.TemporaryDirectory(dir=asked.folder) as folder:
        for _ in range(asked.runs):
            plain, recovered = replies(os.path.abspath(asked.rx), folder, "off", asked.messages)
            durable, again = replies(os.path.abspath(asked.rx), folder, "on", asked.messages)
            if recovered != again:
                sys.exit(f"durable.py: {recovered} recoveries, and {again}")
            dearer.append((durable - plain) / recovered)
        alone = syncs(folder, asked.messages)
    print(f"{asked.messages} messages, {recovered} recovered")
    print(f"one that is recovered is dearer by {statistics.median(dearer) * 1e6:.0f} microseconds")
    print(f"an fdatasync alone: {statistics.median(alone) * 1e6:.0f} microseconds")


if __name__ == "__main__":
    main()
