#!/usr/bin/env python3
"""Whether the built rx stays as fast over a long session, and what memory it takes.

One run: 4096 connections open, and then a million messages come on them, one after another; guest echo replies to each. The input
is written while the output is read, and each reply is compared. Each part of the messages is given when all earlier replies have
come, so the processor time of rx from one end of the part to the other is that of these messages alone. Memory is the resident peak
(VmHWM) and what is resident (VmRSS), as /proc tells them behind each part.

Processor time moves with what else the machine does. So the first 10,000 messages are compared twice: with 10,000 near the end, given in
the same way; and, by a second session with as many connections that is begun at the end, with the last 10,000, 500 by turns, on the same
processor. With --count no time is taken: valgrind's callgrind counts the host's instructions for each of the first and of the last
messages, as differences of whole runs.

A session takes at most 1,048,576 items, opens and messages together. With --over a message more than that comes at the end, and the session
has to end with status 6.

usage: load.py [--connections N] [--messages N] [--part N] [--over | --count] [RX]
RX is the built rx, crates/rx/out/rx unless it is given. The status is 1 where a reply is wrong, or the last messages, by turns or counted,
take more than 1.2 of what the first ones take.
"""

import argparse
import collections
import os
import re
import subprocess
import sys
import tempfile
import threading
import time

from running import Server

HERE = os.path.dirname(os.path.abspath(__file__))
sys.path.insert(0, os.path.join(HERE, "..", "compare"))

# pylint: disable=wrong-import-position
from second.trunk import OPENS, frame, piece_frame  # noqa: E402

ECHO = os.path.join(HERE, "..", "guests", "echo")

MOST_ITEMS = 1 << 20
MOST_RATIO = 1.2
AT_ONCE = 2000  # messages in one write
TURN = 500  # messages of a turn
STEP = 7  # from one message's connection to the next one's, so that all have their turn

Part = collections.namedtuple("Part", "name messages seconds wall peak resident")


def message(number):
    """A line of 8 to 23 bytes, which has its number in it."""
    return b"m%06x" % number + b"." * (number % 16) + b"\n"


def messages(first, count, connections):
    """The frames of so many messages, which are the frames of the replies too."""
    return b"".join(piece_frame(number * STEP % connections, message(number)) for number in range(first, first + count))


class Load:
    """The session, part for part."""

    def __init__(self, server, connections):
        self.server, self.connections, self.given, self.parts = server, connections, 0, []

    def part(self, name, count, before=b""):
        """Gives so many messages behind some frames that aren't replied to, reads the replies, and notes what it took."""
        server, wall = self.server, time.monotonic()
        seconds = self.seconds(count, before)
        self.note(name, count, seconds, time.monotonic() - wall)

    def note(self, name, count, seconds, wall):
        self.parts.append(Part(name, count, seconds, wall, self.server.memory("VmHWM"), self.server.memory("VmRSS")))

    def seconds(self, count, before=b""):
        """Does so many messages. The processor time that they took."""
        server = self.server
        began = server.seconds()
        writer = threading.Thread(target=self.write, args=(before, self.given, count), daemon=True)
        writer.start()
        for first, some in blocks(self.given, count):
            server.replies(messages(first, some, self.connections))
        writer.join()
        self.given += count
        return server.seconds() - began

    def write(self, before, first, count):
        try:
            self.server.give(before)
            for start, some in blocks(first, count):
                self.server.give(messages(start, some, self.connections))
        except BrokenPipeError:
            pass  # the reader says what came


def blocks(first, count):
    """A range of messages cut into parts for one write."""
    return [(start, min(AT_ONCE, first + count - start)) for start in range(first, first + count, AT_ONCE)]


def table(load, begun):
    """One line for each part; the memory for a message is that which the part made the peak rise by."""
    print("%-22s %9s %12s %12s %11s %13s" % ("part", "messages", "cpu us each", "wall us each", "peak MiB", "resident MiB"))
    print("%-22s %9s %12s %12s %11.1f %13.1f" % ("before the first frame", "", "", "", begun[0] / 2**20, begun[1] / 2**20))
    for part in load.parts:
        each = [1e6 * value / part.messages for value in (part.seconds, part.wall)]
        print("%-22s %9d %12.2f %12.2f %11.1f %13.1f" % ((part.name, part.messages, *each, part.peak / 2**20, part.resident / 2**20)))


def opens(connections):
    return b"".join(frame(OPENS, connection) for connection in range(connections))


def by_turns(load, fresh, count):
    """The last messages of a long session and the first ones of a fresh one; the ratio of their times."""
    ours, theirs, wall = 0, 0, time.monotonic()
    for start in range(0, count, TURN):
        ours += load.seconds(min(TURN, count - start))
        theirs += fresh.seconds(min(TURN, count - start))
    load.note("the last, by turns", count, ours, time.monotonic() - wall)
    return ours / theirs


def measure(rx, connections, count, part, is_over):
    """A session of so many messages; whether all is right."""
    with tempfile.TemporaryDirectory() as folder:
        server = Server(rx, ECHO, folder, ["--frame", "line"])
        load = Load(server, connections)
        time.sleep(0.2)
        begun = (server.memory("VmHWM"), server.memory("VmRSS"))
        load.part("%d opens and one" % connections, 1, opens(connections))
        load.part("the first", part)
        between = count - 1 - 3 * part
        for fifth in range(5):
            load.part("between, part %d" % (fifth + 1), between * (fifth + 1) // 5 - between * fifth // 5)
        load.part("near the end", part)
        fresh = Load(Server(rx, ECHO, folder, ["--frame", "line"]), connections)
        fresh.part("opens", 1, opens(connections))
        ratio = by_turns(load, fresh, part)
        table(load, begun)
        print("%d replies are right" % count)
        print("%d messages near the end took %.2f of the first ones' processor time; the last ones %.2f of those of a new session, by turns" % (
            part, load.parts[-2].seconds / load.parts[1].seconds, ratio))
        opened, last = load.parts[0], load.parts[-1]
        print("peak memory %.1f MiB: %.0f bytes for each connection, %.0f for each message" % (
            last.peak / 2**20, (opened.resident - begun[1]) / connections, (last.peak - opened.peak) / count))
        print("load of the machine: %.1f %.1f %.1f" % os.getloadavg())
        right = check_end(server, connections, is_over) and check_end(fresh.server, connections, False)
    return right and ratio <= MOST_RATIO


def check_end(server, connections, is_over):
    """Ends the session, with a message too many first where that is asked for; whether its end is right."""
    if is_over:
        server.give(messages(0, 1, connections))
    status, rest, said = server.end()
    print("status %d%s" % (status, ", " + said.strip() if said else ""))
    return not rest and status == (6 if is_over else 0) and bool(said) == is_over


def host_instructions(rx, connections, count):
    """How many instructions of the host a session of so many messages takes, as callgrind counts them."""
    with tempfile.TemporaryDirectory() as folder, tempfile.TemporaryFile() as given:
        given.write(opens(connections))
        for first, some in blocks(0, count):
            given.write(messages(first, some, connections))
        given.seek(0)
        words = ["valgrind", "--tool=callgrind", "--callgrind-out-file=/dev/null", rx, "run", ECHO]
        words += ["--record", folder + "/record", "--report", folder + "/report"]
        done = subprocess.run(words, stdin=given, stdout=subprocess.DEVNULL, stderr=subprocess.PIPE, text=True, check=True)
    return int(re.search(r"Collected : (\d+)", done.stderr).group(1))


def count_both(rx, connections, count, part):
    """Counts for the first and the last messages; whether the last ones take about as much."""
    of = {messages: host_instructions(rx, connections, messages) for messages in (0, part, count - part, count)}
    first, last = (of[part] - of[0]) / part, (of[count] - of[count - part]) / part
    print("%.0f host instructions for each of the first %d messages, %.0f for each of the last %d" % (first, part, last, part))
    print("%.0f for each of %d opens" % ((of[0] - host_instructions(rx, 0, 0)) / connections, connections))
    return last <= MOST_RATIO * first


def main(words):
    parser = argparse.ArgumentParser(description="Measures a long session of many connections.")
    parser.add_argument("--connections", type=int, default=4096)
    parser.add_argument("--messages", type=int, default=1_000_000)
    parser.add_argument("--part", type=int, default=10_000)
    how = parser.add_mutually_exclusive_group()
    how.add_argument("--over", action="store_true")
    how.add_argument("--count", action="store_true")
    parser.add_argument("rx", nargs="?", default=os.path.join(HERE, "..", "crates", "rx", "out", "rx"))
    asked = parser.parse_args(words)
    rx = os.path.abspath(asked.rx)
    count = MOST_ITEMS - asked.connections if asked.over else asked.messages
    if asked.count:
        return count_both(rx, asked.connections, count, asked.part)
    return measure(rx, asked.connections, count, asked.part, asked.over)


if __name__ == "__main__":
    sys.exit(0 if main(sys.argv[1:]) else 1)
