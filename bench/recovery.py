#!/usr/bin/env python3
"""What recovery and its checkpoints take in the built rx, each beside a peer that is measured in the same run.

1. A server fails at a message behind thousands of others: the time from this message to its reply, recovery included, beside that of
   a server that is begun anew and is given all messages. Guest keys is helped by the first try; guests/dangling by the 14th, from
   before the third last message. The peer's session has the fewest checkpoints that the words of `rx run` allow.
2. A checkpoint at each message, in a ring of 8, of a window of 64 MiB of which one page is written between, beside the fork of a process
   with 64 MiB (fork_peer.c, by gcc). A checkpoint is the difference of two sessions, with --every 1 and with --every 64.
3. Sessions of thousands of messages with --every 1, beside the same with --every 64: in guest keys, where a message takes about 1700
   instructions, in guests/store, where it takes 340, and lines of 800 letters in guests/upper, where they take 17,700. The processor time
   for a message, and the time to its reply where one is given after another.
4. Instructions a second, on the programs of speed.py, beside an rx that has no recovery (--before). With --count the host's instructions
   for one of the guest too, by valgrind's callgrind.

Processor times are taken from outside, of messages whose replies have come. Sessions that are compared take turns on one processor, and
of several runs the middle one counts. Each reply is compared.

usage: recovery.py [--messages N] [--runs N] [--before RX [--count]] [RX]
RX is the built rx, crates/rx/out/rx unless it is given. The status is 0 where each goal is reached.
"""

import argparse
import collections
import os
import statistics
import subprocess
import sys
import tempfile
import time

import speed
from running import AT_ONCE, Server, last_processor

HERE = os.path.dirname(os.path.abspath(__file__))
sys.path.insert(0, os.path.join(HERE, "..", "compare"))

# pylint: disable=wrong-import-position
from second.assembler import assemble  # noqa: E402
from second.guests import program  # noqa: E402
from second.machine import executable  # noqa: E402
from second.trunk import OPENS, frame, piece_frame  # noqa: E402


RAREST = 64  # --every
ALONE = 200  # messages that are given one by one
FORKS = 500  # of a run of the peer
ASKED = 56  # messages of the programs of speed.py
OPEN = (frame(OPENS, 0), b"")

# A server with a block of 60 MiB, each page of which was written. It receives into the first one, and sends from there.
LARGE = """
    li a0, 62914560
    li a7, 3
    ecall
    mv s0, a0
    mv t0, a0
    li t1, 15360
    li t2, 4096
touch:
    sw t2, 0(t0)
    add t0, t0, t2
    addi t1, t1, -1
    bnez t1, touch
receive:
    mv a0, s0
    li a1, 4096
    li a7, 1
    ecall
    li t0, 2
    bne a2, t0, receive
    mv a2, a0
    mv a0, a1
    mv a1, s0
    li a7, 2
    ecall
    j receive
"""

# What is measured, on both sides, as texts; how many times better or worse; the goal, and whether it is reached.
Row = collections.namedtuple("Row", "what ours theirs times goal is_reached")

# A session: a program's file; frames and replies; those of the message at which it fails; and those of one at which it doesn't.
Talk = collections.namedtuple("Talk", "name path before fails harmless")


# ---- conversations


def line(given, reply):
    return piece_frame(0, given), piece_frame(0, reply)


def sets_and_gets(count):
    """Sets and gets of 100 keys, by turns."""
    pairs, values = [OPEN], {}
    for number in range(count):
        key = b"key%02d" % (number * 37 // 2 % 100)
        if number % 2 == 0:
            values[key] = b"value%d" % number
            pairs.append(line(b"set %s %s\n" % (key, values[key]), b"ok\n"))
        else:
            pairs.append(line(b"get %s\n" % key, values.get(key, b"none") + b"\n"))
    return pairs


def keys_talk(count):
    pairs = sets_and_gets(count - 1)
    return pairs, line(b"set %s value\n" % (b"k" * 17), b"ok\n"), line(b"set %s value\n" % (b"k" * 16), b"ok\n")


def rooms_talk(count):
    """Somebody looks at a room for long, then leaves it and enters it twice."""
    one, left = line(b"enter hall\n", b"hall: users 1\n"), line(b"leave\n", b"left hall\n")
    looks = [line(b"look\n", b"hall: users 1, looks %d\n" % number) for number in range(1, count)]
    pairs = [OPEN, one, *looks[:count - 6], left, one, one, looks[0]]
    return pairs, left, looks[1]


def long_lines(count):
    """Lines of 800 letters, half of them in one word of each line, in upper case."""
    text = b"a" * 400 + b" bcd" * 100
    told = b"\nmessage %d: 101 words of 6.93 letters; in all %d words, the longest of 400, the most frequent letter A\n"
    return [OPEN] + [line(text + b"\n", text.upper() + told % (number, 101 * number)) for number in range(1, count + 1)]


def in_c(name):
    return os.path.join(HERE, "..", "guests", name)


def keys_in(folder):
    path = os.path.join(folder, "keys")
    with open(path, "wb") as file:
        file.write(executable(*program("keys")))
    return path


def failing_talks(folder, count):
    yield Talk("keys", keys_in(folder), *keys_talk(count))
    yield Talk("dangling", in_c("dangling"), *rooms_talk(count))


def busy_talks(folder, count):
    """Name, program, and frames and replies of sessions without failure."""
    yield "keys", keys_in(folder), sets_and_gets(count)
    yield "store", in_c("store"), sets_and_gets(count)
    yield "upper", in_c("upper"), long_lines(count // 4)


# ---- figures

Spent = collections.namedtuple("Spent", "processor wall")


def spent(server, pair):
    """What one message takes, to its reply."""
    processor, wall = server.seconds(), time.monotonic()
    server.ask([pair])
    wall = time.monotonic() - wall
    return Spent(server.seconds() - processor, wall)


def failing(rx, folder, talk):
    """What an ordinary message takes before the one that fails, and what that one takes."""
    server = Server(rx, talk.path, folder)
    server.ask(talk.before[:-ALONE])
    alone = [spent(server, pair) for pair in talk.before[-ALONE:]]
    recovered = spent(server, talk.fails)
    server.finish()
    return middle(alone), recovered


def begun_anew(rx, folder, talk):
    """What a server takes that is begun and given all messages, to the last reply."""
    server = Server(rx, talk.path, folder, ["--every", str(RAREST), "--ring", "1", "--frames", "2"])
    server.ask(talk.before + [talk.harmless])
    done = Spent(server.seconds(), time.monotonic() - server.began)
    server.finish()
    return done


def middle(several):
    return Spent(*(statistics.median(values) for values in zip(*several)))


def replies_after_a_failure(rx, folder, talk, runs):
    both = [(failing(rx, folder, talk), begun_anew(rx, folder, talk)) for _ in range(runs)]
    ordinary, recovered = middle([ours[0] for ours, _ in both]), middle([ours[1] for ours, _ in both])
    anew = middle([theirs for _, theirs in both])
    what = "a reply after a failure at message %d of %s" % (len(talk.before), talk.name)
    for kind, ours, theirs, usual in zip(Spent._fields, recovered, anew, ordinary):
        times = theirs / ours
        yield Row("%s, %s" % (what, kind), "%.3f ms (%.3f ms without failure)" % (1e3 * ours, 1e3 * usual),
                  "%.1f ms, begun anew" % (1e3 * theirs), "%.0f times faster" % times, "at least 50", times >= 50)


def by_turns(servers, pairs, at_once=AT_ONCE):
    """Gives each of several servers the same messages, by turns; of each server the middle of its turns, for a message."""
    turns = [[] for _ in servers]
    for first in range(0, len(pairs), at_once):
        block = pairs[first:first + at_once]
        for server, of_server in zip(servers, turns):
            processor, wall = server.seconds(), time.monotonic()
            server.ask(block)
            wall = time.monotonic() - wall
            of_server.append(Spent((server.seconds() - processor) / len(block), wall / len(block)))
    return [middle(of_server) for of_server in turns]


def often_and_rarely(rx, folder, path, pairs, options=()):
    """Two sessions, with --every 1 and with the rarest checkpoints, behind the first messages: the processor time for a message where
    many are given at once, and the time to its reply where one is given."""
    servers = [Server(rx, path, folder, ["--every", str(every), *options]) for every in (1, RAREST)]
    for server in servers:
        server.ask(pairs[:AT_ONCE])
    processor = [spent.processor for spent in by_turns(servers, pairs[AT_ONCE:-ALONE])]
    wall = [spent.wall for spent in by_turns(servers, pairs[-ALONE:], 1)]
    for server in servers:
        server.finish()
    return Spent(processor, wall)


def checkpoint(rx, folder, messages, runs):
    path, peer = os.path.join(folder, "large"), os.path.join(folder, "fork_peer")
    with open(path, "wb") as file:
        file.write(executable(*assemble(LARGE)))
    subprocess.run(["gcc", "-O2", "-o", peer, os.path.join(HERE, "fork_peer.c")], check=True)
    pairs = [OPEN] + [line(b"m%06d\n" % number, b"m%06d\n" % number) for number in range(messages)]
    ours, theirs, whole = [], [], []
    for _ in range(runs):
        often, rarely = often_and_rarely(rx, folder, path, pairs, ["--window", "64", "--ring", "8"]).processor
        ours.append((often - rarely) * RAREST / (RAREST - 1))
        whole.append(often)
        forked = subprocess.run([peer, "64", str(FORKS), str(last_processor())], capture_output=True, text=True, check=True)
        theirs.append(float(forked.stdout) / FORKS)
    ours, theirs, whole = (1e6 * statistics.median(times) for times in (ours, theirs, whole))
    times = theirs / ours
    return Row("a checkpoint of 64 MiB at each message, processor", "%.1f us (the whole message %.1f us)" % (ours, whole),
               "%.1f us, a fork" % theirs, "%.1f times cheaper" % times, "at least 10", times >= 10)


def every_message(rx, folder, talk, runs):
    name, path, pairs = talk
    of_runs = [often_and_rarely(rx, folder, path, pairs) for _ in range(runs)]
    for kind in Spent._fields:
        of_kind = [getattr(one, kind) for one in of_runs]
        often, rarely = (1e6 * statistics.median(times) for times in zip(*of_kind))
        times = statistics.median(often / rarely for often, rarely in of_kind)
        yield Row("a message of %s, --every 1, %s" % (name, kind), "%.2f us" % often, "%.2f us, --every %d" % (rarely, RAREST),
                  "%.3f of the time" % times, "at most 1.1", times <= 1.1)


def timed_pair(words, frames, output, first):
    """The processor times of the two commands, one after the other; which of them goes first is told."""
    times = [None, None]
    for which in (first, 1 - first):
        times[which] = speed.timed(words[which], frames, output)[0]
    return times


def instructions(rx, before, folder, runs, is_counted):
    """A row for each program of speed.py."""
    both = [speed.Engines(path, [], None, folder) for path in (rx, before)]
    frames, output = speed.conversation(ASKED)
    for name, of_speed in speed.PROGRAMS:
        words = [engines.words(of_speed)[0] for engines in both]
        pairs = [timed_pair(words, frames, output, number % 2) for number in range(4 * runs)]
        times = statistics.median(theirs / ours for ours, theirs in pairs)
        millions = [of_speed.steps(ASKED) / min(several) / 1e6 for several in zip(*pairs)]
        yield Row("instructions a second, %s" % name, "%.1f million" % millions[0], "%.1f million, without recovery" % millions[1],
                  "%.3f of the speed" % times, "at least 0.97", times >= 0.97)
        if is_counted:
            yield counted(name, of_speed, words)


def counted(name, of_speed, words):
    few, many = 2, 6
    steps = of_speed.steps(many) - of_speed.steps(few)
    ours, theirs = ((speed.host_instructions(each, speed.conversation(many)[0])
                     - speed.host_instructions(each, speed.conversation(few)[0])) / steps for each in words)
    return Row("host instructions for one, %s" % name, "%.1f" % ours, "%.1f, without recovery" % theirs,
               "%.3f of the speed" % (theirs / ours), "", True)


# ---- the whole


def table(rows):
    heads = Row("figure", "rx", "its peer", "rx is", "goal", "reached")
    cells = [heads] + [row._replace(is_reached="" if not row.goal else "yes" if row.is_reached else "NO") for row in rows]
    widths = [max(len(cell[column]) for cell in cells) for column in range(len(heads))]
    for row in cells:
        print("  ".join(cell.ljust(width) for cell, width in zip(row, widths)).rstrip())


def measure(asked):
    rx, rows = os.path.abspath(asked.rx), []
    os.sched_setaffinity(0, {last_processor()})
    with tempfile.TemporaryDirectory() as folder:
        for talk in failing_talks(folder, asked.messages):
            rows += replies_after_a_failure(rx, folder, talk, asked.runs)
        rows.append(checkpoint(rx, folder, asked.messages, asked.runs))
        for talk in busy_talks(folder, asked.messages):
            rows += every_message(rx, folder, talk, asked.runs)
        if asked.before:
            rows += instructions(rx, os.path.abspath(asked.before), folder, asked.runs, asked.count)
    table(rows)
    print("load of the machine: %.1f %.1f %.1f" % os.getloadavg())
    return all(row.is_reached for row in rows)


def main(words):
    parser = argparse.ArgumentParser(description=__doc__, formatter_class=argparse.RawDescriptionHelpFormatter)
    parser.add_argument("--messages", type=int, default=10_000)
    parser.add_argument("--runs", type=int, default=5)
    parser.add_argument("--before")
    parser.add_argument("--count", action="store_true")
    parser.add_argument("rx", nargs="?", default=os.path.join(HERE, "..", "crates", "rx", "out", "rx"))
    return measure(parser.parse_args(words))


if __name__ == "__main__":
    sys.exit(0 if main(sys.argv[1:]) else 1)
