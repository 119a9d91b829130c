"""Records replayed and converted by the built rx and by the second engine, side by side: whole ones, changed ones and spoilt ones."""

import collections
import os
import random
import subprocess
import tempfile

from second import beside_rx, guests, inputs, trunk
from second.command import ENDS, convert, image_maker, replay
from second.heap import Choice, calloc_of, malloc_of, realloc_of
from second.machine import executable
from second.outside import MemoryFiles, MemorySink, MemorySource
from second.record import RecordRefused, choice_line, end_line, head_line, is_possible, read_record, record_text, without_asks
from second.said import answer_of, is_told

NO_BUDGET = 0  # a replay has none
OLD = b"rx record 1 what was there"

# What came of a replay or a conversion: the answer, the status, the output, and the new record.
Came = collections.namedtuple("Came", "answer status output new")


def in_second_engine(command, program, text, stream):
    """What comes of it. `program` has segments and entry."""
    sink, files = MemorySink(), MemoryFiles({"o": OLD})
    if command == "replay":
        done = replay(image_maker(*program), text, MemorySource(stream), sink)
    else:
        done = convert(image_maker(*program), text, MemorySource(stream), files)
    return Came(done.answer, done.status, sink.content, files.files["o"])


class Folder:
    """A folder with the files of a replay: the program as p, the record as r, and the new record of a conversion as o."""

    def __init__(self, rx, path):
        self.rx, self.path = rx, path

    def put(self, name, content):
        with open(os.path.join(self.path, name), "wb") as file:
            file.write(content)

    def run(self, command, text, stream):
        """What comes of it, with the answer as rx told it."""
        self.put("r", text)
        self.put("o", OLD)
        words = [self.rx, command, "p", "r"] + ["o"] * (command == "convert")
        done = subprocess.run(words, input=stream, capture_output=True, check=False, cwd=self.path)
        answer = answer_of(done.returncode, done.stderr.decode(errors="replace"), NO_BUDGET)
        return Came(answer, done.returncode, done.stdout, beside_rx.content_of(os.path.join(self.path, "o")))

    def differences(self, command, program, text, stream):
        """What comes of it in the second engine, and in what rx differs."""
        ours, theirs = in_second_engine(command, program, text, stream), self.run(command, text, stream)
        found = []
        if theirs.status != ours.status or not is_told(ours.answer, theirs.answer):
            found.append("answer of %s: %s in place of %s" % (command, theirs.answer, ours.answer))
        if theirs.output != ours.output:
            found.append("output of %s: %d bytes in place of %d" % (command, len(theirs.output), len(ours.output)))
        if theirs.new != ours.new:
            found.append("new record of %s: %r in place of %r" % (command, theirs.new, ours.new))
        return ours, found


# ---- changes


def some_ask(rng):
    numbers = [rng.choice([0, 1, 8, 16, 17, 600, 0xFFFFFFFF, rng.getrandbits(32)]) for _ in range(2)]
    return rng.choice([malloc_of(numbers[0]), calloc_of(*numbers), realloc_of(*numbers)])


def another_ask(rng, ask):
    """Another call, or other numbers, that may ask for as many bytes."""
    kind = rng.randrange(4)
    if kind == 0:
        return some_ask(rng)
    if kind == 1:
        return ask._replace(first=ask.first + rng.choice([-1, 1]) & 0xFFFFFFFF)
    if ask.call == "malloc":
        return rng.choice([calloc_of(1, ask.first), realloc_of(0, ask.first)])
    return ask._replace(first=ask.second, second=ask.first) if kind == 2 else malloc_of(ask.bytes & 0xFFFFFFFF)


def with_another_choice(rng, reading):
    lines = list(reading.lines)
    if lines:
        at = rng.randrange(len(lines))
        line, kind = lines[at], rng.random()
        if kind < 0.4 and line.ask:
            ask = another_ask(rng, line.ask)
            lines[at] = line._replace(ask=ask, carried=line.carried if ask.replaced else 0)
        elif kind < 0.8:
            moved = rng.choice([line.at ^ 16, line.at + 256, 0, rng.getrandbits(32)]) & 0xFFFFFFFF
            lines[at] = line._replace(at=moved, zeroed=line.zeroed and moved != 0, carried=line.carried if moved else 0)
        elif kind < 0.9 and line.at and line.ask and line.ask.replaced:
            lines[at] = line._replace(carried=rng.choice([0, 1, 8, 256, max(line.carried, 1) - 1, line.carried + 1, rng.getrandbits(32)]) & 0xFFFFFFFF)
        else:
            lines[at] = line._replace(zeroed=line.at != 0 and not line.zeroed)
    return reading._replace(lines=lines)


def with_fewer_or_more_choices(rng, reading):
    lines = list(reading.lines)
    if lines and rng.random() < 0.5:
        del lines[rng.randrange(len(lines))]
    else:
        new = Choice(rng.choice([0, 0x20000, rng.getrandbits(22) * 16]), False, some_ask(rng) if reading.version == 2 else None)
        lines.insert(rng.randrange(len(lines) + 1), new)
    return reading._replace(lines=lines)


def with_other_numbers(rng, reading):
    if rng.random() < 0.5:
        return reading._replace(steps=max(0, reading.steps + rng.choice([-100, -2, -1, 1, 2, 100])))
    return reading._replace(taken=max(0, reading.taken + rng.choice([-1, 1])))


def with_another_form(rng, reading):
    # a smaller window may not have room
    return reading._replace(window=min(64, reading.window + rng.choice([0, 1])), frame=rng.choice(["line", "length", "whole"]))


def with_another_version(_, reading):
    """The head of the other version, and the lines as they are."""
    return reading._replace(version=3 - reading.version)


CHANGES = [with_another_choice] * 3 + [with_fewer_or_more_choices, with_other_numbers, with_another_form, with_another_version]


def changed_stream(rng, stream):
    """The input with a byte changed, or cut."""
    if not stream or rng.random() < 0.5:
        return stream[:rng.randrange(len(stream) + 1)]
    at = rng.randrange(len(stream))
    return stream[:at] + bytes([stream[at] ^ (1 << rng.randrange(8))]) + stream[at + 1:]


# ---- sessions


class Counted:
    """How often each answer came, and how many differ."""

    def __init__(self):
        self.answers, self.wrong, self.all = collections.Counter(), 0, 0

    def add(self, what, answer, found):
        self.all += 1
        self.answers[answer[0]] += 1
        self.wrong += bool(found)
        for difference in found:
            print("%s: %s" % (what, difference))

    def tell(self, name):
        print("%d %s agree, %d differ" % (self.all - self.wrong, name, self.wrong))
        print("answers: " + ", ".join("%s %d" % pair for pair in sorted(self.answers.items())))


class Replays:
    """Sessions, and replays and conversions of what they left."""

    NAMES = {"replay": "replays", "convert": "conversions"}

    def __init__(self, rx, path, guards):
        self.rx, self.folder, self.counts = beside_rx.Rx(rx, True, True, guards), Folder(rx, path), collections.defaultdict(Counted)

    def session(self, name):
        """Runs a session, and then its record again, as both versions say it, and something else."""
        pair = KeptPair(name, self.rx)
        done, found = pair.differences()
        if found or done.answer[0] not in ENDS:
            self.counts["sessions"].add(name, done.answer, found or ["it has no end"])
            return
        self.counts["sessions"].add(name, done.answer, [])
        self.folder.put("p", executable(*pair.segments))
        reading = read_record(pair.files["r"])
        sends = b"".join(trunk.piece_frame(send[0], send[1]) for send in done.session.survivor.sends)
        # what is carried version 1 can't say
        for told in (reading, *([] if any(line.carried for line in reading.lines) else [without_asks(reading)])):
            for command, expected in (("replay", (sends, OLD)), ("convert", (b"", pair.files["r"]))):
                came, found = self.folder.differences(command, pair.segments, record_text(told), pair.stream)
                if (came.output, came.new) != expected:
                    found.append("it isn't what the session left")
                self.counts["%s of version %d" % (self.NAMES[command], told.version)].add(name, came.answer, found)
        self.changed(pair, reading, random.Random(name))

    def changed(self, pair, reading, rng):
        """Changes the record, or else the input."""
        reading, stream = without_asks(reading) if rng.random() < 0.4 else reading, pair.stream
        if rng.random() < 0.8:
            reading = rng.choice(CHANGES)(rng, reading)
        else:
            stream = changed_stream(rng, stream)
        for command, what in self.NAMES.items():
            came, found = self.folder.differences(command, pair.segments, record_text(reading), stream)
            self.counts["changed " + what].add(pair.name + ", changed", came.answer, found)


class KeptPair(beside_rx.Pair):
    """A session whose files are kept."""

    def __init__(self, name, rx):
        super().__init__(name, rx, False, False)
        self.name, self.files = name, {}

    def in_second_engine(self):
        done, self.files = super().in_second_engine()
        return done, self.files


def compare_replays(rx, runs, seed, guards=True):
    """Sessions, replays and conversions; how many differ."""
    with tempfile.TemporaryDirectory() as path:
        replays = Replays(rx, path, guards)
        for number in range(runs):
            replays.session("%d %d" % (seed, number))
    for name, counted in replays.counts.items():
        counted.tell(name)
    return sum(counted.wrong for counted in replays.counts.values())


# ---- readings


def some_line(rng, version):
    """A choice that a record may have."""
    at, zeroed = rng.choice([(0, False), (rng.getrandbits(32), False), (rng.getrandbits(28) * 16 + 16 & 0xFFFFFFFF, True)])
    choice = Choice(at, zeroed and at != 0, some_ask(rng) if version == 2 else None)
    if at and choice.ask and choice.ask.replaced:
        choice = choice._replace(carried=rng.choice([0, 1, 0xFFFFFFFF, rng.getrandbits(32)]))
    return choice if is_possible(choice) else choice._replace(zeroed=True)


def some_record(rng):
    """A record with a reading, as lines."""
    version, most = rng.choice([1, 2, 2]), rng.choice([0, 1, 5, 40])
    lines = [choice_line(some_line(rng, version)) for _ in range(rng.randrange(most + 1))]
    steps = rng.choice([0, 3, rng.randrange(1000), rng.getrandbits(40), (1 << 63) - 1])
    taken = rng.choice([0, rng.randrange(10), 1 << 20])
    head = head_line(rng.choice([1, 4, 9, 10, 64]), rng.choice(["line", "length", "whole"]), version)
    return [head, *lines, end_line(steps, taken)]


OTHER_LINES = [b"\n", b"m 00000000 z\n", b"end 0 0\n", b"m 00010000 -\n", b"\xff\n", b"m 00010000 -\r\n", b"m 00010000 - 00000010\n",
               b"m 00000000 z 00000010\n", b"c 00010000 - 00000001 00000001\n", b"c 00000000 z 00000001 00000001\n",
               b"c 00000000 - 00000001 00000001\n", b"c 00010000 z 00000001 00000001\n", b"r 00000000 - 00010000 00000001\n",
               b"r 00010000 - 00000001\n", b"m 00010000 - 00000001 00000001\n", b"c 00010000 z\n", b"r 00000001 - 00000000 00000000 \n",
               b"r 00020000 - 00010000 00000001 00000001\n", b"r 00020000 - 00010000 00000001 00000000\n", b"r 00020000 - 00000000 00000001 00000001\n",
               b"r 00000000 - 00010000 00000001 00000001\n", b"c 00010000 z 00000001 00000001 00000001\n"]


def spoil_a_byte(rng, text):
    at = rng.randrange(len(text))
    byte = bytes([rng.choice([rng.randrange(256), *b"0123456789abcdefABCDEF -zmr\n\r\t"])])
    return rng.choice([text[:at] + byte + text[at + 1:], text[:at] + byte + text[at:], text[:at] + text[at + 1:]])


def spoil_a_line(rng, text):
    lines = text.splitlines(keepends=True)
    at, other = rng.randrange(len(lines)), rng.randrange(len(lines))
    how = rng.randrange(5)
    if how == 0:
        del lines[at]
    elif how == 1:
        lines.insert(at, lines[other])
    elif how == 2:
        lines[at], lines[other] = lines[other], lines[at]
    elif how == 3:
        lines[at] = lines[at][:rng.randrange(len(lines[at]))] + rng.choice([b"", b"\n"])
    else:
        lines.insert(at, rng.choice(OTHER_LINES))
    return b"".join(lines)


def spoil_a_number(rng, text):
    words = text.split(b" ")
    at = rng.randrange(len(words))
    words[at] = rng.choice([b"0" + words[at], b"+" + words[at], words[at].upper(), words[at] + b"0", b"65", b"9223372036854775808", b"1048577", b"18446744073709551616", b""])
    return b" ".join(words)


def cut(rng, text):
    return text[:rng.randrange(len(text))]


WAYS = [spoil_a_byte, spoil_a_byte, spoil_a_line, spoil_a_line, spoil_a_number, cut]


def spoilt(rng):
    text = b"".join(some_record(rng))
    for _ in range(rng.choice([1, 1, 1, 2])):
        text = rng.choice(WAYS)(rng, text) if text else text
    return text


def reading_of(text):
    try:
        return read_record(text)
    except RecordRefused as refused:
        return refused.args[0]


def compare_readings(rx, runs, seed):
    """Spoilt records; how many differ."""
    rng, counted, lines = random.Random("records %d" % seed), Counted(), collections.Counter()
    program = guests.program("three")
    stream = b"".join(trunk.frame_of(event) for event in inputs.some_events(rng, "line", large=False))
    with tempfile.TemporaryDirectory() as path:
        folder = Folder(rx, path)
        folder.put("p", executable(*program))
        for number in range(runs):
            text = spoilt(rng)
            came, found = folder.differences("replay" if rng.random() < 0.7 else "convert", program, text, stream)
            reading = reading_of(text)
            lines[min(reading, 5) if isinstance(reading, int) else 0] += 1
            counted.add("record %d of seed %d, %r" % (number, seed, text), came.answer, found)
    counted.tell("records")
    told = ["%s %d" % ("read" if line == 0 else "line %d" % line if line < 5 else "a later line", lines[line]) for line in sorted(lines)]
    print("refused at: " + ", ".join(told))
    return counted.wrong
