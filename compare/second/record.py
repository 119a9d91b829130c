"""The text of a record: the choices of a run, and how long it is.

Written from the form of the record. Version 2 says of each choice what was asked; version 1 doesn't, and is read alone.
"""

import collections
import re

from second.heap import Ask, CALLOC, Choice, MALLOC, REALLOC
from second.items import FRAMINGS

HEAD = re.compile(rb"rx record ([12]) window ([1-9][0-9]?) frame (line|length|whole)\n")
NUMBER, MARK = rb" ([0-9a-f]{8})", rb" ([-z])"
CHOICE = re.compile(rb"m" + NUMBER + MARK + rb"\n")  # of version 1
CHOICES = {MALLOC: re.compile(rb"m" + NUMBER + MARK + NUMBER + rb"\n"),
           CALLOC: re.compile(rb"c" + NUMBER + MARK + NUMBER * 2 + rb"\n"),
           REALLOC: re.compile(rb"r" + NUMBER + MARK + NUMBER * 2 + rb"(?:" + NUMBER + rb")?\n")}
NONE = b"%08x" % 0  # isn't written where it would be the number of bytes carried
LAST = re.compile(rb"end (0|[1-9][0-9]*) (0|[1-9][0-9]*)\n")
MOST_STEPS, MOST_TAKEN = 1 << 63, 1 << 20

# The window is in MiB. A line is a choice; of version 1 it has no ask.
Reading = collections.namedtuple("Reading", "version window frame lines steps taken")

# What stands in a record that may lack its last lines: `finish` is (steps, taken), or None.
Unfinished = collections.namedtuple("Unfinished", "version window frame lines finish")


class RecordRefused(Exception):
    """The record has no reading; the argument is the first line that isn't of its form."""


# ---- texts


def head_line(window, frame, version=2):
    assert frame in FRAMINGS
    return b"rx record %d window %d frame %s\n" % (version, window, frame.encode())


def choice_line(choice):
    """The line of a choice, of version 1 where it doesn't say what was asked."""
    answered = (choice.at, b"z" if choice.zeroed else b"-")
    ask = choice.ask
    if ask is None:
        return b"m %08x %s\n" % answered
    if ask.call == MALLOC:
        return b"m %08x %s %08x\n" % (*answered, ask.first)
    carried = b" %08x" % choice.carried if choice.carried else b""
    return b"%s %08x %s %08x %08x%s\n" % (b"c" if ask.call == CALLOC else b"r", *answered, ask.first, ask.second, carried)


def choice_lines(choices):
    return b"".join(choice_line(choice) for choice in choices)


def end_line(steps, taken):
    return b"end %d %d\n" % (steps, taken)


def record_text(reading):
    return head_line(reading.window, reading.frame, reading.version) + choice_lines(reading.lines) + end_line(reading.steps, reading.taken)


# ---- readings


def choice_of(line, version):
    """The choice of a line, or None."""
    found = {MALLOC: CHOICE.fullmatch(line)} if version == 1 else {call: form.fullmatch(line) for call, form in CHOICES.items()}
    for call, match in found.items():
        if match:
            at, mark, *numbers = match.groups()
            carried = numbers.pop() if call == REALLOC else None
            numbers = [int(number, 16) for number in numbers] + [0]
            choice = Choice(int(at, 16), mark == b"z", None if version == 1 else Ask(call, *numbers[:2]), int(carried or NONE, 16))
            return choice if is_possible(choice) and carried != NONE else None
    return None


def is_possible(choice):
    """Whether the mark is one that the address may have; and nothing is carried, or it is to a block that replaces another one."""
    if choice.carried and not (choice.at and choice.ask and choice.ask.replaced):
        return False
    if choice.at == 0:
        return not choice.zeroed
    return choice.zeroed or choice.ask is None or choice.ask.call != CALLOC


def lines_of(text):
    """The lines, each with its line feed; the last one may lack it."""
    lines = text.split(b"\n")
    return [line + b"\n" for line in lines[:-1]] + ([lines[-1]] if lines[-1] else [])


def head_of(lines):
    """Version, window and framing of the first line."""
    head = HEAD.fullmatch(lines[0]) if lines else None
    if not head or int(head.group(2)) > 64:
        raise RecordRefused(1)
    return int(head.group(1)), int(head.group(2)), head.group(3).decode()


def finish_of(line):
    """What a last line says, or None."""
    last = LAST.fullmatch(line)
    steps, taken = map(int, last.groups()) if last else (MOST_STEPS, 0)
    return (steps, taken) if steps < MOST_STEPS and taken <= MOST_TAKEN else None


def read_record(text):
    read = read_unfinished(text)
    lines = lines_of(text)
    if read.finish is None:
        # a line without its line feed isn't of its form either
        raise RecordRefused(len(lines) if not text.endswith(b"\n") else len(lines) + 1)
    return Reading(*read[:4], *read.finish)


def read_unfinished(text):
    """The same of a record whose session was stopped at any moment. A line without its line feed isn't looked at, but behind the last line."""
    lines = lines_of(text)
    head, choices = head_of(lines), []
    for number, line in enumerate(lines[1:], 2):
        choice, finish = choice_of(line, head[0]), finish_of(line)
        if choice:
            choices.append(choice)
        elif finish:
            if len(lines) > number:
                raise RecordRefused(number + 1)
            return Unfinished(*head, choices, finish)
        elif line.endswith(b"\n"):
            raise RecordRefused(number)
    return Unfinished(*head, choices, None)


def without_asks(reading):
    """The same as version 1 says it, which knows of nothing carried."""
    return reading._replace(version=1, lines=[line._replace(ask=None, carried=0) for line in reading.lines])
