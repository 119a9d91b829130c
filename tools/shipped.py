#!/usr/bin/env python3
"""Whether each shipped guest does in the built rx what its description says, run from the shell.

The example guests are assembled by `rx asm` from their texts in crates/example_guests/src; the servers in C are the built ones of
guests. Each run is a line of the shell, `printf INPUT | rx run GUEST ..`, in a folder of its own. Standard output, the status and
the answer that standard error tells are compared with what was worked out by hand from the guests' texts and from docs/USING.md. A
line that differs is printed, so that it can be run again.

Behind a run that came to its end its record is replayed, `printf INPUT | rx replay GUEST record`. That has to write the same bytes; but where
replies were held back, they may come in another order, the same to each connection. Then it is converted, as it is and as version 1 says
it, `printf INPUT | rx convert GUEST record new`. That has to give the record, both times.

With --diagnose those with a fault run once more by `rx diagnose`. Output, status, record and report have to be those of `rx run`, and the diagnosis has to
be what stands here.

With --no-recovery the first failure has to be the end, and nothing is diagnosed. Without it the values are those of an rx that recovers.
With --no-replay nothing is replayed or converted, with --no-convert nothing is converted, and with --no-guard no run has a guard.

usage: shipped.py [--no-recovery] [--no-replay | --no-convert] [--diagnose] [--no-guard] [RX]
RX is the built rx, crates/rx/out/rx unless it is given. The status is 0 where all runs are right.
"""

import argparse
import collections
import os
import re
import subprocess
import sys
import tempfile

HERE = os.path.dirname(os.path.abspath(__file__))
sys.path.insert(0, os.path.join(HERE, "..", "compare"))

# pylint: disable=wrong-import-position
from second.checks import OPENS_0, lines_in, out, piece  # noqa: E402
from second.guests import FOLDER, text_of  # noqa: E402
from second.said import answer_of  # noqa: E402
from second.trunk import CLOSES, OPENS, SETTLES, frame, payloads  # noqa: E402

TOP = os.path.join(HERE, "..")
SERVERS = os.path.join(TOP, "guests")

FINISHED = ("Finished",)
BUDGET = 1_000_000  # where it isn't given

# A guest of the example guests, or "C NAME" for a server in C; options of rx; the input; and output and answer. `recovers` is
# output and answer of an rx that recovers, where these are others.
Run = collections.namedtuple("Run", "guest options stream output answer recovers", defaults=(FINISHED, None))


def gave_up(point, cause):
    return ("GaveUp", point, cause)


def opens(*connections):
    return b"".join(frame(OPENS, connection) for connection in connections)


def told(number):
    return b"%08x\n" % number


NAMES = [b"name%03d" % number for number in range(129)]
LONGEST = b"l" * 4095 + b"\n"
HEAP = 0x13000  # of guests whose text takes a page, and whose data takes two

ECHO = [
    Run("echo", "", lines_in(b"hi\n", b"two words\n"), out((0, b"hi\n"), (0, b"two words\n"))),
    Run("echo", "", b"", b""),
    # lines of three connections, in pieces
    Run("echo", "--frame line", opens(0, 4095, 7) + piece(4095, b"x") + piece(0, b"a\nb\nc") + piece(7, b"") + piece(4095, b"y\n\n")
        + piece(0, b"\n"),
        out((0, b"a\n"), (0, b"b\n"), (4095, b"xy\n"), (4095, b"\n"), (0, b"c\n"))),
    Run("echo", "", lines_in(LONGEST), out((0, LONGEST))),
    Run("echo", "", lines_in(b"hi\n", b"l" + LONGEST), out((0, b"hi\n")), ("MessageTooLong", 0)),
    Run("echo", "--frame length", lines_in(b"\2\0\0\0hi\0\0", b"\0\0\3\0\0\0yes\1\0"), out((0, b"hi"), (0, b"yes"))),
    Run("echo", "--frame length", lines_in(b"\1\x10\0\0"), b"", ("MessageTooLong", 0)),
    Run("echo", "--frame whole", opens(3) + piece(3, b"a\nb") + piece(3, b"") + piece(3, LONGEST), out((3, b"a\nb"), (3, LONGEST))),
    Run("echo", "--frame whole", opens(3) + piece(3, LONGEST + b"\n"), b"", ("MessageTooLong", 3)),
    # its bytes are held until 1000 items more have come, the connection closes, or all is settled
    Run("echo", "--hold 1000", opens(0, 1) + piece(0, b"a\n") + piece(1, b"b\n") + frame(CLOSES, 1) + frame(SETTLES, 0) + piece(0, b"c\n"),
        out((1, b"b\n"), (0, b"a\n"), (0, b"c\n"))),
]

REFUSED = [
    Run("echo", "", lines_in(b"hi\n") + frame(5, 0), out((0, b"hi\n")), ("InputRefused", 1, 13)),
    Run("echo", "", lines_in(b"hi\n") + frame(OPENS, 4096), out((0, b"hi\n")), ("InputRefused", 2, 13)),
    Run("echo", "", opens(0, 0), b"", ("InputRefused", 3, 5)),
    Run("echo", "", opens(0) + frame(CLOSES, 0) + opens(0), b"", ("InputRefused", 3, 10)),
    Run("echo", "", piece(0, b"hi\n"), b"", ("InputRefused", 4, 0)),
    Run("echo", "", opens(0) + frame(CLOSES, 0) + piece(0, b"hi\n"), b"", ("InputRefused", 4, 10)),
    Run("echo", "", lines_in(b"hi\n") + b"\2\0\0", out((0, b"hi\n")), ("InputRefused", 5, 13)),
    Run("echo", "", lines_in(b"hi\n")[:-1], b"", ("InputRefused", 5, 5)),
    Run("echo", "", opens(0) + frame(SETTLES, 0, b"x"), b"", ("InputRefused", 6, 5)),
]

WITHOUT_FAULT = [
    Run("counter", "", opens(0, 9) + b"".join(piece(number % 2 * 9, b"x\n") for number in range(1, 13)),
        out(*[(number % 2 * 9, b"%d\n" % number) for number in range(1, 13)])),
    Run("divide", "", lines_in(b"7 -2\n", b"-7 2\n", b"7 0\n", b"-2147483648 -1\n", b"2147483647 10\n", b"x\n", b"-5\n"),
        out(*[(0, line) for line in (b"-3 1\n", b"-3 -1\n", b"-1 7\n", b"-2147483648 0\n", b"214748364 7\n", b"-1 0\n", b"-1 -5\n")])),
    Run("dirty", "--window 1 --frames 2", lines_in(b"a\n", b"b\n", b"c\n"), out((0, b"a\n"), (0, b"b\n"), (0, b"c\n"))),
    Run("three", "", b"", b""),
    Run("three", "--budget 4", b"", b""),
    Run("three", "--budget 3", b"", b"", gave_up(0, "Hang")),
    Run("three", "", OPENS_0, b"", gave_up(1, "BadAccess")),
    Run("keys", "", opens(0, 1) + piece(0, b"set city Rome\n") + piece(1, b"get city\n") + piece(1, b"set city Oslo\n") + piece(0, b"get city\n")
        + piece(0, b"get sea\n") + piece(0, b"put sea\n") + piece(0, b"set sea \n") + piece(0, b"set " + b"k" * 16 + b" v\n"),
        out((0, b"ok\n"), (1, b"Rome\n"), (1, b"ok\n"), (0, b"Oslo\n"), (0, b"none\n"), (0, b"bad\n"), (0, b"bad\n"), (0, b"ok\n"))),
    Run("grow", "", opens(0, 1) + piece(0, b"a\n") + piece(1, b"b\n") + piece(0, b"\n"),
        out((0, b"a\n"), (1, b"a\nb\n"), (0, b"a\nb\n\n"))),
    Run("grow", "", lines_in(*[LONGEST] * 17), out(*[(0, LONGEST * number) for number in range(1, 16)])),
    Run("keys", "", lines_in(*[b"set %s v\n" % name for name in NAMES], b"set name000 w\n", b"get name000\n"),
        out(*[(0, b"ok\n")] * 128, (0, b"full\n"), (0, b"ok\n"), (0, b"w\n"))),
]

LONG = b"a" * 39 + b"\n"
GO = opens(0, 1) + piece(1, b"go\n")

WITH_FAULT = [
    Run("keys", "", lines_in(b"set " + b"k" * 17 + b" v\n", b"get " + b"k" * 17 + b"\n"), b"", gave_up(2, "AssertFailed 6"),
        (out((0, b"ok\n"), (0, b"v\n")), FINISHED)),
    Run("null", "", lines_in(b"hi\n"), b"", gave_up(2, "BadAccess")),
    Run("overflow", "", lines_in(b"hi\n", b"s" * 15 + b"\n"), out((0, b"hi\n"), (0, b"s" * 15 + b"\n"))),
    Run("overflow", "", lines_in(b"hi\n", LONG, b"hi\n"), out((0, b"hi\n")), gave_up(3, "AssertFailed 1"),
        (out((0, b"hi\n"), (0, LONG), (0, b"hi\n")), FINISHED)),
    Run("unset", "", lines_in(b"hi\n"), b"", gave_up(2, "AssertFailed 2"), (out((0, b"hi\n")), FINISHED)),
    Run("twice", "", lines_in(b"hi\n"), b"", gave_up(2, "BadFree"), (out((0, b"hi\n")), FINISHED)),
    Run("stale", "", lines_in(b"a\n", b"b\n", b"c\n"), out((0, b"a\n")), gave_up(3, "AssertFailed 3"),
        (out((0, b"a\n"), (0, b"b\n"), (0, b"c\n")), FINISHED)),
    Run("stale_grow", "", lines_in(b"a\n", b"b\n"), b"", gave_up(2, "AssertFailed 7"), (out((0, b"a\n"), (0, b"b\n")), FINISHED)),
    Run("tell_free", "", lines_in(b"a\n"), out((0, told(HEAP))), gave_up(2, "BadFree"), (out((0, told(HEAP))), FINISHED)),
    Run("tell_over", "", lines_in(b"a\n"), out((0, told(HEAP))), gave_up(2, "AssertFailed 5")),
    # held back when it fails, and passed at the end
    Run("tell_over", "--hold 2", lines_in(b"a\n"), out((0, told(HEAP))), gave_up(2, "AssertFailed 5"), (out((0, told(HEAP + 256))), FINISHED)),
    # `a` was sent before the failure, and isn't written a second time
    Run("late", "", lines_in(b"x\n"), out((0, b"a\n")), gave_up(2, "BadFree"), (out((0, b"a\n")), FINISHED)),
    Run("pair", "", GO, out((0, b"a\n")), gave_up(3, "BadFree"), (out((0, b"a\n"), (1, b"b\n")), FINISHED)),
]

SEVENTY = b"add " + b" ".join(b"%d" % number for number in range(1, 71)) + b"\n"
SAW = out((0, b"<tr><td>saw 12&quot;</td><td>steel</td><td>24.90</td></tr>\n"))
HAND_SAW = out((0, b"<tr><td>hand saw 12&quot;</td><td>steel</td><td>19.90</td></tr>\n"))
HALL = out((0, b"hall: users 1\n"), (0, b"hall: users 1\n"), (0, b"hall: users 1, looks 1\n"))
FOUR = out((0, b"ann 30, bob 12, cid 7, dan 9; most ann\n"))
NUMBERS = out((0, b"numbers 70\n"), (0, b"numbers 0\n"), (0, b"numbers 2\n"))

# `%3C` takes three bytes in a form, and `&lt;` four: five of them and a space between leave no byte of a block.
HEARTS = b"POST /post HTTP/1.1\r\nHost: x\r\nContent-Type: application/x-www-form-urlencoded\r\nContent-Length: 29\r\n\r\ntext=%3C3+%3C3+%3C3+%3C3+%3C3"
POSTED = out((0, b"HTTP/1.1 303 See Other\r\nContent-Type: text/plain; charset=utf-8\r\nContent-Length: 14\r\nLocation: /\r\n\r\n303 See Other\n"))

IN_C = [
    Run("C echo", "--frame whole", lines_in(b"hi\n", b"\0\xff"), out((0, b"hi\n"), (0, b"\0\xff"))),
    Run("C upper", "", lines_in(b"two words\n"), out((0, b"TWO WORDS\nmessage 1: 2 words of 4.00 letters; in all 2 words, "
        b"the longest of 5, the most frequent letter O\n"))),
    Run("C store", "", opens(0, 1) + piece(0, b"set city Rome\n") + piece(1, b"get city\n") + piece(0, b"set city Oslo\n")
        + piece(1, b"get city\n") + frame(CLOSES, 0) + piece(1, b"get city\n"),
        out((0, b"ok\n"), (1, b"Rome\n"), (0, b"ok\n"), (1, b"Oslo\n"), (1, b"none\n"))),
    Run("C http", "--frame whole", lines_in(b"GET /hello?name=%41nn+B HTTP/1.1\r\nHo", b"st: x\r\n\r\nHEAD / HTTP/1.0\r\n\r\n"),
        out((0, b"HTTP/1.1 200 OK\r\nContent-Type: text/plain; charset=utf-8\r\nContent-Length: 14\r\n\r\nHello, Ann B!\n"),
            (0, b"HTTP/1.1 200 OK\r\nContent-Type: text/html; charset=utf-8\r\nContent-Length: 316\r\nConnection: close\r\n\r\n"))),
    Run("C overrun", "", lines_in(b"saw 12\",steel,24.90\n", b"hand saw 12\",steel,19.90\n"),
        SAW, gave_up(3, "AssertFailed 1"), (SAW + HAND_SAW, FINISHED)),
    Run("C dangling", "", lines_in(b"enter hall\n", b"enter hall\n", b"look\n", b"leave\n"), HALL, gave_up(5, "BadFree"),
        (HALL + out((0, b"left hall\n")), FINISHED)),
    Run("C moved", "", lines_in(b"ann 30 bob 12 cid 7 dan 9\n", b"ann 30 bob 12 cid 7 dan 9 eve 5 bob 20\n"), FOUR,
        gave_up(3, "AssertFailed 1"), (FOUR + out((0, b"ann 30, bob 32, cid 7, dan 9, eve 5; most bob\n")), FINISHED)),
    Run("C unset", "", lines_in(SEVENTY, b"clear\n", b"add 5 8\n", b"show\n"), NUMBERS, gave_up(5, "AssertFailed 1"),
        (NUMBERS + out((0, b"numbers 2, least 5, most 8, mean 6.50, above it 1\n")), FINISHED)),
    Run("C board", "--frame whole", lines_in(HEARTS), b"", gave_up(2, "AssertFailed 1"), (POSTED, FINISHED)),
    Run("C hopeless", "", lines_in(b"90 min in h\n", b"90 min in fortnights\n"), out((0, b"1.50 h\n")), gave_up(3, "BadAccess")),
]

# -- with a guard


def guarded(run, mode, *values):
    """The same run with a guard, and its values: output and answer, and where they are others those of an rx that recovers."""
    output, answer, recovers = (*values, None, None, None)[:3] if values else run[3:]
    return Run(run.guest, ("--guard %s %s" % (mode, run.options)).strip(), run.stream, output, answer, recovers)


OF_C = {run.guest[2:]: run for run in IN_C}
HALL_1 = out((0, b"hall: users 1\n"))
LONG_LINE = [run for run in WITH_FAULT if run.guest == "overflow"][1]
STALE = [run for run in WITH_FAULT if run.guest == "stale"][0]
TOLD_OVER = [run for run in WITH_FAULT if run.guest == "tell_over"]

# In the heap a block stands beside the next one, so it is mostly padding, or a freed block behind which nothing stands, that lets a guard see
# an access. With that of blocks what a trial makes harmless is refused there.
GUARDED = [
    guarded(LONG_LINE, "extent", out((0, b"hi\n")), gave_up(3, "BadAccess"), LONG_LINE.recovers),
    guarded(LONG_LINE, "block", out((0, b"hi\n")), gave_up(3, "BadAccess")),
    guarded(STALE, "extent"),
    guarded(STALE, "block", out((0, b"a\n")), gave_up(3, "AssertFailed 3")),
    guarded(TOLD_OVER[0], "extent", out((0, told(HEAP))), gave_up(2, "BadAccess")),
    guarded(TOLD_OVER[1], "extent", out((0, told(HEAP))), gave_up(2, "BadAccess"), TOLD_OVER[1].recovers),
    *[guarded(OF_C[name], mode) for name in ("echo", "upper", "store", "http", "hopeless") for mode in ("extent", "block")],
    *[guarded(OF_C[name], "extent") for name in ("overrun", "moved", "board")],
    guarded(OF_C["overrun"], "block", SAW, gave_up(3, "AssertFailed 1")),
    # who enters a room twice is told of it by memory that was freed
    guarded(OF_C["dangling"], "extent", HALL_1, gave_up(3, "BadAccess"), OF_C["dangling"].recovers),
    guarded(OF_C["dangling"], "block", HALL_1, gave_up(3, "BadAccess")),
    guarded(OF_C["moved"], "block", FOUR, gave_up(3, "AssertFailed 1")),
    *[guarded(OF_C["unset"], mode, NUMBERS, gave_up(5, "BadAccess"), OF_C["unset"].recovers) for mode in ("extent", "block")],
    guarded(OF_C["board"], "block", b"", gave_up(2, "AssertFailed 1")),
]

# -- with a diagnosis

# A run with one failure; for each checkpoint, from the newest, what comes of the five environments there; and the verdict. `s` is survived,
# `=` the failure's own cause, `a` BadAccess, `f` AssertFailed 1, `c` Contradicts, `b` Behind.
Diagnosed = collections.namedtuple("Diagnosed", "run rows verdict")
RESULTS = {"s": "survived", "a": "BadAccess", "f": "AssertFailed 1", "c": "Contradicts", "b": "Behind"}
ENVIRONMENTS = ("pad", "zero", "isolate", "delay", "all")
FAULTY = {run.guest: run for run in WITH_FAULT + IN_C}
GUARDS = {(run.guest, run.options.split()[1]): run for run in GUARDED}


def same(newest, row):
    return dict.fromkeys(range(newest, -1, -1), row)


DIAGNOSES = [
    Diagnosed(FAULTY["null"], same(1, "====="), "none"),
    Diagnosed(LONG_LINE, same(2, "s===s"), "pad all"),
    Diagnosed(FAULTY["unset"], same(1, "=s=ss"), "zero delay all"),
    Diagnosed(FAULTY["twice"], same(1, "===ss"), "delay all"),
    Diagnosed(STALE, {2: "=====", 1: "===ss", 0: "===ss"}, "delay all"),
    Diagnosed(FAULTY["stale_grow"], same(1, "===ss"), "delay all"),
    Diagnosed(FAULTY["tell_free"], same(1, "c=csc"), "delay"),
    Diagnosed(TOLD_OVER[0], same(1, "c=c=c"), "none"),
    Diagnosed(TOLD_OVER[1], same(1, "s===s"), "pad all"),
    Diagnosed(FAULTY["late"], {1: "b=bsb", 0: "===bb"}, "delay"),
    Diagnosed(FAULTY["pair"], {2: "c=csc", 1: "c=csc", 0: "===cc"}, "delay"),
    Diagnosed(OF_C["overrun"], same(2, "s===s"), "pad all"),
    Diagnosed(OF_C["dangling"], {4: "=====", 3: "=====", **same(2, "===ss")}, "delay all"),
    Diagnosed(OF_C["moved"], same(2, "===ss"), "delay all"),
    Diagnosed(OF_C["unset"], {4: "=====", 3: "=ss=s", 2: "=ssss", 1: "=s=ss", 0: "=s=ss"}, "zero isolate all"),
    Diagnosed(OF_C["board"], same(1, "s===s"), "pad all"),
    Diagnosed(OF_C["hopeless"], same(2, "====="), "none"),
    Diagnosed(GUARDS["overflow", "block"], same(2, "====="), "none"),
    Diagnosed(GUARDS["C overrun", "block"], same(2, "a===a"), "none"),
    Diagnosed(GUARDS["C dangling", "extent"], same(2, "===ss"), "delay all"),
    Diagnosed(GUARDS["C dangling", "block"], same(2, "====="), "none"),
    Diagnosed(GUARDS["C moved", "block"], same(2, "===aa"), "none"),
    Diagnosed(GUARDS["C unset", "block"], {4: "=====", 3: "=ss=s", 2: "=ssss", 1: "=s=ss", 0: "=s=ss"}, "zero isolate all"),
    Diagnosed(GUARDS["C unset", "extent"], {4: "=====", 3: "fss=s", 2: "fssss", 1: "=s=ss", 0: "=s=ss"}, "zero isolate all"),
    Diagnosed(GUARDS["C hopeless", "block"], same(2, "====="), "none"),
]

RUNS = ECHO + REFUSED + WITHOUT_FAULT + WITH_FAULT + IN_C

# Lines of the shell, their output and status. Names of guests are those of the assembled ones.
WORDS = "--record record --report report"
LINES = [
    ('"$RX"', b"", 2),
    ('"$RX" replay echo', b"", 2),
    ('"$RX" convert echo record', b"", 2),
    ('"$RX" convert echo record record', b"", 2),
    ('echo nonsense > unread; "$RX" convert echo unread new2 < /dev/null; status=$?; test -e new2 || exit $status', b"", 3),
    ('"$RX" run echo --record record', b"", 2),
    ('"$RX" run echo --record report --report report', b"", 2),
    ('"$RX" run echo other %s' % WORDS, b"", 2),
    ('"$RX" run echo %s --record again' % WORDS, b"", 2),
    ('"$RX" run echo %s --frame lines' % WORDS, b"", 2),
    ('"$RX" run echo %s --budget 0' % WORDS, b"", 2),
    ('"$RX" run echo %s --budget 68719476737' % WORDS, b"", 2),
    ('"$RX" run echo %s --keep 0' % WORDS, b"", 2),
    ('"$RX" run echo %s --keep 4294967296' % WORDS, b"", 2),
    ('"$RX" run echo %s --env none' % WORDS, b"", 2),
    ('"$RX" run echo %s --window 65' % WORDS, b"", 2),
    ('"$RX" run echo %s --hold 01' % WORDS, b"", 2),
    ('"$RX" run echo %s --ring=3' % WORDS, b"", 2),
    ('"$RX" asm echo.s', b"", 2),
    ('"$RX" run echo.s %s < /dev/null' % WORDS, b"", 3),
    ("echo nonsense > wrong.s; \"$RX\" asm wrong.s wrong; status=$?; test -e wrong || exit $status", b"", 3),
    ("printf 'li a0, 7\\nli a7, 5\\necall\\n' > seven.s; \"$RX\" asm seven.s seven && \"$RX\" run seven %s < /dev/null" % WORDS, b"", 1),
    ("printf 'li a0, 0\\nli a7, 5\\necall\\n' > zero.s; \"$RX\" asm zero.s zero && \"$RX\" run zero %s < /dev/null" % WORDS, b"", 0),
    ('"$RX" run echo %s < /' % WORDS, b"", 7),
    ("printf '\\1\\0\\0\\0\\0\\2\\0\\0\\3\\0hi\\n' | \"$RX\" run echo %s > /dev/full" % WORDS, b"", 8),
    ('"$RX" run nothing %s < /dev/null' % WORDS, b"", 9),
    # the program may stand anywhere, and a bound of each option is one of its values
    ("printf '\\1\\0\\0\\0\\0\\2\\0\\0\\2\\0hi' | \"$RX\" run --window 64 --report report --frame whole --hold 1000 echo --ring 16 --every 64 "
     "--frames 2 --budget 68719476736 --form json --record record", b"\2\0\0\2\0hi", 0),
    # no file becomes a descriptor that was closed: no reply stands in the report
    ("printf '\\1\\0\\0\\0\\0\\2\\0\\0\\3\\0hi\\n' | \"$RX\" run echo %s >&-; status=$?; cat report; exit $status" % WORDS, b"rx report 1\n", 8),
    ('"$RX" run echo %s <&-; status=$?; cat report; exit $status' % WORDS, b"rx report 1\n", 7),
    ("printf '\\1\\0\\0\\0\\0\\2\\0\\0\\3\\0hi\\n' | \"$RX\" run echo %s 2>&- && tail -n +2 report | cut -c -13" % WORDS, b"\2\0\0\3\0hi\nend 0 taken 2\n", 0),
    # two names of one file, by the name or by a link
    ('cp echo prog; "$RX" run ./prog --record prog --report report < /dev/null; status=$?; cmp echo prog && exit $status', b"", 2),
    ('ln -s prog link; "$RX" run prog --record record --report link < /dev/null; status=$?; cmp echo prog && exit $status', b"", 2),
    ('ln prog hard; "$RX" run prog --record hard --report report < /dev/null; status=$?; cmp echo prog && exit $status', b"", 2),
    ('rm -f r; "$RX" run echo --record r --report .//r < /dev/null; status=$?; test -e r || exit $status', b"", 2),
    ('cp seven.s kept.s; "$RX" asm seven.s ./seven.s; status=$?; cmp kept.s seven.s && exit $status', b"", 2),
    # a file that is there and is something else
    ('cp echo other; "$RX" run echo --record other --report report < /dev/null; status=$?; cmp echo other && exit $status', b"", 9),
    ('echo text > text; "$RX" run echo --record record --report text < /dev/null; status=$?; cat text; exit $status', b"text\n", 9),
    ('"$RX" asm seven.s text; status=$?; cat text; exit $status', b"text\n", 9),
    ('"$RX" run echo --record record --report report < /dev/null && "$RX" convert echo record text < /dev/null; status=$?; cat text; exit $status', b"text\n", 9),
    # what was a record, a report or an executable is written over, and so is an empty file
    (': > empty; "$RX" run echo --record record --report empty < /dev/null && "$RX" asm seven.s zero && cut -c -11 empty', b"rx report 1\nend 0 taken\n", 0),
]

WITH_GUARD = [
    ('"$RX" run echo %s --guard on' % WORDS, b"", 2),
    ('"$RX" run echo %s --guard' % WORDS, b"", 2),
    ('"$RX" run echo %s --guard off --guard block' % WORDS, b"", 2),
    ('"$RX" replay echo record --guard off', b"", 2),
    ('"$RX" convert echo record new2 --guard off', b"", 2),
]
WITH_DIAGNOSIS = [
    ('"$RX" diagnose echo %s' % WORDS, b"", 2),
    ('"$RX" run echo %s --diagnosis diagnosis' % WORDS, b"", 2),
    ('"$RX" diagnose echo %s --diagnosis record' % WORDS, b"", 2),
    ('"$RX" diagnose echo %s --diagnosis report' % WORDS, b"", 2),
    ('"$RX" diagnose echo %s --diagnosis echo' % WORDS, b"", 2),
    ('"$RX" diagnose nothing %s --diagnosis untouched < /dev/null; status=$?; test -e untouched || exit $status' % WORDS, b"", 9),
]


# ---- the shell


def quoted(content):
    """Bytes as an operand of printf."""
    plain = b"abcdefghijklmnopqrstuvwxyzABCDEFGHIJKLMNOPQRSTUVWXYZ "
    return "'%s'" % "".join(chr(byte) if byte in plain else "\\%03o" % byte for byte in content)


class Shell:
    """Lines of the shell in a folder, where rx is RX."""

    def __init__(self, rx, folder):
        self.rx, self.folder, self.made = rx, folder, {}

    def run(self, line):
        done = subprocess.run(["sh", "-c", line], cwd=self.folder, env=dict(os.environ, RX=self.rx), capture_output=True, check=False)
        return done.stdout, done.returncode, done.stderr.decode(errors="replace")

    def text(self, name):
        with open(os.path.join(self.folder, name), encoding="utf-8") as file:
            return file.read()

    def program(self, guest):
        """The program file of a guest; None where its text isn't assembled."""
        if guest.startswith("C "):
            return os.path.join(SERVERS, guest[2:])
        if guest not in self.made:
            with open(os.path.join(self.folder, guest + ".s"), "w", encoding="utf-8") as text:
                text.write(text_of(guest))
            self.made[guest] = self.run('"$RX" asm %s.s %s' % (guest, guest))
        return guest if self.made[guest] == (b"", 0, "") else None


def differences(shell, run, recovers):
    """What differs in a run, and its line."""
    output, answer = run.recovers if recovers and run.recovers else (run.output, run.answer)
    program = shell.program(run.guest)
    if program is None:
        return ["assembly: %s %s %s" % shell.made[run.guest]], ""
    line = 'printf %s | "$RX" run %s --record record --report report %s' % (quoted(run.stream), program, run.options)
    came, status, said = shell.run(line)
    with open(os.path.join(shell.folder, "output"), "wb") as written:
        written.write(came)
    words = run.options.split()
    told_answer = answer_of(status, said, int(words[words.index("--budget") + 1]) if "--budget" in words else BUDGET)
    found = []
    if came != output:
        found.append("output %r in place of %r" % (came, output))
    if told_answer != answer:
        found.append("answer %s in place of %s" % (told_answer, answer))
    return found, line


def has_end(shell):
    """Whether the last run's record has its last line."""
    with open(os.path.join(shell.folder, "record"), "rb") as record:
        return b"\nend " in record.read()


def diagnosis_of(diagnosed, report, status):
    """The diagnosis that there should be, by what the report tells of the failure."""
    failure, cause = re.search(r"(?m)^(failure .* cause (.+) at [0-9a-f]{8})$", report).groups()
    entries = [(q, environment, RESULTS.get(letter, cause)) for q, row in diagnosed.rows.items() for environment, letter in zip(ENVIRONMENTS, row)]
    tries = ["try %d checkpoint %d env %s result %s" % (number, *entry) for number, entry in enumerate(entries)]
    return "\n".join(["rx diagnosis 1", failure, *tries, "verdict " + diagnosed.verdict, "end %d episodes 1" % status]) + "\n"


def diagnosis_differs(shell, diagnosed):
    """What differs where the run is diagnosed that was run last, and the line."""
    run = diagnosed.run
    line = 'printf %s | "$RX" diagnose %s --record record2 --diagnosis diagnosis --report report2 --tell off %s > output2' % (
        quoted(run.stream), shell.program(run.guest), run.options if "--guard" in run.options else ("--guard off " + run.options).strip())
    came, status, said = shell.run(line + "; status=$?; for file in output record report; do cmp $file ${file}2; done; exit $status")
    found = ["it isn't as without a diagnosis: %r" % came] if came else []
    answer = run.recovers[1] if run.recovers else run.answer
    if answer_of(status, said, BUDGET) != answer:
        return found + ["answer %s in place of %s" % (answer_of(status, said, BUDGET), answer)], line
    expected, ours = diagnosis_of(diagnosed, shell.text("report"), status), shell.text("diagnosis")
    return found + ["diagnosis %s in place of %s" % (ours, expected)] * (ours != expected), line


def replay_differs(shell, run):
    """What differs where the run's record is replayed, or None."""
    came, status, said = shell.run('printf %s | "$RX" replay %s record' % (quoted(run.stream), shell.program(run.guest)))
    if status:
        return "replay: status %d, %r" % (status, said)
    with open(os.path.join(shell.folder, "output"), "rb") as written:
        output = written.read()
    same = payloads(came) == payloads(output) if "--hold" in run.options else came == output
    return None if same else "replay: output %r in place of %r" % (came, output)


AS_VERSION_1 = "sed -e '1s/2/1/' -e 's/^[mcr] \\(........ .\\).*/m \\1/' record > first"


def conversion_differs(shell, run):
    """What differs where the run's record is converted, or None."""
    program, stream = shell.program(run.guest), quoted(run.stream)
    shell.run(AS_VERSION_1)
    for record in ("record", "first"):
        came, status, said = shell.run('printf %s | "$RX" convert %s %s new && cmp record new' % (stream, program, record))
        if status or came:
            return "conversion of %s: status %d, output %r, %r" % (record, status, came, said)
    return None


def line_differs(shell, line, output, status):
    """What differs in a line, or None. Each status but 0 comes with a sentence."""
    came, found, said = shell.run(line)
    if (came, found) != (output, status) or said.startswith("rx: ") != (status != 0):
        return "output %r, status %d, %r in place of %r, %d" % (came, found, said, output, status)
    return None


def main(words):
    parser = argparse.ArgumentParser(description="Runs each shipped guest from the shell.")
    parser.add_argument("--no-recovery", action="store_true")
    again = parser.add_mutually_exclusive_group()
    again.add_argument("--no-replay", action="store_true")
    again.add_argument("--no-convert", action="store_true")
    parser.add_argument("--diagnose", action="store_true")
    parser.add_argument("--no-guard", action="store_true")
    parser.add_argument("rx", nargs="?", default=os.path.join(TOP, "crates", "rx", "out", "rx"))
    asked = parser.parse_args(words)
    right, wrong, replays, diagnosed = collections.Counter(), 0, 0, 0
    diagnoses = {diagnosis.run: diagnosis for diagnosis in DIAGNOSES}
    texts = {name[:-3] for name in os.listdir(FOLDER) if name.endswith(".rt")} - {"lib", "catalogue"}
    for guest in sorted(texts - {run.guest for run in RUNS}):
        wrong += 1
        print("%s: it has no run here" % guest)
    with tempfile.TemporaryDirectory() as folder:
        shell = Shell(os.path.abspath(asked.rx), folder)
        for run in RUNS if asked.no_guard else RUNS + GUARDED:
            found, line = differences(shell, run, not asked.no_recovery)
            if not (found or asked.no_replay) and has_end(shell):
                replays += 1
                tests = [replay_differs] if asked.no_convert else [replay_differs, conversion_differs]
                found = [difference for difference in [test(shell, run) for test in tests] if difference]
            if not (found or asked.no_recovery or not asked.diagnose) and run in diagnoses:
                diagnosed += 1
                found, line = diagnosis_differs(shell, diagnoses[run])
            right[run.guest] += not found
            wrong += bool(found)
            for difference in found:
                print("%s: %s\n  %s" % (run.guest, difference, line))
        for line in LINES + WITH_GUARD * (not asked.no_guard) + WITH_DIAGNOSIS * asked.diagnose:
            difference = line_differs(shell, *line)
            right["other lines"] += not difference
            wrong += bool(difference)
            if difference:
                print("%s\n  %s" % (difference, line[0]))
    print(", ".join("%s %d" % pair for pair in sorted(right.items())))
    print("%d runs are right, %d aren't; %d were replayed, %d diagnosed" % (sum(right.values()), wrong, replays, diagnosed))
    return 1 if wrong else 0


if __name__ == "__main__":
    sys.exit(main(sys.argv[1:]))
