#!/usr/bin/env python3
"""Checks the shipped guests: that they are executables that rx takes, and that they reply, fail and recover as they should.

What the given rx can't run yet runs in the second engine (compare/second), and all of it where no rx is given. Each line says
which it was.

usage: check.py [RX]
"""

import collections
import os
import re
import struct
import subprocess
import sys
import tempfile

HERE = os.path.dirname(os.path.abspath(__file__))
sys.path.insert(0, os.path.join(HERE, "..", "compare"))

# pylint: disable=wrong-import-position
from second.assembler import assemble  # noqa: E402
from second.machine import executable  # noqa: E402
from second.trunk import CLOSES, OPENS, frame, piece_frame  # noqa: E402

# Numbers of the ELF specification (System V ABI) and of the RISC-V ELF psABI.
ET_EXEC, EV_CURRENT, EM_RISCV = 2, 1, 243
RVC, FLOAT_ABI, RVE = 0x1, 0x6, 0x8
PT_LOAD, PT_DYNAMIC, PT_INTERP, PT_TLS = 1, 2, 3, 7
PF_X = 1

PAGE, WINDOW, STACK = 4096, 4 << 20, 65536


# ---- executables


def flaw_of(file):
    """What makes a file no executable for rx, or None."""
    if len(file) < 52 or file[:6] != b"\x7fELF\1\1":
        return "not an ELF file of 32 bits, little-endian"
    kind, machine, version, entry, at = struct.unpack_from("<HHIII", file, 16)
    flags, _, size, count = struct.unpack_from("<IHHH", file, 36)
    if (kind, machine, version) != (ET_EXEC, EM_RISCV, EV_CURRENT):
        return "not an executable for RISC-V"
    if flags & (RVC | FLOAT_ABI | RVE):
        return "flags %#x: compressed instructions, a float ABI or RV32E" % flags
    if count > 0 and (size != 32 or at + 32 * count > len(file)):
        return "the program headers aren't in the file"
    headers = [struct.unpack_from("<8I", file, at + 32 * k) for k in range(count)]
    for header in headers:
        if header[0] in (PT_DYNAMIC, PT_INTERP, PT_TLS):
            return "a program header of type %d" % header[0]
    return flaw_of_segments(len(file), entry, [h for h in headers if h[0] == PT_LOAD and h[5] > 0])


def flaw_of_segments(length, entry, headers):
    areas = sorted((vaddr, vaddr + memsz, flags) for _, _, vaddr, _, _, memsz, flags, _ in headers)
    for _, offset, vaddr, _, filesz, memsz, _, _ in headers:
        if filesz > memsz or offset + filesz > length or vaddr + memsz > 1 << 32:
            return "the segment at %#x isn't in the file or in memory" % vaddr
    for (_, end, _), (start, _, _) in zip(areas, areas[1:]):
        if start < end:
            return "two segments overlap at %#x" % start
    if not areas:
        return "no loadable segment"
    # The four bytes of the entry may lie in two segments that touch.
    if entry % 4 or not all(any(s <= b < e and f & PF_X for s, e, f in areas) for b in range(entry, entry + 4)):
        return "the entry %#x can't be executed" % entry
    base = areas[0][0] // PAGE * PAGE
    heap = -(-areas[-1][1] // PAGE) * PAGE
    if base + WINDOW >= 1 << 32 or heap + PAGE > base + WINDOW - STACK - PAGE:
        return "the segments don't fit the window"
    return None


# ---- engines

SECOND = [sys.executable, os.path.join(HERE, "run_second.py")]

Outcome = collections.namedtuple("Outcome", "status output report")


def run(engine, program, framing, frames):
    """What comes of a program and an input in an engine, which is the first words of a command."""
    with tempfile.TemporaryDirectory() as folder:
        record, report = os.path.join(folder, "record"), os.path.join(folder, "report")
        words = engine + ["run", program, "--record", record, "--report", report, "--frame", framing]
        done = subprocess.run(words, input=frames, stdout=subprocess.PIPE, stderr=subprocess.DEVNULL, check=False)
        text = b""
        if os.path.exists(report):
            with open(report, "rb") as file:
                text = file.read()
        return Outcome(done.returncode, done.stdout, text.decode())


# ---- what an rx can do

LINES, MALLOC, REALLOC = "lines of several connections", "malloc and free", "calloc and realloc"
RECOVERY, REPORTS = "recovery", "reports"
BAD_WORDS, INPUT_REFUSED, GAVE_UP = 2, 4, 5

ALLOCATES = "li a0, 16\nli a7, 3\necall\n"
CALLOC_AND_REALLOC = "li a0, 4\nli a1, 4\nli a7, 7\necall\nli a1, 32\nli a7, 8\necall\n"
FREES_TWICE = "mv s0, a0\nli a7, 4\necall\nmv a0, s0\necall\n"
EXITS = "li a0, 0\nli a7, 5\necall\n"


def run_text(engine, text):
    """What comes of an assembler text that takes no input."""
    with tempfile.TemporaryDirectory() as folder:
        program = os.path.join(folder, "program")
        with open(program, "wb") as file:
            file.write(executable(*assemble(text)))
        return run(engine, program, "whole", b"")


def abilities(rx):
    """What an rx can do of the five. It can't where it refuses to; what it does wrong isn't looked at here."""
    found = set()
    frames = frame(OPENS, 0) + frame(OPENS, 1)
    if run(rx, os.path.join(HERE, "echo"), "line", frames).status not in (BAD_WORDS, INPUT_REFUSED):
        found.add(LINES)
    if run_text(rx, ALLOCATES + EXITS).status != GAVE_UP:
        found.add(MALLOC)
    if run_text(rx, CALLOC_AND_REALLOC + EXITS).status != GAVE_UP:
        found.add(REALLOC)
    freed_twice = run_text(rx, ALLOCATES + FREES_TWICE + EXITS)
    if freed_twice.status != GAVE_UP:
        found.add(RECOVERY)
    if "\ntry " in freed_twice.report:
        found.add(REPORTS)
    return found


# ---- conversations

OPEN, CLOSE = "open", "close"


class Talk:
    """What clients do and are replied: (connection, OPEN or CLOSE or a message, the reply to it or None, or several replies)."""

    def __init__(self, *turns):
        self.frames = b"".join(self.frame_of(connection, does) for connection, does, _ in turns)
        self.replies = b"".join(piece_frame(connection, reply) for connection, _, replies in turns for reply in self.replies_of(replies))

    @staticmethod
    def replies_of(replies):
        if replies is None:
            return []
        return replies if isinstance(replies, list) else [replies]

    @staticmethod
    def frame_of(connection, does):
        if does in (OPEN, CLOSE):
            return frame(OPENS if does == OPEN else CLOSES, connection)
        return piece_frame(connection, does)


def alone(*turns):
    """A talk on connection 0 alone: messages and the replies to them."""
    return Talk((0, OPEN, None), *[(0, message, reply) for message, reply in turns])


PLAIN, HTML, BYTES = b"text/plain; charset=utf-8", b"text/html; charset=utf-8", b"application/octet-stream"


def http(status, content=None, kind=PLAIN, fields=b"", is_head=False):
    """A reply of HTTP, and of a short one without content its status as a text."""
    content = status + b"\n" if content is None else content
    head = b"HTTP/1.1 %s\r\nContent-Type: %s\r\nContent-Length: %d\r\n%s\r\n" % (status, kind, len(content), fields)
    return head if is_head else head + content


def asks(what, fields=b"Host: localhost\r\n", content=b""):
    """A request of HTTP/1.1."""
    return b"%s HTTP/1.1\r\n%s\r\n%s" % (what, fields, content)


def posts(form):
    """The request that posts a form to `board`."""
    fields = b"Host: localhost\r\nContent-Type: application/x-www-form-urlencoded\r\nContent-Length: %d\r\n" % len(form)
    return asks(b"POST /post", fields, form)


CLOSES_IT = b"Connection: close\r\n"
POSTED = http(b"303 See Other", fields=b"Location: /\r\n")
COUNT = asks(b"GET /count")


def board(*notes):
    """The page of `board` with these messages."""
    content = b"".join([
        b"<!DOCTYPE html>\n<html lang=\"en\">\n<head><meta charset=\"utf-8\"><title>Board</title></head>\n<body>\n<h1>Board</h1>\n",
        b"<form method=\"post\" action=\"/post\">\n<input name=\"name\" placeholder=\"name\" maxlength=\"32\">\n",
        b"<input name=\"text\" placeholder=\"text\" maxlength=\"160\" size=\"60\" required>\n<button>Post</button>\n</form>\n<ul>\n",
        *[b"<li><b>%s</b>: %s</li>\n" % note for note in notes],
        b"</ul>\n</body>\n</html>\n",
    ])
    return http(b"200 OK", content, HTML, b"Cache-Control: no-store\r\n")


ENVIRONMENTS = ["pad", "zero", "isolate", "delay", "all"]  # in the order in which they are tried


def tries(result, *checkpoints):
    """Tries of all environments at each of these checkpoints, all with this result."""
    return [(checkpoint, environment, result) for checkpoint in checkpoints for environment in ENVIRONMENTS]


def survives(result, checkpoint, environment):
    """Tries at a checkpoint until one survives; those before it have this result."""
    before = ENVIRONMENTS[:ENVIRONMENTS.index(environment)]
    return [(checkpoint, other, result) for other in before] + [(checkpoint, environment, "survived")]


# A guest in a conversation, with the status at the end. `failures` are (items taken, cause, tries) of each, in order.
Guest = collections.namedtuple("Guest", "name framing needs talk status failures", defaults=(0, []))

# What is said, replied and tried was worked out by hand.
GUESTS = [
    Guest("echo", "whole", [], alone((b"hi\n", b"hi\n"), (b"\0\xff" * 2048, b"\0\xff" * 2048), (b"x", b"x"))),
    Guest("upper", "whole", [], alone(
        (
            b"two words\n",
            b"TWO WORDS\nmessage 1: 2 words of 4.00 letters; in all 2 words, the longest of 5, "
            b"the most frequent letter O\n",
        ),
        (
            b"easy, EASIER, easiest!",
            b"EASY, EASIER, EASIEST!\nmessage 2: 3 words of 5.66 letters; in all 5 words, the longest of 7, "
            b"the most frequent letter E\n",
        ),
        (
            b"...",
            b"...\nmessage 3: 0 words of 0.00 letters; in all 5 words, the longest of 7, "
            b"the most frequent letter E\n",
        ))),
    Guest("store", "line", [LINES, REALLOC], Talk(
        (0, OPEN, None),
        (1, OPEN, None),
        (0, b"set city New York\n", b"ok\n"),
        (1, b"get city\n", b"New York\n"),
        (1, b"set tree oak\n", b"ok\n"),
        (0, b"count\n", b"values 2, yours 1\n"),
        (1, b"get sea\n", b"none\n"),
        (1, b"stats\n", b"lines 4, sets 1, found 1, missed 1\n"),
        (0, b"set city Rome\n", b"ok\n"),
        (1, b"get city\n", b"Rome\n"),
        (1, b"set city the eternal one\n", b"ok\n"),
        (0, b"get city\n", b"the eternal one\n"),
        (1, b"count\n", b"values 2, yours 2\n"),
        (0, b"set city Rome\n", b"ok\n"),
        (0, b"del tree\n", b"ok\n"),
        (0, b"del tree\n", b"none\n"),
        (0, b"hello\n", b"error: unknown command\n"),
        (0, b"\n", b"error: unknown command\n"),
        (0, b"set city\n", b"error: it is set KEY VALUE\n"),
        (0, b"get\n", b"error: a key has 1 to 24 characters\n"),
        (0, b"set " + b"k" * 25 + b" v\n", b"error: a key has 1 to 24 characters\n"),
        (0, b"set " + b"k" * 24 + b" v\n", b"ok\n"),
        (0, b"set long " + b"v" * 4086 + b"\n", b"ok\n"),
        (1, b"get long\n", b"v" * 4086 + b"\n"),
        (1, b"count\n", b"values 3, yours 0\n"),
        (0, CLOSE, None),
        (1, b"get city\n", b"none\n"),
        (1, b"count\n", b"values 0, yours 0\n"),
        (1, CLOSE, None))),
    # The heap holds 4096 blocks. The first is that of connection 0.
    Guest("store", "line", [LINES, REALLOC], Talk(
        (0, OPEN, None),
        *[(0, b"set %d v\n" % number, b"ok\n") for number in range(4095)],
        (0, b"set more v\n", b"error: there is no room for it\n"),
        (0, b"set 0 w\n", b"error: there is no room for it\n"),
        (0, b"get 0\n", b"v\n"),
        (1, OPEN, None),
        (1, b"get 0\n", b"error: there is no room for this connection\n"),
        (0, b"del 0\n", b"ok\n"),
        (0, b"set more v\n", b"ok\n"),
        (0, b"count\n", b"values 4095, yours 4095\n"),
        (0, CLOSE, None),
        (2, OPEN, None),
        (2, b"count\n", b"values 0, yours 0\n"))),
    # Requests in pieces, on two connections in turns; several in one piece; what isn't read any more.
    Guest("http", "whole", [LINES, REALLOC], Talk(
        (0, OPEN, None),
        (1, OPEN, None),
        (0, asks(b"GET /hello?name=J%C3%BCrgen+M"), http(b"200 OK", "Hello, Jürgen M!\n".encode())),
        (0, b"POST /echo HTTP/1.1\r\nHost: localhost\r\nContent-Le", None),
        (1, b"GET /count HTTP/1.0\r\n\r\n", http(b"200 OK", b"request 1\n", fields=CLOSES_IT)),
        (0, b"ngth: 5\r\n\r\nab", None),
        (1, COUNT, None),
        (1, CLOSE, None),
        (0, b"c\0\xff" + COUNT * 2 + b"HE", [http(b"200 OK", b"abc\0\xff", BYTES), http(b"200 OK", b"request 2\n"), http(b"200 OK", b"request 3\n")]),
        (0, b"AD /count HTTP/1.1\nhost:\n\n", http(b"200 OK", b"request 4\n", is_head=True)),
        (0, asks(b"GET /nothing?"), http(b"404 Not Found")),
        (0, asks(b"GET http://localhost/echo"), http(b"405 Method Not Allowed", fields=b"Allow: POST\r\n")),
        (0, asks(b"DELETE /%63ount"), http(b"405 Method Not Allowed", fields=b"Allow: GET, HEAD\r\n")),
        (0, asks(b"BREW /count"), http(b"501 Not Implemented")),
        (0, asks(b"POST /echo", b"Host: x\r\nTransfer-Encoding: chunked\r\n", b"3;x=y\r\nabc\r\n0A\r\n0123456789\r\n0\r\n\r\n"),
         http(b"200 OK", b"abc0123456789", BYTES)),
        (0, asks(b"POST /echo", b"Host: x\r\nExpect: 100-continue\r\nContent-Length: 3\r\n"), b"HTTP/1.1 100 Continue\r\n\r\n"),
        (0, b"abc", http(b"200 OK", b"abc", BYTES)),
        (0, asks(b"GET /count", b""), http(b"400 Bad Request", fields=CLOSES_IT)),
        (0, COUNT, None),
        (0, CLOSE, None),
        (2, OPEN, None),
        (2, asks(b"POST /echo", b"Host: x\r\nContent-Length: 8193\r\n"), http(b"413 Content Too Large", fields=CLOSES_IT)),
        (2, CLOSE, None),
        (3, OPEN, None),
        (3, b"GET / HTTP/1.1\r\nX: " + b"x" * 4076, None),
        (3, b"x" * 4095, None),
        (3, b"xxx", http(b"431 Request Header Fields Too Large", fields=CLOSES_IT)))),
    Guest("overrun", "line", [LINES, MALLOC, RECOVERY], alone(
        (b"name,material,price\n", b"<tr><td>name</td><td>material</td><td>price</td></tr>\n"),
        (b"saw 12\",steel,24.90\n", b"<tr><td>saw 12&quot;</td><td>steel</td><td>24.90</td></tr>\n"),
        (b"hand saw 12\",steel,19.90\n", b"<tr><td>hand saw 12&quot;</td><td>steel</td><td>19.90</td></tr>\n"),
        (b"nails,\"40 mm, \"\"zinc\"\"\",<5\n", b"<tr><td>nails</td><td>40 mm, &quot;zinc&quot;</td><td>&lt;5</td></tr>\n"),
        (b",\n", b"<tr><td></td><td></td></tr>\n")),
        0, [(4, "AssertFailed 1", survives("", 3, "pad"))]),
    Guest("dangling", "line", [LINES, MALLOC, RECOVERY], Talk(
        (0, OPEN, None),
        (1, OPEN, None),
        (1, b"enter garden\n", b"garden: users 1\n"),
        (0, b"enter hall\n", b"hall: users 1\n"),
        (0, b"enter hall\n", b"hall: users 1\n"),
        (0, b"look\n", b"hall: users 1, looks 1\n"),
        (1, b"look\n", b"garden: users 1, looks 1\n"),
        (0, b"leave\n", b"left hall\n"),
        (1, b"enter hall\n", b"hall: users 1\n"),
        (0, b"enter hall\n", b"hall: users 2\n"),
        (0, CLOSE, None),
        (1, b"look\n", b"hall: users 1, looks 1\n"),
        (1, CLOSE, None)),
        0, [(8, "BadFree", tries("BadFree", 7, 6, 5) + survives("BadFree", 4, "delay"))]),
    # The table moves with the fifth name, which is put onto the first sum of the old one; the sixth name is put onto the second sum. With
    # padding the fifth one is put there too, and the sixth one isn't.
    Guest("moved", "line", [LINES, REALLOC, RECOVERY], alone(
        (b"ann 30 bob 12 ann 5 cid 7\n", b"ann 35, bob 12, cid 7; most ann\n"),
        (b"ann 3 bob 12 cid 7 dan 9 eve 5\n", b"ann 3, bob 12, cid 7, dan 9, eve 5; most bob\n"),
        (b"ann 30 bob 12 cid 7 dan 9 eve 5 bob 20 ann 1\n", b"ann 31, bob 32, cid 7, dan 9, eve 5; most bob\n"),
        (b"ann\n", b"error: it is NAME AMOUNT NAME AMOUNT ..\n"),
        (b"ann 1 bob x\n", b"error: it is NAME AMOUNT NAME AMOUNT ..\n"),
        (b" ".join(b"n%d %d" % (number, 30 - number) for number in range(20)) + b"\n",
         b", ".join(b"n%d %d" % (number, 30 - number) for number in range(20)) + b"; most n0\n"),
        (b"ann 1 bob 2 cid 3 dan 4 eve 5\n", b"ann 1, bob 2, cid 3, dan 4, eve 5; most eve\n"),
        (b"ann 1 bob 5 cid 3 dan 4 eve 2 fay 3\n", b"ann 1, bob 5, cid 3, dan 4, eve 2, fay 3; most bob\n")),
        0, [(4, "AssertFailed 1", survives("AssertFailed 1", 3, "delay")),
            (9, "AssertFailed 1", survives("AssertFailed 1", 8, "pad"))]),
    Guest("unset", "line", [LINES, MALLOC, RECOVERY], alone(
        (b"add " + b" ".join(b"%d" % number for number in range(1, 71)) + b"\n", b"numbers 70\n"),
        (b"show\n", b"numbers 70, least 1, most 70, mean 35.50, above it 35\n"),
        (b"clear\n", b"numbers 0\n"),
        (b"add 5 8\n", b"numbers 2\n"),
        (b"show\n", b"numbers 2, least 5, most 8, mean 6.50, above it 1\n"),
        (b"add 9\n", b"numbers 3\n"),
        (b"show\n", b"numbers 3, least 5, most 9, mean 7.33, above it 2\n")),
        0, [(6, "AssertFailed 1", tries("AssertFailed 1", 5) + survives("AssertFailed 1", 4, "zero"))]),
    # It fails at the second message. Of 21 messages the first one is dropped.
    Guest("board", "whole", [LINES, REALLOC, RECOVERY], alone(
        (asks(b"GET /"), board()),
        (posts(b"name=Ann&text=I+%3C3+it"), POSTED),
        (posts(b"name=Cid+%26+Co&text=%3C3+%3C3+%3C3+%3C3+%3C3"), POSTED),
        (asks(b"GET /"), board((b"Cid &amp; Co", b"&lt;3 &lt;3 &lt;3 &lt;3 &lt;3"), (b"Ann", b"I &lt;3 it"))),
        (posts(b"name=&text=caf%C3%A9"), POSTED),
        (posts(b"name=Ann&text="), http(b"400 Bad Request")),
        (posts(b"text=" + b"%3c" * 161), http(b"400 Bad Request")),
        (asks(b"POST /post", b"Host: x\r\nContent-Type: text/plain\r\nContent-Length: 6\r\n", b"text=x"), http(b"415 Unsupported Media Type")),
        *[(posts(b"name=Bob&text=%d" % number), POSTED) for number in range(18)],
        (asks(b"GET /"), board(*[(b"Bob", b"%d" % number) for number in reversed(range(18))],
                               (b"somebody", "café".encode()), (b"Cid &amp; Co", b"&lt;3 &lt;3 &lt;3 &lt;3 &lt;3")))),
        0, [(4, "AssertFailed 1", survives("", 3, "pad"))]),
    Guest("hopeless", "whole", [], alone(
        (b"90 min in h\n", b"1.50 h\n"),
        (b"1 w in d\n", b"7.00 d\n"),
        (b"2 fortnights in d\n", b"error: it is NUMBER UNIT in UNIT\n"),
        (b"90 min in fortnights\n", None)),
        5, [(5, "BadAccess", tries("BadAccess", 4, 3, 2, 1, 0))]),
]

FAILURE = re.compile(r"failure \d+ point (\d+) cause (.+) at [0-9a-f]{8}")
TRY = re.compile(r"try \d+ checkpoint (\d+) env ([a-z]+) result (.+)")


def difference(came, expected):
    """Where two outputs begin to differ, and how they go on there."""
    at = len(os.path.commonprefix([came, expected]))
    return "at byte %d of its output comes %r in place of %r" % (at, came[at:at + 60], expected[at:at + 60])


def failures_of(report):
    """The failures that a report tells, as of `Guest`."""
    found = []
    for line in report.splitlines():
        failure, tried = FAILURE.fullmatch(line), TRY.fullmatch(line)
        if failure:
            found.append((int(failure.group(1)), failure.group(2), []))
        elif tried:
            found[-1][2].append((int(tried.group(1)), tried.group(2), tried.group(3)))
    return found


class Check:
    """The checks of the guests with an rx, or with none; `wrong` counts those that don't hold."""

    def __init__(self, rx):
        self.rx, self.wrong = rx, 0
        self.can = abilities([rx]) if rx else set()
        for missing in [need for need in (LINES, MALLOC, REALLOC, RECOVERY, REPORTS) if rx and need not in self.can]:
            print("this rx has no %s yet" % missing)

    def say(self, name, holds, right, wrong):
        self.wrong += not holds
        print("%s: %s" % (name, right if holds else wrong))

    def engine(self, needs):
        """The engine for what needs this, and its name."""
        if self.rx and self.can.issuperset(needs):
            return [self.rx], "rx"
        return SECOND, "the second engine"

    def check_file(self, name):
        with open(os.path.join(HERE, name), "rb") as file:
            flaw = flaw_of(file.read())
        self.say(name, flaw is None, "an executable that rx takes", flaw)

    def check_talk(self, guest):
        program = os.path.join(HERE, guest.name)
        engine, where = self.engine(guest.needs)
        came = run(engine, program, guest.framing, guest.talk.frames)
        if came.output != guest.talk.replies:
            wrong = difference(came.output, guest.talk.replies)
        else:
            wrong = "ends with status %d in place of %d" % (came.status, guest.status) if came.status != guest.status else None
        self.say(guest.name, wrong is None, "replies as it should, in " + where, "%s, in %s" % (wrong, where))
        if guest.failures:
            teller, where = self.engine(guest.needs + [REPORTS])
            told = came if teller == engine else run(teller, program, guest.framing, guest.talk.frames)
            failures = failures_of(told.report)
            ends = "gives up" if guest.status else "is recovered"
            self.say(guest.name, failures == guest.failures, "fails and %s as it should, in %s" % (ends, where),
                     "fails so, in %s: %r" % (where, failures))


def main(words):
    check = Check(words[0] if words else None)
    names = []
    for guest in GUESTS:
        if guest.name not in names:
            names.append(guest.name)
            check.check_file(guest.name)
        check.check_talk(guest)
    return 1 if check.wrong else 0


if __name__ == "__main__":
    sys.exit(main(sys.argv[1:]))
