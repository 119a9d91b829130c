#!/usr/bin/env python3
"""What becomes of six servers of ordinary C that have a fault each, in random sessions, each beside the same server mended.

The servers stand in guests/libc. They are built here, as they are and mended, by the cross compiler and the C library that guests/README names.
Each session is so many random lines or requests over some connections, the same for both builds. What the faulty one's clients get is set beside
what the mended one's get: a session may meet no failure, be recovered, or be given up; and its replies may all be right, or not. A reply is wrong
only where the server itself computed it so: behind each session that came to its end the record is replayed, and has to send the same bytes. The
mended one runs with `--guard block`, and must not fail.

Three tables are printed: the first servers with what was tried in their failures; each server by options; and what `rx diagnose` says of each
failure, beside the kind of fault that the server has.

usage: servers.py [--table first|options|verdicts ..] [--server NAME ..] [--sessions N] [--lines N] [--seed N] [--folder FOLDER] [--second]
                  [--no-replay] [--option WORD ..] [RX]

RX is the built rx, crates/rx/out/rx unless it is given. With --second the second engine runs in its place, and nothing is replayed; pypy3 does
that in a tenth of the time. The options are words for `rx run`, as --option=--every --option=8. What is built stays in FOLDER, where it is
given, and isn't built again. The status is 0 where no replay differs and no mended server failed.
"""

import argparse
import collections
import os
import random
import re
import subprocess
import sys
import tempfile

HERE = os.path.dirname(os.path.abspath(__file__))
GUESTS = os.path.join(HERE, "..", "guests")
sys.path[:0] = [os.path.join(HERE, "..", "compare"), GUESTS]

# pylint: disable=wrong-import-position
import run_second  # noqa: E402
from second.diagnosis import readings  # noqa: E402
from second.trunk import CLOSES, OPENS, frame, payloads, piece_frame  # noqa: E402

CONNECTIONS = 3
COMPILE = [
    "riscv64-unknown-elf-gcc", "--specs=picolibc.specs", "-march=rv32im", "-mabi=ilp32", "-std=c11", "-O2", "-I", GUESTS, "-I",
    os.path.join(GUESTS, "libc"), "-DTHREAD_POINTER", "-ffunction-sections", "-fdata-sections", "-nostartfiles", "-static", "-T",
    os.path.join(GUESTS, "guest.ld"), "-Wl,-n,--gc-sections,--build-id=none,-s",
]  # fmt: skip
SHARED = [os.path.join(GUESTS, "libc", "port.c"), os.path.join(GUESTS, "start.S")]


# ---- lines that the servers know


def tasks_line(draw, before):
    """Tasks are added, told and done, mostly one of the last ones."""
    name, added = draw.choice(["home", "work"]), sum(line.startswith("add") for line in before)
    kind = draw.random()
    if kind < 0.35 or added == 0:
        return f"add {name} {''.join(draw.choices('abcdefgh', k=draw.randint(1, 60)))}"
    if kind < 0.65:
        return f"done {draw.randint(max(1, added - 5), added)}"
    return f"next {name}"


def fields_line(draw, _):
    """Values of any length up to 40: each sixteenth has no room for its zero."""
    names = ["Host", "Accept", "Cookie", "Agent", "Range"]
    return "; ".join(f"{draw.choice(names)}: {'v' * draw.randint(1, 40)}" for _ in range(draw.randint(1, 5)))


def sums_line(draw, _):
    """Trees that are whole, and some that aren't."""

    def tree(deep):
        if deep == 0 or draw.random() < 0.4:
            return str(draw.randint(0, 999))
        return f"{draw.choice('+-*')} {tree(deep - 1)} {tree(deep - 1)}"

    text = tree(draw.randint(0, 4))
    return text if draw.random() < 0.8 else text[: len(text) // 2]


def lines_session(line_of):
    """Sessions of connections that stay from the beginning to the end, of lines that are drawn each from those before."""

    def session(draw, count):
        stream, lines = b"".join(frame(OPENS, conn) for conn in range(CONNECTIONS)), []
        for _ in range(count):
            lines.append(line_of(draw, lines))
            stream += piece_frame(draw.randrange(CONNECTIONS), (lines[-1] + "\n").encode())
        return stream + b"".join(frame(CLOSES, conn) for conn in range(CONNECTIONS))

    return session


# ---- sessions of clients that come and go


class Clients:
    """The frames of a session, and which connections are open."""

    def __init__(self, draw):
        self.draw, self.frames, self.open, self.opened = draw, b"", [], 0

    def come(self):
        self.frames += frame(OPENS, self.opened)
        self.open.append(self.opened)
        self.opened += 1
        return self.open[-1]

    def go(self, conn):
        self.frames += frame(CLOSES, conn)
        self.open.remove(conn)

    def any(self):
        return self.draw.choice(self.open)

    def send(self, conn, text):
        self.frames += piece_frame(conn, text if isinstance(text, bytes) else text.encode() + b"\n")

    def end(self):
        for conn in list(self.open):
            self.go(conn)
        return self.frames


class Jobs:
    """What a queue should have, so that its clients name jobs that there are."""

    def __init__(self):
        self.ready, self.held, self.last, self.turns = [], collections.defaultdict(list), 0, 0

    def make_ready(self, priority, number):
        self.turns += 1
        self.ready.append((priority, self.turns, number))
        self.ready.sort()

    def put(self, priority):
        self.last += 1
        self.make_ready(priority, self.last)

    def reserve(self, conn):
        if self.ready:
            priority, _, number = self.ready.pop(0)
            self.held[conn].insert(0, (priority, number))

    def leave(self, conn):
        for job in self.held.pop(conn, []):
            self.make_ready(*job)

    def numbers(self):
        return sorted([job[-1] for job in self.ready] + [job[-1] for held in self.held.values() for job in held])

    def take(self, number):
        self.ready = [job for job in self.ready if job[-1] != number]
        for conn in self.held:
            self.held[conn] = [job for job in self.held[conn] if job[-1] != number]


def queue_session(draw, count):
    """Workers put jobs, reserve them, and tell what became of them. Now and then one drops a job, whoever has it, or goes and another one comes."""
    clients, jobs = Clients(draw), Jobs()
    for _ in range(CONNECTIONS):
        clients.come()
    for _ in range(count):
        conn, kind = clients.any(), draw.random()
        mine = jobs.held[conn]
        if kind < 0.03:
            clients.go(conn)
            jobs.leave(conn)
            clients.come()
        elif kind < 0.06 and jobs.numbers():
            number = draw.choice(jobs.numbers())
            clients.send(conn, f"drop {number}")
            jobs.take(number)
        elif kind < 0.38:
            priority = draw.choice([1, 5, 5, 9])
            clients.send(conn, f"put {priority} {text_of(draw, 60)}")
            jobs.put(priority)
        elif kind < 0.63:
            clients.send(conn, "reserve")
            jobs.reserve(conn)
        elif kind < 0.85 and mine:
            priority, number = draw.choice(mine)
            jobs.take(number)
            if kind < 0.78:
                clients.send(conn, f"delete {number}")
            else:
                clients.send(conn, f"release {number}")
                jobs.make_ready(priority, number)
        else:
            clients.send(conn, draw.choice(["peek", "stats"]))
    return clients.end()


NAMES = ["ann", "bob", "cid", "dan", "eve", "fay", "gus", "hal", "ida", "jon", "kim", "leo"]


def chat_session(draw, count):
    """Two to six talk in two rooms. At times one goes, and at others one comes."""
    clients, names, sent = Clients(draw), {}, 0

    def come():
        conn = clients.come()
        names[conn] = draw.choice([name for name in NAMES if name not in names.values()])
        clients.send(conn, "NICK " + names[conn])
        clients.send(conn, "JOIN " + draw.choice(["hall", "yard"]))
        return 2

    for _ in range(4):
        sent += come()
    while sent < count:
        conn, kind = clients.any(), draw.random()
        if kind < 0.07 and len(clients.open) < 6:
            sent += come()
            continue
        sent += 1
        if kind < 0.14 and len(clients.open) > 2:
            if draw.random() < 0.3:
                clients.send(conn, "QUIT")
            clients.go(conn)
            del names[conn]
        elif kind < 0.6:
            clients.send(conn, "SAY " + text_of(draw, 40))
        elif kind < 0.7:
            clients.send(conn, f"WHISPER {draw.choice(list(names.values()))} {text_of(draw, 40)}")
        elif kind < 0.8:
            clients.send(conn, "JOIN " + draw.choice(["hall", "yard"]))
        else:
            clients.send(conn, draw.choice(["WHO", "LAST"]))
    return clients.end()


def text_of(draw, most):
    return "".join(draw.choices("abcdefgh", k=draw.randint(1, most)))


def todo_request(draw, ids):
    """A request as curl writes it. One title in 25 may be a long one."""
    kind, lines = draw.random(), ["Host: localhost:8080", "User-Agent: curl/7.88.1", "Accept: */*"]
    title = text_of(draw, 600 if draw.random() < 0.04 else 40)
    body = ""
    if kind < 0.35 or not ids:
        first, body = "POST /todos", f'{{"title":"{title}"}}'
        ids.append(max(ids, default=0) + 1)
    elif kind < 0.65:
        first = f"PATCH /todos/{draw.choice(ids)}"
        body = draw.choice(['{"done":true}', '{"done":false}', f'{{"title":"{title}"}}'])
    elif kind < 0.75:
        first = f"DELETE /todos/{draw.choice(ids)}"
    else:
        first = "GET /todos"
    if body:
        lines += ["Content-Type: application/json", f"Content-Length: {len(body)}"]
    return "\r\n".join([first + " HTTP/1.1", *lines, "", body]).encode()


def todo_session(draw, count):
    """Requests one by one, some of them several in a piece, and some in several pieces. At times a client goes and another one comes."""
    clients, ids, sent = Clients(draw), [], 0
    for _ in range(CONNECTIONS):
        clients.come()
    while sent < count:
        conn, kind = clients.any(), draw.random()
        if kind < 0.04:
            clients.go(conn)
            conn = clients.come()
        at_once = draw.randint(2, 3) if kind > 0.9 else 1
        piece = b"".join(todo_request(draw, ids) for _ in range(at_once))
        cuts = sorted(draw.sample(range(1, len(piece)), draw.randint(1, 2))) if 0.8 < kind < 0.93 else []
        for start, end in zip([0, *cuts], [*cuts, len(piece)]):
            clients.send(conn, piece[start:end])
        sent += at_once
    return clients.end()


# ---- servers, with the kind of fault that each has, and words for each of its runs

PAST, FREED, UNSET, PLACED, NOTHING = "past the end of a block", "used after it was freed", "never set", "placed otherwise", "nothing helps"

Server = collections.namedtuple("Server", "session fault words")
SERVERS = {
    "tasks": Server(lines_session(tasks_line), FREED, []),
    "fields": Server(lines_session(fields_line), PAST, []),
    "sums": Server(lines_session(sums_line), UNSET, []),
    "queue": Server(queue_session, FREED, []),
    "chat": Server(chat_session, FREED, []),
    "todo": Server(todo_session, PAST, ["--frame", "whole"]),
}

# The first servers with options of `rx run`. A value without its zero is mostly a wrong reply and no failure; a guard makes a failure of it.
FIRST = [("tasks", []), ("tasks", ["--every", "4"]), ("fields", []), ("fields", ["--guard", "extent"]), ("sums", [])]

# The options that each server is run with, and those with which it is diagnosed. Those with --env only where rx has it.
OPTIONS = [
    [],
    ["--guard", "extent"],
    ["--every", "4"],
    ["--guard", "extent", "--every", "4"],
    ["--guard", "block", "--every", "4"],
    ["--env", "all", "--guard", "extent", "--every", "4"],
    ["--env", "all", "--guard", "block"],
]
DIAGNOSED = [["--guard", "off"], [], ["--guard", "block"]]

# What a line of `rx diagnose` on standard error says, by words of it, and what the second engine does.
SAYINGS = [("past the end", PAST), ("after it was freed", FREED), ("memory that was freed", FREED), ("before it was written", UNSET), ("placed otherwise", PLACED),
           ("nothing helps", NOTHING)]
VERDICTS = list(dict.fromkeys(kind for _, kind in SAYINGS))
SECOND = {"overrun": PAST, "reused": FREED, "unset": UNSET, "placed": PLACED, "nothing": NOTHING}

Outcome = collections.namedtuple("Outcome", "status replies failures tries survivors sayings written record")


def build(name, folder, *flags):
    path = os.path.join(folder, name + "".join(flags))
    if not os.path.exists(path):
        subprocess.run([*COMPILE, *flags, "-o", path, os.path.join(GUESTS, "libc", name + ".c"), *SHARED], check=True)
    return path


class Bench:
    """What runs sessions: rx or the second engine, and the folder in which it leaves what it leaves."""

    def __init__(self, asked, folder):
        self.asked, self.folder, self.wrong, self.twins = asked, folder, 0, {}

    def says(self, what):
        print(what, file=sys.stderr)
        self.wrong += 1

    def run(self, command, program, stream, options):
        """One session, and what it left."""
        record, report = os.path.join(self.folder, "record"), os.path.join(self.folder, "report")
        words = [command, program, "--record", record, "--report", report, *options]
        if self.asked.second:
            done, sink, files = run_second.session(run_second.words_of(words), stream)
            status, written, told = done.status, bytes(sink.content), files.files["t"].decode()
            episodes, faults = (done.session.notes.episodes, done.session.faults) if command == "diagnose" else ([], [])
            sayings = [SECOND[it] for _, _, it in readings(episodes, faults)]
        else:
            made = subprocess.run([self.asked.rx, *words], input=stream, capture_output=True, timeout=300, check=False)
            status, written = made.returncode, made.stdout
            with open(report, encoding="utf-8") as file:
                told = file.read()
            said = re.findall(r"^rx: failure \d+ at [0-9a-f]+: (.*)$", made.stderr.decode(), re.M)
            sayings = [next((kind for part, kind in SAYINGS if part in it), it) for it in said]
        survivors = re.findall(r"^try .* env (\S+) result survived$", told, re.M)
        failures, tries = (len(re.findall(f"^{word} ", told, re.M)) for word in ("failure", "try"))
        return Outcome(status, payloads(written), failures, tries, survivors, sayings, written, record)

    def stream(self, name, number):
        return SERVERS[name].session(random.Random(f"{name} {self.asked.seed} {number}"), self.asked.lines)

    def twin(self, name, number):
        """What the clients of the mended server get in a session."""
        if (name, number) not in self.twins:
            program = build(name, self.folder, "-DMENDED")
            made = self.run("run", program, self.stream(name, number), [*SERVERS[name].words, "--guard", "block"])
            if made.status or made.failures:
                self.says(f"{name} {number}: the mended server failed")
            self.twins[name, number] = made.replies
        return self.twins[name, number]

    def sessions(self, name, options):
        """The outcomes of all sessions of a server, each with its kind."""
        program, options = build(name, self.folder), [*SERVERS[name].words, *options, *self.asked.option]
        for number in range(self.asked.sessions):
            stream, right = self.stream(name, number), self.twin(name, number)
            made = self.run("run", program, stream, options)
            if not self.asked.second and not self.asked.no_replay and not made.status:
                again = subprocess.run([self.asked.rx, "replay", program, made.record], input=stream, capture_output=True, timeout=300, check=False)
                if (again.returncode, again.stdout) != (0, made.written):
                    self.says(f"{name} {number}: its replay sends other bytes")
            kind = kind_of(made, right)
            if kind.startswith("ended"):
                self.says(f"{name} {number}: ended with status {made.status}")
            yield kind, made

    def has(self, option):
        """Whether this rx has an option of `run`."""
        if self.asked.second:
            return False
        return option in subprocess.run([self.asked.rx, "help", "run"], capture_output=True, check=False, text=True).stdout


def kind_of(faulty, right):
    """How a session ended, and whether all that clients got is right: where it ended early, the beginning of it."""
    pairs = [(faulty.replies.get(conn, b""), right.get(conn, b"")) for conn in {*faulty.replies, *right}]
    is_right = all(b.startswith(a) if faulty.status else a == b for a, b in pairs)
    how = "given up" if faulty.status == 5 else "ended otherwise" if faulty.status else "recovered" if faulty.failures else "no failure"
    return f"{how}, {'right' if is_right else 'a wrong reply'}"


KINDS = ["no failure, right", "no failure, a wrong reply", "recovered, right", "recovered, a wrong reply", "given up, right", "given up, a wrong reply"]


def print_row(cells):
    print("| " + " | ".join(str(it) for it in cells) + " |", flush=True)


def print_head(cells):
    print_row(cells)
    print("|---" * len(cells) + "|")


def print_first(bench):
    print_head(["Server", *KINDS, "failures", "tries a failure", "what survived"])
    for name, options in FIRST:
        if name not in bench.asked.server:
            continue
        counts, survivors, failures, tries = collections.Counter(), collections.Counter(), 0, 0
        for kind, made in bench.sessions(name, options):
            counts[kind] += 1
            survivors.update(made.survivors)
            failures, tries = failures + made.failures, tries + made.tries
        told = ", ".join(f"{env} {n}" for env, n in survivors.most_common())
        print_row([" ".join([name, *options, *bench.asked.option]), *(counts[it] for it in KINDS), failures, f"{tries / max(failures, 1):.1f}", told])


def print_options(bench):
    print_head(["Server", "Options", *KINDS[:4], "given up"])
    for name in bench.asked.server:
        for options in OPTIONS:
            if "--env" in options and not bench.has("--env"):
                continue
            counts = collections.Counter(kind for kind, _ in bench.sessions(name, options))
            told = f"`{' '.join([*options, *bench.asked.option])}`" if options or bench.asked.option else "the defaults"
            print_row([f"`{name}`", told, *(counts[it] for it in KINDS[:4]), counts[KINDS[4]] + counts[KINDS[5]]])


def print_verdicts(bench):
    print_head(["Server", "Its fault", "Options", "Failures", PAST, FREED, UNSET, PLACED, NOTHING])
    for name in bench.asked.server:
        server, program = SERVERS[name], build(name, bench.folder)
        for options in DIAGNOSED:
            counts = collections.Counter()
            words = [*server.words, "--diagnosis", os.path.join(bench.folder, "diagnosis"), *options, *bench.asked.option]
            words += [] if bench.asked.second else ["--tell", "off"]
            for number in range(bench.asked.sessions):
                made = bench.run("diagnose", program, bench.stream(name, number), words)
                if len(made.sayings) != made.failures:
                    bench.says(f"{name} {number}: {made.failures} failures, and {len(made.sayings)} are told of")
                counts.update(made.sayings)
            told = f"`{' '.join(options)}`" if options else "the defaults"
            print_row([f"`{name}`", server.fault, told, sum(counts.values()), *(counts[it] for it in VERDICTS)])


TABLES = {"first": print_first, "options": print_options, "verdicts": print_verdicts}


def main():
    parser = argparse.ArgumentParser(description=__doc__.split("\n", maxsplit=1)[0])
    parser.add_argument("--table", action="append", choices=TABLES)
    parser.add_argument("--server", action="append", choices=SERVERS)
    parser.add_argument("--sessions", type=int, default=200)
    parser.add_argument("--lines", type=int, default=40)
    parser.add_argument("--seed", type=int, default=1)
    parser.add_argument("--folder")
    parser.add_argument("--no-replay", action="store_true")
    parser.add_argument("--second", action="store_true")
    parser.add_argument("--option", action="append", default=[])
    parser.add_argument("rx", nargs="?", default=os.path.join(HERE, "..", "crates", "rx", "out", "rx"))
    asked = parser.parse_args()
    asked.server = asked.server or list(SERVERS)
    with tempfile.TemporaryDirectory() as folder:
        bench = Bench(asked, asked.folder or folder)
        for number, name in enumerate(asked.table or TABLES):
            if number:
                print()
            TABLES[name](bench)
    return 1 if bench.wrong else 0


if __name__ == "__main__":
    sys.exit(main())
