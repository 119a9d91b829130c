#!/usr/bin/env python3
"""Whether real clients of `rx serve` get their replies on loopback, also where they or the server misbehave, and how long it takes.

1. Requests by curl, each in a connection of its own; requests by sockets in the same way; and over a few connections that are kept.
   They are greetings of guests/http, then posts to guests/board without a fault, and then posts of which each 50th meets board's
   planted fault. Each reply is compared, the board's page is compared in the end, and the report has to have as many failures as
   posts met the fault, all of them recovered; side by side at most as many. Told are requests a second on the wall, and the processor time of rx for one.
   The last rows have --many of them over the kept connections. With --at-once there are rows with so many processes of curl at the
   same time, and with a thread for each kept connection.
2. The time from a request that meets the fault to its reply, beside that of the posts between. The peer is the same server under a
   supervisor that begins it anew where it is gone: it is killed at that request. What is told of it is the time to the first reply
   of the new one, to another request. The one that met the fault is never answered, and the board's messages are lost.
3. Clients of guests/http of which each does something else: `nc -N`, where there is one, or a socket that ends its sending and reads
   on; one that leaves in the middle of a request; one that resets its connection while replies are written (SO_LINGER 0); one that
   never reads; one that never sends. Behind each another client has to get the right reply, and the session has to end as one
   without a failure.
4. With --at-once above --kept: clients beside one that never sends, which must not hold them up; beside one that never reads, which
   may do so for the patience; many that end their sending, side by side; and one client more than are served at once, which has to
   wait until one of the others is given up.

No wait is longer than --patience and a few seconds, and no row of 1 takes longer than --seconds. Ports are free ones of 127.0.0.1.

usage: clients.py [--requests N] [--many N] [--episodes N] [--kept N] [--patience SECONDS] [--seconds N] [--at-once N] [RX]
RX is the built rx, crates/rx/out/rx unless it is given. With --at-once it is given that option, and kept connections stand side by side.
The status is 0 where each reply came and is right.
"""

import argparse
import concurrent.futures
import os
import re
import shutil
import socket
import statistics
import struct
import subprocess
import sys
import tempfile
import threading
import time

HERE = os.path.dirname(os.path.abspath(__file__))
GUESTS = os.path.join(HERE, "..", "guests")

HOST = "127.0.0.1"
LISTENS = "0A"  # the state of a socket in /proc/net/tcp
EVERY = 50  # which posts meet the fault
SHOWN = 20  # messages on the board's page
BETWEEN = 25  # posts from one to the next there
LONGEST = 20  # seconds for a reply
PROCESSES = 32  # of curl at once, at most
EACH = 50  # requests of a client beside another one


class Wrong(Exception):
    """A reply that isn't right, or none."""


# ---- the server


def free_port():
    with socket.socket() as probe:
        probe.bind((HOST, 0))
        return probe.getsockname()[1]


def listens(port):
    """Whether somebody listens on the port. No connection is made, since each one counts."""
    with open("/proc/net/tcp", encoding="ascii") as lines:
        return any(line.split()[1].endswith(":%04X" % port) and line.split()[3] == LISTENS for line in lines if ":" in line)


class Service:
    """`rx serve` with a guest, for so many connections."""

    def __init__(self, asked, guest, connections, folder, port=None):
        self.port, self.said, self.folder = port or free_port(), tempfile.TemporaryFile(), folder
        words = [asked.rx, "serve", os.path.join(GUESTS, guest), str(self.port), str(connections), "--frame", "whole", "--patience",
                 str(asked.patience), "--record", os.path.join(folder, "record"), "--report", os.path.join(folder, "report")]
        words += ["--at-once", str(asked.at_once)] * (asked.at_once > 1)
        self.process = subprocess.Popen(words, stdin=subprocess.DEVNULL, stdout=subprocess.DEVNULL, stderr=self.said)
        self.clock = ~self.process.pid << 3 | 2  # the processor time of another process, of Linux
        wait_for(lambda: listens(self.port) or self.process.poll() is not None)
        if self.process.poll() is not None:
            raise Wrong("rx ended: " + self.sentence())

    def sentence(self):
        self.said.seek(0)
        return self.said.read().decode(errors="replace").strip()

    def seconds(self):
        return time.clock_gettime(self.clock)

    def end(self, failures, at_most=False):
        """Waits for its end, which has to be that of its last connection, with so many failures in the report, or at most so many. Answers how many."""
        try:
            status = self.process.wait(LONGEST)
        except subprocess.TimeoutExpired:
            raise Wrong("rx doesn't end behind its last connection") from None
        if status:
            raise Wrong("status %d: %s" % (status, self.sentence()))
        with open(os.path.join(self.folder, "report"), encoding="ascii") as lines:
            told = lines.read()
        failed, survived = told.count("failure "), told.count(" survived")
        if failed != survived or failed > failures or failed < failures and not at_most:
            raise Wrong("the report has %d failures and %d survivors in place of %d" % (failed, survived, failures))
        return failed

    def __enter__(self):
        return self

    def __exit__(self, *_):
        if self.process.poll() is None:
            self.process.kill()
            self.process.wait()


def wait_for(holds, longest=LONGEST):
    ends = time.monotonic() + longest
    while not holds():
        if time.monotonic() > ends:
            raise Wrong("nothing happens for %d seconds" % longest)
        time.sleep(0.0005)


# ---- requests


def get(path):
    return b"GET %s HTTP/1.1\r\nHost: x\r\n\r\n" % path.encode()


def post(path, body):
    kind = b"application/x-www-form-urlencoded"
    return b"POST %s HTTP/1.1\r\nHost: x\r\nContent-Type: %s\r\nContent-Length: %d\r\n\r\n%s" % (path.encode(), kind, len(body), body)


class Client:
    """A connection, and requests over it."""

    def __init__(self, port, receives=None):
        self.socket = socket.socket()
        if receives:
            self.socket.setsockopt(socket.SOL_SOCKET, socket.SO_RCVBUF, receives)
        self.socket.settimeout(LONGEST)
        self.socket.connect((HOST, port))
        self.rest = b""

    def more(self):
        came = self.socket.recv(1 << 16)
        if not came:
            raise Wrong("the connection was closed, and a reply is missing")
        self.rest += came

    def reply(self):
        """The status and the body of the next reply."""
        while b"\r\n\r\n" not in self.rest:
            self.more()
        head, _, self.rest = self.rest.partition(b"\r\n\r\n")
        lines = dict(line.split(b": ", 1) for line in head.split(b"\r\n")[1:])
        length = int(lines[b"Content-Length"])
        while len(self.rest) < length:
            self.more()
        body, self.rest = self.rest[:length], self.rest[length:]
        return int(head.split()[1]), body

    def ask(self, request):
        self.socket.sendall(request)
        return self.reply()

    def reset(self):
        """Breaks the connection off: the other end gets a reset, and no end of what was sent."""
        self.socket.setsockopt(socket.SOL_SOCKET, socket.SO_LINGER, struct.pack("ii", 1, 0))
        self.socket.close()

    def __enter__(self):
        return self

    def __exit__(self, *_):
        self.socket.close()


class Greetings:
    """Requests to guests/http."""

    name, guest, failures, pages = "greetings of http", "http", 0, 0

    def path(self, number):
        return "/hello?name=n%d" % number

    def request(self, number):
        return get(self.path(number))

    def curl(self, number):
        """The words behind curl's address, and what it has to print."""
        return self.path(number), [], b"Hello, n%d!\n200" % number

    def reply(self, number):
        return 200, b"Hello, n%d!\n" % number

    def check_page(self, port, in_order):
        """Nothing is kept."""


class Posts:
    """Requests to guests/board, of which each 50th meets its fault where they have one."""

    guest, pages = "board", 1

    def __init__(self, requests, with_faults):
        self.requests, self.with_faults = requests, with_faults
        self.name = "posts, each %dth fails" % EVERY if with_faults else "posts to board"
        self.failures = requests // EVERY if with_faults else 0

    def fails(self, number):
        return self.with_faults and number % EVERY == EVERY - 1

    def text(self, number):
        """As a form has it, in 24 bytes, so that blocks are of one size."""
        return b"%3C3+%3C3+%3C3+%3C3+%3C3" if self.fails(number) else b"t%023d" % number

    def body(self, number):
        return b"name=n%05d&text=%s" % (number, self.text(number))

    def request(self, number):
        return post("/post", self.body(number))

    def curl(self, number):
        return "/post", ["-d", self.body(number).decode()], b"303 See Other\n303"

    def reply(self, _):
        return 303, b"303 See Other\n"

    def shown(self, number):
        text = b"&lt;3 &lt;3 &lt;3 &lt;3 &lt;3" if self.fails(number) else self.text(number)
        return b"<li><b>n%05d</b>: %s</li>\n" % (number, text)

    def check_page(self, port, in_order):
        """The page has the last messages, the newest first; or so many different ones, where they came side by side."""
        with Client(port) as client:
            _, page = client.ask(get("/"))
        lines = [line + b"\n" for line in page.split(b"\n") if line.startswith(b"<li>")]
        numbers = [int(number) for number in re.findall(rb"<li><b>n(\d{5})</b>", page)]
        last = list(range(self.requests - 1, max(-1, self.requests - 1 - SHOWN), -1))
        is_right = numbers == last if in_order else len(set(numbers)) == len(last) and max(numbers) < self.requests
        if not is_right or lines != [self.shown(number) for number in numbers]:
            raise Wrong("the board shows other messages: %r" % page)


# ---- 1. replies, and how many a second


class Limit:
    """When all of a row has to be done."""

    ends = float("inf")


def compare(came, expected, number):
    if time.monotonic() > Limit.ends:
        raise Wrong("request %d comes too late: a row has --seconds" % number)
    if came != expected:
        raise Wrong("reply %d is %r in place of %r" % (number, came, expected))


def at_once(count, act, numbers):
    """Does an act for each number, so many at the same time: what they came to."""
    with concurrent.futures.ThreadPoolExecutor(count) as pool:
        return list(pool.map(act, numbers))


def ask_by_curl(port, requests, number):
    path, words, expected = requests.curl(number)
    done = subprocess.run(["curl", "-s", "-m", str(LONGEST), "-w", "%{http_code}", *words, "http://%s:%d%s" % (HOST, port, path)],
                          capture_output=True, check=False)
    compare((done.returncode, done.stdout), (0, expected), number)


def by_curl(port, asked, requests):
    for number in range(asked.requests):
        ask_by_curl(port, requests, number)


def by_curls(port, asked, requests):
    at_once(processes(asked), lambda number: ask_by_curl(port, requests, number), range(asked.requests))


def processes(asked):
    return min(asked.at_once, PROCESSES)


def by_sockets(port, asked, requests):
    for number in range(asked.requests):
        with Client(port) as client:
            compare(client.ask(requests.request(number)), requests.reply(number), number)


def over_one(port, requests, numbers):
    with Client(port) as client:
        for number in numbers:
            compare(client.ask(requests.request(number)), requests.reply(number), number)


def by_kept(port, asked, requests):
    """A few connections: one after another, or side by side and by turns where the server has several at once."""
    part = asked.requests // asked.kept
    if asked.at_once >= asked.kept:
        clients = [Client(port) for _ in range(asked.kept)]
        for number in range(asked.requests):
            compare(clients[number % asked.kept].ask(requests.request(number)), requests.reply(number), number)
        for client in clients:
            client.socket.close()
        return
    for k in range(asked.kept):
        over_one(port, requests, range(part * k, asked.requests if k == asked.kept - 1 else part * (k + 1)))


def by_threads(port, asked, requests):
    """The same connections, each with a thread that asks as fast as it is answered."""
    at_once(asked.kept, lambda k: over_one(port, requests, range(k, asked.requests, asked.kept)), range(asked.kept))


SIDE_BY_SIDE = (by_curls, by_threads)


def measure(asked, name, way, connections, requests, folder):
    """One line: all replies are right, and how fast they came."""
    with Service(asked, requests.guest, connections + requests.pages, folder) as service:
        wall, began = time.monotonic(), service.seconds()
        Limit.ends = wall + asked.seconds
        way(service.port, asked, requests)
        wall, taken = time.monotonic() - wall, service.seconds() - began
        Limit.ends = float("inf")
        requests.check_page(service.port, way not in SIDE_BY_SIDE)
        # (side by side it is the order of the others' blocks that says whether a post's overrun reaches a tag)
        failed = service.end(requests.failures, way in SIDE_BY_SIDE)
    print("| %s | %s | %d | %d | %.0f | %.0f | %d |" % (
        name, requests.name, asked.requests, connections, asked.requests / wall, 1e6 * taken / asked.requests, failed))


def kinds(requests):
    return [Greetings(), Posts(requests, False), Posts(requests, True)]


def replies(asked, folder):
    print("| By | Requests | Replies, all right | Connections | Requests a second | Processor us of rx, each | Failures, all recovered |")
    print("|---|---|---|---|---|---|---|")
    kept, has_curl, has_threads = "%d that are kept" % asked.kept, shutil.which("curl") is not None, asked.at_once >= asked.kept > 1
    ways = [("curl", by_curl, asked.requests)] * has_curl
    ways += [("%d curl at once" % processes(asked), by_curls, asked.requests)] * (has_curl and asked.at_once > 1)
    ways += [("a socket each", by_sockets, asked.requests), (kept, by_kept, asked.kept)]
    ways += [(kept + ", a thread each", by_threads, asked.kept)] * has_threads
    for name, way, connections in ways:
        for requests in kinds(asked.requests):
            measure(asked, name, way, connections, requests, folder)
    many = argparse.Namespace(**{**vars(asked), "requests": asked.many})
    for requests in kinds(asked.many) * (asked.many > 0):
        measure(many, kept, by_kept, asked.kept, requests, folder)


# ---- 2. from a failure to a reply


def timed(client, request):
    """The reply, and the seconds to it."""
    began = time.monotonic()
    reply = client.ask(request)
    return reply, time.monotonic() - began


def recovered(asked, folder):
    """The times of the posts that meet the fault, and of the others, in one connection of one session."""
    failing, others = [], []
    requests = Posts(EVERY * asked.episodes, True)
    with Service(asked, "board", 2, folder) as service:
        with Client(service.port) as client:
            for number in range(requests.requests):
                reply, seconds = timed(client, requests.request(number))
                compare(reply, requests.reply(number), number)
                (failing if requests.fails(number) else others).append(seconds)
        requests.check_page(service.port, True)
        service.end(asked.episodes)
    return failing, others


class Supervisor:
    """Begins a server anew wherever it is gone, as `while true; do rx serve ..; done` does."""

    def __init__(self, asked, folder):
        self.asked, self.folder, self.is_over = asked, folder, False
        self.service = Service(asked, "board", 4096, folder)
        self.port = self.service.port
        self.thread = threading.Thread(target=self.watch, daemon=True)
        self.thread.start()

    def watch(self):
        while not self.is_over:
            self.service.process.wait()
            try:
                if not self.is_over:
                    self.service = Service(self.asked, "board", 4096, self.folder, self.port)
            except Wrong:
                time.sleep(0.01)  # the port isn't free yet

    def end(self):
        self.is_over = True
        self.service.process.kill()
        self.thread.join(LONGEST)
        self.service.__exit__()


def first_page(port):
    """The page, of whoever answers first on the port."""
    ends = time.monotonic() + LONGEST
    while time.monotonic() < ends:
        try:
            with Client(port) as client:
                return client.ask(get("/"))[1]
        except (OSError, Wrong):
            time.sleep(0.0002)
    raise Wrong("no new server came in %d seconds" % LONGEST)


def begun_anew(asked, folder):
    """The times from a request at which the server is killed to the first reply of the next one; no message is on its board."""
    found, supervisor, requests = [], Supervisor(asked, folder), Posts(BETWEEN, False)
    try:
        for _ in range(asked.episodes):
            wait_for(lambda: supervisor.service.process.poll() is None)
            with Client(supervisor.port) as client:
                for number in range(BETWEEN):
                    compare(client.ask(requests.request(number)), requests.reply(number), number)
                began, process = time.monotonic(), supervisor.service.process
                client.socket.sendall(requests.request(BETWEEN)[:-1])  # without its last byte, else its reply would come first
                process.kill()
                process.wait()
                page = first_page(supervisor.port)
            found.append(time.monotonic() - began)
            if b"<li>" in page:
                raise Wrong("a new server has old messages")
    finally:
        supervisor.end()
    return found


def middle(seconds):
    return "%.2f ms (%.2f to %.2f)" % tuple(1e3 * number for number in (statistics.median(seconds), min(seconds), max(seconds)))


def failures(asked, folder):
    failing, others = recovered(asked, folder)
    anew = begun_anew(asked, folder)
    print("\n| From a request to the reply | The middle one, and the range | What is lost |")
    print("|---|---|---|")
    print("| a post without a fault | %s | |" % middle(others))
    print("| a post that meets the fault, recovered | %s | nothing |" % middle(failing))
    print("| another request, of a server that was begun anew | %s | the request, the connection and all messages |" % middle(anew))
    print("A recovery took %.1f of a post, and a new server %.1f of a recovery." % (
        statistics.median(failing) / statistics.median(others), statistics.median(anew) / statistics.median(failing)))


# ---- 3. clients that misbehave

# So many pages of http that what waits in sockets is full before they are sent. A request has 128 bytes, so that few stand in a piece.
MANY = b"GET / HTTP/1.1\r\nHost: x\r\nX-Padding: ".ljust(124, b".") + b"\r\n\r\n"
MANY *= 40_000
QUIET = 0.5  # seconds in which no byte more can be sent


def ended_sending(port):
    """Ends the sending behind a request, as `nc -N`: the reply comes, and then the close."""
    request = get("/hello?name=half")
    if shutil.which("nc"):
        done = subprocess.run(["nc", "-N", HOST, str(port)], input=request, capture_output=True, timeout=LONGEST, check=False)
        came = done.stdout
    else:
        with Client(port) as client:
            client.socket.sendall(request)
            client.socket.shutdown(socket.SHUT_WR)
            came = b"".join(iter(lambda: client.socket.recv(4096), b""))
    if not came.endswith(b"\r\n\r\nHello, half!\n"):
        raise Wrong("%r came" % came)
    return "its reply and the close came"


def left_early(port):
    with Client(port) as client:
        client.socket.sendall(MANY[:70])
    return "it left within a request"


def sends_much(port):
    """A client that reads nothing, and sends until it can't any more: the server waits to write then. And how much it has sent."""
    client, sent, ends = Client(port, 4096), 0, time.monotonic() + LONGEST
    client.socket.settimeout(QUIET)
    try:
        while sent < len(MANY) and time.monotonic() < ends:
            sent += client.socket.send(MANY[sent:sent + 65536])
    except TimeoutError:
        return client, sent
    raise Wrong("%d bytes of requests were sent, and no reply was read" % sent)


def broke_off(port):
    client, sent = sends_much(port)
    client.reset()
    return "it reset the connection while replies to %d KiB of requests were written" % (sent >> 10)


KEPT_OPEN = []


def never_read(port):
    client, sent = sends_much(port)
    KEPT_OPEN.append(client)  # it stays there
    return "it read nothing of the replies to %d KiB of requests, and stays" % (sent >> 10)


def never_sent(port):
    KEPT_OPEN.append(Client(port))
    return "it sent nothing, and stays"


def misbehave(asked, folder):
    acts = [ended_sending, left_early, broke_off, never_read, never_sent]
    print("\n| Client | What it did | The next one's reply came behind |")
    print("|---|---|---|")
    with Service(asked, "http", 2 * len(acts) + 1, folder) as service:
        for number, act in enumerate(acts, 1):
            did = act(service.port)
            with Client(service.port) as client:
                reply, seconds = timed(client, get("/count"))
            compare(reply, (200, b"request %d\n" % number), number)
            print("| `%s` | %s | %.1f ms |" % (act.__name__, did, 1e3 * seconds))
        with Client(service.port) as client:
            compare(client.ask(get("/count")), (200, b"request %d\n" % (len(acts) + 1)), len(acts) + 1)
        for client in KEPT_OPEN:
            client.socket.close()
        service.end(0)
    print("The session ended with status 0, and without a failure.")


# ---- 4. clients side by side


def slowest(port, asked):
    """A few clients at once, each with its requests: the longest time to a reply."""
    def ask(k):
        longest = 0.0
        with Client(port) as client:
            for number in range(k, k + EACH):
                reply, seconds = timed(client, Greetings().request(number))
                compare(reply, Greetings().reply(number), number)
                longest = max(longest, seconds)
        return longest

    return max(at_once(asked.kept, ask, range(asked.kept)))


def closes(client, asked):
    """Waits until the server has closed a connection."""
    client.socket.settimeout(asked.patience + LONGEST)
    try:
        while client.socket.recv(1 << 20):
            pass
    except ConnectionError:
        pass


def beside_silent(asked, folder):
    with Service(asked, "http", asked.kept + 1, folder) as service, Client(service.port) as silent:
        began, longest = time.monotonic(), slowest(service.port, asked)
        if longest >= asked.patience > 0:
            raise Wrong("a client that never sends held up the others for %.1f seconds" % longest)
        if asked.patience:
            closes(silent, asked)
        silent.socket.close()
        service.end(0)
    return "%d beside one that never sends" % asked.kept, "it was given up behind %.1f s" % (time.monotonic() - began), longest


def beside_unread(asked, folder):
    with Service(asked, "http", asked.kept + 1, folder) as service:
        unread, sent = sends_much(service.port)
        longest = slowest(service.port, asked)
        unread.socket.close()
        service.end(0)
    if longest > asked.patience + LONGEST / 2:
        raise Wrong("a client that never reads held up the others for %.1f seconds" % longest)
    return "%d beside one that never reads" % asked.kept, "it had sent %d KiB of requests" % (sent >> 10), longest


def all_half_closed(asked, folder):
    count = processes(asked)
    with Service(asked, "http", count, folder) as service:
        began = time.monotonic()
        at_once(count, lambda _: ended_sending(service.port), range(count))
        longest = time.monotonic() - began
        service.end(0)
    return "%d that end their sending" % count, "each got its reply, and then the close", longest


def one_too_many(asked, folder):
    with Service(asked, "http", asked.at_once + 1, folder) as service:
        held = [Client(service.port) for _ in range(asked.at_once)]
        with Client(service.port) as client:
            reply, seconds = timed(client, get("/count"))
        compare(reply, (200, b"request 1\n"), 0)
        for silent in held:
            silent.socket.close()
        service.end(0)
    if seconds < asked.patience / 2:
        raise Wrong("one client more than %d was served behind %.1f seconds" % (asked.at_once, seconds))
    return "1 behind %d that never send" % asked.at_once, "it waited until one of them was given up", seconds


def side_by_side(asked, folder):
    if asked.at_once <= asked.kept:
        return
    acts = [beside_silent, beside_unread, all_half_closed] + [one_too_many] * (asked.patience > 0)
    print("\n| Clients at the same time | What they did | The longest time to a reply |")
    print("|---|---|---|")
    for act in acts:
        who, did, longest = act(asked, folder)
        print("| %s | %s | %.1f ms |" % (who, did, 1e3 * longest))


def main(words):
    parser = argparse.ArgumentParser(description=__doc__, formatter_class=argparse.RawDescriptionHelpFormatter)
    parser.add_argument("--requests", type=int, default=500)
    parser.add_argument("--many", type=int, default=50_000)
    parser.add_argument("--episodes", type=int, default=20)
    parser.add_argument("--kept", type=int, default=4)
    parser.add_argument("--patience", type=int, default=2)
    parser.add_argument("--seconds", type=int, default=300)
    parser.add_argument("--at-once", type=int, default=1)
    parser.add_argument("rx", nargs="?", default=os.path.join(HERE, "..", "crates", "rx", "out", "rx"))
    asked = parser.parse_args(words)
    asked.rx = os.path.abspath(asked.rx)
    with tempfile.TemporaryDirectory() as folder:
        try:
            for part in (replies, failures, misbehave, side_by_side):
                part(asked, folder)
        except (Wrong, OSError) as wrong:
            print("wrong: %s" % wrong)
            return 1
    print("load of the machine: %.1f %.1f %.1f" % os.getloadavg())
    return 0


if __name__ == "__main__":
    sys.exit(main(sys.argv[1:]))
