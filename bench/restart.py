#!/usr/bin/env python3
"""Whether a `serve` is stopped in order under load: `rx` is restarted again and again behind HAProxy, and no request is lost, and none is answered twice.

Two places behind HAProxy have guests/http in turns. Each round starts one at the free place, waits until it listens, and stops the other one by a line
`stop`; that has to end with status 0, and its report with an end of status 0. Meanwhile --clients clients ask for /count, each request on a connection of its
own, until the rounds are done. Each reply has to be of status 200. What one start of the guest counted has to have come to clients as 1, 2, 3 and so on,
each number once: so no request was taken without its reply, and none was done twice. HAProxy sends a request again that was closed without a reply, as it
is where a client connected to a place that had just stopped.

Told are requests a second, the longest time of one, and the longest stop.

usage: restart.py [--rounds N] [--clients N] [--drain SECONDS] [RX]
RX is the built rx, crates/rx/out/rx unless it is given. The status is 0 where all was right.
"""

import argparse
import collections
import http.client
import os
import shutil
import socket
import subprocess
import sys
import tempfile
import threading
import time

HERE = os.path.dirname(os.path.abspath(__file__))
GUEST = os.path.join(HERE, "..", "guests", "http")

HOST = "127.0.0.1"
LISTENS = "0A"  # the state of a socket in /proc/net/tcp
LONGEST = 30  # seconds for a start, a stop or a reply
PAUSE = 0.05  # seconds from a client's reply to its next request, so that no start has more than its 4096 clients
PLACES = ("a", "b")

CONFIG = """global
    maxconn 1000
defaults
    mode http
    timeout connect 5s
    timeout client 30s
    timeout server 30s
    retries 20
    option redispatch 1
    option http-server-close
    retry-on conn-failure empty-response
frontend clients
    bind {host}:{front}
    default_backend rx
backend rx
    balance roundrobin
    http-response set-header X-Place %s
    server a {host}:{a} check inter 50ms fall 1 rise 1
    server b {host}:{b} check inter 50ms fall 1 rise 1
"""


class Wrong(Exception):
    """Something that isn't as it has to be."""


def free_ports(count):
    """Ports that nobody has."""
    held = [socket.socket() for _ in range(count)]
    for one in held:
        one.bind((HOST, 0))
    ports = [one.getsockname()[1] for one in held]
    for one in held:
        one.close()
    return ports


def listens(port):
    """Whether somebody listens there. Who connects to see it would be a client."""
    with open("/proc/net/tcp", encoding="ascii") as table:
        rows = [line.split() for line in table][1:]
    return any(row[3] == LISTENS and int(row[1].split(":")[1], 16) == port for row in rows)


def wait_for(what, done):
    """Waits until something is so."""
    until = time.monotonic() + LONGEST
    while not done():
        if time.monotonic() > until:
            raise Wrong(f"{what} took longer than {LONGEST} s")
        time.sleep(0.005)


class Place:
    """A port at which the guest is started and stopped."""

    def __init__(self, rx, folder, name, port, drain):
        self.rx, self.name, self.port, self.drain = rx, name, port, drain
        self.report = os.path.join(folder, f"{name}.report")
        self.process, self.starts = None, 0

    def start(self):
        """Starts it, and waits until it listens."""
        words = [self.rx, "serve", GUEST, str(self.port), "4096", "--record", "none", "--report", self.report, "--frame", "whole"]
        words += ["--at-once", "128", "--patience", "20", "--stop", "input", "--drain", str(self.drain)]
        self.starts += 1
        self.process = subprocess.Popen(words, stdin=subprocess.PIPE)
        wait_for("a start", lambda: listens(self.port))

    def stop(self):
        """Stops it in order, and answers how long that took."""
        began = time.monotonic()
        self.process.stdin.write(b"no word of it\nstop\n")
        self.process.stdin.flush()
        if self.process.wait(LONGEST) != 0:
            raise Wrong(f"a stop ended with status {self.process.returncode}")
        with open(self.report, encoding="ascii") as report:
            last = report.read().splitlines()[-1]
        if not last.startswith("end 0 "):
            raise Wrong(f"the report's last line is {last}")
        return time.monotonic() - began


class Clients:
    """Clients that ask again and again, and what they were told."""

    def __init__(self, port, places, count):
        self.port, self.places = port, places
        self.counts = collections.defaultdict(list)
        self.longest, self.wrong, self.done = 0.0, [], False
        self.lock = threading.Lock()
        self.began = [0.0] * count
        self.threads = [threading.Thread(target=self.ask_on, args=(number,)) for number in range(count)]

    def ask(self):
        """One request on a connection of its own: which start of which place answered, and its count."""
        client = http.client.HTTPConnection(HOST, self.port, timeout=LONGEST)
        client.request("GET", "/count")
        reply = client.getresponse()
        text = reply.read().decode()
        client.close()
        if reply.status != 200 or not text.startswith("request "):
            raise Wrong(f"status {reply.status}: {text!r}")
        place = reply.getheader("X-Place")
        return (place, self.places[place].starts), int(text.split()[1])

    def ask_on(self, number):
        """Asks until all is done."""
        while not self.done and not self.wrong:
            began = self.began[number] = time.monotonic()
            try:
                start, count = self.ask()
            except (Wrong, OSError, http.client.HTTPException, ValueError) as what:
                self.wrong.append(repr(what))
                return
            with self.lock:
                self.counts[start].append(count)
                self.longest = max(self.longest, time.monotonic() - began)
            time.sleep(PAUSE)

    def settle(self):
        """Waits until each request that was begun before now was answered, so that it is known which start answered it."""
        now = time.monotonic()
        wait_for("a reply", lambda: self.wrong or min(self.began) > now)

    def judge(self):
        """Each start counted every request that came to it, and each count came to one client."""
        if self.wrong:
            raise Wrong(f"a client had {self.wrong[0]}")
        for start, counts in self.counts.items():
            if sorted(counts) != list(range(1, len(counts) + 1)):
                raise Wrong(f"start {start[1]} of {start[0]} counted {max(counts)}, of which clients had {len(counts)}")


def restart(places, clients, rounds):
    """Starts and stops the places in turns, and answers the longest stop."""
    longest = 0.0
    places[0].start()
    wait_for("HAProxy", lambda: listens(clients.port))
    time.sleep(0.3)
    for thread in clients.threads:
        thread.start()
    for turn in range(rounds):
        old, new = places[turn % 2], places[(turn + 1) % 2]
        new.start()
        time.sleep(0.2)
        longest = max(longest, old.stop())
        clients.settle()
        if clients.wrong:
            break
    clients.done = True
    for thread in clients.threads:
        thread.join()
    places[rounds % 2].stop()
    return longest


def main():
    parser = argparse.ArgumentParser(description=__doc__.splitlines()[0])
    parser.add_argument("--rounds", type=int, default=200)
    parser.add_argument("--clients", type=int, default=32)
    parser.add_argument("--drain", type=int, default=10)
    parser.add_argument("rx", nargs="?", default=os.path.join(HERE, "..", "crates", "rx", "out", "rx"))
    asked = parser.parse_args()
    if shutil.which("haproxy") is None:
        sys.exit("there is no haproxy here")
    with tempfile.TemporaryDirectory() as folder:
        front, *ports = free_ports(3)
        places = [Place(asked.rx, folder, name, port, asked.drain) for name, port in zip(PLACES, ports)]
        config = os.path.join(folder, "haproxy.cfg")
        with open(config, "w", encoding="ascii") as out:
            out.write(CONFIG.format(host=HOST, front=front, a=ports[0], b=ports[1]))
        proxy = subprocess.Popen(["haproxy", "-f", config, "-db"], stderr=subprocess.DEVNULL)
        clients = Clients(front, {place.name: place for place in places}, asked.clients)
        began = time.monotonic()
        try:
            longest = restart(places, clients, asked.rounds)
            clients.judge()
        except Wrong as what:
            sys.exit(f"wrong: {what}")
        finally:
            clients.done = True
            proxy.kill()
            for place in places:
                if place.process is not None and place.process.poll() is None:
                    place.process.kill()
        requests = sum(len(counts) for counts in clients.counts.values())
        seconds = time.monotonic() - began
    print(f"{asked.rounds} restarts, {requests} requests of {asked.clients} clients, none lost and none answered twice")
    print(f"{requests / seconds:.0f} requests a second, the longest {clients.longest * 1000:.0f} ms; the longest stop {longest * 1000:.0f} ms")


if __name__ == "__main__":
    main()
