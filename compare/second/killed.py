"""Hosts that are killed, and those that go on for them: the built rx beside the second engine.

A first host serves a session at random by `rx run`. It is killed: either it is cut behind a part of some call that writes, in the order of calls that
the second engine has, once all that it wrote is compared; or the process gets SIGKILL at some moment, while its input has more to come. By what is left,
a record, a report and how many bytes each client has, the next one goes on by `rx resume`, with the input from its beginning. It may be killed too.

Output, answer, status and both files of each host that isn't killed by a signal have to be those of the second engine; what is left by one that is killed
has to begin what the second engine writes. Behind the last host each client's bytes of all hosts together have to be those of one run: that of the second
engine's last survivor, which is the run of the last record as `rx replay` gives it. Beside some hosts stands one with a false count, or with a file that
is changed: it has to do what the second engine does.
"""

import collections
import os
import subprocess
import tempfile
import time

from second import beside_rx, hosts, spoilt_records, trunk
from second.anew import Broken, must
from second.command import ENDS
from second.counts import counts_text
from second.machine import executable
from second.next_hosts import Came, Drawn, Left, OLD, cut
from second.report import read_report
from second.said import answer_of, is_told

MOST_HOSTS = 4
SECONDS = 0.3  # for which a host that is to be killed is waited for


class Folder(hosts.Folder):
    """A folder of a host: the program as p, the record, the report and the counts that it is handed as r, t and c, and those that it writes as n and m."""

    def lay_out(self, host):
        texts = dict(zip("rtc", host.texts or ()))
        self.put(p=executable(*host.drawn.segments), **texts, **OLD)

    def content(self, name):
        return beside_rx.content_of(os.path.join(self.path, name))

    def in_rx(self, host):
        self.lay_out(host)
        done = self.run(host.words(), host.stream)
        answer = answer_of(done.returncode, done.stderr.decode(errors="replace"), host.options.budget)
        return Came(answer, done.returncode, done.stdout, self.content("n"), self.content("m"))

    def differences(self, host):
        """What comes of it in the second engine, how it was done, the journal, and in what rx differs."""
        (ours, done, journal), theirs = host.in_second_engine(), self.in_rx(host)
        found = []
        if theirs.status != ours.status or not is_told(ours.answer, theirs.answer):
            found.append("answer: %s in place of %s" % (theirs.answer, ours.answer))
        for name in ("output", "record", "report"):
            ours_has, theirs_has = getattr(ours, name), getattr(theirs, name)
            if theirs_has != ours_has:
                at = len(os.path.commonprefix([theirs_has, ours_has]))
                found.append("%s: %d bytes in place of %d, alike up to byte %d" % (name, len(theirs_has), len(ours_has), at))
        return ours, done, journal, found

    def killed(self, host, rng):
        """What is left by a host that gets SIGKILL at some moment, while its input has more to come; and whether it was alive still."""
        self.lay_out(host)
        path = os.path.join(self.path, "output")
        with open(path, "wb") as output, subprocess.Popen(
                [self.rx] + host.words(), cwd=self.path, stdin=subprocess.PIPE, stdout=output, stderr=subprocess.DEVNULL, bufsize=0) as process:
            try:
                process.stdin.write(host.stream[:rng.randrange(len(host.stream) + 1)])
            except BrokenPipeError:
                pass
            wait_for(process, path, rng)
            was_alive = process.poll() is None
            process.kill()
            try:
                process.stdin.close()
            except BrokenPipeError:
                pass
            process.wait()
        return Left(self.content("output"), self.content("n"), self.content("m")), was_alive


def wait_for(process, path, rng):
    """Waits for some bytes of output, or for a moment."""
    wanted, until = rng.choice([0, 1, rng.randrange(1, 40), rng.randrange(1, 400)]), time.monotonic() + SECONDS * rng.random()
    while process.poll() is None and time.monotonic() < until and os.path.getsize(path) < wanted:
        time.sleep(0.001)


# ---- what is false


def with_false_counts(rng, texts, held):
    return (*texts[:2], counts_text(hosts.wrong_counts(rng, held)))


def with_spoilt_counts(rng, texts, _):
    return (*texts[:2], hosts.spoilt_counts(rng, texts[2]))


def with_record(rng, texts, _):
    return (rng.choice(spoilt_records.WAYS)(rng, texts[0]), *texts[1:])


def with_report(rng, texts, _):
    return (texts[0], rng.choice(spoilt_records.WAYS)(rng, texts[1]), texts[2])


FALSE = [with_false_counts, with_false_counts, with_spoilt_counts, with_record, with_report, with_report]


# ---- sessions


class Compared:
    """Sessions that were compared, and what was seen of them."""

    def __init__(self, rx, path, guards):
        self.folder, self.guards = Folder(rx, path), guards
        self.answers, self.sums, self.differ = collections.defaultdict(collections.Counter), collections.Counter(), 0

    def add(self, name, what, answer, found):
        self.answers[what][answer[0]] += 1
        self.differ += bool(found)
        for difference in found:
            print("%s, %s: %s" % (name, what, difference))
        return not found

    def session(self, name, by_signal):
        """A session, served by one host after another."""
        self.sums["sessions"] += 1
        drawn, texts, held = Drawn(name, self.guards), None, collections.defaultdict(bytes)
        for number in range(MOST_HOSTS):
            host = drawn.first() if texts is None else drawn.next((*texts, counts_text({c: len(b) for c, b in held.items() if b})))
            is_last = number == MOST_HOSTS - 1 or number > 0 and drawn.rng.random() < 0.4
            if number > 0 and texts and not self.false(name, drawn, host, held):
                return
            left = self.left_by(name, drawn, host, by_signal and not is_last, held, is_last)
            if left is None:
                return
            for connection, content in trunk.payloads(left.output).items():
                held[connection] += content
            self.lose(drawn.rng, held)
            if b"\n" in left.record and b"\n" in left.report and left.record != OLD["n"]:
                texts = (left.record, left.report)
            elif left.output:
                self.add(name, "hosts killed", ("it gave bytes before its files had their first lines",), ["so"])
                return

    def lose(self, rng, held):
        """At times a client doesn't get the last bytes that it was passed."""
        if held and rng.random() < 0.2:
            connection = rng.choice(sorted(held))
            kept = rng.randrange(len(held[connection]) + 1)
            self.sums["bytes lost"] += len(held[connection]) - kept
            held[connection] = held[connection][:kept]

    def left_by(self, name, drawn, host, by_signal, held, is_last):
        """What a host leaves that is killed, or None where the session is at its end or differs."""
        what = "first hosts" if host.texts is None else "next hosts"
        if host.texts:
            self.sums.update({"resumed": 1, "episodes followed": len(read_report(host.texts[1]).adopted)})
        if by_signal:
            left, was_alive = self.folder.killed(host, drawn.rng)
            self.sums.update({"killed by a signal": was_alive})
            return left if self.add(name, what + ", killed", ("killed" if was_alive else "at its end",), self.not_begun(host, left)) else None
        ours, done, journal, found = self.folder.differences(host)
        if not self.add(name, what, ours.answer, found):
            return None
        if not is_last:
            self.sums["cut"] += 1
            return cut(drawn.rng, journal)
        for connection, content in trunk.payloads(ours.output).items():
            held[connection] += content
        self.add(name, "last hosts", ours.answer, self.not_one_run(host, ours, done, held))
        return None

    def not_begun(self, host, left):
        """In what a host that was killed left what the second engine doesn't begin with."""
        ours = host.in_second_engine()[0]
        return [name for name in Left._fields if not getattr(ours, name).startswith(getattr(left, name))
                and getattr(left, name) != OLD.get({"record": "n", "report": "m"}.get(name))]

    def not_one_run(self, host, ours, done, held):
        """In what clients don't have the bytes of one run, once the last host came to its end."""
        try:
            must(ours.answer[0] in ENDS, "the last host answers %s" % (ours.answer,))
            session, sent = done.session, collections.defaultdict(bytes)
            for connection, content, _, _ in session.survivor.sends:
                sent[connection] += content
            for connection, content in held.items():
                must(sent[connection].startswith(content), "connection %d has what one run doesn't send" % connection)
            for connection, content in sent.items():
                must(connection in session.shut or held[connection] == content, "connection %d lacks bytes" % connection)
            self.folder.put(r=ours.record)
            again = self.folder.run(["replay", "p", "r"], host.stream)
            must(again.returncode == 0, "a replay of the last record has the status %d" % again.returncode)
            must(trunk.payloads(again.stdout) == {c: b for c, b in sent.items() if b}, "a replay gives other bytes")
        except Broken as broken:
            return ["not one run: %s" % broken]
        return []

    def false(self, name, drawn, host, held):
        """At times sets a host with something false beside the second engine's."""
        if drawn.rng.random() < 0.6:
            return True
        other = host.changed(drawn.rng.choice(FALSE)(drawn.rng, host.texts, held))
        ours, _, _, found = self.folder.differences(other)
        return self.add(name, "hosts with something false", ours.answer, found)

    def tell(self):
        for what, answers in sorted(self.answers.items()):
            print("%s: %s" % (what, ", ".join("%s %d" % pair for pair in sorted(answers.items()))))
        print("%s; %d differ" % (", ".join("%s %d" % pair for pair in sorted(self.sums.items())), self.differ))


def compare(rx, sessions, kills, seed, guards=True):
    """Compares so many sessions with hosts that are cut, and so many with hosts that are killed by a signal; how many differ."""
    with tempfile.TemporaryDirectory() as path:
        compared = Compared(rx, path, guards)
        for number in range(sessions):
            compared.session("%d %d" % (seed, number), False)
        for number in range(kills):
            compared.session("%d %d killed" % (seed, number), True)
    compared.tell()
    return compared.differ
