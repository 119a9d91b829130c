"""A host that stopped, and one that stands by for it: the built rx beside the second engine.

A first host serves the front of a session at random in the built rx, and comes to its end. The built rx stands by then, over the whole input,
by the record that was left and by how many bytes each client has: as many as it was passed, or fewer; or more than there are; or the counts or
the record are changed or spoilt. Output, answer, status and the new record have to be those of the second engine's standby.

Where record and counts are true, each client's bytes of both hosts have to be those of one run: that of the new record, as the built rx replays
it. And a third host, which stands by for the second one over the same input, has nothing to give and leaves the same record.
"""

import collections
import os
import random
import signal
import subprocess
import tempfile

from second import beside_rx, guests, spoilt_records, takeover_check, trunk
from second.anew import Broken, must
from second.command import ENDS, image_maker
from second.counts import counts_text
from second.items import WHOLE
from second.machine import executable
from second.outside import MemoryFiles, MemorySink, MemorySource
from second.record import read_record, record_text, without_asks
from second.said import answer_of, is_told
from second.takeover import MOST_STEPS_FOLLOWED, standby

USUAL_BUDGET = 1000000
DRAWS, SOME_BYTES = 6, 20
OLD = b"rx record 1 what was there"
OTHER_COUNTS = [b"", b"0 00", b"00 0", b"0  1", b" 0 1", b"0 1 ", b"0 1\r", b"0", b"0 +1", b"4096 1", b"4095 9223372036854775808", b"0 1\t", b"-1 1", b"0 \xff"]

# What came of a standby: the answer, the status, the output, and the new record.
Came = collections.namedtuple("Came", "answer status output new")


class Takeover:
    """What a second host is given: the program's segments and entry, the texts of the record and of the counts, the input, and the budget."""

    def __init__(self, program, of_record, of_counts, stream, budget=None):
        self.program, self.of_record, self.of_counts, self.stream, self.budget = program, of_record, of_counts, stream, budget

    def in_second_engine(self):
        """What comes of it, and how it was done."""
        sink, files = MemorySink(), MemoryFiles({"r": OLD})
        done = standby(image_maker(*self.program), self.of_record, self.of_counts, MemorySource(self.stream), sink, self.budget or USUAL_BUDGET, files)
        return Came(done.answer, done.status, sink.content, files.files["r"]), done


def read_whole(pipe, count):
    """So many bytes of a pipe, or fewer where it ends."""
    content = b""
    while len(content) < count:
        piece = pipe.read(count - len(content))
        if not piece:
            break
        content += piece
    return content


class Folder:
    """A folder with the files of a second host: the program as p, the record as r, the counts as c, and the new record as n."""

    def __init__(self, rx, path):
        self.rx, self.path = rx, path

    def put(self, **contents):
        for name, content in contents.items():
            with open(os.path.join(self.path, name), "wb") as file:
                file.write(content)

    def run(self, words, stream):
        return subprocess.run([self.rx] + words, input=stream, capture_output=True, check=False, cwd=self.path)

    def stand_by(self, takeover):
        """What comes of it in rx, with the answer as it is told."""
        self.put(p=executable(*takeover.program), r=takeover.of_record, c=takeover.of_counts, n=OLD)
        budget = ["--budget", str(takeover.budget)] if takeover.budget else []
        done = self.run(["standby", "p", "r", "c", "--record", "n"] + budget, takeover.stream)
        answer = answer_of(done.returncode, done.stderr.decode(errors="replace"), takeover.budget or USUAL_BUDGET)
        return Came(answer, done.returncode, done.stdout, beside_rx.content_of(os.path.join(self.path, "n")))

    def replayed(self, takeover, of_record):
        """The bytes of each connection that the run of a record sends."""
        self.put(r=of_record)
        done = self.run(["replay", "p", "r"], takeover.stream)
        must(done.returncode == 0, "a replay of the new record has the status %d" % done.returncode)
        return trunk.payloads(done.stdout)

    def differences(self, takeover):
        """What comes of it in the second engine, how it was done there, and in what rx differs."""
        (ours, done), theirs = takeover.in_second_engine(), self.stand_by(takeover)
        found = []
        if theirs.status != ours.status or not is_told(ours.answer, theirs.answer):
            found.append("answer: %s in place of %s" % (theirs.answer, ours.answer))
        if theirs.output != ours.output:
            at = len(os.path.commonprefix([theirs.output, ours.output]))
            found.append("output: %d bytes in place of %d, alike up to byte %d" % (len(theirs.output), len(ours.output), at))
        if theirs.new != ours.new:
            found.append("new record: %r in place of %r" % (theirs.new, ours.new))
        return ours, done, found


# ---- what is drawn


def some_front(rng, stream):
    """The first bytes of a stream: mostly whole frames, at times a part of one behind them."""
    if rng.random() < 0.2:
        return stream[:rng.randrange(len(stream) + 1)]
    ends = [0]
    for event in trunk.events(stream)[0]:
        ends.append(ends[-1] + len(trunk.frame_of(event)))
    return stream[:max(rng.choice(ends), rng.choice(ends))]


def true_counts(rng, passed):
    """As many bytes as each client was passed, or fewer. A client without bytes may have a line."""
    is_exact = rng.random() < 0.3
    counts = {c: len(content) if is_exact or rng.random() < 0.3 else rng.randrange(len(content) + 1) for c, content in passed.items()}
    if rng.random() < 0.1:
        counts.setdefault(rng.choice([0, 7, 4095]), 0)
    return {c: count for c, count in counts.items() if count or rng.random() < 0.3}


def wrong_counts(rng, passed):
    """More bytes than some client was passed."""
    counts = true_counts(rng, passed)
    connection = rng.choice([*passed, 0, 9])
    counts[connection] = len(passed.get(connection, b"")) + rng.choice([1, 1, 2, 100, (1 << 63) - 1 - (1 << 20)])
    return counts


def spoilt_counts(rng, text):
    """The text with something in it that no count has, perhaps."""
    lines = text.split(b"\n")[:-1]
    how, other = rng.randrange(4), rng.choice(OTHER_COUNTS)
    if how == 0:
        return text[:-1] if text else b"0 1"
    if how == 1 and len(lines) > 1:
        rng.shuffle(lines)
    elif how == 2 and lines:
        lines.append(lines[-1])
    else:
        lines.insert(rng.randrange(len(lines) + 1), other)
    return b"".join(line + b"\n" for line in lines)


def changed_record(rng, reading):
    """Another record, or what is none."""
    kind = rng.random()
    if kind < 0.2:
        return record_text(reading._replace(steps=rng.choice([MOST_STEPS_FOLLOWED, MOST_STEPS_FOLLOWED + 1, 2 * MOST_STEPS_FOLLOWED - 1])))
    if kind < 0.7:
        return record_text(rng.choice(spoilt_records.CHANGES)(rng, reading))
    text = record_text(reading)
    return rng.choice(spoilt_records.WAYS)(rng, text)


class FirstHost(spoilt_records.KeptPair):
    """A session of which the first host gets the front. `whole` is all of the input."""

    def __init__(self, name, rx):
        super().__init__(name, rx)
        self.whole = self.stream
        self.stream = some_front(self.rng, self.whole)

    def input_behind(self):
        """The whole input, at times with the same bytes in other pieces."""
        events, refusal = trunk.events(self.whole)
        if refusal or self.options.frame == WHOLE or self.rng.random() < 0.7:
            return self.whole
        return b"".join(trunk.frame_of(event) for event in takeover_check.cut_anew(self.rng, events))

    def budget_behind(self, since):
        """A budget like the one of before, or twice as much, for the most; at times about as many as came since the last item. None is the usual one."""
        if self.rng.random() < 0.15:
            return max(1, since + self.rng.choice([-1, 0, 1, 2]))
        return self.rng.choice([None, 400] + [self.options.budget, self.options.budget * 2] * 12)


def some_first_host(name, rx):
    """A first host that passes its clients some bytes, if one of a few does."""
    for number in range(DRAWS):
        first = FirstHost("%s %d" % (name, number), rx)
        if len(first.in_second_engine()[0].session.link.sink.content) > SOME_BYTES:
            break
    return first


# ---- two hosts, and a third one


class Compared:
    """Hosts that were compared, and what was seen of them."""

    def __init__(self, rx, path, guards):
        self.rx, self.folder = beside_rx.Rx(rx, True, True, guards), Folder(rx, path)
        self.answers, self.sums, self.wrong, self.all = collections.defaultdict(collections.Counter), collections.Counter(), 0, 0

    def add(self, what, hosts, answer, found):
        self.all += 1
        self.wrong += bool(found)
        self.answers[hosts][answer[0]] += 1
        for difference in found:
            print("%s, %s: %s" % (what, hosts, difference))

    def session(self, name):
        """A first host, a second one, and perhaps a third one."""
        first = some_first_host(name, self.rx)
        done, found = first.differences()
        must_end = [] if done.answer[0] in ENDS else ["it has no end"]
        self.add(name, "first hosts", done.answer, found or must_end)
        if found or must_end:
            return
        passed, rng = trunk.payloads(done.session.link.sink.content), random.Random(name + " behind")
        reading, kind, since = read_record(first.files["r"]), rng.random(), done.session.survivor.since
        told = without_asks(reading) if rng.random() < 0.2 else reading
        self.sums["records of version %d" % told.version] += 1
        if kind < 0.7:
            takeover = Takeover(first.segments, record_text(told), b"", first.input_behind(), first.budget_behind(since))
            self.true(name, takeover, told, passed, true_counts(rng, passed))
            return
        of_record, of_counts = record_text(told), counts_text(true_counts(rng, passed))
        if kind < 0.8:
            of_counts = counts_text(wrong_counts(rng, passed))
        elif kind < 0.9:
            of_counts = spoilt_counts(rng, of_counts)
        else:
            of_record = changed_record(rng, told)
        takeover = Takeover(first.segments, of_record, of_counts, first.input_behind(), first.budget_behind(since))
        came, _, found = self.folder.differences(takeover)
        self.add(name, "second hosts, changed", came.answer, found)

    def true(self, name, takeover, reading, passed, counts):
        """A second host by a true record and true counts, and a third one behind it."""
        takeover.of_counts = counts_text(counts)
        came, done, found = self.folder.differences(takeover)
        if came.answer[0] not in ENDS:
            found.append("a true record and true counts are answered %s" % (came.answer,))
        given = trunk.payloads(came.output)
        self.sums.update({"bytes given": sum(map(len, given.values())), "items behind": max(0, done.taken - reading.taken),
                          "clients that lacked bytes": sum(len(content) > counts.get(c, 0) for c, content in passed.items())})
        if not found:
            both = {c: passed.get(c, b"")[:counts.get(c, 0)] + given.get(c, b"") for c in {*counts, *given}}
            try:
                self.check_one_run(takeover, came.new, both, done.session.shut)
            except Broken as broken:
                found.append("two hosts: %s" % broken)
        self.add(name, "second hosts", came.answer, found)
        if not found:
            self.third(name, takeover, came, both)

    def check_one_run(self, takeover, of_record, both, shut):
        """Tests that clients have the bytes of the run that the record tells of: all of them, where a connection isn't closed."""
        sent = self.folder.replayed(takeover, of_record)
        for connection, content in both.items():
            must(sent.get(connection, b"").startswith(content), "connection %d has what one run doesn't send" % connection)
        for connection, content in sent.items():
            must(connection in shut or both.get(connection, b"") == content, "connection %d lacks bytes" % connection)

    def third(self, name, takeover, before, both):
        """A third host over the same input, by the new record and with the counts of both: it comes to the same, and gives nothing."""
        of_counts = counts_text({c: len(content) for c, content in both.items()})
        came, _, found = self.folder.differences(Takeover(takeover.program, before.new, of_counts, takeover.stream, takeover.budget))
        if (came.answer, came.output, came.new) != (before.answer, b"", before.new):
            found.append("it gives %d bytes and answers %s behind %s" % (len(came.output), came.answer, before.answer))
        self.add(name, "third hosts", came.answer, found)

    def killed(self):
        """A first host that is killed while it waits for its input: its record has no last line, and is refused behind its first one."""
        stream = trunk.frame(trunk.OPENS, 0) + trunk.piece_frame(0, b"a\n")
        reply = trunk.piece_frame(0, b"a\n")
        program = guests.program("echo")
        self.folder.put(p=executable(*program))
        words = [self.rx.path, "run", "p", "--record", "r", "--report", "t"]
        with subprocess.Popen(words, cwd=self.folder.path, stdin=subprocess.PIPE, stdout=subprocess.PIPE, stderr=subprocess.DEVNULL, bufsize=0) as host:
            host.stdin.write(stream)
            came = read_whole(host.stdout, len(reply))
            host.kill()
            host.wait()
        found = [] if came == reply and host.returncode == -signal.SIGKILL else ["it wrote %r and ended with %s" % (came, host.returncode)]
        of_record = beside_rx.content_of(os.path.join(self.folder.path, "r"))
        came, _, differences = self.folder.differences(Takeover(program, of_record, b"0 2\n", stream))
        if came.answer != ("RecordRefused", 2):
            found.append("its record is answered %s" % (came.answer,))
        self.add("echo", "first hosts that were killed", came.answer, found + differences)

    def tell(self):
        print("%d hosts agree, %d differ" % (self.all - self.wrong, self.wrong))
        for hosts, answers in sorted(self.answers.items()):
            print("%s: %s" % (hosts, ", ".join("%s %d" % pair for pair in sorted(answers.items()))))
        print(", ".join("%s %d" % pair for pair in sorted(self.sums.items())))


def compare(rx, sessions, seed, guards=True):
    """Compares so many sessions; how many hosts differ."""
    with tempfile.TemporaryDirectory() as path:
        compared = Compared(rx, path, guards)
        compared.killed()
        for number in range(sessions):
            compared.session("%d %d" % (seed, number))
    compared.tell()
    return compared.wrong
