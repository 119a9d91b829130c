"""What every session promises, as tests of a session that runs and of one that ended.

While it runs, each attempt is run once more from the program's start instead of its checkpoint, the ring is found once more by such a
run, and before each event and at each piece nothing may be owed but what is given. A whole table begins with the tries of the session's
own walk. Afterwards the recorded run is run anew, on the
received items and the recorded choices, and the served run, under the plan of environments. What clients were given is compared with
these.
"""

import collections
import re

from second import record, report, trunk
from second.anew import go_on, must, result_anew, ring_anew, served_machine
from second.command import ENDS, Done, convert, image_maker, replay
from second.guard import BLOCK, OFF
from second.heap import ENVIRONMENTS
from second.items import Items, LINE, WHOLE
from second.machine import MESSAGE, MIB, recorded_machine
from second.outside import MemoryFiles, MemorySink, MemorySource, TrunkLink
from second.session import SURVIVED, Session


# ---- while a session runs


class WatchedSession(Session):
    """A session that tests each attempt, each event and piece, and each checkpoint."""

    def __init__(self, image, options, link, notes, anew):
        super().__init__(image, options, link, notes)
        self.anew, self.saves, self.left_by_frames = anew, 0, 0
        self.is_ending, self.last_given, self.adoptions = False, -1, []

    def to_an_end(self):
        answer = super().to_an_end()
        self.is_ending = True
        return answer

    def attempt(self, checkpoint, environment, point):
        trial, result = super().attempt(checkpoint, environment, point)
        if self.anew:
            machine, other = result_anew(self, checkpoint.machine.taken, environment, point)
            must(other == result, "an attempt is %s, and from the start it is %s" % (result, other))
            must(machine.state() == trial.state(), "an attempt's state differs from the start's")
            must(machine.heap.blocks == trial.heap.blocks, "an attempt's blocks differ from the start's")
        return trial, result

    def owed(self, connection, until):
        """How many bytes of the connection are owed and unpassed."""
        sent = sum(len(send[1]) for send in self.survivor.sends if send[0] == connection and send[2] <= until)
        return max(0, sent - self.passed.count(connection))

    def is_open(self, connection):
        events = [entry[1] for entry in self.journal if entry[0] == "event" and not entry[2]]
        return ("opens", connection) in events and ("closes", connection) not in events and connection not in self.gone

    def take_event(self):
        received = len(self.items.received)
        must(self.survivor.taken == received, "an event is taken before its item is needed")
        must(received - self.ring[-1].machine.taken < self.options.every, "a checkpoint is lacking")
        for connection in {send[0] for send in self.survivor.sends}:
            if self.is_open(connection):
                must(self.owed(connection, received - self.options.hold) == 0, "an event is taken while bytes are owed")
        self.last_given = -1
        answer = super().take_event()
        _, event, refusal = ([entry for entry in self.journal if entry[0] == "event"] or [(None, ("none",), None)])[-1]
        for connection in {send[0] for send in self.survivor.sends} - self.gone:
            if not refusal and (event == ("closes", connection) or event == ("settles",) and self.is_open(connection)):
                must(self.owed(connection, 1 << 64) == 0, "bytes are held after a settle or a close")
        return answer

    def recover(self, cause):
        names = [checkpoint.machine.taken for checkpoint in self.ring]
        table = [(name, environment) for name in names[::-1] for environment in ("pad", "zero", "isolate", "delay", "all")]
        survived = super().recover(cause)
        tries = self.notes.episodes[-1].tries
        must([(tried.checkpoint, tried.environment) for tried in tries] == table[:len(tries)], "entries are tried in another order")
        if self.tables is not None:
            whole = self.tables[-1]
            must([(tried.checkpoint, tried.environment) for tried in whole] == table, "a whole table has other entries")
            must(whole[:len(tries)] == tries, "a whole table doesn't begin with the session's own tries")
        return survived

    def adopt(self, checkpoint, trial, environment, point):
        super().adopt(checkpoint, trial, environment, point)
        self.adoptions.append((checkpoint.machine.taken, environment, point + self.options.keep - 1))
        self.last_given = -1

    def given(self, connection, piece, gone):
        self.check_piece(connection, piece, gone)
        super().given(connection, piece, gone)

    def check_piece(self, connection, piece, gone):
        """A piece is the unpassed part of one send, which is owed; pieces stand in the order of the sends."""
        passed, place = self.passed.count(connection), 0
        for number, (to, content, taken, _) in enumerate(self.survivor.sends):
            if to == connection and place + len(content) > passed:
                break
            place += len(content) if to == connection else 0
        rest = content[passed - place:] if passed > place else content
        must(piece == rest or rest.startswith(piece) and (gone or self.link_failed()), "a piece isn't the unpassed part of a send")
        last = [entry for entry in self.journal if entry[0] == "event"][-1:]
        event = last[0][1] if last and not last[0][2] else None
        closing = event == ("closes", connection)
        must(taken + self.options.hold <= len(self.items.received) or closing or event == ("settles",) or self.is_ending,
             "a piece is given before it is owed")
        must(closing or self.is_open(connection), "a piece is given to a connection that isn't open")
        must(number > self.last_given or closing, "pieces are out of order")
        self.last_given = self.last_given if closing else number

    def link_failed(self):
        """Whether the link's last call was to fail."""
        if isinstance(self.link, TrunkLink):
            return self.link.sink.calls in self.link.sink.fails
        return self.link.calls in self.link.fails

    def save(self):
        must(self.survivor.taken - self.ring[-1].machine.taken >= self.options.every, "a checkpoint comes early")
        names = ring_anew(self) if self.anew else None
        super().save()
        must(not self.anew or names == [c.machine.taken for c in self.ring], "the ring has other checkpoints")
        self.saves += 1
        self.left_by_frames += len(self.ring) < min(self.options.ring, self.saves + 1)


# ---- after a session


def check_recorded_run(session, files, answer):
    """The recorded run from the start, with the record's choices; it is returned."""
    recorded, tail, steps, taken = session.left()
    text = files.files["r"]
    choices = [record.choice_of(line + b"\n", 2) for line in text.split(b"\n") if line[:1] in (b"m", b"c", b"r") and line[1:2] == b" "]
    must(len(choices) == recorded, "the record has another number of choices")
    head = record.head_line(session.options.window // MIB, session.options.frame)
    must(text.startswith(head + record.choice_lines(choices)), "the record doesn't begin with its head and choices")
    # by the guard of blocks each access has to be in a block that is live by what the record says, too
    machine = recorded_machine(session.image, choices + tail, BLOCK if session.options.guard == BLOCK else OFF)
    go_on(machine, session.items.received, steps)
    must(machine.heap.used == len(machine.heap.choices) and machine.taken == taken, "the recorded run ends elsewhere")
    must(machine.state() == session.survivor.state(), "the recorded run's state differs")
    if answer[0] in ENDS:
        must(not tail, "choices are left over")
        reading = record.Reading(2, session.options.window // MIB, session.options.frame, choices, steps, taken)
        must(record.read_record(text) == reading, "the record reads otherwise")
    return machine


def check_served_run(session):
    """The served run from the start, under the plan; at the requests of the ring's checkpoints it is what they hold."""
    machine = served_machine(session, session.adoptions)
    for checkpoint in session.ring:
        kept = checkpoint.machine
        go_on(machine, session.items.received, kept.steps, session.options.env, session.adoptions)
        must(machine.state() == kept.state() and machine.heap.blocks == kept.heap.blocks, "a checkpoint isn't the survivor's state")
    go_on(machine, session.items.received, session.survivor.steps, session.options.env, session.adoptions)
    must(machine.state() == session.survivor.state(), "the served run's state differs")
    must(machine.heap.blocks == session.survivor.heap.blocks, "the served run's blocks differ")


def check_passed(session, output, machine, answer):
    """What clients were given is a prefix of what the run sends; at an end it is all, where they are open."""
    sent = collections.defaultdict(bytes)
    for connection, content, _, _ in machine.sends:
        sent[connection] += content
    for connection, content in output.items():
        must(sent[connection].startswith(content), "connection %d was given other bytes" % connection)
    for connection, content in session.passed.content.items():
        must(output.get(connection, b"") == bytes(content), "connection %d got other bytes than were counted" % connection)
    if answer[0] in ENDS:
        for connection in sent:
            if session.is_open(connection):
                must(output.get(connection, b"") == sent[connection], "connection %d lacks bytes at the end" % connection)


def check_stamps(session):
    """A stamp is the number of items that the events before the piece bring."""
    options, stamps = session.options, collections.defaultdict(list)
    items, passed = Items(options.frame, options.max_items, options.max_events), collections.Counter()
    for entry in session.journal:
        if entry[0] == "gave":
            passed[entry[1]] += len(entry[2])
            stamps[entry[1]].append((len(items.received), passed[entry[1]]))
        elif entry[1][0] != "ends":
            must(items.event(entry[1]) == entry[2], "an event is heeded otherwise")
    must(items.received == session.items.received, "the journal brings other items")
    must(stamps == session.passed.stamps, "the stamps differ")


def messages_of(frame, pieces):
    """The messages of one connection's pieces, found in their joined bytes."""
    joined = b"".join(pieces)
    if frame == LINE:
        return re.findall(rb"[^\n]*\n", joined)
    if frame == WHOLE:
        return [piece for piece in pieces if piece]
    found, at = [], 0
    while at + 4 <= len(joined) and at + 4 + int.from_bytes(joined[at:at + 4], "little") <= len(joined):
        end = at + 4 + int.from_bytes(joined[at:at + 4], "little")
        found.append(joined[at + 4:end])
        at = end
    return found


def check_messages(session):
    """Each connection's messages are those of its pieces, in any cut."""
    pieces, messages = collections.defaultdict(list), collections.defaultdict(list)
    for entry in session.journal:
        if entry[0] == "event" and entry[1][0] == "piece" and not entry[2]:
            pieces[entry[1][1]].append(entry[1][2])
    for kind, connection, content in session.items.received:
        if kind == MESSAGE:
            messages[connection].append(content)
    for connection, of_connection in pieces.items():
        expected = messages_of(session.options.frame, of_connection)
        must(messages[connection] == expected, "connection %d has other messages" % connection)


def check_feasible(session, machine):
    """Before each item, the run emitted every byte that was given while at most as many items were received."""
    for connection, marks in session.passed.stamps.items():
        for stamp, count in marks:
            if stamp < machine.taken:
                sent = sum(len(s[1]) for s in machine.sends if s[0] == connection and s[2] <= stamp)
                must(sent >= count, "bytes with stamp %d come after item %d" % (stamp, stamp))


def check_episodes(session, answer):
    points = [episode.point for episode in session.notes.episodes]
    must(all(a < b for a, b in zip(points, points[1:])), "points don't rise")
    for number, episode in enumerate(session.notes.episodes):
        results = [tried.result for tried in episode.tries]
        must(len(results) <= 5 * session.options.ring, "too many tries")
        must(SURVIVED not in results[:-1], "an entry is tried after one survived")
        gave_up = not results or results[-1] != SURVIVED
        must(not gave_up or number == len(points) - 1, "the session goes on after every entry failed")
        if gave_up and answer[0] in ENDS:
            must(answer == ("GaveUp", episode.point, episode.cause), "an episode without a survivor ends otherwise")
        must(not gave_up or len(results) == 5 * len(session.ring), "the table wasn't tried to its end")


def check_report(session, files, answer, form):
    if answer[0] in ENDS:
        done = Done(answer)
        text = report.head_text(form)
        text += b"".join(report.episode_text(n, e, form) for n, e in enumerate(session.notes.episodes))
        must(files.files["t"] == text + report.end_text(done.status, session.survivor.taken, session.survivor.steps, form), "the report differs")


DIAGNOSED = re.compile(r"rx diagnosis 1\n((?:.*\n)*)end (\d+) episodes (\d+)\n")
FAILURE = re.compile(r"failure \d+ point \d+ cause .* at [0-9a-f]{8}\n")
TRIED = re.compile(r"try (\d+) checkpoint (\d+) env (\w+) result (.*)\n")


def check_diagnosis(session, files, answer, form):
    """The diagnosis has the report's failures, the whole tables, and the verdicts that these give; behind a fault its first line alone."""
    text = files.files["d"].decode()
    if answer[0] not in ENDS:
        must(text == "rx diagnosis 1\n" or answer == ("FileFault",), "a diagnosis goes on behind a fault")
        return
    match = DIAGNOSED.fullmatch(text)
    must(match and match[2] == str(Done(answer).status) and int(match[3]) == len(session.tables), "the diagnosis has another form")
    parts = re.split(r"(?m)^(?=failure )", match[1])[1:]
    must(len(parts) == len(session.tables) == len(session.notes.episodes), "the diagnosis has other failures")
    if form == report.TEXT:
        must(FAILURE.findall(match[1]) == FAILURE.findall(files.files["t"].decode()), "the diagnosis' failures aren't the report's")
    for part, whole in zip(parts, session.tables):
        check_table(part, whole)


def check_table(part, whole):
    """The text of a failure and its whole table."""
    tries = TRIED.findall(part)
    must(tries == [(str(n), str(tried.checkpoint), tried.environment, tried.result) for n, tried in enumerate(whole)], "a table is told otherwise")
    must(len(part.splitlines()) == len(tries) + 2 and FAILURE.match(part), "a failure is told otherwise")
    survived = [(int(q), ENVIRONMENTS.index(e)) for _, q, e, result in tries if result == SURVIVED]
    newest = sorted(e for q, e in survived if q == max(survived)[0])
    must(part.endswith("\nverdict %s\n" % " ".join([ENVIRONMENTS[e] for e in newest] or ["none"])), "a verdict differs")


def check_stream(session, stream, answer):
    """The events are those of the stream, and the answer is the one that the first refusal gives."""
    events, refusal = trunk.events(stream)
    taken = [entry[1] for entry in session.journal if entry[0] == "event"]
    ended = taken[-1:] == [("ends",)]
    taken = taken[:-1] if ended else taken
    must(taken == events[:len(taken)], "the events aren't the stream's")
    if answer[0] == "InputRefused":
        must(len(taken) == len(events) and refusal == answer[1:], "the stream is refused otherwise")
    if ended:
        must(len(taken) == len(events) and refusal is None, "the stream hasn't ended")


def check_replay(session, text, stream):
    """The replay of the record over the same input gives every send, and of what version 1 says of it, which can't say what was carried; each is
    converted to the record."""
    program, reading = image_maker(session.image.segments, session.image.entry), record.read_record(text)
    sends = b"".join(trunk.piece_frame(send[0], send[1]) for send in session.survivor.sends)
    for told in [text] + [record.record_text(record.without_asks(reading))] * (not any(line.carried for line in reading.lines)):
        sink, files = MemorySink(), MemoryFiles({})
        done = replay(program, told, MemorySource(stream), sink)
        must(done.answer == ("Finished",), "the replay is %s" % (done.answer,))
        must(sink.content == sends, "the replay sends otherwise")
        done = convert(program, told, MemorySource(stream), files)
        must(done.answer == ("Finished",) and files.files == {"o": text}, "the record is converted otherwise")


def check_session(session, answer, files, form, output, stream):
    """All promises of a session that ended; `output` is what went out by connection, and `stream` its input, where it was one."""
    machine = check_recorded_run(session, files, answer)
    check_served_run(session)
    check_passed(session, output, machine, answer)
    check_stamps(session)
    check_messages(session)
    check_feasible(session, machine)
    check_episodes(session, answer)
    check_report(session, files, answer, form)
    if session.tables is not None:
        check_diagnosis(session, files, answer, form)
    if stream is not None:
        check_stream(session, stream, answer)
    if stream is not None and answer[0] in ENDS:
        check_replay(session, files.files["r"], stream)
