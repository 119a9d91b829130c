"""The commands run, diagnose, serve, replay, convert and drill over things in memory, in the order in which they touch files.

Written from the order of a command, the table of answers and statuses, the rules of a replay and of a conversion, and the drill's
generator. What a program file or a line of words may be isn't looked at here.
"""

from second import diagnosis, record, report
from second.heap import Illegal
from second.instructions import Failure
from second.items import Items
from second.machine import Image, MIB, recorded_machine
from second.outside import FileFault, MemoryFiles, MemorySink, MemorySource, PortLink, ReadFault, TrunkLink, WriteFault
from second.session import Options, Session
from second.trunk import Refused, frame, payloads

ENDS = ("Finished", "Exited", "GaveUp", "InputRefused", "MessageTooLong", "LimitItems", "LimitEvents")
STATUSES = {
    "Finished": 0, "ElfRefused": 3, "AsmRefused": 3, "RecordRefused": 3, "ReportRefused": 3, "CountsRefused": 3, "Mismatch": 3, "Short": 3,
    "TooLarge": 3, "InputRefused": 4,
    "MessageTooLong": 4, "GaveUp": 5, "LimitItems": 6, "LimitEvents": 6, "ReadFault": 7, "WriteFault": 8, "FileFault": 9}


def status_of(answer):
    return int(answer[1] != 0) if answer[0] == "Exited" else STATUSES[answer[0]]


class FileNotes:
    """Adds choices to the record and episodes to the report; and begins and ends the diagnosis, where it has a name."""

    def __init__(self, files, record_name, report_name, form, diagnosis_name=None):
        self.files, self.record_name, self.report_name, self.form = files, record_name, report_name, form
        self.diagnosis_name, self.episodes = diagnosis_name, []

    def start(self, options):
        self.files.start(self.record_name)
        self.files.add(self.record_name, record.head_line(options.window // MIB, options.frame))
        self.files.start(self.report_name)
        self.files.add(self.report_name, report.head_text(self.form))
        if self.diagnosis_name:
            self.files.start(self.diagnosis_name)
            self.files.add(self.diagnosis_name, diagnosis.HEAD)

    def choices(self, choices):
        self.files.add(self.record_name, record.choice_lines(choices))

    def episode(self, episode):
        self.files.add(self.report_name, report.episode_text(len(self.episodes), episode, self.form))
        self.episodes.append(episode)

    def finish(self, session, answer):
        """The choices that weren't noted yet and the last lines."""
        _, tail, steps, taken = session.left()
        if tail:
            self.choices(tail)
            session.recorded += len(tail)
        self.files.add(self.record_name, record.end_line(steps, taken))
        self.files.add(self.report_name, report.end_text(status_of(answer), taken, steps, self.form))
        if self.diagnosis_name:
            self.files.add(self.diagnosis_name, diagnosis.rest_text(self.episodes, session.tables, status_of(answer)))


class Done:
    """What came of a command: answer, status, recorded, tail, steps, taken; and its session, where there was one."""

    def __init__(self, answer, session=None):
        self.answer, self.status, self.session = answer, status_of(answer), session
        self.recorded, self.tail, self.steps, self.taken = session.left() if session else (0, [], 0, 0)


def run_session(image, options, link, files, form="text", make=Session, diagnoses=False):
    """A session with its files: the program was loaded. `make` makes the session. Where it `diagnoses`, a third file is "d"."""
    notes = FileNotes(files, "r", "t", form, "d" if diagnoses else None)
    try:
        notes.start(options)
    except FileFault:
        return Done(("FileFault",))
    session = make(image, options, link, notes)
    session.tables = [] if diagnoses else None
    answer = session.serve()
    if answer[0] in ENDS:
        try:
            notes.finish(session, answer)
        except FileFault:
            answer = ("FileFault",)
    return Done(answer, session)


def run(image, source, sink, options=None, files=None, form="text", diagnoses=False):
    """The command run, with the program as "p", the record as "r" and the report as "t"; or diagnose, with the diagnosis as "d"."""
    files = files if files is not None else MemoryFiles({"p": b""})
    try:
        files.load("p")
    except FileFault:
        return Done(("FileFault",))
    return run_session(image, options or Options(), TrunkLink(source, sink), files, form, diagnoses=diagnoses)


def serve(image, listener, count, options=None):
    """The command serve."""
    return run_session(image, options or Options(), PortLink(listener, count), MemoryFiles({}))


# ---- replay and convert


class Mismatch(Exception):
    """The run isn't the recorded one."""


class Replay:
    """A recorded run over the events of a link; each send is given as one piece, to closed connections too."""

    def __init__(self, image, choices, frame_name, link):
        self.machine, self.items, self.link = recorded_machine(image, choices), Items(frame_name), link
        self.gone = set()

    def run(self, steps, taken):
        machine = self.machine
        try:
            while machine.steps < steps:
                if machine.exited is not None:
                    raise Mismatch
                self.step()
            if machine.heap.used < len(machine.heap.choices) or machine.taken != taken:
                raise Mismatch
            return ("Finished",)
        except (Failure, Mismatch, Illegal):
            return ("Mismatch", machine.steps)
        except ReadFault:
            return ("ReadFault",)
        except WriteFault:
            return ("WriteFault",)
        except Refused as refused:
            return ("InputRefused",) + refused.args
        except Limit as limit:
            return limit.args[0]

    def step(self):
        event = self.machine.step()
        if event is None:
            return
        if event[0] == "sent" and event[1] not in self.gone:
            if self.link.give(event[1], event[2]) is not None:
                self.gone.add(event[1])
        elif event[0] == "asks":
            while len(self.items.received) == self.machine.taken:
                self.take_event()
            self.machine.take(self.items.received[self.machine.taken])

    def take_event(self):
        event = self.link.next()
        if event[0] == "ends":
            raise Mismatch
        refusal = self.items.event(event)
        if refusal:
            raise Limit(refusal)


class Limit(Exception):
    """An event is refused: the answer."""


def replay_of(program, text, source, sink):
    """The reading of a record and its replay, which hasn't run yet. `program` makes the image for a window in bytes."""
    reading = record.read_record(text)
    image = program(reading.window * MIB)
    return reading, Replay(image, reading.lines, reading.frame, TrunkLink(source, sink))


def replay(program, text, source, sink):
    """The command replay."""
    try:
        reading, run_again = replay_of(program, text, source, sink)
    except record.RecordRefused as refused:
        return Done(("RecordRefused",) + refused.args)
    return Done(run_again.run(reading.steps, reading.taken))


def convert(program, text, source, files):
    """The command convert, with the new record as "o". It gives nothing to an output, and starts "o" once the run has ended."""
    sink = MemorySink()
    try:
        reading, run_again = replay_of(program, text, source, sink)
    except record.RecordRefused as refused:
        return Done(("RecordRefused",) + refused.args)
    answer = run_again.run(reading.steps, reading.taken)
    if answer != ("Finished",):
        return Done(answer)
    try:
        files.start("o")
        files.add("o", record.record_text(reading._replace(version=2, lines=run_again.machine.choices)))
    except FileFault:
        answer = ("FileFault",)
    return Done(answer)


def image_maker(segments, entry):
    return lambda window: Image(segments, entry, window)


# ---- drill


def drill_draws(seed):
    while True:
        seed = (1664525 * seed + 1013904223) % (1 << 32)
        yield seed >> 16


def drill_message(draws):
    """The connection and the line of a message."""
    a, b, d = next(draws), next(draws), next(draws)
    if d % 64 == 0:
        line = b"set " + b"a" * 40 + b" z\n"
    elif d % 2:
        line = b"set k%d v%d\n" % (b % 50, d % 1000)
    else:
        line = b"get k%d\n" % (b % 50)
    return a % 4, line


def drill(keys, seed, count):
    """The five lines, with the image of guest keys; and the session's end."""
    draws = drill_draws(seed)
    trunk_in = [frame(1, c) for c in range(4)]
    trunk_in += [frame(2, *drill_message(draws)) for _ in range(count)]
    trunk_in += [frame(3, c) for c in range(4)]
    sink = MemorySink()
    done = run(keys, MemorySource(b"".join(trunk_in)), sink)
    passed = sum(len(content) for content in payloads(sink.content).values())
    lines = b"drill %d %d\nitems %d\nepisodes %d\nbytes %d\nstatus %d\n" % (
        seed, count, done.taken, len(done.session.notes.episodes), passed, done.status)
    return lines, done
