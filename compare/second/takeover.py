"""A second host takes over from a first one: by its report, after it was killed at any moment; or by its whole record, without recovery.

Written from the plan that a report tells, the rules of the part that is followed, and those of a standby. The trunk comes again from its
beginning. What clients have, by the counts, isn't given again, and stands as passed from the moment that it is sent.
"""

from second import counts as counts_file, record, report
from second.command import Done, FileNotes, Limit, Mismatch, Replay
from second.heap import Heap, PLAIN
from second.instructions import Failure
from second.machine import MIB
from second.outside import FileFault, ReadFault, TrunkLink, WriteFault
from second.session import Plan, Session
from second.trunk import Refused

MOST_STEPS_FOLLOWED = 1 << 62
MOST_PIECE = 65535


def plan_of(episodes, keep, base):
    """The plan behind the adoptions of episodes, each of which stays for so many items, over a base: of each the last trial was adopted."""
    plan = Plan(base)
    for episode in episodes:
        last = episode.tries[-1]
        plan = plan.adopt(last.checkpoint, last.environment, episode.point, keep)
    return plan


def is_well_placed(episode):
    """Whether the environment of the trial that was adopted begins no later than the failure."""
    start = episode.tries[-1].checkpoint
    return start == 0 or start < episode.point


class Short(Exception):
    """A client has more than the run sends; the argument is the least such connection."""


class Followed(Session):
    """A session behind a part that is followed: until its run stands past all that the files tell of, nothing is given and no failure recovered."""

    def __init__(self, image, options, link, notes, recorded, episodes, counts):
        super().__init__(image, options, link, notes)
        self.recorded_before, self.episodes_before, self.counts = recorded, episodes, counts
        self.plan = plan_of(episodes, options.keep, options.env)
        self.survivor.environment = self.plan.at(0)
        self.is_released, self.shut_before = False, set()  # released or not, and the connections that were closed by then

    def serve(self):
        try:
            answer = self.follow()
        except Mismatch:
            return ("Mismatch", self.apart)
        except Short as short:
            return ("Short", short.args[0])
        except ReadFault:
            return ("ReadFault",)
        except FileFault:
            return ("FileFault",)
        return answer or super().serve()

    def to_an_end(self):
        self.pass_due()
        if self.survivor.exited is not None:
            return ("Exited", self.survivor.exited)
        return super().to_an_end()

    # -- the part that is followed

    def follow(self):
        """Follows the run to where it is released; or the answer of an event that is refused before."""
        if any(not is_well_placed(episode) for episode in self.episodes_before):
            self.differ(0)
        while True:
            stand = self.to_a_stand()
            if self.judge(stand, stand != "asks"):
                self.is_released, self.shut_before = True, set(self.shut)
                return None
            if self.survivor.taken - self.ring[-1].machine.taken >= self.options.every:
                self.save()
            answer = self.hear(stand)
            if answer:
                return answer

    def left(self):
        """Until it is released nothing is told of its run."""
        return super().left() if self.is_released else (0, [], 0, 0)

    def to_a_stand(self):
        """Goes on to a request, an exit or a failure. Answers of the allocator have to be the record's."""
        machine, lines = self.survivor, self.recorded_before.lines
        while True:
            if machine.exited is not None:
                return "exits"
            try:
                event = machine.step()
            except Failure:
                return "fails"
            if event is None:
                continue
            if event[0] == "asks":
                return "asks"
            if event[0] == "sent":
                self.hold(*event[1:])
            if event[0] == "chose" and len(machine.choices) <= len(lines):
                line = lines[len(machine.choices) - 1]
                if line != event[1]:
                    self.differ(machine.steps - 1)

    def hold(self, connection, content):
        """What a client has of a send is passed at once."""
        start = self.survivor.emitted[connection] - len(content)
        had = content[:max(0, self.counts.get(connection, 0) - start)]
        if had:
            self.passed.add(connection, had, self.survivor.taken)

    def hear(self, stand):
        """The next item; or the answer of a refused event. Where the link has ended, it is judged."""
        machine = self.survivor
        while len(self.items.received) == machine.taken:
            event = self.next_event()
            if event[0] == "ends":
                self.judge(stand, True)
            refusal = event if event[0] == "InputRefused" else self.items.event(event)
            if refusal:
                return refusal
            if event[0] == "closes":
                self.shut.add(event[1])
        machine.take(self.items.received[machine.taken])
        machine.environment = self.plan.at(machine.taken)
        return None

    def next_event(self):
        try:
            return self.link.next()
        except Refused as refused:
            return ("InputRefused",) + refused.args

    # -- how far it has come

    def is_past(self, stand):
        if not self.episodes_before or stand == "exits":
            return True
        point = self.episodes_before[-1].point
        return point <= self.survivor.taken if stand == "asks" else point < self.survivor.taken

    def is_elsewhere(self):
        """Whether it stands at or behind the record's last line, and not where that says."""
        finish = self.recorded_before.finish
        return finish is not None and finish[0] <= self.survivor.steps and finish != (self.survivor.steps, self.survivor.taken)

    def has_chosen(self):
        return len(self.survivor.choices) >= len(self.recorded_before.lines)

    def uncovered(self):
        return [c for c, count in sorted(self.counts.items()) if count > self.survivor.emitted.get(c, 0)]

    def is_as_told(self, stand):
        finish = self.recorded_before.finish
        return self.is_past(stand) and self.has_chosen() and (finish is None or self.survivor.steps >= finish[0])

    def judge(self, stand, is_stuck):
        """Whether it has reached all that was handed over. Where it can't go on, or stands at the record's last line or behind, and hasn't, this raises why."""
        machine, finish = self.survivor, self.recorded_before.finish
        is_told, lacking = self.is_as_told(stand), self.uncovered()
        if is_told and not lacking:
            return True
        if self.is_elsewhere() or (is_stuck and not is_told):
            self.differ(machine.steps)
        if is_told and (is_stuck or finish == (machine.steps, machine.taken)):
            raise Short(lacking[0])
        return False

    def differ(self, steps):
        self.apart = steps
        raise Mismatch


class TakenNotes(FileNotes):
    """Files that begin with the episodes of the first host. The record is emptied before the report has them, and has its head behind them."""

    def __init__(self, files, form, episodes):
        super().__init__(files, "r", "t", form)
        self.before = episodes

    def start(self, options):
        self.files.start(self.record_name)
        self.files.start(self.report_name)
        told = [report.episode_text(number, episode, self.form) for number, episode in enumerate(self.before)]
        self.files.add(self.report_name, report.head_text(self.form) + b"".join(told))
        self.episodes += self.before
        self.files.add(self.record_name, record.head_line(options.window // MIB, options.frame))


def refused(name, error):
    return Done((name,) + error.args)


def resume(program, files_of_first, source, sink, options, files, form="text", make=Followed):
    """The command resume, with the texts of the first host's record and report, and of the counts; and `program` makes the image."""
    of_record, of_report, of_counts = files_of_first
    try:
        recorded = record.read_unfinished(of_record)
        if recorded.version == 1:
            raise record.RecordRefused(1)  # its lines don't say what was asked
        told = report.read_report(of_report)
        counts = counts_file.read_counts(of_counts)
    except record.RecordRefused as error:
        return refused("RecordRefused", error)
    except report.ReportRefused as error:
        return refused("ReportRefused", error)
    except counts_file.CountsRefused as error:
        return refused("CountsRefused", error)
    options.window, options.frame = recorded.window * MIB, recorded.frame
    notes = TakenNotes(files, form, told.adopted)
    try:
        notes.start(options)
    except FileFault:
        return Done(("FileFault",))
    session = make(program(options.window), options, TrunkLink(source, sink), notes, recorded, told.adopted, counts)
    answer = session.serve()
    if session.is_released and answer[0] in ENDS_BEHIND:
        try:
            notes.finish(session, answer)
        except FileFault:
            answer = ("FileFault",)
    return Done(answer, session)


ENDS_BEHIND = ("Finished", "Exited", "GaveUp", "InputRefused", "MessageTooLong", "LimitItems", "LimitEvents")


# ---- standby


class Silent:
    """A link that hears and gives nothing."""

    def __init__(self, link):
        self.link = link

    def next(self):
        return self.link.next()

    def give(self, connection, content):
        return None


class Follower(Replay):
    """A recorded run over the events of a link, which then goes on in the plain environment on the layout of its live blocks, without recovery."""

    def __init__(self, image, reading, link, budget):
        super().__init__(image, reading.lines, reading.frame, Silent(link))
        self.image, self.link_behind, self.budget = image, link, budget
        self.shut, self.reading, self.recorded = set(), reading, 0

    def take_event(self):
        event = self.link.next()
        if event[0] == "ends":
            raise Mismatch
        refusal = self.items.event(event)
        if refusal:
            raise Limit(refusal)
        if event[0] == "closes":
            self.shut.add(event[1])

    def short(self, counts):
        """The least connection whose client has more than was sent to it, or None."""
        over = [c for c, count in sorted(counts.items()) if count > self.machine.emitted.get(c, 0)]
        return over[0] if over else None

    def serve(self, counts):
        """Gives what is missing, and goes on; the answer."""
        self.begin()
        try:
            self.give_missing(counts)
            return self.go_on()
        except Failure as failure:
            return ("GaveUp", self.machine.taken, failure.args[0])
        except ReadFault:
            return ("ReadFault",)
        except WriteFault:
            return ("WriteFault",)
        except Refused as error:
            return ("InputRefused",) + error.args
        except Limit as limit:
            return limit.args[0]

    def begin(self):
        """From here on the allocator answers by the plain environment, beside the live blocks alone; and there is a budget."""
        machine = self.machine
        heap = Heap(self.image.heap_start, self.image.heap_end)
        for at, size in machine.heap.live.items():
            heap.adopt(at, size)
        machine.heap, machine.environment, machine.budget = heap, PLAIN, self.budget
        machine.memory.guard = None

    def give_missing(self, counts):
        machine = self.machine
        for connection in sorted(machine.emitted):
            sent = b"".join(content for to, content, _, _ in machine.sends if to == connection)[counts.get(connection, 0):]
            while sent and self.may_give(connection):
                self.give(connection, sent[:MOST_PIECE])
                sent = sent[MOST_PIECE:]

    def may_give(self, connection):
        return connection not in self.shut and connection not in self.gone

    def give(self, connection, content):
        if self.may_give(connection) and self.link_behind.give(connection, content) is not None:
            self.gone.add(connection)

    def go_on(self):
        machine = self.machine
        while True:
            if machine.exited is not None:
                return ("Exited", machine.exited)
            event = machine.run_to_event()
            if event[0] == "sent":
                self.give(event[1], event[2])
            elif event[0] == "asks":
                while len(self.items.received) == machine.taken:
                    event = self.link_behind.next()
                    if event[0] == "ends":
                        return ("Finished",)
                    refusal = self.items.event(event)
                    if refusal:
                        return refusal
                    if event[0] == "closes":
                        self.shut.add(event[1])
                machine.take(self.items.received[machine.taken])

    def rest_text(self):
        """What the new record has behind its first line."""
        return record.choice_lines(self.machine.choices) + record.end_line(self.machine.steps, self.machine.taken)

    def left(self):
        machine = self.machine
        return self.recorded, machine.choices[self.recorded:], machine.steps, machine.taken


def standby(program, of_record, of_counts, source, sink, budget, files):
    """The command standby, with the texts of the first host's record and of the counts."""
    try:
        reading = record.read_record(of_record)
        if reading.steps >= MOST_STEPS_FOLLOWED:
            raise record.RecordRefused(len(record.lines_of(of_record)))
        counts = counts_file.read_counts(of_counts)
    except record.RecordRefused as error:
        return refused("RecordRefused", error)
    except counts_file.CountsRefused as error:
        return refused("CountsRefused", error)
    follower = Follower(program(reading.window * MIB), reading, TrunkLink(source, sink), budget)
    answer = follower.run(reading.steps, reading.taken)
    if answer != ("Finished",):
        return Done(answer)
    if follower.short(counts) is not None:
        return Done(("Short", follower.short(counts)))
    try:
        files.start("r")
        files.add("r", record.head_line(reading.window, reading.frame))
    except FileFault:
        return Done(("FileFault",))
    answer = follower.serve(counts)
    if answer[0] in ENDS_BEHIND:
        try:
            files.add("r", follower.rest_text())
            follower.recorded = len(follower.machine.choices)
        except FileFault:
            answer = ("FileFault",)
    return Done(answer, follower)
