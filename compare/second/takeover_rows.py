"""Worked rows of a second host: by a report of one that was killed, and by a whole record."""

from second import guests, trunk
from second.checks import OPENS_0, lines_in, out, piece, row, say
from second.outside import MemoryFiles, MemorySink, MemorySource
from second.session import Options
from second.takeover import plan_of, resume, standby
from second.report import Episode, SURVIVED, Try

HEAD = b"rx record 2 window 4 frame line\n"
REPORT = b"rx report 1\n"
OPENS_1, CLOSES_0 = trunk.frame(trunk.OPENS, 1), trunk.frame(trunk.CLOSES, 0)
OVERRUN = b"*" * 39 + b"\n"


class Taken:
    """A session that was taken over, with its output and files."""

    def __init__(self, guest, stream, of_record, of_report, of_counts, form="text", **options):
        self.sink, self.files = MemorySink(), MemoryFiles({})
        texts = (of_record, of_report, of_counts)
        self.done = resume(lambda window: guests.image(guest, window), texts, MemorySource(stream), self.sink, Options(**options), self.files, form)

    def says(self, answer, status, output, steps=None, taken=None):
        say(self.done.answer, answer, "answer")
        say(self.done.status, status, "status")
        say(self.sink.content, output, "output")
        if steps is not None:
            say((self.done.steps, self.done.taken), (steps, taken), "steps and items")

    def records(self, *blocks):
        """Where the blocks stand that its record has, and what its last line says."""
        lines = self.files.files["r"].decode().splitlines()
        say([line.split()[1] for line in lines[1:-1]], list(blocks), "blocks")
        say(lines[-1], "end %d %d" % (self.done.steps, self.done.taken), "last line")

    def reports(self, text):
        say(self.files.files["t"], text, "report")


NOTED = REPORT + b"failure 0 point 2 cause AssertFailed 1 at 000100ac\ntry 0 checkpoint 1 env pad result survived\n"


def overrun_taken(counts, **options):
    return Taken("overflow", lines_in(OVERRUN, b"hi\n"), HEAD, NOTED, counts, **options)


@row("an episode was noted, and nothing passed")
def _():
    taken = overrun_taken(b"")
    taken.says(("Finished",), 0, out((0, OVERRUN), (0, b"hi\n")), 368, 3)
    taken.records("00012100", "00012310", "00012100", "00012310")
    taken.reports(NOTED + b"end 0 taken 3 steps 368\n")


@row("a frame was cut")
def _():
    overrun_taken(b"0 10\n").says(("Finished",), 0, out((0, OVERRUN[10:]), (0, b"hi\n")), 368, 3)
    overrun_taken(b"0 40\n").says(("Finished",), 0, out((0, b"hi\n")), 368, 3)


PAIR_TRIES = b"""try 0 checkpoint 2 env pad result Contradicts
try 1 checkpoint 2 env zero result BadFree
try 2 checkpoint 2 env isolate result Contradicts
try 3 checkpoint 2 env delay result survived
"""
PAIR_FAILS = b"failure 0 point 3 cause BadFree at 0001009c\n"
PAIR_STREAM = OPENS_0 + OPENS_1 + piece(1, b"go\n")


@row("a byte of the run that failed")
def _():
    taken = Taken("pair", PAIR_STREAM, HEAD, REPORT + PAIR_FAILS + PAIR_TRIES, b"0 2\n")
    taken.says(("Finished",), 0, out((1, b"b\n")), 76, 3)
    taken.records("00013000", "00013000")
    taken = Taken("pair", PAIR_STREAM, HEAD, REPORT + PAIR_FAILS + PAIR_TRIES, b"")
    taken.says(("Finished",), 0, out((0, b"a\n"), (1, b"b\n")), 76, 3)


@row("killed within the trials")
def _():
    taken = Taken("pair", PAIR_STREAM, HEAD, REPORT + PAIR_FAILS + b"try 0 checkp", b"0 2\n")
    taken.says(("Finished",), 0, out((1, b"b\n")), 76, 3)
    taken.reports(REPORT + PAIR_FAILS + PAIR_TRIES + b"end 0 taken 3 steps 76\n")


STALE = REPORT + b"failure 0 point 3 cause AssertFailed 3 at 000100e0\n" + b"".join(
    b"try %d checkpoint %d env %s result %s\n" % tried for tried in
    [(i, 2, e, b"AssertFailed 3") for i, e in enumerate((b"pad", b"zero", b"isolate", b"delay", b"all"))]
    + [(i + 5, 1, e, b"AssertFailed 3") for i, e in enumerate((b"pad", b"zero", b"isolate"))] + [(8, 1, b"delay", b"survived")])
STALE_STREAM = lines_in(b"a\n", b"b\n", b"c\n")


@row("a reason an item before the failure, and a third host")
def _():
    taken = Taken("stale", STALE_STREAM, HEAD, STALE, b"0 2\n")
    taken.says(("Finished",), 0, out((0, b"b\n"), (0, b"c\n")), 166, 4)
    taken.records("00012000", "00012040")
    third = Taken("stale", STALE_STREAM, HEAD, STALE, b"0 4\n")
    third.says(("Finished",), 0, out((0, b"c\n")), 166, 4)
    third.records("00012000", "00012040")


def delayed_at(number, point, checkpoint):
    tries = ((b"pad", b"BadFree"), (b"zero", b"BadFree"), (b"isolate", b"BadFree"), (b"delay", b"survived"))
    return b"failure %d point %d cause BadFree at %s\n" % (number, point, b"%08x" % TWICE_PC) + b"".join(
        b"try %d checkpoint %d env %s result %s\n" % (i, checkpoint, *t) for i, t in enumerate(tries))


TWICE_PC = 0x10094


@row("two episodes, and another cut")
def _():
    told = REPORT + delayed_at(0, 2, 1) + delayed_at(1, 6, 5)
    for stream in (OPENS_0 + piece(0, b"a\nb\nc\nd\ne\n") + piece(0, b"f\n"), lines_in(b"a\n", b"b\n", b"c\n", b"d\n", b"e\n", b"f\n")):
        taken = Taken("twice", stream, HEAD, told, b"0 10\n")
        taken.says(("Finished",), 0, out((0, b"f\n")), 190, 7)
        taken.records("00012000", "00012020", "00012040", "00012060", "00012080", "000120a0")


TELL_OVER = REPORT + b"failure 0 point 2 cause AssertFailed 5 at 000100c4\ntry 0 checkpoint 1 env pad result survived\n"


@row("held back")
def _():
    taken = Taken("tell_over", lines_in(b"a\n"), HEAD, TELL_OVER, b"")
    taken.says(("Finished",), 0, out((0, b"00013100\n")), 256, 2)
    taken.records("00013100", "00013310")


@row("after GaveUp, with other options")
def _():
    whole = HEAD + b"m 00013000 - 00000010\nm 00013010 - 00000010\nend 247 2\n"
    results = ("Contradicts", "AssertFailed 5", "Contradicts", "AssertFailed 5", "Contradicts") * 2
    tries = b"".join(b"try %d checkpoint %d env %s result %s\n" % (i, 1 - i // 5, e, r.encode())
                     for i, (e, r) in enumerate(zip((b"pad", b"zero", b"isolate", b"delay", b"all") * 2, results)))
    told = REPORT + b"failure 0 point 2 cause AssertFailed 5 at 000100c4\n" + tries + b"end 5 taken 2 steps 247\n"
    taken = Taken("tell_over", lines_in(b"a\n"), whole, told, b"0 9\n", hold=2)
    taken.says(("GaveUp", 2, "AssertFailed 5"), 5, b"", 247, 2)
    taken.reports(told)
    Taken("tell_over", lines_in(b"a\n"), whole, told, b"", hold=2).says(("Finished",), 0, out((0, b"00013100\n")))


@row("a report that lacks an episode")
def _():
    Taken("tell_over", lines_in(b"a\n"), HEAD, REPORT, b"0 9\n", hold=2).says(("GaveUp", 2, "AssertFailed 5"), 5, b"")
    Taken("stale", STALE_STREAM, HEAD, REPORT, b"0 4\n").says(("Short", 0), 3, b"")


@row("refusals of a second host")
def _():
    stream = OPENS_0 + piece(0, b"a\n") + piece(0, b"b\n")
    Taken("echo", stream, HEAD + b"end 34 2\n", REPORT, b"0 3\n").says(("Short", 0), 3, b"")
    Taken("echo", stream, HEAD, REPORT, b"0 3\n").says(("Finished",), 0, out((0, b"\n")))
    Taken("echo", stream, HEAD, REPORT, b"0 5\n").says(("Short", 0), 3, b"")
    Taken("echo", stream, HEAD, REPORT, b"0 02\n").says(("CountsRefused", 1), 3, b"")
    Taken("echo", stream, HEAD, REPORT + b"failure 1 point 2 cause Hang at 00010000\n", b"").says(("ReportRefused", 2), 3, b"")
    Taken("stale", OPENS_0, HEAD, STALE, b"").says(("Mismatch", 18), 3, b"")
    Taken("overflow", lines_in(OVERRUN, b"hi\n"), HEAD + b"m 00012010 - 00000010\n", NOTED, b"").says(("Mismatch", 26), 3, b"")
    taken = Taken("overflow", lines_in(b"hi\n"), HEAD + b"m 00012000 - 00000010\nm 00012010 - 00000010\nend 81 2\n", REPORT, b"")
    taken.says(("Finished",), 0, out((0, b"hi\n")), 81, 2)
    taken.records("00012000", "00012010")


@row("files that are of no session")
def _():
    old = b"rx record 1 window 4 frame line\n"
    Taken("echo", TWO_LINES, old, REPORT, b"").says(("RecordRefused", 1), 3, b"")
    late = REPORT + b"failure 0 point 2 cause Hang at 00010000\ntry 0 checkpoint 2 env pad result survived\n"
    Taken("echo", TWO_LINES, HEAD, late, b"").says(("Mismatch", 0), 3, b"")
    Taken("echo", TWO_LINES, HEAD + b"end 33 2\n", REPORT, b"0 3\n").says(("Mismatch", 34), 3, b"")
    Taken("echo", TWO_LINES, HEAD + b"end 33 2\n", REPORT, b"0 2\n").says(("Finished",), 0, out((0, b"b\n")))


@row("closed connections of a second host")
def _():
    stream = OPENS_0 + piece(0, b"a\n") + CLOSES_0 + OPENS_1 + piece(1, b"b\n") + piece(1, b"c\n")
    Taken("echo", stream, HEAD, REPORT, b"1 2\n").says(("Finished",), 0, out((1, b"c\n")))
    Taken("echo", stream, HEAD, REPORT, b"0 2\n").says(("Finished",), 0, out((1, b"b\n"), (1, b"c\n")))
    Taken("echo", stream, HEAD, REPORT, b"").says(("Finished",), 0, out((0, b"a\n"), (1, b"b\n"), (1, b"c\n")))


@row("the plan that episodes tell")
def _():
    def environments(last, *adoptions, keep=4, base="plain"):
        plan = plan_of([Episode(point, "Hang", 0, [Try(checkpoint, environment, SURVIVED)]) for checkpoint, environment, point in adoptions], keep, base)
        return [plan.at(count) for count in range(last + 1)]

    say(environments(10, (1, "pad", 2), (3, "delay", 5)), ["plain"] * 2 + ["pad"] * 2 + ["delay"] * 5 + ["plain"] * 2)
    say(environments(9, (1, "pad", 2), (0, "all", 4)), ["all"] * 8 + ["plain"] * 2)
    say(environments(11, (3, "pad", 5), (1, "delay", 7)), ["plain"] * 2 + ["delay"] * 9 + ["plain"])
    say(environments(5, (0, "zero", 0)), ["zero"] * 4 + ["plain"] * 2)
    say(environments(6, (1, "pad", 2), (2, "delay", 3), keep=1), ["plain"] * 2 + ["pad", "delay"] + ["plain"] * 3)
    say(environments(9, (1, "pad", 2), (3, "delay", 5), keep=2), ["plain"] * 2 + ["pad"] * 2 + ["delay"] * 3 + ["plain"] * 3)
    say(environments(14, (1, "pad", 2), (3, "delay", 5), keep=8), ["plain"] * 2 + ["pad"] * 2 + ["delay"] * 9 + ["plain"] * 2)
    say(environments(10, (1, "pad", 2), (3, "delay", 5), base="zero"), ["zero"] * 2 + ["pad"] * 2 + ["delay"] * 5 + ["zero"] * 2)
    say(environments(2, base="all"), ["all"] * 3)


PADDED = b"m 00012100 - 00000010\nm 00012310 - 00000010\n"
UNPADDED = b"m 00012000 - 00000010\nm 00012010 - 00000010\n"


def part_where(lines, keep):
    """A host of which the second line's blocks part from those of the host before, which kept its environment for another number of items."""
    taken = Taken("overflow", lines_in(OVERRUN, b"hi\n"), HEAD + lines, NOTED, b"0 10\n", keep=keep)
    taken.says(("Mismatch", 313), 3, b"")
    taken.reports(NOTED)


@row("an environment is kept for as many items as by the host before")
def _():
    for lines, keeps, others in ((PADDED * 2, (2, 4, 100), (1,)), (PADDED + UNPADDED, (1,), (2, 4, 100))):
        for keep in keeps:
            taken = Taken("overflow", lines_in(OVERRUN, b"hi\n"), HEAD + lines, NOTED, b"0 10\n", keep=keep)
            taken.says(("Finished",), 0, out((0, OVERRUN[10:]), (0, b"hi\n")), 368, 3)
            say(taken.files.files["r"], HEAD + lines + b"end 368 3\n", "record")
        for keep in others:
            part_where(lines, keep)


@row("an environment is in force from the start as by the host before")
def _():
    for lines in (b"", PADDED, PADDED * 2):
        taken = Taken("overflow", lines_in(OVERRUN, b"hi\n"), HEAD + lines, REPORT, b"0 40\n", env="pad")
        taken.says(("Finished",), 0, out((0, b"hi\n")), 368, 3)
        say(taken.files.files["r"], HEAD + PADDED * 2 + b"end 368 3\n", "record")
    for other in ("plain", "zero", "isolate", "delay", "all"):
        taken = Taken("overflow", lines_in(OVERRUN, b"hi\n"), HEAD + PADDED, REPORT, b"0 40\n", env=other)
        say((taken.done.answer[0], taken.sink.content), ("Mismatch", b""), other)


def overran(number, point):
    return b"failure %d point %d cause AssertFailed 1 at 000100ac\ntry 0 checkpoint %d env pad result survived\n" % (number, point, point - 1)


@row("an environment is kept for one item")
def _():
    told = REPORT + overran(0, 2) + overran(1, 3)
    taken = Taken("overflow", lines_in(*[OVERRUN] * 3), HEAD, told, b"0 80\n", keep=1)
    taken.says(("Finished",), 0, out((0, OVERRUN)), 877, 4)
    taken.reports(told + overran(2, 4) + b"end 0 taken 4 steps 877\n")
    taken = Taken("overflow", lines_in(*[OVERRUN] * 3), HEAD, told, b"0 80\n", keep=2)
    taken.says(("Finished",), 0, out((0, OVERRUN)), 877, 4)
    taken.reports(told + b"end 0 taken 4 steps 877\n")


# ---- standby

ECHOED = HEAD + b"end 34 2\n"
TWO_LINES = OPENS_0 + piece(0, b"a\n") + piece(0, b"b\n")


def stood_by(guest, stream, of_record, of_counts):
    sink, files = MemorySink(), MemoryFiles({})
    done = standby(lambda window: guests.image(guest, window), of_record, of_counts, MemorySource(stream), sink, 1_000_000, files)
    return done, sink.content, files.files


def stands_by(answer, status, output, guest, stream, of_record, of_counts):
    done, content, files = stood_by(guest, stream, of_record, of_counts)
    say((done.answer, done.status, content), (answer, status, output))
    return done, files


@row("a standby")
def _():
    done, _ = stands_by(("Finished",), 0, out((0, b"b\n")), "echo", TWO_LINES, ECHOED, b"0 2\n")
    say(done.taken, 3)
    stands_by(("Finished",), 0, out((0, b"\n"), (0, b"b\n")), "echo", TWO_LINES, ECHOED, b"0 1\n")
    _, files = stands_by(("Short", 0), 3, b"", "echo", TWO_LINES, ECHOED, b"0 3\n")
    say(files, {})
    stands_by(("CountsRefused", 1), 3, b"", "echo", TWO_LINES, ECHOED, b"0 02\n")
    done, content, _ = stood_by("echo", OPENS_0, ECHOED, b"0 2\n")
    say((done.answer[0], done.status, content), ("Mismatch", 3, b""))


@row("a standby of a run with blocks")
def _():
    whole = HEAD + b"m 00012000 - 00000010\nm 00012010 - 00000010\nend 81 2\n"
    _, files = stands_by(("Finished",), 0, out((0, b"hi\n")), "overflow", lines_in(b"hi\n"), whole, b"")
    say([line.split()[1] for line in files["r"].decode().splitlines()[1:3]], ["00012000", "00012010"])
