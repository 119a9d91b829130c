"""Worked rows of a diagnosis: the whole table of each failure, beside a session that goes as without it."""

from second.checks import Ran, lines_in, out, row, say
from second.guard import BLOCK
from second.outside import MemoryFiles, MemorySink, MemorySource
from second.recovery_rows import ALL_FIVE, HI, OVERRUN

CALLS = ("load p", "start r", "head r", "start t", "head t", "start d", "head d")


def diagnosed(guest, stream, **options):
    """The diagnosis' lines, and the session, whose output, record and report have to be those of run."""
    ran, plain = Ran(guest, stream, diagnoses=True, **options), Ran(guest, stream, **options)
    say((ran.done.answer, ran.output, ran.record, ran.report), (plain.done.answer, plain.output, plain.record, plain.report))
    say(ran.episodes, plain.episodes)
    return ran.diagnosis.splitlines(), ran


def table(checkpoints, results):
    """The lines of a whole table that is the same at each of the checkpoints."""
    entries = [(q, e, r) for q in checkpoints for e, r in zip(ALL_FIVE, results)]
    return ["try %d checkpoint %d env %s result %s" % (number, *entry) for number, entry in enumerate(entries)]


@row("diagnosis of an overrun")
def _():
    lines, ran = diagnosed("overflow", lines_in(OVERRUN))
    failed = "AssertFailed 1"
    say(lines[0], "rx diagnosis 1")
    say(lines[1], ran.report.splitlines()[1])
    say(lines[2:], table((1, 0), ("survived", failed, failed, failed, "survived")) + ["verdict pad all", "end 0 episodes 1"])
    ran.says(("Finished",), 0, out((0, OVERRUN)))
    ran.tried(2, failed, (1, "pad", "survived"))
    say(ran.choices(), [(ran.heap + 256, False), (ran.heap + 784, False)])


@row("diagnosis of a word of address 0")
def _():
    lines, ran = diagnosed("null", lines_in(HI))
    say(lines[1], ran.report.splitlines()[1])
    say(lines[2:], table((1, 0), ("BadAccess",) * 5) + ["verdict none", "end 5 episodes 1"])


@row("diagnosis of a session without a failure")
def _():
    lines, _ran = diagnosed("echo", lines_in(HI))
    say(lines, ["rx diagnosis 1", "end 0 episodes 0"])


@row("diagnosis of a word that was never written")
def _():
    lines, _ran = diagnosed("unset", lines_in(HI))
    failed = "AssertFailed 2"
    # by delay the bytes that were used before aren't used again
    say(lines[2:], table((1, 0), (failed, "survived", failed, "survived", "survived")) + ["verdict zero delay all", "end 0 episodes 1"])


@row("diagnosis of a block that is used after it was freed")
def _():
    lines, _ran = diagnosed("stale", lines_in(b"a\n", b"b\n"))
    failed = "AssertFailed 3"
    expected = table((2,), (failed,) * 5) + [line.replace("try %d" % n, "try %d" % (n + 5), 1) for n, line in enumerate(
        table((1, 0), (failed, failed, failed, "survived", "survived")))]
    say(lines[2:], expected + ["verdict delay all", "end 0 episodes 1"])


@row("diagnosis of an overrun, with the guard of blocks")
def _():
    lines, _ran = diagnosed("overflow", lines_in(OVERRUN), guard=BLOCK)
    say(lines[2:], table((1, 0), ("BadAccess",) * 5) + ["verdict none", "end 5 episodes 1"])


@row("diagnosis as text beside a report in JSON")
def _():
    lines, ran = diagnosed("null", lines_in(HI), form="json")
    say((len(lines), lines[0], ran.report.splitlines()[0]), (14, "rx diagnosis 1", '{"report":1}'))


@row("diagnosis where the output can't be written")
def _():
    ran = Ran("overflow", lines_in(HI), sink=MemorySink(fails=[2], most=3), diagnoses=True)
    ran.says(("WriteFault",), 8, b"\2\0\0")
    say(ran.diagnosis, "rx diagnosis 1\n")
    ran = Ran("overflow", b"", source=MemorySource(lines_in(OVERRUN), fails=[4]), diagnoses=True)
    say((ran.done.answer, ran.diagnosis), (("ReadFault",), "rx diagnosis 1\n"))


@row("diagnosis where a file can't be written")
def _():
    for call, kept in ((6, None), (7, b"")):
        ran = Ran("overflow", lines_in(OVERRUN), files=MemoryFiles({"p": b""}, [call]), diagnoses=True)
        say((CALLS[call - 1].split()[1], ran.done.answer, ran.output, ran.files.files.get("d")), ("d", ("FileFault",), b"", kept))
    # behind the heads: the episode, the choices, the record's end, the report's end, the diagnosis
    for call in (8, 9, 10, 11, 12):
        ran = Ran("overflow", lines_in(OVERRUN), files=MemoryFiles({"p": b""}, [call]), diagnoses=True)
        say((ran.done.answer, ran.diagnosis), (("FileFault",), "rx diagnosis 1\n"))
        say(ran.report.endswith("end 0 taken 2 steps %d\n" % ran.done.steps), call == 12)
    ran = Ran("overflow", lines_in(OVERRUN), files=MemoryFiles({"p": b""}, [13]), diagnoses=True)
    say((ran.done.answer, ran.diagnosis.splitlines()[-1]), (("Finished",), "end 0 episodes 1"))
