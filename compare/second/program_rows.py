"""Worked rows of programs, instructions, allocation, record, replay and drill."""

import struct

from second import guests
from second.assembler import assemble
from second.checks import OPENS_0, Ran, lines_in, out, piece, row, say
from second.command import convert, drill, image_maker, replay
from second.heap import Choice, calloc_of, malloc_of, realloc_of
from second.machine import Image, MIB, executable
from second.outside import MemoryFiles, MemorySink, MemorySource
from second.record import Reading, RecordRefused, choice_lines, end_line, head_line, read_record, record_text, without_asks
from second.instructions import BY_FUNCT7

import compare_elf

ECHO_IN_WORDS = (
    "fffff437 00810433 000014b7 00040513 00048593 00100893 00000073 00200293 00560463 fe9ff06f "
    "00050313 00058513 00040593 00030613 00200893 00000073 fcdff06f")
ROW_1 = OPENS_0 + piece(0, b"hi\n")
REPLY_1 = out((0, b"hi\n"))


def of_words(words):
    content = b"".join(struct.pack("<I", int(word, 16)) for word in words.split())
    return Image([(0x10000, content, 5)], 0x10000)


def three_file():
    return executable(*guests.program("three"))


# ---- the first path


@row("one message, whole frames")
def _():
    ran = Ran(of_words(ECHO_IN_WORDS), ROW_1, frame="whole")
    ran.says(("Finished",), 0, REPLY_1, taken=2, steps=26)
    say(ran.choices(), [])


@row("no message")
def _():
    Ran(of_words(ECHO_IN_WORDS), b"", frame="whole").says(("Finished",), 0, b"", taken=0, steps=6)


@row("an endless loop")
def _():
    Ran(of_words("0000006f"), b"").says(("GaveUp", 0, "Hang"), 5, b"", steps=1_000_000)


@row("products past 32 bits")
def _():
    low, all_ones = 0x80000000, 0xFFFFFFFF
    values = [BY_FUNCT7[1][1](low, low), BY_FUNCT7[1][2](all_ones, all_ones), BY_FUNCT7[1][3](all_ones, all_ones)]
    say([v & 0xFFFFFFFF for v in values], [0x40000000, 0xFFFFFFFF, 0xFFFFFFFE])


@row("divisors of zero and minus one")
def _():
    table = BY_FUNCT7[1]
    say([table[5](7, 0), table[7](7, 0), table[6](0x80000000, 0xFFFFFFFF)], [4294967295, 7, 0])


@row("words that are no instruction, and ebreak")
def _():
    for word, cause in (("00000000", "BadInstruction"), ("0000100f", "BadInstruction"), ("00100073", "AssertFailed 0")):
        Ran(of_words(word), b"").says(("GaveUp", 0, cause), 5)


@row("the program goes past its end")
def _():
    words = " ".join(ECHO_IN_WORDS.split()[:-1] + ["02b50533"])
    Ran(of_words(words), ROW_1, frame="whole").says(("GaveUp", 2, "BadAccess"), 5, REPLY_1)


@row("guest divide")
def _():
    for line, reply in ((b"7 0", b"-1 7"), (b"-2147483648 -1", b"-2147483648 0"), (b"-7 2", b"-3 -1")):
        ran = Ran("divide", lines_in(line + b"\n"))
        ran.says(("Finished",), 0, out((0, reply + b"\n")))
        say(ran.episodes, [])


# ---- program files


@row("program files that are refused")
def _():
    file = three_file()
    say(len(file), 100)
    say(compare_elf.refusal(file), None)
    say(compare_elf.refusal(file[:51]), 1)
    edits = [(0, 0, 2), (4, 2, 3), (5, 2, 4), (16, 3, 5), (18, 0, 6), (36, 1, 7), (42, 31, 8), (52, 3, 9), (52, 7, 10), (72, 15, 11),
             (44, 0, 13), (24, 2, 14), (74, 0x40, 15)]
    for at, byte, kind in edits:
        say(compare_elf.refusal(file[:at] + bytes([byte]) + file[at + 1:]), kind, "refusal with byte %d changed" % at)
    say(compare_elf.refusal(file[:56] + b"\xff" * 4 + file[60:]), 11)
    say(compare_elf.refusal(file[:4] + b"\x02" + file[5:18] + b"\0" + file[19:]), 3)
    twice = bytearray(file[:84] + file[52:84] + file[84:])
    struct.pack_into("<H", twice, 44, 2)
    for header in (52, 84):
        struct.pack_into("<I", twice, header + 4, 116)
    say(compare_elf.refusal(bytes(twice)), 12)


@row("a program file of four headers")
def _():
    words = guests.program("three")[0][0][1]
    headers = [(0x70000003, 0, 0, 0, 0, 0, 0, 1), (1, 0, 0x10000, 0x10000, 0xC4, 0xC4, 5, 1),
               (1, 0xC4, 0x110C4, 0x110C4, 4, 8, 6, 1), (0x6474E551, 0, 0, 0, 0, 0, 0, 1)]
    file = b"\x7fELF\x01\x01\x01" + bytes(9)
    file += struct.pack("<HHIIIIIHHHHHH", 2, 243, 1, 0x100B4, 52, 0, 0, 52, 32, 4, 0, 0, 0)
    file += b"".join(struct.pack("<8I", *header) for header in headers)
    file = file.ljust(0xB4, b"\0") + words + b"\x01\x02\x03\x04"
    say(compare_elf.refusal(file), None)
    segments = []
    for header in compare_elf.headers_of(file):
        if header.p_type == 1:
            content = file[header.p_offset:header.p_offset + header.p_filesz]
            segments.append((header.p_vaddr, content.ljust(header.p_memsz, b"\0"), header.p_flags))
    image = Image(segments, 0x100B4)
    say(image.heap_start, 0x12000)
    Ran(image, b"").says(("Finished",), 0, b"", steps=3)


# ---- allocation


@row("guest overflow with a short line")
def _():
    ran = Ran("overflow", ROW_1)
    ran.says(("Finished",), 0, REPLY_1)
    say(ran.choices(), [(ran.heap, False), (ran.heap + 16, False)])


# ---- record and replay


@row("guest three with no input")
def _():
    ran = Ran("three", b"")
    ran.says(("Finished",), 0, b"")
    say(ran.record, "rx record 2 window 4 frame line\nend 3 0\n")
    say(ran.report, "rx report 1\nend 0 taken 0 steps 3\n")


@row("guest three with a report in JSON")
def _():
    say(Ran("three", b"", form="json").report, '{"report":1}\n{"end":0,"steps":3,"taken":0}\n')


@row("records that have no reading")
def _():
    head, last = b"rx record 1 window 4 frame line\n", end_line(3, 0)
    texts = [
        (b"", 1), (head, 2), (head[:-1], 1), (head + last + b"x", 3), (head + last[:-1], 2), (head + last + last, 3),
        (b"rx record 3 window 4 frame line\n" + last, 1), (b"rx record 1 window 65 frame line\n" + last, 1),
        (b"rx record 1 window 04 frame line\n" + last, 1), (head + b"m 00000000 z\n" + last, 2), (head + b"m 0001000A -\n" + last, 2),
        (head + b"m 00010000 -\nm 10000 -\n" + last, 3), (head + b"end 03 0\n", 2), (head + b"end 9223372036854775808 0\n", 2),
        (head + b"end 0 1048577\n", 2)]
    for text, line in texts:
        try:
            read_record(text)
            raise AssertionError("%r is read" % text)
        except RecordRefused as refused:
            say(refused.args[0], line, repr(text))


@row("records of version 2 that have no reading")
def _():
    head, last = b"rx record 2 window 4 frame line\n", end_line(3, 0)
    lines = [
        b"m 00010000 -", b"m 00000000 z 00000001", b"m 00010000 - 00000001 00000001", b"m 00010000 - 1", b"m 0001000A - 00000001",
        b"m 00010000 - 0000000A", b"c 00010000 z 00000001", b"c 00010000 - 00000001 00000001", b"c 00000000 z 00000001 00000001",
        b"r 00010000 - 00000001", b"r 00000000 z 00000001 00000001", b"r 00010000 -  00000001 00000001", b"f 00010000 - 00000001",
        b"r 00020000 - 00010000 00000001 00000000", b"r 00020000 - 00000000 00000001 00000001", b"r 00000000 - 00010000 00000001 00000001",
        b"r 00020000 - 00010000 00000001 1", b"c 00010000 z 00000001 00000001 00000001"]
    for line in lines:
        for before in (b"", b"m 00000000 - ffffffff\n"):
            text = head + before + line + b"\n" + last
            try:
                read_record(text)
                raise AssertionError("%r is read" % text)
            except RecordRefused as refused:
                say(refused.args[0], 2 + before.count(b"\n"), repr(text))


@row("records that are read")
def _():
    last = ((1 << 63) - 1, 1 << 20)
    lines = [(0, False), (0xFFFFFFF0, True), (16, False)]
    asks = [malloc_of(0), calloc_of(0xFFFFFFFF, 0xFFFFFFFF), realloc_of(0, 0xA0)]
    for version, of_version in ((1, [None] * 3), (2, asks)):
        reading = Reading(version, 64, "whole", [Choice(*line, ask) for line, ask in zip(lines, of_version)], *last)
        say(read_record(record_text(reading)), reading)
    carrying = Reading(2, 4, "line", [Choice(0x20000, True, realloc_of(0x10000, 0), 0xFFFFFFFF), Choice(16, False, realloc_of(32, 1), 1)], 3, 0)
    say(read_record(record_text(carrying)), carrying)
    say(record_text(carrying), b"rx record 2 window 4 frame line\nr 00020000 z 00010000 00000000 ffffffff\nr 00000010 - 00000020 00000001 00000001\nend 3 0\n")
    say(record_text(reading), b"rx record 2 window 64 frame whole\nm 00000000 - 00000000\nc fffffff0 z ffffffff ffffffff\n"
        b"r 00000010 - 00000000 000000a0\nend 9223372036854775807 1048576\n")


def replayed(guest, text, stream):
    sink = MemorySink()
    done = replay(image_maker(*guests.program(guest)), text, MemorySource(stream), sink)
    return done.answer, done.status, sink.content


@row("replay of an overrun")
def _():
    stream = lines_in(b"a" * 39 + b"\n")
    ran = Ran("overflow", stream)
    text = ran.record.encode()
    say(replayed("overflow", text, stream), (("Finished",), 0, ran.output))
    first, second = b"m %08x - 00000010\n" % (ran.heap + 256), b"m %08x - 00000010\n" % (ran.heap + 784)
    say(text.count(first) + text.count(second), 2)
    answer = replayed("overflow", text.replace(second, first), stream)
    say((answer[0][0], answer[1]), ("Mismatch", 3))
    upper = text.replace(first, b"m 0001210A - 00000010\n")
    say(replayed("overflow", upper, stream), (("RecordRefused", 2), 3, b""))


def converted(guest, text, stream, files=None, source=None):
    files = files or MemoryFiles({})
    done = convert(image_maker(*guests.program(guest)), text, source or MemorySource(stream), files)
    return done.answer, done.status, files.files


BLOCKS_THEN_NULL = """
    li   s0, 4097
more:
    li   a0, 16
    li   a7, 3
    ecall
    addi s0, s0, -1
    bnez s0, more
    li   a0, 0
    li   a1, 0
    li   a7, 1
    ecall
"""


@row("replay with 4096 standing blocks and a null answer")
def _():
    segments, entry = assemble(BLOCKS_THEN_NULL)
    ran = Ran(Image(segments, entry), b"")
    say(len(ran.choices()), 4097)
    say(ran.choices()[-1], (0, False))
    done = replay(image_maker(segments, entry), ran.record.encode(), MemorySource(b""), MemorySink())
    say(done.answer, ("Finished",))


def two_of_16(heap):
    return [Choice(heap, False, malloc_of(16)), Choice(heap + 16, False, malloc_of(16))]


@row("a sink that fails in the reply")
def _():
    sink = MemorySink(fails=[2], most=3)
    ran = Ran("overflow", ROW_1, sink=sink)
    ran.says(("WriteFault",), 8, bytes.fromhex("020000"))
    say((ran.done.recorded, ran.done.tail), (0, two_of_16(ran.heap)))
    say(ran.record, "rx record 2 window 4 frame line\n")
    text = (ran.record.encode() + choice_lines(ran.done.tail) + end_line(ran.done.steps, ran.done.taken))
    say(replayed("overflow", text, ROW_1), (("Finished",), 0, REPLY_1))


@row("a record that is added to at each checkpoint")
def _():
    sink = MemorySink(fails=[12], most=1)
    ran = Ran("overflow", lines_in(b"hi\n", b"hi\n"), sink=sink, ring=1)
    ran.says(("WriteFault",), 8, REPLY_1 + bytes.fromhex("020000"))
    two = two_of_16(ran.heap)
    say((ran.done.recorded, ran.done.tail), (2, two))
    say(ran.record.encode(), head_line(4, "line") + choice_lines(two))


@row("one failing call of a file")
def _():
    for n in range(1, 8):
        ran = Ran("echo", ROW_1, files=MemoryFiles({"p": b""}, [n]))
        ran.says(("FileFault",), 9, REPLY_1 if n > 5 else b"")


@row("a program file that isn't there")
def _():
    ran = Ran("echo", ROW_1, files=MemoryFiles({}))
    ran.says(("FileFault",), 9, b"")
    say(ran.files.files, {})


# ---- a block with a new size


@row("guest grow, and what version 1 says of it")
def _():
    stream = lines_in(b"a\n", b"b\n")
    ran = Ran("grow", stream)
    ran.says(("Finished",), 0, bytes.fromhex("0200000200 610a 0200000400 610a620a"))
    say(ran.choices(), [(ran.heap, False), (ran.heap + 16, False)])
    head, last = "rx record 2 window 4 frame line\n", ran.record.splitlines(keepends=True)[-1]
    lines = "r %08x - 00000000 00000002\nr %08x - %08x 00000004\n" % (ran.heap, ran.heap + 16, ran.heap)
    say(ran.record, head + lines + last)
    first = "rx record 1 window 4 frame line\nm %08x -\nm %08x -\n%s" % (ran.heap, ran.heap + 16, last)
    for text in (first, ran.record):
        say(converted("grow", text.encode(), stream), (("Finished",), 0, {"o": ran.record.encode()}))
        say(replayed("grow", text.encode(), stream), (("Finished",), 0, ran.output))
    swapped = ran.record.replace("- 00000000 00000002", "- 00000002 00000000")
    say(converted("grow", swapped.encode(), stream)[0][0], "Mismatch")
    of_malloc = ran.record.replace("r %08x - 00000000 00000002" % ran.heap, "m %08x - 00000002" % ran.heap)
    say(converted("grow", of_malloc.encode(), stream)[0][0], "Mismatch")


# ---- conversion


@row("conversion of a record with no choice")
def _():
    text = b"rx record %d window 4 frame line\nend 3 0\n"
    for version in (1, 2):
        say(converted("three", text % version, b""), (("Finished",), 0, {"o": text % 2}))


@row("replay and conversion of an overrun's record")
def _():
    stream = lines_in(b"a" * 39 + b"\n")
    ran = Ran("overflow", stream)
    text = ran.record.encode()
    first = record_text(without_asks(read_record(text)))
    say(first, text.replace(b"rx record 2", b"rx record 1").replace(b" - 00000010", b" -"))
    say(converted("overflow", first, stream)[2], {"o": text})
    say(replayed("overflow", first, stream), replayed("overflow", text, stream))
    other = text.replace(b" - 00000010\nm", b" - 00000011\nm")
    answer, status, output = replayed("overflow", other, stream)
    say((answer[0], status, output), ("Mismatch", 3, b""))


@row("a conversion that fails leaves the new record as it was")
def _():
    stream = lines_in(b"a" * 39 + b"\n")
    text, old = Ran("overflow", stream).record.encode(), {"o": b"old"}
    cases = [(text[:-1], stream, ("RecordRefused", 4)), (text, stream[:-1], ("InputRefused", 5, 5)), (text, b"", ("Mismatch", 6)),
             (text, lines_in(b"z" * 4097), ("MessageTooLong", 0))]
    for wrong, wrong_stream, answer in cases:
        say(converted("overflow", wrong, wrong_stream, MemoryFiles(old))[::2], (answer, old))
    for call, left in ((1, b"old"), (2, b"")):
        say(converted("overflow", text, stream, MemoryFiles(old, [call])), (("FileFault",), 9, {"o": left}))
    source = MemorySource(stream, [2])
    say(converted("overflow", text, None, MemoryFiles(old), source), (("ReadFault",), 7, old))


# ---- drill


@row("drills of one, two and three messages")
def _():
    keys = guests.image("keys")
    expected = [(1, 9, 5), (2, 10, 10), (3, 11, 13)]
    for count, items, passed in expected:
        lines, _done = drill(keys, 0, count)
        say(lines.decode().split("\n")[:-1],
            ["drill 0 %d" % count, "items %d" % items, "episodes 0", "bytes %d" % passed, "status 0"])


@row("a drill of 200 messages twice")
def _():
    keys = guests.image("keys")
    say(drill(keys, 0, 200)[0], drill(keys, 0, 200)[0])
    say(drill(guests.image("keys", 4 * MIB), 0, 200)[1].taken, 208)
