"""Rows of the places that are easy to get wrong, with small programs made for them.

Each says one sentence of the rules: when the plan's environment returns, what a delayed block does later, when Hang comes before a
survival, what happens at closed and broken connections, and which refusal goes first.
"""

from second import guests
from second.assembler import assemble
from second.checks import OPENS_0, Ran, lines_in, out, piece, row, say
from second.command import image_maker, replay
from second.heap import PAD, ZERO
from second.items import Items
from second.machine import Image
from second.outside import MemoryLink, MemorySink, MemorySource
from second.session import Notes, Options, Session

RECEIVE = """
receive:
    la   a0, buffer
    li   a1, 4096
    li   a7, 1
    ecall
    addi s4, s4, 1
"""
DATA = """
.data
buffer:
    .space 4096
"""


def image_of(text, with_data=True):
    return Image(*assemble(text + (DATA if with_data else "")))


def exit_code(text, stream=OPENS_0):
    """What a program ends with, that ends after the opening."""
    answer = Ran(image_of(RECEIVE + text + "\nli a7, 5\necall\n"), stream).done.answer
    say(answer[0], "Exited")
    return answer[1]


# ---- sends and areas


@row("what a send looks at first")
def _():
    send = "li a0, %d\nli a1, %d\nli a2, %d\nli a7, 2\necall"
    cases = [((1, 0, 65536), 2), ((0, 0, 65536), 2), ((1, 0, 65535), 1), ((70000, 0, 0), 1), ((0, 0, 0), 0), ((0, 0x10000, 4), 0)]
    for words, code in cases:
        say(exit_code(send % words), code, "send %s" % (words,))
    ran = Ran(image_of(RECEIVE + send % (0, 0, 1)), OPENS_0)
    ran.says(("GaveUp", 1, "BadAccess"), 5, b"")


@row("areas that touch")
def _():
    words = assemble("li t0, 0x1000e\nlw a0, 0(t0)\nli a7, 5\necall")[0][0][1]
    image = Image([(0x10000, words[:10], 5), (0x1000A, words[10:], 5)], 0x10000)
    say(Ran(image, b"").done.answer, ("Exited", int.from_bytes(words[14:18], "little")))
    words = assemble("li t0, 0x10016\nsw a0, 0(t0)\nli a7, 5\necall")[0][0][1]
    for flags, answer in ((6, ("GaveUp", 0, "BadAccess")), (7, ("GaveUp", 0, "BadAccess"))):
        say(Ran(Image([(0x10000, words, 5), (0x10018, b"ab", flags)], 0x10000), b"").done.answer, answer)
    image = Image([(0x10000, words, 7), (0x10018, b"ab", 6)], 0x10000)
    say(Ran(image, b"").done.answer, ("Exited", 0))


# ---- blocks with zeros, and with another size

DIRTY = """
    li   a0, 16
    li   a7, 3
    ecall
    mv   s0, a0
    li   t0, 0x04030201
    sw   t0, 0(s0)
    li   t0, 0x08070605
    sw   t0, 12(s0)
    li   a0, 48
    ecall
    li   t0, 0x09090909
    sw   t0, 0(a0)
    sw   t0, 12(a0)
    sw   t0, 16(a0)
    sw   t0, 44(a0)
    li   a7, 4
    ecall
"""


@row("what stands in a new block")
def _():
    resize = DIRTY + "mv a0, s0\nli a1, %d\nli a7, 8\necall\n"
    for size, offset, byte in ((48, 0, 1), (48, 3, 4), (48, 15, 8), (48, 16, 9), (48, 47, 9), (17, 16, 9), (14, 13, 6), (14, 14, 9), (0, 0, 9)):
        say(exit_code(resize % size + "lbu a0, %d(a0)" % offset), byte, "byte %d of %d" % (offset, size))
    zeros = DIRTY + "li a0, 3\nli a1, 7\nli a7, 7\necall\n"
    for offset, byte in ((0, 0), (3, 0), (12, 0), (19, 0), (20, 0), (44, 9)):
        say(exit_code(zeros + "lbu a0, %d(a0)" % offset), byte, "byte %d of 21 zeros" % offset)
    say(exit_code(resize % 48 + "sub a0, a0, s0"), 16)


@row("what stands in a new block under Zero")
def _():
    text = RECEIVE + "li t0, 1\nbne s4, t0, receive" + DIRTY + "mv a0, s0\nli a1, %d\nli a7, 8\necall\nlbu t1, %d(a0)\n"
    text += "li t0, %d\nbeq t0, t1, receive\nebreak\n"
    # in a trial padding helps already: what stands in it is 0, and comes along
    for size, offset, byte, environment in ((48, 16, 0, PAD), (48, 44, 0, PAD), (14, 13, 6, None), (14, 14, 9, None), (17, 16, 0, PAD)):
        ran = Ran(image_of(text % (size, offset, byte)), OPENS_0)
        ran.says(("Finished",), 0)
        say([episode.tries[-1].environment for episode in ran.episodes], [environment] * bool(environment))
        if environment:
            ran = Ran(image_of(text % (size, offset, byte)), OPENS_0, env=ZERO)
            ran.says(("Finished",), 0)
            say(ran.episodes, [])


@row("the old block where there is no room for a new one")
def _():
    text = DIRTY + "mv a0, s0\nli a1, 0x7fffffff\nli a7, 8\necall\n"
    say(exit_code(text), 0)
    say(exit_code(text + "lbu a0, 15(s0)"), 8)
    say(exit_code(text + "mv a0, s0\nli a7, 4\necall\nli a0, 5"), 5)
    text = DIRTY + "li a0, 65536\nli a1, 65536\nli a7, 7\necall\n"
    say(exit_code(text), 0)


@row("another size of what isn't live, in each environment")
def _():
    for old in ("mv a0, s0\nli a7, 4\necall", "addi a0, s0, 16", "li a0, 1", "addi a0, s0, 8"):
        text = DIRTY + old + "\nli a1, 16\nli a7, 8\necall\n"
        ran = Ran(image_of(RECEIVE + text), OPENS_0)
        ran.says(("GaveUp", 1, "BadFree"), 5, b"")
        ran.tried(1, "BadFree", *[(0, environment, "BadFree") for environment in ("pad", "zero", "isolate", "delay", "all")])


@row("calls that there are")
def _():
    for number in (0, 9, 0xFFFFFFFF):
        Ran(image_of(RECEIVE + "li a7, %d\necall" % number), OPENS_0).says(("GaveUp", 1, "BadCall"), 5)
    say(exit_code("li a0, 0\nli a1, 0\nli a7, 7\necall\nsltu a0, zero, a0"), 1)
    say(exit_code("li a0, 0\nli a1, 0\nli a7, 8\necall\nsltu a0, zero, a0"), 1)


@row("pages that are copied and zeroed")
def _():
    cases = [("li a0, 0\nli a1, 12288\nli a7, 8\necall", 0), ("li a0, 12289\nli a7, 3\necall\nli a1, 16384\nli a7, 8\necall", 4),
             ("li a0, 16384\nli a7, 3\necall\nli a1, 4095\nli a7, 8\necall", 1), ("li a0, 3\nli a1, 4097\nli a7, 7\necall", 4),
             ("li a0, 16384\nli a7, 3\necall\nli a1, 0x7fffffff\nli a7, 8\necall", 0), ("li a0, 0\nli a1, 4097\nli a7, 7\necall", 0)]
    for text, pages in cases:
        ran = Ran(image_of(RECEIVE + text + "\nj receive"), OPENS_0)
        say([checkpoint.pages for checkpoint in ran.done.session.ring], [0, pages], text)


# ---- the plan


@row("Plain returns with the fourth item after the point")
def _():
    ran = Ran("overflow", lines_in(b"a" * 39 + b"\n", *[b"b\n"] * 5))
    padded, plain = [(ran.heap + 256, False), (ran.heap + 784, False)], [(ran.heap, False), (ran.heap + 16, False)]
    say(ran.choices(), padded * 4 + plain * 2)


@row("an environment is kept for some items")
def _():
    line = b"*" * 39 + b"\n"
    for options, points in (({}, [2, 6, 10]), ({"keep": 1}, list(range(2, 14))), ({"keep": 8}, [2, 10]), ({"keep": 12}, [2]), ({"keep": 0xFFFFFFFF}, [2])):
        ran = Ran("overflow", lines_in(*[line] * 12), **options)
        ran.says(("Finished",), 0, out(*[(0, line)] * 12), 13, 3460)
        say([(episode.point, [tuple(tried) for tried in episode.tries]) for episode in ran.episodes], [(point, [(point - 1, "pad", "survived")]) for point in points])


@row("an environment is in force from the first instruction on")
def _():
    line = b"*" * 39 + b"\n"
    ran = Ran("overflow", lines_in(*[line] * 12), env=PAD)
    ran.says(("Finished",), 0, out(*[(0, line)] * 12), 13, 3460)
    say(ran.episodes, [])
    ran = Ran("unset", lines_in(*[b"a\n"] * 3), env=PAD)
    ran.tried(2, "AssertFailed 2", (1, "pad", "AssertFailed 2"), (1, "zero", "survived"))
    say([ran.done.session.plan.at(count) for count in range(8)], ["pad"] * 2 + ["zero"] * 4 + ["pad"] * 2)
    ran = Ran("tell_over", lines_in(b"a\n"), env=PAD)
    ran.says(("Finished",), 0, out((0, b"00013100\n")), steps=256)
    say(ran.episodes, [])


@row("a failure before the first item")
def _():
    spoil = """
    li a0, 16
    li a7, 3
    ecall
    mv s0, a0
    li a0, 16
    ecall
    mv s1, a0
    li t0, 7
    sw t0, 0(s1)
    sw zero, 16(s0)
    lw t1, 0(s1)
    beq t0, t1, receive
    ebreak
""" + RECEIVE + "li a0, 16\nli a7, 3\necall\nj receive\n"
    ran = Ran(image_of(spoil), lines_in(b"a\n", b"b\n", b"c\n"))
    ran.tried(0, "AssertFailed 0", (0, "pad", "survived"))
    say([at - ran.heap for at, _ in ran.choices()], [256, 784, 1312, 1840, 2368, 2640])


TWICE_AND_LATER = RECEIVE + """
    li   t0, 2
    bne  s4, t0, later
    li   a0, 32
    li   a7, 3
    ecall
    mv   s3, a0
    li   a7, 4
    ecall
    mv   a0, s3
    ecall
    j    receive
later:
    li   t0, %d
    bne  s4, t0, receive
    mv   a0, s3
    li   a7, 4
    ecall
    j    receive
"""


@row("a delayed block that is freed after Plain returned")
def _():
    stream = lines_in(*[b"a\n"] * 6)
    ran = Ran(image_of(TWICE_AND_LATER % 5), stream)
    say([e.point for e in ran.episodes], [2])
    ran = Ran(image_of(TWICE_AND_LATER % 6), stream)
    say([e.point for e in ran.episodes], [2, 6])
    say([t[:2] for t in ran.episodes[1].tries], [(5, "pad"), (5, "zero"), (5, "isolate"), (5, "delay")])
    ran.says(("Finished",), 0)


# ---- attempts


@row("a trial's last request after its budget")
def _():
    stream = lines_in(b"a" * 39 + b"\n")

    def first_try(budget):
        return Ran("overflow", stream, budget=budget).episodes[0].tries[0].result
    free_budget = Session(guests.image("overflow"), Options(), MemoryLink([("opens", 0), ("piece", 0, b"a" * 39 + b"\n")]), Notes())
    free_budget.serve()
    needed = free_budget.survivor.since
    say([first_try(needed + 1), first_try(needed)], ["survived", "Hang"])


@row("a recv sets the count of instructions to zero")
def _():
    text = "addi a7, x0, 1\nagain:\naddi a1, x0, 0\naddi a0, x0, 0\necall\nj again\n"
    for budget, answer in ((4, ("Finished",)), (3, ("GaveUp", 0, "Hang"))):
        ran = Ran(image_of(text, False), OPENS_0, budget=budget)
        say(ran.done.answer, answer)
    text = text.replace("j again", "nop\nj again")
    Ran(image_of(text, False), OPENS_0, budget=5).says(("Finished",), 0, taken=1, steps=8)
    Ran(image_of(text, False), OPENS_0, budget=4).says(("GaveUp", 1, "Hang"), 5, taken=1, steps=8)


@row("a slow request is no hang where the budget is larger")
def _():
    text = "again:\naddi a7, x0, 1\naddi a1, x0, 0\naddi a0, x0, 0\necall\nli t0, 1000\ncount:\naddi t0, t0, -1\nbnez t0, count\nj again\n"
    for budget, answer, status in ((1 << 36, ("Finished",), 0), (2007, ("Finished",), 0), (2006, ("GaveUp", 1, "Hang"), 5)):
        Ran(image_of(text, False), OPENS_0, budget=budget).says(answer, status, taken=1, steps=2010)


EXITS_ELSEWHERE = """
    li   a0, 16
    li   a7, 3
    ecall
    mv   s3, a0
    li   a7, 4
    ecall
""" + RECEIVE + """
    li   t0, 2
    bne  a2, t0, receive
    li   a0, 16
    li   a7, 3
    ecall
    bne  a0, s3, leave
    li   a7, 4
    ecall
    mv   a0, s3
    ecall
leave:
    li   a0, 3
    li   a7, 5
    ecall
"""


@row("a trial that exits")
def _():
    ran = Ran(image_of(EXITS_ELSEWHERE), lines_in(b"a\n", b"b\n"))
    ran.says(("Exited", 3), 1, b"", taken=2)
    ran.tried(2, "BadFree", (1, "pad", "survived"))
    say(ran.report.splitlines()[-1], "end 1 taken 2 steps %d" % ran.done.steps)


@row("bytes that went out to a client that is gone")
def _():
    for count, result in ((5, "BadFree"), (6, "Contradicts")):
        link = MemoryLink([("opens", 0), ("piece", 0, b"a\n")], gones=[(3, count)])
        notes = Notes()
        say(Session(guests.image("tell_free"), Options(), link, notes).serve(), ("Finished",))
        say(notes.episodes[0].tries[0], (1, "pad", result))


# ---- closes


@row("bytes that are held until a close")
def _():
    link = MemoryLink([("opens", 0), ("piece", 0, b"a\n"), ("closes", 0)])
    session = Session(guests.image("echo"), Options(hold=5), link, Notes())
    say(session.serve(), ("Finished",))
    say(dict(session.passed.stamps), {0: [(3, 2)]})


SENDS_ELSEWHERE = """
    li   a0, 16
    li   a7, 3
    ecall
    mv   s3, a0
    li   a7, 4
    ecall
""" + RECEIVE + """
    li   t0, 1
    beq  a2, t0, receive
    li   t0, 3
    beq  a2, t0, look
    li   a0, 16
    li   a7, 3
    ecall
    mv   s0, a0
    li   a0, 16
    ecall
    mv   s1, a0
    li   t0, 7
    sw   t0, 0(s1)
    sw   zero, 16(s0)
    beq  s0, s3, receive
    li   a0, 0
    la   a1, buffer
    li   a2, 1
    li   a7, 2
    ecall
    j    receive
look:
    lw   t1, 0(s1)
    li   t0, 7
    beq  t1, t0, receive
    ebreak
"""


@row("a send that the adopted run makes to a closed connection")
def _():
    stream = lines_in(b"x\n") + bytes.fromhex("0300000000")
    image = image_of(SENDS_ELSEWHERE)
    ran = Ran(image, stream)
    ran.says(("Finished",), 0, b"", taken=3)
    ran.tried(3, "AssertFailed 0", *[(2, e, "AssertFailed 0") for e in ("pad", "zero", "isolate", "delay", "all")], (1, "pad", "survived"))
    sink = MemorySink()
    done = replay(image_maker(image.segments, image.entry), ran.record.encode(), MemorySource(stream), sink)
    say((done.answer, sink.content), (("Finished",), out((0, b"x"))))


# ---- refused events


@row("which limit goes first")
def _():
    long = ("piece", 0, b"z" * 4097)
    items = Items("line", most_items=1, most_events=1)
    say([items.event(("opens", 0)), items.event(long)], [None, ("LimitEvents",)])
    items = Items("line", most_items=1)
    say([items.event(("opens", 0)), items.event(long), items.event(("piece", 0, b"a\n")), items.event(("closes", 0))],
        [None, ("MessageTooLong", 0), ("LimitItems",), ("LimitItems",)])
    say(len(items.received), 1)


@row("a piece in which a message is refused")
def _():
    Ran("echo", lines_in(b"ok\n" + b"z" * 4097)).says(("MessageTooLong", 0), 4, b"", taken=1)
    Ran("echo", OPENS_0 + piece(0, b"ok\n") + piece(0, b"z" * 4096)).says(("Finished",), 0, out((0, b"ok\n")))


@row("every third request")
def _():
    ran = Ran("echo", lines_in(*[b"a\n"] * 6), every=3)
    say([checkpoint.machine.taken for checkpoint in ran.done.session.ring], [0, 3, 6])
