"""What rx says on standard error, as an answer of the second engine.

Only numbers are read, and the few words that tell one answer from another. A sentence that tells none of them, or more than one, is
its own answer, which is no answer of the second engine.
"""

import re

from second import instructions, trunk

SENTENCE = re.compile(r"rx: [^\n]+\n")

# What a diagnosis says of a failure, behind the sentence of the end.
READING = re.compile(r"rx: failure (\d+) at ([0-9a-f]{8}): ([^\n]+)\n")

READINGS = {
    r"went past the end of its block|went past the end of a block": "overrun",
    r"used after it was freed|used memory that was freed": "reused",
    r"read before it was written": "unset",
    r"placed otherwise": "placed",
    r"nothing helps, so it is no fault": "nothing",
}

CAUSES = {
    r"touched memory": instructions.BAD_ACCESS,
    r"jumped to": instructions.BAD_JUMP,
    r"word that is no instruction": instructions.BAD_INSTRUCTION,
    r"(\d+) instructions came .* \(some \d+ ms\); .* a larger --budget lets it pass": instructions.HANG,
    r"freed what": instructions.BAD_FREE,
    r"made a call": instructions.BAD_CALL,
    r"its assertion (\d+) failed": "AssertFailed",
}

FLAWS = {
    r"its kind has to be": trunk.KIND,
    r"its connection has to be": trunk.CONN,
    r"opened before": trunk.REOPENED,
    r"isn't open": trunk.NOT_OPEN,
    r"ends within": trunk.TRUNCATED,
    r"length has to be 0": trunk.EXTRA,
}


def the_one(table, sentence):
    """The one row whose words the sentence has: what it is, and the number in it; else None twice."""
    found = [(meant, match) for words, meant in table.items() for match in [re.search(words, sentence)] if match]
    if len(found) != 1:
        return None, None
    meant, match = found[0]
    return meant, int(match.group(1)) if match.re.groups else None


def cause_of(sentence, budget):
    """The cause of a failure. A hang has to tell the budget that there was."""
    cause, number = the_one(CAUSES, sentence)
    if cause == "AssertFailed":
        return instructions.assert_failed(number)
    return cause if cause != instructions.HANG or number == budget else None


# The status, what the sentence has, and the answer that its match and the budget give.
ENDS = [
    (3, r"the record \S+ isn't [a-z ]+: line (\d+) (?:isn't of its form|says)", lambda match, _: ("RecordRefused", int(match[1]))),
    (3, r"the record \S+ isn't [a-z ]+: it ends before (?:the end of )?line (\d+)", lambda match, _: ("RecordRefused", int(match[1]))),
    (3, r"the report \S+ isn't [a-z ]+: line (\d+) isn't of its form", lambda match, _: ("ReportRefused", int(match[1]))),
    (3, r"the report \S+ isn't [a-z ]+: it ends before the end of line (\d+)", lambda match, _: ("ReportRefused", int(match[1]))),
    (3, r"the counts \S+ aren't [a-z ]+: line (\d+) isn't of its form", lambda match, _: ("CountsRefused", int(match[1]))),
    (3, r"the counts \S+ say that connection (\d+) has more bytes", lambda match, _: ("Short", int(match[1]))),
    (3, r"it went as (?:recorded|they tell) for (\d+) instructions", lambda match, _: ("Mismatch", int(match[1]))),
    (1, r"ended itself with the code (\d+)", lambda match, _: ("Exited", int(match[1]))),
    (4, r"frame at byte (\d+) is refused: (.*)", lambda match, _: ("InputRefused", the_one(FLAWS, match[2])[0], int(match[1]))),
    (4, r"a message of more than 4096 bytes.* on connection (\d+)", lambda match, _: ("MessageTooLong", int(match[1]))),
    (5, r"failed (?:behind the recorded run, )?with (\d+) items taken[^:]*: (.*)", lambda match, budget: ("GaveUp", int(match[1]), cause_of(match[2], budget))),
    (6, r"more than 1048576 items", lambda *_: ("LimitItems",)),
    (6, r"more than 4294967296 events", lambda *_: ("LimitEvents",)),
    (7, r"input can't be read", lambda *_: ("ReadFault",)),
    (8, r"output can't be written", lambda *_: ("WriteFault",)),
    (9, r"(?:can't|couldn't) be (?:read|written)", lambda *_: ("FileFault",)),
]


def end_of(status, sentence, budget):
    """The answer that the status and the sentence tell, or None."""
    matches = [(answer, re.search(words, sentence)) for of, words, answer in ENDS if of == status]
    found = [answer(match, budget) for answer, match in matches if match]
    return found[0] if len(found) == 1 else None


def readings_of(said):
    """What a diagnosis says of each failure: its number, the instruction, and the kind of the fault."""
    return [(int(number), pc, the_one(READINGS, words)[0]) for number, pc, words in READING.findall(said)]


def answer_of(status, said, budget):
    """The answer of an rx that ended with this status and wrote this on standard error, but for what a diagnosis says."""
    said = READING.sub("", said)
    if status == 0:
        return ("Finished",) if not said else ("status 0", said)
    answer = end_of(status, said, budget) if SENTENCE.fullmatch(said) else None
    return answer or ("status %d" % status, said)


def is_told(answer, told):
    """Whether what rx told is this answer; a program that ends itself with 0 isn't told from one that is finished."""
    return told == (("Finished",) if answer == ("Exited", 0) else answer)
