"""The text of a report, in both forms, and what stands in one.

Written from the form of the report. An episode has point, cause, pc and tries; a try has checkpoint, environment and result.
"""

import collections
import json
import re

from second.heap import ENVIRONMENTS
from second.record import lines_of

TEXT, JSON = "text", "json"
SURVIVED = "survived"

Try = collections.namedtuple("Try", "checkpoint environment result")
Episode = collections.namedtuple("Episode", "point cause pc tries")

# The episodes of which a trial survived, the one behind them of which none did, if there is one, and whether the last line is there
Read = collections.namedtuple("Read", "form adopted failed ended")

CAUSE = r"BadAccess|BadJump|BadInstruction|AssertFailed (?:0|[1-9][0-9]{0,9})|Hang|BadFree|BadCall"
NUMBER = "(0|[1-9][0-9]*)"
FAILURE = re.compile("failure %s point %s cause (%s) at ([0-9a-f]{8})\n" % (NUMBER, NUMBER, CAUSE))
TRY = re.compile("try %s checkpoint %s env (%s) result (survived|Contradicts|Behind|%s)\n" % (NUMBER, NUMBER, "|".join(ENVIRONMENTS), CAUSE))
END = re.compile("end %s taken %s steps %s\n" % (NUMBER, NUMBER, NUMBER))
PC = re.compile("[0-9a-f]{8}")
ASSERTS, MOST_NUMBER, MOST_CODE, MOST_STATUS = "AssertFailed ", 1 << 64, 1 << 32, 1 << 8


def compact(value):
    return json.dumps(value, sort_keys=True, separators=(",", ":")).encode() + b"\n"


def head_text(form):
    return b"rx report 1\n" if form == TEXT else compact({"report": 1})


def try_line(number, tried):
    return b"try %d checkpoint %d env %s result %s\n" % (
        number, tried.checkpoint, tried.environment.encode(), tried.result.encode())


def failure_line(number, episode):
    return b"failure %d point %d cause %s at %08x\n" % (number, episode.point, episode.cause.encode(), episode.pc)


def episode_text(number, episode, form):
    if form == TEXT:
        return failure_line(number, episode) + b"".join(try_line(i, tried) for i, tried in enumerate(episode.tries))
    tries = [{"checkpoint": t.checkpoint, "env": t.environment, "result": t.result} for t in episode.tries]
    return compact({"failure": number, "point": episode.point, "cause": episode.cause, "pc": "%08x" % episode.pc, "tries": tries})


def end_text(status, taken, steps, form):
    if form == TEXT:
        return b"end %d taken %d steps %d\n" % (status, taken, steps)
    return compact({"end": status, "taken": taken, "steps": steps})


# ---- readings


class ReportRefused(Exception):
    """The report has no reading; the argument is the first line that isn't in its place."""


def is_number(value, most=MOST_NUMBER):
    return isinstance(value, int) and not isinstance(value, bool) and 0 <= value < most


def is_cause(cause):
    if not isinstance(cause, str) or not re.fullmatch(CAUSE, cause):
        return False
    return not cause.startswith(ASSERTS) or int(cause[len(ASSERTS):]) < MOST_CODE


def is_try(tried):
    return is_number(tried.checkpoint) and tried.environment in ENVIRONMENTS and (
        tried.result in (SURVIVED, "Contradicts", "Behind") or is_cause(tried.result))


def try_in(value):
    """The try that a value of JSON is, or None."""
    if not isinstance(value, dict) or set(value) != {"checkpoint", "env", "result"}:
        return None
    tried = Try(value["checkpoint"], value["env"], value["result"])
    return tried if is_try(tried) else None


def episode_in(value):
    """The episode that an object of JSON is, or None."""
    if set(value) != {"failure", "point", "cause", "pc", "tries"} or not isinstance(value["tries"], list):
        return None
    tries = [try_in(tried) for tried in value["tries"]]
    if not is_number(value["point"]) or not is_cause(value["cause"]) or not PC.fullmatch(str(value["pc"])) or None in tries:
        return None
    return Episode(value["point"], value["cause"], int(str(value["pc"]), 16), tries)


class Reader:
    """What was read so far of a report."""

    def __init__(self, form):
        self.form, self.adopted, self.failed, self.ended = form, [], None, False

    def line(self, line):
        """Takes a line with its line feed. Whether it is in its place."""
        if self.ended:
            return False
        if self.is_end(line):
            self.ended = True
            return True
        if self.form == JSON:
            return self.failed is None and self.whole(line)
        return self.failure(line) if self.failed is None else self.tried(line)

    def is_end(self, line):
        if self.form == TEXT:
            found = END.fullmatch(line)
            value = dict(zip(("end", "taken", "steps"), map(int, found.groups()))) if found else {}
        else:
            value = object_of(line)
            value = value if compact(value) == line.encode() else {}
        return set(value) == {"end", "steps", "taken"} and all(map(is_number, value.values())) and value["end"] < MOST_STATUS

    def rises(self, point):
        return not self.adopted or self.adopted[-1].point < point

    def failure(self, line):
        found = FAILURE.fullmatch(line)
        if not found or int(found.group(1)) != len(self.adopted) or not self.rises(int(found.group(2))):
            return False
        if not is_number(int(found.group(2))) or not is_cause(found.group(3)):
            return False
        self.failed = Episode(int(found.group(2)), found.group(3), int(found.group(4), 16), [])
        return True

    def tried(self, line):
        found = TRY.fullmatch(line)
        if not found or int(found.group(1)) != len(self.failed.tries):
            return False
        tried = Try(int(found.group(2)), found.group(3), found.group(4))
        if not is_try(tried):
            return False
        self.failed.tries.append(tried)
        if found.group(4) == SURVIVED:
            self.adopted.append(self.failed)
            self.failed = None
        return True

    def whole(self, line):
        """An episode that stands in one line, of which the last trial survived, or none."""
        episode = episode_in(object_of(line))
        if episode is None:
            return False
        survived = [t.result == SURVIVED for t in episode.tries]
        if episode_text(len(self.adopted), episode, JSON) != line.encode() or not self.rises(episode.point) or any(survived[:-1]):
            return False
        if any(survived):
            self.adopted.append(episode)
        else:
            self.failed = episode
        return True


def object_of(line):
    try:
        value = json.loads(line)
    except ValueError:
        return {}
    return value if isinstance(value, dict) else {}


def read_report(text):
    """A report, also of a session that was stopped at any moment. A line without its line feed isn't looked at, but behind the last line."""
    lines = [line.decode("latin-1") for line in lines_of(text)]
    forms = [form for form in (TEXT, JSON) if lines and lines[0].encode() == head_text(form)]
    if not forms:
        raise ReportRefused(1)
    reader = Reader(forms[0])
    for number, line in enumerate(lines[1:], 2):
        if line.endswith("\n") and not reader.line(line) or not line.endswith("\n") and reader.ended:
            raise ReportRefused(number)
    return Read(reader.form, reader.adopted, reader.failed, reader.ended)
