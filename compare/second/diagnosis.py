"""The text of a diagnosis, which tells of each failure what every trial would have come to.

Written from the form of a diagnosis. It is text, whatever form the report has. A table is the tries of all entries, in their order.
"""

from second import report
from second.heap import ENVIRONMENTS
from second.instructions import BAD_ACCESS, BAD_FREE, CALLS, Failure
from second.report import SURVIVED

HEAD = b"rx diagnosis 1\n"


def verdict(table):
    """The environments that survive at the newest checkpoint at which one does, in the order in which they are tried."""
    by_checkpoint = {}
    for tried in table:
        if tried.result == SURVIVED:
            by_checkpoint.setdefault(tried.checkpoint, set()).add(tried.environment)
    survive = by_checkpoint[max(by_checkpoint)] if by_checkpoint else ()
    return [environment for environment in ENVIRONMENTS if environment in survive]


def reading(table):
    """What the oldest checkpoint at which one survives says of the fault: overrun, reused, unset, placed or nothing."""
    survivors = [tried for tried in table if tried.result == SURVIVED]
    oldest = min((tried.checkpoint for tried in survivors), default=None)
    helps = {tried.environment for tried in survivors if tried.checkpoint == oldest}
    if not helps:
        return "nothing"
    if "pad" in helps and "delay" not in helps:
        return "overrun"
    if "delay" in helps and "zero" not in helps:
        return "reused"
    return "unset" if "zero" in helps else "placed"


class Accessed(Exception):
    """An instruction comes to an access at this address, of so many bytes."""


def accessed(machine):
    """Where the next instruction of a machine goes, if it is a load or a store, and how many bytes it touches."""
    def tell(at, length, _):
        raise Accessed(at, length)

    beside = machine.copy()
    try:
        action = beside.fetch()
        beside.memory.access = tell
        if action is not CALLS:
            action(beside, beside.pc)
    except Accessed as found:
        return found.args
    except Failure:
        pass
    return None, 0


def fault(cause, machine, table):
    """What is most likely wrong, by where a failed machine's access or pointer goes, and else by the table: as `reading` says it."""
    heap, by_table = machine.heap, reading(table)
    if by_table == "unset":  # the address itself was never set
        return by_table
    if cause == BAD_FREE:
        return "reused" if heap.was_freed(machine.x[10]) else by_table
    at, length = accessed(machine) if cause == BAD_ACCESS else (None, 0)
    if at is None or not heap.start <= at < heap.end:
        return by_table
    below = heap.below(at)
    behind = below is not None and heap.is_behind(below, at)
    if heap.was_freed(at):
        is_next = length == 1 and behind and at == heap.end_of(below)
        return "overrun" if behind and by_table == "overrun" or is_next and by_table == "nothing" else "reused"
    if below is not None and not below.live:
        return "reused"
    return "overrun" if behind else by_table


def readings(episodes, faults):
    """Of each failure its number, the instruction and what is most likely wrong."""
    return [(number, "%08x" % episode.pc, fault) for number, (episode, fault) in enumerate(zip(episodes, faults))]


def verdict_line(table):
    return b"verdict %s\n" % " ".join(verdict(table) or ["none"]).encode()


def episode_text(number, episode, table):
    return report.failure_line(number, episode) + b"".join(report.try_line(i, tried) for i, tried in enumerate(table)) + verdict_line(table)


def rest_text(episodes, tables, status):
    """All that stands behind the first line."""
    told = b"".join(episode_text(number, *pair) for number, pair in enumerate(zip(episodes, tables)))
    return told + b"end %d episodes %d\n" % (status, len(episodes))
