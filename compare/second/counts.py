"""The text of how many bytes each client has.

Written from the form of the counts: lines of a connection and its count of bytes, in rising order of the connections.
"""

import re

from second.record import lines_of

LINE = re.compile(rb"(0|[1-9][0-9]*) (0|[1-9][0-9]*)\n")
CONNECTIONS, MOST_COUNT = 4096, 1 << 63


class CountsRefused(Exception):
    """The counts have no reading; the argument is the first line that isn't of its form."""


def counts_text(counts):
    return b"".join(b"%d %d\n" % pair for pair in sorted(counts.items()))


def read_counts(text):
    """How many bytes each connection's client has; a connection without a line has 0."""
    counts, least = {}, 0
    for number, line in enumerate(lines_of(text), 1):
        found = LINE.fullmatch(line)
        connection, count = map(int, found.groups()) if found else (0, MOST_COUNT)
        if not least <= connection < CONNECTIONS or count >= MOST_COUNT:
            raise CountsRefused(number)
        counts[connection], least = count, connection + 1
    return counts
