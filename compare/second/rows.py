#!/usr/bin/env python3
"""Whether the second engine does what the worked rows say, with the example guests.

The rows' values are written here by hand. Rows of the words of a command and of wrong assembler texts aren't here.

usage: rows.py
"""

import os
import sys

sys.path.insert(0, os.path.join(os.path.dirname(os.path.abspath(__file__)), ".."))

# pylint: disable=wrong-import-position
from second import diagnosis_rows, guard_rows, heap_rows, program_rows, recovery_rows, ruling_rows, takeover_rows, trunk_rows  # noqa: E402
from second.checks import ROWS, run_rows  # noqa: E402


def main():
    assert diagnosis_rows and guard_rows and heap_rows and program_rows and recovery_rows and ruling_rows and takeover_rows and trunk_rows
    sys.exit(1 if run_rows(ROWS) else 0)


if __name__ == "__main__":
    main()
