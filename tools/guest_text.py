#!/usr/bin/env python3
"""Prints the text of an example guest, for `rx asm`.

usage: guest_text.py NAME
"""

import os
import sys

sys.path.insert(0, os.path.join(os.path.dirname(os.path.abspath(__file__)), "..", "compare"))

# pylint: disable=wrong-import-position
from second.guests import text_of  # noqa: E402

if __name__ == "__main__":
    sys.stdout.write(text_of(sys.argv[1]))
