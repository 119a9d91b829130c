"""The example guests, assembled from their texts in the repository."""

import functools
import os
import re

from second.assembler import assemble
from second.machine import Image, MIB

FOLDER = os.path.join(os.path.dirname(os.path.abspath(__file__)), "..", "..", "crates", "example_guests", "src")
TEXT = re.compile(r'pub const SOURCE: &str = (?:r#"(.*?)"#|"(.*?)");', re.DOTALL)


def text_of(name):
    with open(os.path.join(FOLDER, name + ".rt"), encoding="utf-8") as source:
        raw, plain = TEXT.search(source.read()).groups()
    return raw if raw is not None else plain


@functools.lru_cache(maxsize=None)
def program(name):
    """Segments and entry of a guest."""
    return assemble(text_of(name))


@functools.lru_cache(maxsize=None)
def image(name, window=4 * MIB):
    return Image(*program(name), window)
