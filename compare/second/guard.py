"""The guard of a session: what a program may touch of its heap, besides that the areas permit it.

Written from the definition of the guard. An access is the bytes of a load or a store, the whole buffer of a recv, or the bytes of a
send that comes to its test of readability. One of no byte, or without a byte of the heap, is permitted.
"""

OFF, EXTENT, BLOCK = "off", "extent", "block"
MODES = (OFF, EXTENT, BLOCK)


class Guard:
    """The guard of this mode, EXTENT or BLOCK, over a heap."""

    def __init__(self, mode, heap):
        self.mode, self.heap = mode, heap

    def permits(self, at, length):
        """By EXTENT all bytes have to lie in what one standing block takes of the heap, by BLOCK in the bytes that one live block has."""
        end = at + length
        if length == 0 or end <= self.heap.start or at >= self.heap.end:
            return True
        if self.mode == EXTENT:
            return self.heap.is_in_extent(at, end)
        return self.heap.is_in_live_block(at, end)


def guard_of(mode, heap):
    """The guard, or None where there is none."""
    return None if mode == OFF else Guard(mode, heap)
