#!/usr/bin/env python3
"""Whether `rx run` accepts and refuses program files as a second reader does.

The second reader is `refusal` below: the table of refusals of docs/USING.md, in order, written from the ELF
specification's headers (System V ABI, "ELF Header", "Program Header") and the RISC-V ELF psABI's e_flags. It shares
nothing with rx. The files are executables of one to five segments, made here, which lie apart, touch, or overlap by a byte,
reach to the window's end or the address space's, and in which some fields and single bytes are then changed, to values at
the edges of what the table tests and to random ones; or the file is cut short.

usage: compare_elf.py [--files N] [--seed N] [RX]
RX is the built rx, crates/rx/out/rx unless it is given.
"""

import argparse
import collections
import os
import random
import re
import struct
import subprocess
import sys
import tempfile

HERE = os.path.dirname(os.path.abspath(__file__))

PAGE = 4096
WINDOW = 4 << 20
STACK_AND_GUARD = 69632
SPACE = 1 << 32

# offset and size of the fields of the ELF header that rx reads
FILE_FIELDS = {
    "e_type": (16, 2), "e_machine": (18, 2), "e_version": (20, 4), "e_entry": (24, 4), "e_phoff": (28, 4),
    "e_flags": (36, 4), "e_phentsize": (42, 2), "e_phnum": (44, 2),
}
SEGMENT_FIELDS = ["p_type", "p_offset", "p_vaddr", "p_paddr", "p_filesz", "p_memsz", "p_flags", "p_align"]

Header = collections.namedtuple("Header", SEGMENT_FIELDS)


def field(data, name):
    at, size = FILE_FIELDS[name]
    return int.from_bytes(data[at:at + size], "little")


def headers_of(data):
    at = field(data, "e_phoff")
    return [Header(*struct.unpack_from("<8I", data, at + 32 * i)) for i in range(field(data, "e_phnum"))]


def is_bad_segment(header, length):
    return (header.p_filesz > header.p_memsz
            or header.p_filesz > 0 and header.p_offset + header.p_filesz > length
            or header.p_vaddr + header.p_memsz > SPACE)


def overlap(headers):
    spans = sorted((h.p_vaddr, h.p_vaddr + h.p_memsz) for h in headers)
    return any(end > start for (_, end), (start, _) in zip(spans, spans[1:]))


def is_bad_entry(entry, headers):
    def executable(at):
        return any(h.p_flags & 1 and h.p_vaddr <= at < h.p_vaddr + h.p_memsz for h in headers)
    return entry % 4 != 0 or not all(executable(entry + i) for i in range(4))


def is_too_large(headers):
    base = min(h.p_vaddr for h in headers) // PAGE * PAGE
    end = max(h.p_vaddr + h.p_memsz for h in headers)
    heap_start = (end + PAGE - 1) // PAGE * PAGE
    return base + WINDOW >= SPACE or heap_start + PAGE > base + WINDOW - STACK_AND_GUARD


def refusal_of_table(data, headers):
    if any(h.p_type in (2, 3) for h in headers):
        return 9
    if any(h.p_type == 7 for h in headers):
        return 10
    loads = [h for h in headers if h.p_type == 1 and (h.p_filesz, h.p_memsz) != (0, 0)]
    if any(is_bad_segment(h, len(data)) for h in loads):
        return 11
    if overlap(loads):
        return 12
    if not loads:
        return 13
    if is_bad_entry(field(data, "e_entry"), loads):
        return 14
    if is_too_large(loads):
        return 15
    return None


def refusal(data):
    """The number of the first refusal that holds, or None."""
    if len(data) < 52:
        return 1
    if data[:4] != b"\x7fELF":
        return 2
    if data[4] != 1:
        return 3
    if data[5] != 1:
        return 4
    if field(data, "e_type") != 2 or field(data, "e_version") != 1:
        return 5
    if field(data, "e_machine") != 243:
        return 6
    if field(data, "e_flags") & 0xF:
        return 7
    count = field(data, "e_phnum")
    if count != 0 and (field(data, "e_phentsize") != 32 or field(data, "e_phoff") + 32 * count > len(data)):
        return 8
    return refusal_of_table(data, headers_of(data) if count else [])


# ---- files


def put(data, name, value):
    at, size = FILE_FIELDS[name]
    data[at:at + size] = (value % (1 << 8 * size)).to_bytes(size, "little")


def put_in_header(data, phoff, i, name, value):
    at = phoff + 32 * i + 4 * SEGMENT_FIELDS.index(name)
    if at + 4 <= len(data):
        data[at:at + 4] = (value % SPACE).to_bytes(4, "little")


def some_segments(rng):
    """Where segments lie, each behind the one before: apart, touching, or over it by a byte."""
    at = rng.choice([0x10000, 0x10000, 0x10004, 0, 4, 0x10FFC, 0x12345, SPACE - WINDOW - PAGE, SPACE - WINDOW, SPACE - PAGE])
    spans = []
    for _ in range(rng.choice([1, 1, 2, 2, 3, 5])):
        size = rng.choice([1, 4, 4, 8, 16, 100, PAGE - 4, PAGE, PAGE + 1, 3 * PAGE])
        spans.append((at % SPACE, size))
        at += size + rng.choice([0, 0, 1, 3, PAGE, 2 * PAGE, -1, 0x1000 - at % 0x1000])
    if rng.random() < 0.2:
        base = min(start for start, _ in spans) // PAGE * PAGE
        edge = base + WINDOW - STACK_AND_GUARD - PAGE
        spans.append(((edge - 8 + rng.choice([0, 1, 7, 8, 9, -PAGE])) % SPACE, 8))
    rng.shuffle(spans)
    return spans


def executable(rng):
    """A file with such segments, and where its program headers are."""
    spans = some_segments(rng)
    phoff = rng.choice([52, 52, 52, 56, 60, 53])
    offset = phoff + 32 * len(spans)
    headers, contents = b"", b""
    first = rng.choice([span for span in spans if span[1] >= 4] or spans)
    for start, memsz in spans:
        filesz = rng.choice([memsz, memsz, memsz, 0, memsz // 2])
        flags = rng.choice([5, 7, 1] if (start, memsz) == first else [5, 7, 6, 4, 1])
        headers += struct.pack("<8I", 1, offset + len(contents), start, start, filesz, memsz, flags, 1)
        contents += bytes(rng.choice([b"\x13\0\0\0", b"\x73\0\0\0"])) * (filesz // 4) + b"\0" * (filesz % 4)
    start, memsz = first
    entry = start + rng.choice([0, 0, 0, -start % 4, -start % 4, memsz - 4, memsz - 3, memsz, 1, 2])
    ident = b"\x7fELF\x01\x01\x01" + bytes(9)
    header = ident + struct.pack("<HHIIIIIHHHHHH", 2, 243, 1, entry % SPACE, phoff, 0, 0, 52, 32, len(spans), 0, 0, 0)
    return bytearray(header + bytes(phoff - 52) + headers + contents), phoff, len(spans)


def change(rng, data, phoff, count):
    """One change of a file: a field at an edge, a header of another type, a byte, or the file's length."""
    kind = rng.randrange(8)
    if kind == 0:
        name = rng.choice(list(FILE_FIELDS))
        near = field(data, name) + rng.choice([-1, 1, 4, -4, 32])
        put(data, name, rng.choice([0, 1, 2, 3, 8, 16, 31, 32, 33, 243, len(data), len(data) - 32 * count, near, SPACE - 1, SPACE - 32]))
    elif kind <= 3:
        name = rng.choice(SEGMENT_FIELDS)
        value = rng.choice([0, 1, 2, 3, 4, 5, 6, 7, 8, len(data), len(data) - 4, PAGE, 0x10000, 0x11000, WINDOW, SPACE - 1, SPACE - 4, rng.randrange(SPACE)])
        put_in_header(data, phoff, rng.randrange(count), name, value)
    elif kind == 4:
        i = rng.randrange(count)
        for name in ("p_filesz", "p_memsz"):
            put_in_header(data, phoff, i, name, 0)
    elif kind == 5:
        data[rng.randrange(min(len(data), phoff + 32 * count))] = rng.randrange(256)
    elif kind == 6:
        del data[rng.choice([0, 3, 4, 51, 52, phoff + 32 * count - 1, phoff + 32 * count, max(len(data) - 1, 0), rng.randrange(len(data) + 1)]):]
    else:
        data += bytes(rng.randrange(40))


def some_file(rng):
    data, phoff, count = executable(rng)
    for _ in range(rng.choice([0, 0, 1, 1, 2, 3])):
        if len(data) < 52:
            break
        change(rng, data, phoff, count)
    return bytes(data)


# ---- rx


def answer_of_rx(rx, folder, data):
    """The number that rx refuses a file by, or None."""
    program = os.path.join(folder, "program")
    with open(program, "wb") as out:
        out.write(data)
    done = subprocess.run(
        [rx, "run", program, "--record", "record", "--report", "report", "--frame", "whole"],
        stdin=subprocess.DEVNULL, capture_output=True, check=False, cwd=folder)
    refused = re.search(rb"program file refused \((\d+)\)", done.stderr)
    if refused is None:
        assert done.returncode in (0, 1, 4, 5), (done.returncode, done.stderr)
        return None
    assert done.returncode == 3, done.stderr
    return int(refused.group(1))


def main():
    parser = argparse.ArgumentParser(description=__doc__, formatter_class=argparse.RawDescriptionHelpFormatter)
    parser.add_argument("rx", nargs="?", default=os.path.join(HERE, "..", "crates", "rx", "out", "rx"))
    parser.add_argument("--files", type=int, default=5000)
    parser.add_argument("--seed", type=int, default=1)
    words = parser.parse_args()
    rng = random.Random(words.seed)
    rx = os.path.abspath(words.rx)
    counts, wrong = collections.Counter(), 0
    with tempfile.TemporaryDirectory() as folder:
        for n in range(words.files):
            data = some_file(rng)
            ours, theirs = answer_of_rx(rx, folder, data), refusal(data)
            counts[theirs or 0] += 1
            if ours != theirs:
                wrong += 1
                print("file %d: rx says %s, the table says %s: %s" % (n, ours, theirs, data[:200].hex()))
    print("%d files agree, %d differ" % (words.files - wrong, wrong))
    print("accepted: %d; refused: %s" % (counts[0], ", ".join("%d by %d" % (counts[k], k) for k in range(1, 16))))
    sys.exit(1 if wrong else 0)


if __name__ == "__main__":
    main()
