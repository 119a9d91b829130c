#!/usr/bin/env python3
"""Sets the second engine beside the rows that the tests of hostile use and of second hosts play.

Each row of crates/hostile_tests/src/fault_tests.rt and of standby_tests.rt and resume_tests.rt in crates/program_tests/src is run by the second engine:
the same program, input, record, report, counts and failing calls. Answer, counts, output and files have to be those of the row; of a port, what each client was given. An edited program is
read by the second reader. The second engine knows one client at a time and no words: rows of several clients at once, and of refused words, are passed over.

usage: compare_rows.py
"""

import os
import re
import sys

HERE = os.path.dirname(os.path.abspath(__file__))
sys.path.insert(0, HERE)

# pylint: disable=wrong-import-position
import compare_elf  # noqa: E402
from second import guests  # noqa: E402
from second.assembler import assemble  # noqa: E402
from second.command import Done, convert, replay, run, serve  # noqa: E402
from second.machine import Image, MIB, executable  # noqa: E402
from second.outside import MemoryFiles, MemoryListener, MemorySink, MemorySource  # noqa: E402
from second.session import Options  # noqa: E402
from second.takeover import resume, standby  # noqa: E402

ROWS = [os.path.join(HERE, "..", "crates", crate, "src", name)
        for crate, name in (("hostile_tests", "fault_tests.rt"), ("program_tests", "standby_tests.rt"), ("program_tests", "resume_tests.rt"))]
KINDS = {"GaveUp": "GaveUp { point: %d, cause: %s }", "InputRefused": "InputRefused { kind: %d, offset: %d }",
         "RecordRefused": "RecordRefused { line: %d }", "ReportRefused": "ReportRefused { line: %d }", "CountsRefused": "CountsRefused { line: %d }", "Short": "Short { conn: %d }",
         "Mismatch": "Mismatch { step: %d }", "MessageTooLong": "MessageTooLong { conn: %d }", "Exited": "Exited(%d)"}
LOADED, USUAL_BUDGET = {"standby": 3, "resume": 4}, 1000000  # how many files of a second host are loaded, and its budget


def bytes_of(text):
    words = (word.split("*") for word in text.split())
    return b"".join(bytes.fromhex(word[0]) * int(word[1] if len(word) > 1 else 1) for word in words)


def with_all(rows):
    """The rows of a block, with the cells of a line for all of them in front of their own."""
    cells = "".join(row[len("all:"):] + "; " for row in rows if row.startswith("all:"))
    return [cells + row for row in rows if not row.startswith(("#", "all:"))]


def blocks_in(path):
    """The program's line and the rows of each block of a file."""
    with open(path, encoding="utf-8") as file:
        text = file.read()
    for rows in re.findall(r'r#"(.*?)"#', text, re.DOTALL):
        for block in rows.split("\n\n"):
            program, *rows = [line.strip() for line in block.strip().split("\n")]
            yield program, with_all(rows)


def each_of(row):
    """The cells of a row, for each of its numbers."""
    first, last = re.search(r"each=(\d+)\.\.(\d+)", row + "; each=0..0").groups()
    for number in range(int(first), int(last) + 1):
        yield dict(cell.strip().split("=", 1) for cell in row.replace("@", str(number)).split(";"))


def shown(done):
    """An end as the rows write it."""
    answer = KINDS.get(done.answer[0], done.answer[0])
    tail = ", ".join("Choice { ask: Malloc { size: %d }, at: %d, zeroed: %s, carried: %d }" % (c.ask.first, c.at, str(c.zeroed).lower(), c.carried) for c in done.tail)
    answer = answer % done.answer[1:] if len(done.answer) > 1 else answer
    answer = re.sub(r"AssertFailed (\d+)", r"AssertFailed(\1)", answer)
    return "%s %d %d [%s] %d %d" % (answer, done.status, done.recorded, tail, done.steps, done.taken)


def edited(content, edits):
    """The bytes with others in the places of some of them."""
    content = bytearray(content)
    for edit in edits.split():
        at, byte = edit.split(":")
        content[int(at)] = int(byte, 16)
    return bytes(content)


def file_of(program, cells):
    """The bytes of an edited program."""
    file = bytes_of(program.split("=")[1]) if program.startswith("bytes=") else executable(*guests.program(program))
    return edited(file, cells.get("edit", ""))


def number(cells, name, usual):
    return int(cells.get(name, usual))


def options_in(line):
    """The options of numbers among the words of a line."""
    words = line.split()
    named = {name[2:]: int(value) for name, value in zip(words, words[1:]) if name.startswith("--") and value.isdigit()}
    return Options(**{name: value * MIB if name == "window" else value for name, value in named.items()})


def source_of(cells):
    content = bytes_of(cells["in"])
    return MemorySource(content[:number(cells, "cut", len(content))], [number(cells, "source", 0)], number(cells, "takes", 10000))


def left_in(source):
    return source.content[source.at:][:min(64, source.most)]


def text_of(files, name):
    return files.files[name].decode().replace("\n", "/") if name in files.files else "none"


def played(program, cells):
    """What comes of a row: each expected cell, as the second engine has it."""
    source, failing = source_of(cells), number(cells, "sink", 0)
    sink = MemorySink([failing], number(cells, "gives", 10000))
    files = MemoryFiles({"p": b""}, [number(cells, "files", 0)])
    options = options_in(cells.get("options", ""))
    done = run(guests.image(program, options.window), source, sink, options, files)
    wrote = bytes_of(cells["wrote"])[:failing - 1] if "wrote" in cells else None
    return {"end": shown(done), "out": sink.content, "wrote": wrote is None or sink.content == wrote, "left": left_in(source),
            "record": text_of(files, "r"), "report": text_of(files, "t")}


def replayed(program, cells):
    """What comes of a row whose record is replayed or converted."""
    record = cells["before"].replace("/", "\n").encode()
    record = edited(record[:number(cells, "kept", len(record))], cells.get("spoilt", ""))
    source, sink, files, image = source_of(cells), MemorySink(), MemoryFiles({}), lambda window: guests.image(program, window)
    done = convert(image, record, source, files) if "convert" in cells["words"] else replay(image, record, source, sink)
    return {"end": shown(done), "out": sink.content, "left": left_in(source), "o": text_of(files, "o")}


def program_of(program):
    """Segments and entry of a guest by its name, or of a text."""
    return assemble(program.replace("/", "\n")) if "/" in program else guests.program(program)


def files_behind(cells, command):
    """The files of a second host, and whether those that it loads were loaded."""
    fails = number(cells, "files", 0)
    return MemoryFiles({}, [fails - LOADED[command]]), not 0 < fails <= LOADED[command]


def texts_in(cells, *names):
    """The texts of cells, each None where it isn't there."""
    return [cells[name].replace("/", "\n").encode() if name in cells else None for name in names]


def is_written(sink, cells):
    """Whether the sink has the bytes that were written before the call that fails, where a row says them."""
    return "wrote" not in cells or sink.content == bytes_of(cells["wrote"])[:number(cells, "sink", 0) - 1]


def stood_by(program, cells):
    """What comes of a row of a second host; or None, where its words are refused. The record, the counts or the program may not be there."""
    if cells["end"].startswith("BadWords"):
        return None
    source, sink = source_of(cells), MemorySink([number(cells, "sink", 0)], number(cells, "gives", 10000))
    files, loaded = files_behind(cells, "standby")
    texts = texts_in(cells, "before", "counts")
    if None in texts or not loaded:
        done = Done(("FileFault",))
    else:
        budget = number(dict(re.findall(r"--(budget) (\d+)", cells["words"])), "budget", USUAL_BUDGET)
        done = standby(lambda window: Image(*program_of(program), window), *texts, source, sink, budget, files)
    return {"end": shown(done), "out": sink.content, "wrote": is_written(sink, cells), "left": left_in(source), "o": text_of(files, "r")}


def resumed(program, cells):
    """What comes of a row of a host that goes on for one that was killed; or None, where its words are refused. A file may not be there."""
    if cells["end"].startswith("BadWords"):
        return None
    source, sink = source_of(cells), MemorySink([number(cells, "sink", 0)], number(cells, "gives", 10000))
    files, loaded = files_behind(cells, "resume")
    texts = texts_in(cells, "before", "reported", "counts")
    if "before" in cells:
        files.files["t"] = texts[0]  # what stands there before
    if None in texts or not loaded:
        done = Done(("FileFault",))
    else:
        form = "json" if "--form json" in cells["words"] else "text"
        done = resume(lambda window: Image(*program_of(program), window), texts, source, sink, options_in(cells["words"]), files, form)
    return {"end": shown(done), "out": sink.content, "wrote": is_written(sink, cells), "left": left_in(source), "o": text_of(files, "r"),
            "report": text_of(files, "t")}


def served(program, cells):
    """What comes of a row of a port."""
    fails = {(name, int(cells[name])) for name in ("accept", "take", "give") if name in cells}
    inputs = [client.replace("/", "\n").encode() for client in cells["clients"].split("|")]
    listener = MemoryListener(inputs, fails, int(cells["moves"]))
    options = options_in(cells["words"])
    done = serve(guests.image(program, options.window), listener, len(inputs), options)
    replies = "".join(output.decode().replace("\n", "/") + "|" for output in listener.outputs)
    return {"end": shown(done), "replies": replies}


def how_of(cells):
    """How a row is played."""
    for command, how in (("standby", stood_by), ("resume", resumed)):
        if cells.get("words", "").startswith(command):
            return how
    return served if "clients" in cells else replayed if "kept" in cells or "spoilt" in cells else played


def differences(program, cells):
    if "ElfRefused" in cells["end"]:
        refused = compare_elf.refusal(file_of(program, cells))
        return [] if cells["end"] == "ElfRefused(%s) 3 0 [] 0 0" % refused else [("end", refused)]
    seen = how_of(cells)(program, cells) or {}
    for name in ("out", "left"):
        if name in cells:
            cells[name] = bytes_of(cells[name])
    cells["wrote"] = True
    return [(name, value) for name, value in seen.items() if name in cells and cells[name] != value]


def main():
    agree = wrong = 0
    for program, rows in (block for path in ROWS for block in blocks_in(path)):
        for row in rows:
            for cells in () if "--at-once" in row else each_of(row):
                found = differences(program, cells)
                agree, wrong = agree + (not found), wrong + bool(found)
                if found:
                    print("%s: %s: the second engine has %s" % (program, row, found))
    print("%d rows agree, %d differ" % (agree, wrong))
    sys.exit(1 if wrong else 0)


if __name__ == "__main__":
    main()
