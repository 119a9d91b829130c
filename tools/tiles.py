#!/usr/bin/env python3
"""Writes the tiles of tools/tiles.txt into the five places that name them.

A tile is two to four entries of the code's table that are done at one dispatch where they stand one behind the other. A kind
says of an entry what is done from it on: it alone, or a tile. The places are

  crates/code_table/src/kind.rt        the enum `Kind`, and which kind an entry has (`kind_of_one` to `kind_of_four`)
  crates/code_table/specs/Kinds.antt   which entries each kind fits (`Fits`)
  crates/rv_exec/src/kinds.rt          what is done of each kind (`enter_kind`)
  crates/rv_exec/proofs/kinds/enter_kind/Answers.antt
                                       that each kind's entries are those which its arm does: found by search, too, but in minutes

In each of them the lines between a first and a last one are written anew; the rest is written by hand. A new tile needs no line
of proof by hand.

usage: tiles.py [--check]

With --check nothing is written: it says which places differ from the list, but for how they are laid out, and ends with 1 then.
After a run without it, `rt fmt` in both crates.
"""

import os
import re
import sys

TOP = os.path.join(os.path.dirname(os.path.abspath(__file__)), "..")
LIST = os.path.join(TOP, "tools", "tiles.txt")
KIND = "crates/code_table/src/kind.rt"
FITS = "crates/code_table/specs/Kinds.antt"
ARMS = "crates/rv_exec/src/kinds.rt"
ANSWERS = "crates/rv_exec/proofs/kinds/enter_kind/Answers.antt"

OPERATIONS = """Set Jal Jalr Beq Bne Blt Bge Bltu Bgeu Lb Lh Lw Lbu Lhu Sb Sh Sw Addi Slti Sltiu Xori Ori Andi Slli Srli Srai
Add Sub Sll Slt Sltu Xor Srl Sra Or And Mul Mulh Mulhsu Mulhu Div Divu Rem Remu""".split()
JUMPS = {"Jal", "Jalr"}
COUNTS = {2: "two", 3: "three", 4: "four"}
RECORDS = {2: "AreTwo", 3: "AreThree", 4: "AreFour"}
MOST_KINDS = 256  # a kind is one byte


def tiles():
    """The tiles of the list, each a tuple of operations, with what is wrong of it."""
    found = []
    with open(LIST, encoding="utf-8") as file:
        for number, line in enumerate(file, 1):
            words = tuple(line.split("#")[0].split())
            if not words:
                continue
            if len(words) not in COUNTS or any(it not in OPERATIONS for it in words):
                sys.exit(f"{LIST}:{number}: not two to four operations: {line.strip()}")
            if JUMPS & set(words[:-1]):
                sys.exit(f"{LIST}:{number}: a jump that isn't the last: {line.strip()}")
            if words in found:
                sys.exit(f"{LIST}:{number}: stands twice: {line.strip()}")
            found.append(words)
    if 1 + len(OPERATIONS) + len(found) > MOST_KINDS:
        sys.exit(f"{LIST}: more than {MOST_KINDS} kinds")
    return found


def name_of(tile):
    return "".join(tile)


def answers(calls):
    """An answer for each kind but the first, of which each call is named: one by its function alone where it is the first of that
    function, and by its arm, too, where it isn't."""
    called = set()
    for kind, call in calls:
        goal = f"run_{call}-requires" + (f"-in-{kind}" if call in called else "") + "-clause-fits"
        called.add(call)
        fits = f"subst (Fits c.args.entries.now c.args.number.now) c.in-{kind}.is c.requires.fits"
        yield f"\npub {goal} : goal.{goal}\n{goal} g c = {fits}\n"


def places(found):
    """Each place: its file, the line before it, what stands there, and the line behind it, if it isn't the last."""
    names = [f"One{it}" for it in OPERATIONS] + [name_of(it) for it in found]
    yield KIND, "pub enum Kind {\n    Slow,\n", "".join(f"    {it},\n" for it in names), "}\n"
    ones = "".join(f"        EntryOp::{it} => Kind::One{it},\n" for it in OPERATIONS)
    yield KIND, "        EntryOp::Stop => Kind::Slow,\n", ones, "    }\n"
    for count, heads in ((2, "(first.op, second.op)"), (3, "(first.op, second.op, third.op)"), (4, "(first.op, second.op, third.op, fourth.op)")):
        arms = "".join(
            f"        ({', '.join('EntryOp::' + op for op in it)}) => Some(Kind::{name_of(it)}),\n" for it in found if len(it) == count
        )
        yield KIND, f"    match {heads} {{\n", arms, "        _ => None,\n"
    fits = "".join(f"Fits entries number kind.One{it} = HasOp entries number op.{it}\n" for it in OPERATIONS)
    fits += "".join(
        f"Fits entries number kind.{name_of(it)} = {RECORDS[len(it)]} entries number {' '.join('op.' + op for op in it)}\n" for it in found
    )
    yield FITS, "Fits entries number kind.Slow = Unit\n", fits, "\n-- a kind for each entry"
    arms = "".join(f"        Kind::One{it} => one!({it}),\n" for it in OPERATIONS)
    arms += "".join(f"        Kind::{name_of(it)} => {COUNTS[len(it)]}!({', '.join(it)}),\n" for it in found)
    yield ARMS, "        Kind::Slow => false,\n", arms, "    }\n"
    calls = [(f"One{it}", "one") for it in OPERATIONS] + [(name_of(it), COUNTS[len(it)]) for it in found]
    yield ANSWERS, "returns-in-Slow g c = runs_none c.requires.may\n", "".join(answers(calls)), None


def bare(text):
    """The text without what its layout adds."""
    return re.sub(r",(?=[)}])", "", re.sub(r"\s+", "", text)).replace("{Some(", "Some(")


def main():
    if sys.argv[1:] not in ([], ["--check"]):
        sys.exit(__doc__)
    checks = sys.argv[1:] == ["--check"]
    found = tiles()
    differ = []
    for name, before, body, behind in places(found):
        path = os.path.join(TOP, name)
        with open(path, encoding="utf-8") as file:
            text = file.read()
        if text.count(before) != 1:
            sys.exit(f"{name}: the line before stands {text.count(before)} times: {before.strip()}")
        start = text.index(before) + len(before)
        end = text.index(behind, start) if behind else len(text)
        if bare(text[start:end]) == bare(body):
            continue
        differ.append(name)
        if not checks:
            with open(path, "w", encoding="utf-8") as file:
                file.write(text[:start] + body + text[end:])
    for name in sorted(set(differ)):
        print(f"{name}: {'differs from the list' if checks else 'written'}")
    print(f"{len(found)} tiles, {1 + len(OPERATIONS) + len(found)} kinds")
    sys.exit(1 if checks and differ else 0)


if __name__ == "__main__":
    main()
