#!/usr/bin/env python3
"""Whether whole sessions of `rx run` go as a second engine says.

The second engine is the folder `second`. It is written from the RISC-V unprivileged manual (RV32I and "M") and from the project's
rules, and shares nothing with rx. Its modules say what each is written from.

With --sessions, sessions at random run in both: servers with planted faults of the heap, whose blocks come of malloc, calloc and
realloc, and programs of pseudo-random words; many connections, in each framing; with options at random, the guard's among them, in any
order; at times a trunk that breaks a rule of the grammar. Compared are standard output, the status, the answer as standard error tells it
(failing point and cause, refusal and offset, connection, code), and the record and the report. An rx that recovers and writes neither of
them yet is compared with --no-files, in all else. Where rx doesn't recover either, --no-recovery takes each first failure for the end.
With --wild all programs are of pseudo-random words, and with --long sessions have up to 250 messages or more, a ring and frames of any
size, and a wider hold and --every. An rx without a guard is compared with --no-guard.

With --diagnose they are sessions of `rx diagnose`, and its diagnosis is compared too.

With --code the sessions are those of a few programs that go where code and memory meet: they write their own code, jump into a second
segment of code or to half of an instruction, load and store across pages, and store into pages that a checkpoint shares.

With --self no rx is run: whole sessions of the second engine are checked against what each of them promises, and counted. Every third
one is diagnosed. With --hosts none is run either: hosts of the second engine are killed within a call, and the next one takes over by the
report of the one before and by how many bytes each client has, which rx doesn't do yet; or one stands by, and goes on by the record.

usage: compare_runs.py ((--sessions [--no-files | --no-recovery] | --diagnose) [--wild] [--long] | --code | --self | --hosts) [--no-guard]
                       [--runs N] [--seed N] [RX]
RX is the built rx, crates/rx/out/rx unless it is given.
"""

import argparse
import os
import sys

from second import beside_rx, code_programs, self_check, takeover_check

HERE = os.path.dirname(os.path.abspath(__file__))


def words_of(words):
    parser = argparse.ArgumentParser(description=__doc__, formatter_class=argparse.RawDescriptionHelpFormatter)
    what = parser.add_mutually_exclusive_group(required=True)
    what.add_argument("--sessions", action="store_true")
    what.add_argument("--diagnose", action="store_true")
    what.add_argument("--code", action="store_true")
    what.add_argument("--self", action="store_true", dest="alone")
    what.add_argument("--hosts", action="store_true")
    lacks = parser.add_mutually_exclusive_group()
    lacks.add_argument("--no-files", action="store_true")
    lacks.add_argument("--no-recovery", action="store_true")
    parser.add_argument("--no-guard", action="store_true")
    parser.add_argument("--wild", action="store_true")
    parser.add_argument("--long", action="store_true")
    parser.add_argument("--runs", type=int, default=1000)
    parser.add_argument("--seed", type=int, default=1)
    parser.add_argument("rx", nargs="?", default=os.path.join(HERE, "..", "crates", "rx", "out", "rx"))
    asked = parser.parse_args(words)
    if asked.diagnose and (asked.no_files or asked.no_recovery):
        parser.error("an rx that diagnoses recovers, and writes its files")
    return asked


def main(words):
    asked = words_of(words)
    if asked.alone:
        return self_check.check(asked.runs, asked.seed)
    if asked.hosts:
        return takeover_check.check(asked.runs, asked.seed)
    rx = beside_rx.Rx(os.path.abspath(asked.rx), not asked.no_recovery, not asked.no_recovery and not asked.no_files, not asked.no_guard)
    if asked.code:
        return code_programs.compare(rx)
    return beside_rx.compare(rx, asked.runs, asked.seed, asked.wild, asked.long, asked.diagnose)


if __name__ == "__main__":
    sys.exit(1 if main(sys.argv[1:]) else 0)
