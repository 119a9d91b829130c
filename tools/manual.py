#!/usr/bin/env python3
"""Makes the man page and the completion for bash of what the built rx tells of its commands.

`rx help` and `rx help COMMAND` have each command, name and option with its range, its default and what it does. Of these docs/rx.1 and
docs/rx.bash are written, so that they name what this rx has. Behind the commands the man page has what stands in docs/USING.md: the statuses.

usage: manual.py [--check] [RX]

RX is the built rx, crates/rx/out/rx unless it is given. With --check nothing is written, and the status is 1 where one of the two files is another.
"""

import argparse
import os
import re
import subprocess
import sys

HERE = os.path.dirname(os.path.abspath(__file__))
DOCS = os.path.join(HERE, "..", "docs")

LINE = re.compile(r"^  (?P<name>(--)?[A-Za-z-]+) (?P<range>.*?)( \((?P<default>[^()]*)\))?: (?P<says>.*)$")

STATUSES = [
    (0, "All was done; or the program ended itself with code 0."),
    (1, "The program ended itself with another code."),
    (2, "The words are those of no command, or two names are of one file."),
    (3, "A program file, a text, a record, a report or counts are refused or too large, or a run isn't as recorded."),
    (4, "The input is refused, or a message is too long."),
    (5, "The program failed, and no trial survived."),
    (6, "A limit of a session was reached."),
    (7, "The input can't be read, or the port can't be had."),
    (8, "The output can't be written."),
    (9, "A file can't be read or written, or would be lost."),
    (10, "Memory ran out."),
]


def said(rx, *words):
    return subprocess.run([rx, *words], capture_output=True, check=True, encoding="utf-8").stdout


def commands_of(rx):
    """Each command's name, how it is written, what it does, and its names and options."""
    found = []
    for line in said(rx, "help").splitlines():
        if line.startswith(" "):
            continue
        name = line.split()[0]
        written, does, *rest = said(rx, "help", name).splitlines()
        rows = [LINE.match(row) for row in rest]
        if None in rows:
            sys.exit("a line of `help %s` isn't of its form: %s" % (name, rest[rows.index(None)]))
        found.append((name, written, does.strip(), [row.groupdict() for row in rows]))
    return found


def roff(text):
    text = text.replace("\\", "\\e").replace("-", "\\-")
    return "\\&" + text if text.startswith((".", "'")) else text


def page_of(commands, version):
    lines = ['.TH RX 1 "" "%s" "User Commands"' % roff(version), ".SH NAME", "rx \\- a recovery system for servers that are static RV32IM executables", ".SH SYNOPSIS"]
    for _, written, _, _ in commands:
        lines += [".B rx %s" % roff(written), ".br"]
    lines += [
        ".SH DESCRIPTION",
        "A server that fails is taken back to a checkpoint and run again in a changed environment, so that its clients see nothing of it.",
        "Names are files. Options stand in any place behind the command, each once and with its value behind it.",
    ]
    for name, written, does, rows in commands:
        lines += [".SS %s" % roff(written), roff(does)]
        for row in rows:
            default = ", %s unless it is given" % row["default"] if row["default"] else ""
            lines += [".TP", ".BR %s \" (%s)\"" % (roff(row["name"]), roff(row["range"] + default)), roff(row["says"])]
    lines += [".SH EXIT STATUS"]
    for status, means in STATUSES:
        lines += [".TP", ".B %d" % status, roff(means)]
    lines += [".SH SEE ALSO", "docs/USING.md has formats and limits, docs/PROVED.md what is proved, docs/OPERATING.md how a server is kept answering."]
    return "\n".join(lines) + "\n"


def values_of(row):
    """What may stand behind an option, where it is one of some words."""
    return row["range"].split(" or ") if " or " in row["range"] else []


def completion_of(commands):
    lines = ["# Completion of rx for bash: `source docs/rx.bash`.", "_rx() {", '    local word=${COMP_WORDS[COMP_CWORD]} before=${COMP_WORDS[COMP_CWORD-1]}', "    if [ \"$COMP_CWORD\" -eq 1 ]; then"]
    lines += ["        COMPREPLY=($(compgen -W '%s help --help --version' -- \"$word\"))" % " ".join(it[0] for it in commands), "        return", "    fi"]
    lines += ['    case "${COMP_WORDS[1]} $before" in']
    for name, _, _, rows in commands:
        for row in rows:
            if values_of(row):
                lines += ["    '%s %s')" % (name, row["name"]), "        COMPREPLY=($(compgen -W '%s' -- \"$word\"))" % " ".join(values_of(row)), "        return ;;"]
    lines += ["    esac", '    case "${COMP_WORDS[1]}" in']
    for name, _, _, rows in commands:
        options = [row["name"] for row in rows if row["name"].startswith("--")]
        if options:
            lines += ["    %s)" % name, "        [[ $word == -* ]] && COMPREPLY=($(compgen -W '%s' -- \"$word\")) && return ;;" % " ".join(options)]
    lines += ["    help)", "        COMPREPLY=($(compgen -W '%s' -- \"$word\"))" % " ".join(it[0] for it in commands), "        return ;;"]
    lines += ["    esac", '    COMPREPLY=($(compgen -f -- "$word"))', "}", "complete -o filenames -F _rx rx"]
    return "\n".join(lines) + "\n"


def main():
    parser = argparse.ArgumentParser(description=__doc__.split("\n", maxsplit=1)[0])
    parser.add_argument("--check", action="store_true")
    parser.add_argument("rx", nargs="?", default=os.path.join(HERE, "..", "crates", "rx", "out", "rx"))
    asked = parser.parse_args()
    commands = commands_of(asked.rx)
    made = {"rx.1": page_of(commands, said(asked.rx, "--version").strip()), "rx.bash": completion_of(commands)}
    differ = 0
    for name, text in made.items():
        path = os.path.join(DOCS, name)
        if asked.check:
            with open(path, encoding="utf-8") as it:
                if it.read() != text:
                    print("%s isn't what this rx tells" % name)
                    differ = 1
        else:
            with open(path, "w", encoding="utf-8") as it:
                it.write(text)
    return differ


if __name__ == "__main__":
    sys.exit(main())
