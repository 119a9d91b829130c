#!/usr/bin/env python3
"""Whether the commands that the pages show give what the pages say, with the built rx.

A page's blocks of `sh` that run rx or the second engine are run in order, in a folder that looks like the top of the repository. The
next block, if it has no language and stands in the same section, is what the commands have to write. Where there is none, they only
have to end with status 0. Commands that serve a port have to do so in the background, are given a port that is free, and may ask at
127.0.0.1 alone. What runs for longer than a minute is ended, and is wrong. With --no-guard blocks with `--guard` are left out.

usage: tours.py [--no-guard] [RX]
RX is the built rx, crates/rx/out/rx unless it is given. The status is 0 where each page is right.
"""

import argparse
import os
import re
import signal
import socket
import subprocess
import sys
import tempfile

TOP = os.path.abspath(os.path.join(os.path.dirname(os.path.abspath(__file__)), ".."))
PAGES = ["README.md", "docs/USING.md", "docs/OPERATING.md", "docs/ASSEMBLER.md", "guests/README.md"]
BLOCK = re.compile(r"^```(\w*)\n(.*?)^```$", re.MULTILINE | re.DOTALL)
RUNS = re.compile(r"crates/rx/out/rx (run|serve|diagnose|asm|replay|convert|standby|resume|drill|frame|unframe)|guests/run_second.py run")
SERVES = re.compile(r"crates/rx/out/rx serve \S+ (\d+) .*&$", re.MULTILINE)
ASKS = re.compile(r"https?://([^/:\s]+)")
SECONDS = 60


def tours(page, left_out):
    """The commands of a page that are run, each with the output that the page shows, or None; those with a word that is left out aren't."""
    with open(os.path.join(TOP, page), encoding="utf-8") as file:
        text = file.read()
    blocks = list(BLOCK.finditer(text))
    for block, following in zip(blocks, blocks[1:] + [None]):
        shows = following and following[1] == "" and "\n#" not in text[block.end():following.start()]
        if block[1] == "sh" and RUNS.search(block[2]) and not any(word in block[2] for word in left_out):
            yield block[2], following[2] if shows else None


def lay_out(folder, rx):
    """Makes the folder look like the top, with this rx as the built one."""
    os.makedirs(os.path.join(folder, "crates", "rx", "out"))
    os.symlink(rx, os.path.join(folder, "crates", "rx", "out", "rx"))
    for name in ("stdin", "stdout", "data"):
        os.symlink(os.path.join(TOP, "crates", "rx", name), os.path.join(folder, "crates", "rx", name))
    for name in ("guests", "bench", "compare", "tools"):
        os.symlink(os.path.join(TOP, name), os.path.join(folder, name))


def free_port():
    """A port of this machine that nobody has."""
    with socket.socket() as found:
        found.bind(("127.0.0.1", 0))
        return found.getsockname()[1]


def at_free_port(commands):
    """The commands with another port in place of the one that they serve, if they do."""
    serves = SERVES.search(commands)
    return re.sub(r"\b%s\b" % serves[1], str(free_port()), commands) if serves else commands


def is_local(commands):
    """Whether the commands ask this machine alone."""
    return all(host == "127.0.0.1" for host in ASKS.findall(commands))


def run(commands, folder):
    """What the commands write, and their status: None where they had to be ended."""
    environment = {name: value for name, value in os.environ.items() if not name.lower().endswith("_proxy")}
    # a group of its own, so that a server in the background is ended too
    with subprocess.Popen(["sh", "-c", commands], cwd=folder, env=environment, stdout=subprocess.PIPE, stderr=subprocess.STDOUT, start_new_session=True) as shell:
        try:
            came, status = shell.communicate(timeout=SECONDS)[0], shell.returncode
        except subprocess.TimeoutExpired:
            os.killpg(shell.pid, signal.SIGKILL)
            came, status = shell.communicate()[0], None
    return came.decode(errors="replace"), status


def check(page, rx, left_out):
    """Runs a page; how many of its commands are right, and how many aren't."""
    right, wrong = 0, 0
    with tempfile.TemporaryDirectory() as folder:
        lay_out(folder, rx)
        for commands, expected in tours(page, left_out):
            came, status = run(at_free_port(commands), folder) if is_local(commands) else ("", None)
            if status is not None and (came == expected or expected is None and status == 0):
                right += 1
            else:
                wrong += 1
                print("%s:\n%swrote, with status %s,\n%sin place of\n%s" % (page, commands, status, came, expected))
    return right, wrong


def main(words):
    parser = argparse.ArgumentParser(description="Runs the commands that the pages show.")
    parser.add_argument("--no-guard", action="append_const", dest="left_out", const="--guard")
    parser.add_argument("rx", nargs="?", default=os.path.join(TOP, "crates", "rx", "out", "rx"))
    asked = parser.parse_args(words)
    all_wrong = 0
    for page in PAGES:
        right, wrong = check(page, os.path.abspath(asked.rx), asked.left_out or ())
        all_wrong += wrong
        print("%s: %d commands are right, %d aren't" % (page, right, wrong))
    return 1 if all_wrong else 0


if __name__ == "__main__":
    sys.exit(main(sys.argv[1:]))
