#!/usr/bin/env python3
"""What the merge gate costs, and of what the repository consists, crate by crate: of which bench/RESULTS.md has the first table.

`gate_cost.py gate` runs `rt ci --anew` at the top of the repository, looks at its processes in /proc while it runs, and
prints a table in Markdown: minutes of processor time for the proof of each crate, for the proof of its tests, and for
its wrong bodies, with the sums. Wrong bodies begin with one more proof of their crate, and end with a look at it: that is
"before them". With names it runs `rt ci --anew NAME..`: those crates and the ones below them. With --kept it runs the same without `--anew`, so that
only what wasn't passed on this machine is in the table: a gate is then measured in parts. The last line is the longest chain: of crates that each stand
on the one before, by crates.txt, those whose proofs and tests take most.
`gate_cost.py edits NAME..` runs `rt must-fail --anew NAME..` and prints the seconds of each wrong body.
`gate_cost.py lines` prints the table of lines, without running anything. Wrong bodies are told by shelf: those of the gate, and those of `bodies/NAME`.

The times are those of the operating system for each process and all that it started, as last seen before it ended. So
a process can be short of up to one interval. "Else" is what isn't a proof: linking, running tests and programs, rt
itself. The line of it compares the sum with what the system says of the whole run.

usage: gate_cost.py gate [--log FILE] [--interval SECONDS] [--kept] [NAME ..]
       gate_cost.py edits [--log FILE] [--interval SECONDS] [--kept] NAME ..
       gate_cost.py lines
"""

import argparse
import os
import re
import resource
import subprocess
import sys
import time

TOP = os.path.dirname(os.path.dirname(os.path.abspath(__file__)))

TICKS = os.sysconf("SC_CLK_TCK")

PROOF, TESTS, EDITS, ELSE = "proof", "tests", "edits", "else"

# What begins the must-fail edits of a crate, and looks at it again behind them.
SEED = "seed"


def edges():
    """The crates of crates.txt, in its order, each with those of them on which it stands."""
    with open(f"{TOP}/crates.txt", encoding="utf-8") as it:
        lines = [line.split("#")[0].split(":") for line in it]
    below = {line[0].split()[0]: line[1].split() for line in lines if len(line) > 1}
    return {name: [it for it in names if it in below] for name, names in below.items()}


def crates():
    """The names of crates.txt, in its order."""
    return list(edges())


def edits_in(folder):
    """The names of the wrong bodies of a folder."""
    found = os.listdir(folder) if os.path.isdir(folder) else []
    return [it[: -len(".edit")] for it in sorted(found) if it.endswith(".edit")]


def edits_of(name):
    """The names of a crate's wrong bodies that the gate tries, in the order in which rt numbers them."""
    return edits_in(f"{TOP}/crates/{name}/must-fail")


def others_of(name):
    """The names of a crate's wrong bodies that the gate doesn't try."""
    return edits_in(f"{TOP}/bodies/{name}")


# Times of processes.


def read_stat(pid):
    """A process's parent, its start, and its ticks: its own and those of the children that it waited for."""
    try:
        with open(f"/proc/{pid}/stat", "rb") as it:
            fields = it.read().rpartition(b")")[2].split()
    except OSError:
        return None
    return int(fields[1]), int(fields[19]), sum(int(it) for it in fields[11:15])


def words_of(pid):
    try:
        with open(f"/proc/{pid}/cmdline", "rb") as it:
            return it.read().decode(errors="replace").split("\0")
    except OSError:
        return []


def kind_of(pid):
    """The crate that a process checks, and what for: None where it checks none."""
    words = words_of(pid)
    if "--crate-name" not in words:
        return None
    name = words[words.index("--crate-name") + 1]
    try:
        folder = os.readlink(f"/proc/{pid}/cwd")
    except OSError:
        return None
    if "/rt-edit-" in folder:
        over = words[words.index("--incremental") + 1] if "--incremental" in words else ""
        number = os.path.basename(over)
        return name, EDITS, int(number) if number.isdigit() else SEED
    return name, TESTS if "--test" in words else PROOF, None


class Times:
    """The processor time of each check that was seen, in ticks."""

    def __init__(self):
        self.kinds = {}
        self.ticks = {}

    def look(self, root):
        """Looks at each process below the root."""
        stats = {}
        for it in os.listdir("/proc"):
            if it.isdigit():
                stat = read_stat(int(it))
                if stat:
                    stats[int(it)] = stat
        below = {}
        for pid, (parent, _, _) in stats.items():
            below.setdefault(parent, []).append(pid)
        for pid in below.get(root, []):
            self.walk(pid, stats, below)

    def walk(self, pid, stats, below):
        _, start, _ = stats[pid]
        key = pid, start
        if self.kinds.get(key) is None:
            self.kinds[key] = kind_of(pid)
        if self.kinds[key] is None:
            for it in below.get(pid, []):
                self.walk(it, stats, below)
            return
        ticks = self.whole(pid, stats, below)
        self.ticks[key] = max(ticks, self.ticks.get(key, 0))

    def whole(self, pid, stats, below):
        return stats[pid][2] + sum(self.whole(it, stats, below) for it in below.get(pid, []))

    def sums(self):
        """Seconds by the crate, what for, and the number of the wrong body."""
        sums = {}
        for key, ticks in self.ticks.items():
            kind = self.kinds[key]
            sums[kind] = sums.get(kind, 0) + ticks / TICKS
        return sums


def measure(command, log, interval):
    """Runs a command of rt: its status, the times, the seconds by the clock, and those of processors in all."""
    times, begun = Times(), time.monotonic()
    before = resource.getrusage(resource.RUSAGE_CHILDREN)
    with open(log, "wb") as out:
        ran = subprocess.Popen(command, cwd=TOP, stdin=subprocess.DEVNULL, stdout=out, stderr=subprocess.STDOUT)
        while ran.poll() is None:
            times.look(ran.pid)
            time.sleep(interval)
    after = resource.getrusage(resource.RUSAGE_CHILDREN)
    used = after.ru_utime - before.ru_utime + after.ru_stime - before.ru_stime
    return ran.returncode, times.sums(), time.monotonic() - begun, used


def last_line(log):
    with open(log, encoding="utf-8", errors="replace") as it:
        lines = it.read().split("\n")
    return next((line for line in reversed(lines) if line), "")


def minutes(seconds):
    return f"{seconds / 60:.1f}"


def row(cells):
    print(f"| {' | '.join(cells)} |")


def table(head, rows):
    row(head)
    print(f"|{'---|' * len(head)}")
    for it in rows:
        row(it)


def longest_chain(costs):
    """Of crates that each stand on the one before, those whose costs come to most: the sum, and their names, the lowest first."""
    chains = {}
    for name, below in edges().items():
        cost, chain = max((chains[it] for it in below), key=lambda it: it[0], default=(0.0, []))
        chains[name] = cost + costs.get(name, 0.0), [*chain, name]
    return max(chains.values(), key=lambda it: it[0])


# The three tables.


def print_gate(names, log, interval, kept):
    status, sums, clock, used = measure(["rt", "ci", *([] if kept else ["--anew"]), *names], log, interval)
    rows, whole, begun, bodies, chained = [], dict.fromkeys((PROOF, TESTS, EDITS), 0.0), 0.0, 0, {}
    for name in crates():
        cost = dict.fromkeys(whole, 0.0)
        before = 0.0
        for (crate, kind, number), seconds in sums.items():
            if crate == name:
                cost[kind] += seconds
                before += seconds if number == SEED else 0.0
        chained[name] = cost[PROOF] + cost[TESTS]
        if not any(cost.values()):
            continue
        for kind, seconds in cost.items():
            whole[kind] += seconds
        count = len(edits_of(name))
        each = f"{(cost[EDITS] - before) / count:.0f} s" if count else ""
        of_edits = [minutes(before) if count else "", str(count) if count else "", each]
        cells = [minutes(cost[it]) if cost[it] else "" for it in (PROOF, TESTS, EDITS)]
        rows.append([f"`{name}`", *cells, *of_edits, minutes(sum(cost.values()))])
        begun, bodies = begun + before, bodies + count
    cells = [minutes(it) for it in whole.values()]
    rows.append(["all", *cells, minutes(begun), str(bodies), "", minutes(sum(whole.values()))])
    table(["Crate", "Proof", "Tests", "Wrong bodies", "Before them", "How many", "Each", "Sum"], rows)
    rest = used - sum(whole.values())
    print()
    print(f"Else {minutes(rest)}, in all {minutes(used)} minutes of processor time, in {minutes(clock)} by the clock,")
    print(f"on {os.cpu_count()} processors: `{last_line(log)}`.")
    longest, chain = longest_chain(chained)
    print()
    print(f"The longest chain: {minutes(longest)} minutes of proofs and tests in {len(chain)} crates, {', '.join(f'`{it}`' for it in chain)}.")
    return status


def print_edits(names, log, interval, kept):
    anew = [] if kept else ["--anew"]
    status, sums, _, _ = measure(["rt", "must-fail", *anew, *names], log, interval)
    with open(log, encoding="utf-8", errors="replace") as it:
        said = it.read().split("\n")
    rows = []
    for name in names:
        for number, edit in enumerate(edits_of(name)):
            seconds = sums.get((name, EDITS, number), 0.0)
            lines = [it for it in said if f"must-fail {name}/{edit}.edit: " in it]
            came = lines[-1].partition(".edit: ")[2] if lines else ""
            rows.append([f"`{edit}`", f"{seconds:.0f}", came.replace("|", "\\|")])
        rows.append([f"what begins those of `{name}`", f"{sums.get((name, EDITS, SEED), 0.0):.0f}", ""])
    table(["Wrong body", "Seconds", "What it came to"], rows)
    return status


FUNCTION = re.compile(r"^\s*(pub(\([a-z]+\))? )?(final )?(const )?(unsafe )?fn ", re.M)

CLAUSE = re.compile(r"^\s*ensures\b", re.M)


def text_of(path):
    with open(path, encoding="utf-8") as it:
        return it.read()


def files_below(folder, ending):
    found = []
    for at, _, names in os.walk(folder):
        found += [f"{at}/{it}" for it in names if it.endswith(ending)]
    return sorted(found)


def count_lines(paths):
    return sum(text_of(it).count("\n") for it in paths)


def is_test(path):
    """Whether a file of src/ is one of a tests' module."""
    return os.path.basename(path) == "tests.rt" or path.endswith("_tests.rt")


def print_lines():
    rows, whole = [], [0] * 8
    for name in crates():
        folder = f"{TOP}/crates/{name}"
        sources = files_below(f"{folder}/src", ".rt")
        code = [it for it in sources if not is_test(it)]
        texts = [text_of(it) for it in code]
        counts = [
            sum(len(FUNCTION.findall(it)) for it in texts),
            count_lines(code),
            count_lines([it for it in sources if is_test(it)]),
            count_lines(files_below(f"{folder}/specs", ".antt")),
            count_lines(files_below(f"{folder}/proofs", ".antt")),
            sum(len(CLAUSE.findall(it)) for it in texts),
            len(edits_of(name)),
            len(others_of(name)),
        ]
        whole = [a + b for a, b in zip(whole, counts)]
        rows.append([f"`{name}`", *[str(it) for it in counts]])
    rows.append(["all", *[str(it) for it in whole]])
    table(["Crate", "Functions", "Code", "Tests", "Definitions", "Proofs", "Clauses", "Wrong bodies", "On the other shelf"], rows)
    return 0


def main():
    parser = argparse.ArgumentParser(description=__doc__, formatter_class=argparse.RawDescriptionHelpFormatter)
    parser.add_argument("what", choices=["gate", "edits", "lines"])
    parser.add_argument("names", nargs="*", metavar="NAME", help="crates of crates.txt")
    parser.add_argument("--log", default="/tmp/gate_cost.log", help="where the output of rt goes")
    parser.add_argument("--interval", type=float, default=0.1, help="seconds between two looks at /proc")
    parser.add_argument("--kept", action="store_true", help="prove and try only what changed: gate: since a run on this machine passed it; edits: since rt check")
    given = parser.parse_intermixed_args()
    unknown = [it for it in given.names if it not in crates()]
    if unknown:
        parser.error(f"no crate of crates.txt: {' '.join(unknown)}")
    if given.what == "lines":
        return print_lines()
    if given.what == "edits":
        if not given.names:
            parser.error("edits wants the names of crates")
        return print_edits(given.names, given.log, given.interval, given.kept)
    return print_gate(given.names, given.log, given.interval, given.kept)


if __name__ == "__main__":
    sys.exit(main())
