"""Whole sessions in the built rx and in the second engine, side by side.

Programs, inputs and options are those of `self_check`, over a trunk and with no failing call. The words of the command stand in any
order, and some options are left out. Output, status and what standard error tells of the answer are compared, and of an rx that
writes them the record and the report too, byte for byte; of `rx diagnose` the diagnosis as well. In some sessions the client waits behind
each frame, and it is compared too what has come by then.
"""

import collections
import dataclasses
import os
import random
import re
import subprocess
import tempfile

from second import inputs, patient, programs, trunk, wild
from second.command import run_session
from second.diagnosis import readings, verdict
from second.guard import EXTENT
from second.instructions import BAD_ACCESS, Failure
from second.machine import Image, MIB, executable
from second.outside import MemoryFiles, MemorySink, MemorySource
from second.said import answer_of, is_told, readings_of
from second.self_check import Counts, HeapWriter, KINDS, lacking
from second.session import Options, Session

OPTIONS = ("frame", "budget", "keep", "env", "window", "hold", "ring", "every", "frames", "guard")
NEVER = 1 << 40  # more items than a session has
FILES = {"r": "record", "t": "report", "d": "diagnosis"}

Rx = collections.namedtuple("Rx", "path recovers writes_files guards", defaults=(True,))


class NotedSession(Session):
    """A session that notes whether frames were too few for a checkpoint, in how many trials a block got another size, and how many of
    its failures come of the guard alone."""

    left_by_frames, resized, guarded = False, 0, 0

    def attempt(self, checkpoint, environment, point):
        trial, result = super().attempt(checkpoint, environment, point)
        self.resized += any(choice.ask.replaced for choice in trial.choices[len(checkpoint.machine.choices):])
        return trial, result

    def recover(self, cause):
        self.guarded += cause == BAD_ACCESS and is_of_guard(self.survivor)
        return super().recover(cause)

    def is_full(self):
        full = super().is_full()
        self.left_by_frames |= full
        return full


def is_of_guard(machine):
    """Whether a machine at a bad access would go on without its guard."""
    machine = machine.copy()
    machine.memory.guard = None
    try:
        machine.step()
    except Failure:
        return False
    return True


class Pair:
    """A session at random, for both. `is_wild` says that the program is made of random words, `is_long` that there are many messages, and
    `diagnoses` that each failure is diagnosed."""

    diagnoses = False

    def __init__(self, seed, rx, is_wild, is_long, diagnoses=False):
        rng = self.rng = random.Random(seed)
        self.rx, self.options, self.diagnoses = rx, Options(), diagnoses
        drawn = inputs.wide_options(rng) if is_long else inputs.some_options(rng)
        self.given = {name: getattr(drawn, name) for name in OPTIONS if rng.random() < 0.85}
        if not rx.guards:
            self.given.pop("guard", None)
        if diagnoses and rx.guards:
            self.options.guard = EXTENT
        for name, value in self.given.items():
            setattr(self.options, name, value)
        self.form = rng.choice(["text", "json"])
        if is_wild or rng.random() < 0.1:
            self.segments = wild.some_program(rng, HeapWriter, self.options.window)
        else:
            # where the first failure is the end, half of the servers have none, and go on
            self.segments = programs.some_server(rng, not rx.recovers and rng.random() < 0.5)
        frame = self.options.frame
        events = inputs.many_events(rng, frame) if is_long else inputs.some_events(rng, frame, large=True)
        self.stream = b"".join(trunk.frame_of(event) for event in events)
        if rng.random() < 0.25:
            self.stream = inputs.break_stream(rng, events)
        self.words = self.some_words()
        self.is_patient = rng.random() < 0.2

    def some_words(self):
        parts = [["p"], ["--record", "r"], ["--report", "t"]]
        parts += [["--" + name, str(value // MIB if name == "window" else value)] for name, value in self.given.items()]
        if self.form != "text" or self.rng.random() < 0.5:
            parts.append(["--form", self.form])
        if self.diagnoses:
            parts += [["--diagnosis", "d"], ["--tell", "off"]]
        self.rng.shuffle(parts)
        return ["diagnose" if self.diagnoses else "run"] + [word for part in parts for word in part]

    def in_second_engine(self):
        """What came of it, and the files."""
        options = self.options if self.rx.recovers else dataclasses.replace(self.options, table=(), every=NEVER)
        files = MemoryFiles({"p": b""})
        link = patient.WatchedLink(MemorySource(self.stream), MemorySink())
        image = Image(*self.segments, options.window)
        return run_session(image, options, link, files, self.form, NotedSession, self.diagnoses), files.files

    def in_rx(self, folder, given):
        """What it wrote, its status, standard error, and what came at a wrong time; the files stay in the folder."""
        with open(os.path.join(folder, "p"), "wb") as program:
            program.write(executable(*self.segments))
        if self.is_patient:
            return patient.run([self.rx.path] + self.words, folder, self.stream, given)
        done = subprocess.run([self.rx.path] + self.words, input=self.stream, capture_output=True, check=False, cwd=folder)
        return done.stdout, done.returncode, done.stderr.decode(errors="replace"), None

    def differences(self):
        """What came of it in the second engine, and a line for each thing in which rx differs."""
        done, files = self.in_second_engine()
        output, found = done.session.link.sink.content, []
        with tempfile.TemporaryDirectory() as folder:
            theirs, status, said, wrong = self.in_rx(folder, done.session.link.given)
            if wrong:
                found.append("time: " + wrong)
            if theirs != output:
                at = len(os.path.commonprefix([theirs, output]))
                found.append("output: %d bytes in place of %d, alike up to byte %d" % (len(theirs), len(output), at))
            told = answer_of(status, said, self.options.budget)
            if status != done.status or not is_told(done.answer, told):
                found.append("answer: %s in place of %s" % (told, done.answer))
            meant = readings(done.session.notes.episodes, done.session.faults) if self.diagnoses else []
            if readings_of(said) != meant:
                found.append("readings: %s in place of %s" % (readings_of(said), meant))
            for name in FILES if self.rx.writes_files else ():
                if content_of(os.path.join(folder, name)) != files.get(name):
                    found.append(FILES[name])
        return done, found


def content_of(path):
    if not os.path.exists(path):
        return None
    with open(path, "rb") as file:
        return file.read()


# ---- what was seen


class Seen:
    """How often each answer and cause came, and what else a comparison should have had."""

    def __init__(self, recovers):
        self.answers, self.causes, self.sums = collections.Counter(), collections.Counter(), collections.Counter()
        self.recovers, self.recoveries, self.verdicts = recovers, Counts(), collections.Counter()

    def session(self, pair, done):
        answer, machine, link = done.answer, done.session.survivor, done.session.link
        self.answers[answer[0] + (" %d" % answer[1] if answer[0] == "InputRefused" else "")] += 1
        if answer[0] == "GaveUp":
            self.causes[re.sub(r" \d+", "", answer[2])] += 1
        places = {choice.at.to_bytes(4, "little") for choice in machine.choices if choice.at}
        tells = any(content[i:i + 4] in places for _, content, _, _ in machine.sends for i in range(0, len(content), 4))
        self.sums.update({"items": machine.taken, "bytes of output": len(link.sink.content), "choices": len(machine.choices),
                          "instructions": machine.steps, "sessions of several connections": len(link.spans.opened) > 1,
                          "sessions that send where a block stands": tells, "sessions with a hold": done.session.options.hold > 0,
                          "sessions with waits": pair.is_patient})
        self.recoveries.choices(machine.choices)
        self.recoveries.of["guards"][done.session.options.guard] += 1
        if self.recovers:
            self.recovery(done.session)

    def recovery(self, session):
        episodes = session.notes.episodes
        self.sums.update({"episodes": len(episodes), "failures by a guard alone": session.guarded,
                          "sessions with an episode": bool(episodes), "sessions with several": len(episodes) > 1,
                          "sessions whose frames dropped a checkpoint": session.left_by_frames,
                          "trials with a block of another size": session.resized,
                          "sessions with such a trial": session.resized > 0})
        for episode in episodes:
            self.recoveries.episode(episode)
        for table in session.tables or ():
            self.verdicts[" ".join(verdict(table)) or "none"] += 1
            self.sums["tries of tables"] += len(table)

    def lines(self):
        counters = {"answers": self.answers, "causes": self.causes, "choices": self.recoveries.of["choices"]}
        if self.recovers:
            counters = {"answers": self.answers, **self.recoveries.of}  # the causes are those of all failures
        found = ["%s: %s" % (name, ", ".join("%s %d" % pair for pair in sorted(counter.items())))
                 for name, counter in (*counters.items(), ("verdicts", self.verdicts), ("sums", self.sums)) if counter]
        missing = lacking({name: KINDS[name] for name in counters}, counters)
        # a session of a million items or of a fault outside isn't among these
        apart = ("LimitItems", "LimitEvents", "ReadFault", "WriteFault", "FileFault")
        missing = [what for what in missing if not what.startswith(apart)]
        return found + ["not seen: " + ", ".join(missing)] * bool(missing)


def compare(rx, runs, seed, is_wild=False, is_long=False, diagnoses=False):
    """Compares so many sessions; how many differ."""
    seen, wrong = Seen(rx.recovers), 0
    for number in range(runs):
        pair = Pair("%d %d" % (seed, number), rx, is_wild, is_long, diagnoses)
        done, found = pair.differences()
        seen.session(pair, done)
        if found:
            wrong += 1
            print("session %d of seed %d differs, rx %s\n  %s" % (number, seed, " ".join(pair.words), "\n  ".join(found)))
    print("%d sessions agree, %d differ" % (runs - wrong, wrong))
    print("\n".join(seen.lines()))
    return wrong
