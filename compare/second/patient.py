"""A run of rx whose client gives one frame, waits until rx waits for the next one, and looks at what has come by then."""

import array
import fcntl
import os
import subprocess
import termios
import time

from second import trunk
from second.outside import TrunkLink

WAIT = 0.0005  # seconds between two looks
LONGEST = 60  # seconds for one frame


class WatchedLink(TrunkLink):
    """A trunk that notes how many bytes had gone out at each call of `next`."""

    def __init__(self, source, sink):
        super().__init__(source, sink)
        self.given = []

    def next(self):
        self.given.append(len(self.sink.content))
        return super().next()


def frames(stream):
    """The stream cut into its frames; what is none is the last part."""
    found, at = [], 0
    for event in trunk.events(stream)[0]:
        found.append(trunk.frame_of(event))
        at += len(found[-1])
    return found + [stream[at:]] * (at < len(stream))


class Client:
    """The client of an rx that runs."""

    def __init__(self, words, folder):
        self.rx = subprocess.Popen(words, cwd=folder, stdin=subprocess.PIPE, stdout=subprocess.PIPE, stderr=subprocess.PIPE)
        os.set_blocking(self.rx.stdout.fileno(), False)
        self.output = b""

    def look(self):
        """Takes what has come out. Whether there was something."""
        before = len(self.output)
        while True:
            try:
                more = os.read(self.rx.stdout.fileno(), 1 << 16)
            except BlockingIOError:
                more = b""
            if not more:
                return len(self.output) > before
            self.output += more

    def waits_for_input(self):
        """Whether rx has read all that was given and sleeps: it then waits for more, since its output is taken."""
        unread = array.array("i", [0])
        fcntl.ioctl(self.rx.stdin.fileno(), termios.FIONREAD, unread)
        if unread[0]:
            return False
        with open("/proc/%d/stat" % self.rx.pid, encoding="ascii") as state:
            return state.read().rpartition(")")[2].split()[0] == "S"

    def settle(self):
        """Waits until rx waits for input or has ended, and takes its output until then."""
        end = time.monotonic() + LONGEST
        while time.monotonic() < end:
            ended = self.rx.poll() is not None
            waits = ended or self.waits_for_input()
            if not self.look() and waits:
                return
            if not waits:
                time.sleep(WAIT)
        raise TimeoutError("rx neither ends nor waits for input")

    def give(self, frame):
        """Gives a frame, if rx still takes it."""
        try:
            at, content = 0, memoryview(frame)
            while at < len(frame):
                at += os.write(self.rx.stdin.fileno(), content[at:at + 4096])
                self.look()
        except BrokenPipeError:
            pass

    def end(self):
        """Ends the input; the status and standard error."""
        self.rx.stdin.close()
        os.set_blocking(self.rx.stdout.fileno(), True)
        self.look()
        said = self.rx.stderr.read().decode(errors="replace")
        self.rx.stdout.close()
        self.rx.stderr.close()
        return self.rx.wait(), said


def run(words, folder, stream, given):
    """Output, status, standard error, and where it came too early or too late, or None. `given` is of a WatchedLink."""
    client, wrong = Client(words, folder), None
    client.settle()
    for number, frame in enumerate([b""] + frames(stream)):
        client.give(frame)
        client.settle()
        if number < len(given) and len(client.output) != given[number] and not wrong:
            wrong = "%d bytes had come with %d frames given, in place of %d" % (len(client.output), number, given[number])
    status, said = client.end()
    return client.output, status, said, wrong
