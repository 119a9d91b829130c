"""An rx that runs, its clients on pipes to it and from it, and what it takes of the processor and of memory."""

import os
import subprocess
import sys
import tempfile
import time

AT_ONCE = 500  # messages in one write
IN_A_PIPE = 1 << 15  # bytes of a write, and of its replies, that pipes surely hold


def last_processor():
    return max(os.sched_getaffinity(0))


class Server:
    """`rx run` with a program. Its record and its report stand in the folder."""

    def __init__(self, rx, program, folder, options=()):
        self.said = tempfile.TemporaryFile()
        words = [rx, "run", program, "--record", folder + "/record", "--report", folder + "/report", *options]
        self.began = time.monotonic()
        self.process = subprocess.Popen(words, stdin=subprocess.PIPE, stdout=subprocess.PIPE, stderr=self.said, bufsize=0)
        self.clock = ~self.process.pid << 3 | 2  # the processor time of another process, of Linux
        os.sched_setaffinity(self.process.pid, {last_processor()})  # that all sessions have the same neighbours

    def seconds(self):
        """The processor time that it has taken."""
        return time.clock_gettime(self.clock)

    def memory(self, name):
        """A line of /proc/PID/status in bytes."""
        with open("/proc/%d/status" % self.process.pid, encoding="ascii") as lines:
            return next(int(line.split()[1]) * 1024 for line in lines if line.startswith(name + ":"))

    def give(self, content):
        left = memoryview(content)
        while left:
            left = left[self.process.stdin.write(left):]

    def replies(self, expected):
        """Reads as many bytes as expected, and compares."""
        came = b""
        while len(came) < len(expected):
            more = self.process.stdout.read(len(expected) - len(came))
            if not more:
                break
            came += more
        if came != expected:
            at = len(os.path.commonprefix([came, expected]))
            self.fail("reply differs: %r came in place of %r" % (came[at:at + 40], expected[at:at + 40]))

    def ask(self, pairs):
        """Gives frames and reads the replies, pairs of bytes, as many at a time as pipes hold."""
        most = max((max(len(given), len(reply)) for given, reply in pairs), default=1)
        at_once = max(1, min(AT_ONCE, IN_A_PIPE // most))
        for first in range(0, len(pairs), at_once):
            block = pairs[first:first + at_once]
            self.give(b"".join(given for given, _ in block))
            self.replies(b"".join(reply for _, reply in block))

    def fail(self, what):
        self.process.kill()
        status = self.process.wait()
        self.said.seek(0)
        sys.exit("%s; status %d; %s" % (what, status, self.said.read().decode(errors="replace")))

    def end(self):
        """Ends the input. The status, what is left of the output, and standard error."""
        self.process.stdin.close()
        rest, status = self.process.stdout.read(), self.process.wait()
        self.said.seek(0)
        return status, rest, self.said.read().decode(errors="replace")

    def finish(self):
        """Ends the input, where the session has to be finished with nothing more to write."""
        status, rest, said = self.end()
        if status or rest or said:
            sys.exit("the session ended with status %d, %d bytes more, %s" % (status, len(rest), said))
