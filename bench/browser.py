#!/usr/bin/env python3
"""Whether a browser sees nothing of a failure: headless Chromium reads the page of guests/board and sends its form, over `rx serve`.

It writes three messages, of which the second meets board's planted fault. Behind each the page has to have them all, the newest
first, and the last page is kept as a picture. The session has to end with one failure in its report, recovered. How many
connections a browser makes isn't known, so the ones that are left are used up in the end.

All goes over 127.0.0.1: the browser resolves no name. It is driven over two pipes, by the DevTools protocol.

usage: browser.py [--patience SECONDS] [--at-once N] [--picture FILE] [RX]
RX is the built rx, crates/rx/out/rx unless it is given. The picture is board.png in the folder of temporary files unless it is given.
The status is 0 where each page is right, 1 where one isn't, and 2 where there is no Chromium.
"""

import argparse
import base64
import fcntl
import json
import os
import select
import shutil
import subprocess
import sys
import tempfile
import time

from clients import HERE, HOST, LONGEST, Client, Service, Wrong

CONNECTIONS = 24  # more than a browser makes here
NAMES = ["chromium", "chromium-browser", "google-chrome", "chrome"]
FLAGS = ["--headless=new", "--no-sandbox", "--disable-gpu", "--disable-dev-shm-usage", "--no-first-run", "--no-default-browser-check",
         "--disable-background-networking", "--disable-component-update", "--disable-sync", "--disable-extensions", "--window-size=800,500",
         "--host-resolver-rules=MAP * ~NOTFOUND , EXCLUDE " + HOST, "--remote-debugging-pipe"]
MESSAGES = [("Ann", "hello"), ("Bob", "<3 <3 <3 <3 <3"), ("Cy", "I <3 it")]
FAILURES = 1  # the second one

FORM = """(([name, text]) => {
    const field = (it) => document.querySelector(`input[name=${it}]`);
    field("name").value = name;
    field("text").value = text;
    document.querySelector("button").click();
})(%s)"""
LINES = """JSON.stringify([...document.querySelectorAll("li")].map((it) => it.textContent))"""


def high_pipe():
    """A pipe whose descriptors are none of the browser's."""
    low = os.pipe()
    high = [fcntl.fcntl(end, fcntl.F_DUPFD_CLOEXEC, 10) for end in low]
    for end in low:
        os.close(end)
    return high


class Browser:
    """A page of a headless browser. Messages are JSON, with a byte 0 behind each."""

    def __init__(self, program, folder):
        (commands, self.to_browser), (self.from_browser, answers) = high_pipe(), high_pipe()
        # The browser reads commands at descriptor 3 and answers at 4.
        shell = 'exec "$0" "$@" 3<&%d 4>&%d' % (commands, answers)
        words = ["bash", "-c", shell, program, *FLAGS, "--user-data-dir=" + os.path.join(folder, "profile"), "about:blank"]
        self.process = subprocess.Popen(words, pass_fds=(commands, answers), stdin=subprocess.DEVNULL, stdout=subprocess.DEVNULL,
                                        stderr=subprocess.DEVNULL)
        os.close(commands)
        os.close(answers)
        self.rest, self.number, self.session, self.loads = b"", 0, None, 0
        target = self.ask("Target.createTarget", url="about:blank")["targetId"]
        self.session = self.ask("Target.attachToTarget", targetId=target, flatten=True)["sessionId"]
        self.ask("Page.enable")

    def message(self, ends):
        """The next message of the browser. Loads are counted."""
        while b"\0" not in self.rest:
            if not select.select([self.from_browser], [], [], max(0.0, ends - time.monotonic()))[0]:
                raise Wrong("the browser doesn't answer")
            came = os.read(self.from_browser, 1 << 16)
            if not came:
                raise Wrong("the browser ended")
            self.rest += came
        line, _, self.rest = self.rest.partition(b"\0")
        message = json.loads(line)
        self.loads += message.get("method") == "Page.loadEventFired"
        return message

    def ask(self, method, **parameters):
        self.number += 1
        asked = {"id": self.number, "method": method, "params": parameters}
        if self.session:
            asked["sessionId"] = self.session
        os.write(self.to_browser, json.dumps(asked).encode() + b"\0")
        ends = time.monotonic() + 2 * LONGEST
        while True:
            message = self.message(ends)
            if message.get("id") == self.number:
                if "error" in message:
                    raise Wrong("%s: %s" % (method, message["error"]))
                return message["result"]

    def value(self, script):
        return self.ask("Runtime.evaluate", expression=script)["result"].get("value")

    def load(self, method, **parameters):
        """Asks for something that loads a page, and waits for it: the seconds that it took."""
        before, began = self.loads, time.monotonic()
        self.ask(method, **parameters)
        while self.loads == before:
            self.message(began + 2 * LONGEST)
        return time.monotonic() - began

    def end(self):
        self.process.kill()
        self.process.wait()


def expect(browser, count):
    """The page has the first messages, the newest first."""
    lines = json.loads(browser.value(LINES))
    if lines != ["%s: %s" % message for message in reversed(MESSAGES[:count])]:
        raise Wrong("behind %d messages the page has %r" % (count, lines))


def look(browser, port, picture):
    print("| Page | What the browser waited |\n|---|---|")
    seconds = browser.load("Page.navigate", url="http://%s:%d/" % (HOST, port))
    print("| the empty board | %.1f ms |" % (1e3 * seconds))
    expect(browser, 0)
    for count, message in enumerate(MESSAGES, 1):
        seconds = browser.load("Runtime.evaluate", expression=FORM % json.dumps(message))
        expect(browser, count)
        print("| behind `%s: %s` | %.1f ms |" % (*message, 1e3 * seconds))
    with open(picture, "wb") as file:
        file.write(base64.b64decode(browser.ask("Page.captureScreenshot")["data"]))


def use_up(service):
    """Makes the connections that are left, so that the session ends."""
    ends = time.monotonic() + LONGEST + CONNECTIONS * service.patience
    while service.process.poll() is None and time.monotonic() < ends:
        try:
            Client(service.port).socket.close()
        except OSError:
            pass
        time.sleep(0.01)


def check(asked, program, folder):
    with Service(asked, "board", CONNECTIONS, folder) as service:
        service.patience = asked.patience
        browser = Browser(program, folder)
        try:
            look(browser, service.port, asked.picture)
        finally:
            browser.end()
        use_up(service)
        service.end(FAILURES)
    print("The failure was recovered, and the session ended with status 0. The last page is in %s." % asked.picture)


def main(words):
    parser = argparse.ArgumentParser(description=__doc__, formatter_class=argparse.RawDescriptionHelpFormatter)
    parser.add_argument("--patience", type=int, default=2)
    parser.add_argument("--at-once", type=int, default=1)
    parser.add_argument("--picture", default=os.path.join(tempfile.gettempdir(), "board.png"))
    parser.add_argument("rx", nargs="?", default=os.path.join(HERE, "..", "crates", "rx", "out", "rx"))
    asked = parser.parse_args(words)
    asked.rx = os.path.abspath(asked.rx)
    program = next(filter(None, map(shutil.which, NAMES)), None)
    if program is None:
        print("no Chromium is here: apt-get install chromium")
        return 2
    with tempfile.TemporaryDirectory(ignore_cleanup_errors=True) as folder:
        try:
            check(asked, program, folder)
        except (Wrong, OSError) as wrong:
            print("wrong: %s" % wrong)
            return 1
    return 0


if __name__ == "__main__":
    sys.exit(main(sys.argv[1:]))
