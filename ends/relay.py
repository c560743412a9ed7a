#!/usr/bin/env python3
"""Stands between the tool and a port: ends waits, says what is wrong, asks again, shows how far it is, and keeps the talk.

    relay.py [OPTION ..] PORT -- teramac_port diagnose tiny.machine PORT > tiny.list

PORT is FILE, TO,FROM or tcp:HOST:NUMBER. The command behind `--` is run with the name of two FIFOs in the place of its word `PORT` (or
`2xPORT` to `9xPORT`), and its status is the status of this. What it writes is passed on.

The log that --log keeps has the requests that were answered, each line followed by its reply. With --go-on the requests that stand
there are answered from it, byte by byte, so the command has to be the same; then what is set and read in the last session is made
again at the machine and compared, and the run goes on there.
"""

import argparse
import os
import re
import select
import signal
import subprocess
import sys
import tempfile
import time
from pathlib import Path

from lines import Check
from machine import most_loads_of
from talk import Changed, Log, NoLog, Session, body_of, is_attach, wrong_body, wrong_line
from ways import QUIET, Cut, Way, shown

BLOCK = 65_536
FAILED = 4  # the status of a port that failed
LOOK = 0.2  # seconds between looks whether a command has ended that never opened its port


class Refused(Exception):
    """Why a request has no reply, for the tool."""


def begin(words):
    """Begins a command. A signal to end that comes meanwhile ends both: at once it would leave the command alone."""
    came = []
    before = signal.signal(signal.SIGTERM, lambda *_: came.append(True))
    process = subprocess.Popen(words)
    signal.signal(signal.SIGTERM, before)
    if came:
        process.kill()
        process.wait()
        sys.exit(128 + signal.SIGTERM)
    return process


class Tool:
    """The command, run over two FIFOs: its requests, and its status."""

    def __init__(self, words, folder):
        to, back = folder / "to", folder / "from"
        os.mkfifo(to)
        os.mkfifo(back)
        self._requests = os.open(to, os.O_RDONLY | os.O_NONBLOCK)
        self._replies = os.open(back, os.O_RDWR)  # opened both ways it waits for nobody, and the command's end shows at the other
        name = f"{to},{back}"
        self._process = begin([re.sub("^([2-9]x)?PORT$", rf"\g<1>{name}", word) for word in words])

    def requests(self):
        """Each request, a whole line, until the command closes its port or ends."""
        rest = b""
        while True:
            if select.select([self._requests], [], [], LOOK)[0]:
                block = os.read(self._requests, BLOCK)
                if not block:
                    return
                *lines, rest = (rest + block).split(b"\n")
                yield from (line + b"\n" for line in lines)
            elif self._process.poll() is not None:
                return

    def reply(self, line):
        while line:
            line = line[os.write(self._replies, line) :]

    def close(self):
        """Closes its port."""
        os.close(self._requests)
        os.close(self._replies)

    def end(self):
        """Waits for the command, and gives its status as a shell does."""
        status = self._process.wait()
        return status if status >= 0 else 128 - status

    def kill(self):
        if self._process.poll() is None:
            self._process.kill()
            self._process.wait()


class Progress:
    """A line on standard error, once a second and at the end."""

    def __init__(self, most):
        self._told, self._most, self._loads, self._asked, self._wide = most is not None, most, 0, 0, 0
        self._begun = self._shown = time.monotonic()

    def attached(self, counts):
        if not self._told:
            self._most = most_loads_of(counts)

    def count(self, request, is_recorded):
        loads = body_of(request).split().count(b"l")
        self._loads += loads
        self._asked += 0 if is_recorded else loads

    def show(self, passed, end="\r", each=1):
        now = time.monotonic()
        if now - self._shown >= each:
            self._shown = now
            self._write(self._line(passed, max(now - self._begun, 1e-6)), end)

    def say(self, text):
        self._write(text, "\n")

    def _write(self, text, end):
        sys.stderr.write("\r" + text.ljust(self._wide) + end)
        sys.stderr.flush()
        self._wide = len(text) if end == "\r" else 0

    def _line(self, passed, seconds):
        line = f"loads {self._loads}"
        if self._most:
            share = 100 * self._loads // self._most
            line += f" of {self._most} ({share} %)" if self._told else f" of at most {self._most} without faults ({share} %)"
        line += f", {passed} bytes, {passed / seconds:.0f} a second"
        if self._most and self._asked:
            left = max(0, self._most - self._loads) * seconds / self._asked
            line += f", {'' if self._told else 'at most '}{left:.0f} s left"
        return line


class Relay:
    """Answers requests: from the log what stands there, from the port what doesn't."""

    def __init__(self, given, log, progress):
        self._given, self._log, self._progress = given, log, progress
        self._session, self._way, self._is_made, self._recorded = Session(), None, False, list(log.pairs)
        # The checks of both sides differ behind a session that was made again, until the tool attaches.
        self._ours, self._theirs = Check(), Check()
        self.passed = self.failures = 0

    def answer(self, request):
        """The reply to a request, or a refusal that says why there is none."""
        is_recorded = bool(self._recorded)
        try:
            reply = self._from_log(request) if is_recorded else self._from_port(request)
        except Refused as refused:
            return b"!%s\n" % str(refused).encode("ascii", "replace")
        finally:
            self._progress.show(self._bytes())
        self._session.take(body_of(request), body_of(reply))
        if is_attach(request):
            self._progress.attached([int(word) for word in self._session.counts])
        self._progress.count(request, is_recorded)
        return reply

    def _bytes(self):
        return self.passed + (self._way.passed if self._way else 0)

    def _from_log(self, request):
        due, reply = self._recorded[0]
        if request == due:
            self._recorded.pop(0)
            self._ours.request(body_of(request))
            return self._ours.add(body_of(reply))
        if is_attach(due):
            raise Refused("it failed when it was recorded")
        raise Cut("the command asks otherwise than it did in the log: has it other words, files, or another version?")

    def _from_port(self, request):
        """What fails is asked again under a number of the relay's own; then the tool gets a refusal."""
        body = body_of(request)
        if request != self._ours.request(body):
            raise Refused("check")
        for _ in range(self._given.again):
            try:
                return self._once(request, body)
            except Refused:
                pass
        try:
            return self._once(request, body)
        except Refused as refused:
            if is_attach(request):  # a tool may wait for the reply to its `a`
                raise Cut("the port can't be attached") from None
            raise refused

    def _once(self, request, body):
        try:
            self._find(is_attach(request))
            reply = self._ours.add(self._ask(body))
        except Changed:
            raise
        except Cut as cut:
            self.failures += 1
            self._progress.say(f"{cut} (request: `{shown(request)}`)")
            self._leave()
            raise Refused(str(cut)) from None
        self._log.add(request, reply)
        return reply

    def _ask(self, body):
        """The reply's body to a request's, where all of its line is right."""
        if came := self._way.unasked():
            raise Cut(f"{len(came)} bytes came that nobody had asked for")
        request = self._theirs.request(body)
        self._way.send(request)
        reply = self._way.line_from(b"=2 %s " % body[2:]) if is_attach(body) else self._way.line()
        found = wrong_line(request, reply, self._theirs) or wrong_body(body, body_of(reply), self._session.pins)
        if found:
            raise Cut(found)
        return body_of(reply)

    def _find(self, attaches):
        """Opens the port where it isn't open, and makes the session there, if it isn't the one at hand."""
        if self._is_made:
            return
        if not self._way:
            self._way = Way(self._given.port, self._given.limit, self._given.baud)
        if not self._way.is_recorded:
            self._way.send(b"\n")  # ends half a line, if one was left there
            self._way.unasked(QUIET)
        if not attaches:
            self._session.make(self._ask)
        self._is_made = True

    def _leave(self):
        """What the machine has set isn't known behind a failure, so the next request finds it anew."""
        self._is_made = False
        if self._way and not self._way.is_open:
            self.passed += self._way.passed
            self._way = None

    def end(self):
        self._progress.show(self._bytes(), "\n", 0)
        if self.failures:
            self._progress.say(f"failures of the port: {self.failures}")


def words():
    parser = argparse.ArgumentParser(description=__doc__, formatter_class=argparse.RawDescriptionHelpFormatter)
    parser.add_argument("port", metavar="PORT", help="FILE, TO,FROM or tcp:HOST:NUMBER")
    parser.add_argument("--limit", type=float, default=10, metavar="SECONDS", help="of a wait without a byte (default: 10)")
    parser.add_argument("--again", type=int, default=2, metavar="TIMES", help="that a request that failed is asked again (default: 2)")
    parser.add_argument("--baud", type=int, help="the speed of a serial line (default: as it is)")
    parser.add_argument("--loads", type=int, help="how many loads are expected (default: the most without faults)")
    parser.add_argument("--log", type=Path, metavar="LOG", help="keep the talk in a new file")
    parser.add_argument("--go-on", action="store_true", help="go on from what stands in LOG")
    parser.add_argument("command", nargs="+", metavar="COMMAND", help="the command, behind --; its word PORT is the port")
    return parser.parse_args()


def serve(tool, relay, progress):
    """Whether the port stood to the end."""
    try:
        for request in tool.requests():
            tool.reply(relay.answer(request))
    except Cut as cut:
        progress.say(str(cut))
        return False
    return True


def run(given, progress, folder):
    if given.go_on and not given.log:
        raise Cut("--go-on wants --log LOG")
    log = Log(given.log, given.go_on) if given.log else NoLog()
    relay, tool = Relay(given, log, progress), Tool(given.command, folder)
    try:
        stood = serve(tool, relay, progress)
        tool.close()  # a tool that waits for a reply ends by this
        status = tool.end()
        relay.end()
        return status if stood or status else FAILED
    finally:
        tool.kill()


def main():
    given = words()
    progress = Progress(given.loads)
    signal.signal(signal.SIGTERM, lambda *_: sys.exit(128 + signal.SIGTERM))
    with tempfile.TemporaryDirectory() as folder:
        try:
            status = run(given, progress, Path(folder))
        except Cut as cut:
            progress.say(str(cut))
            status = FAILED
        except KeyboardInterrupt:
            status = 128 + signal.SIGINT
    sys.exit(status)


if __name__ == "__main__":
    main()
