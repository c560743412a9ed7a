"""The talk over a port: its log, what is wrong with a reply, and what is set behind so much of it."""

import os
import re

from asker import whole
from lines import REPLY_BYTES, Check, attach_body, pin_digits
from lines import edit as make_edit
from model import Configuration
from ways import Cut, shown

COUNTS = re.compile(rb"=2 [0-9]+((?: (?:0|[1-9][0-9]*)){12})")
OWN_NUMBER = 9_999_999  # of an `a` that the tool didn't ask for


class Changed(Cut):
    """Why the machine isn't the one of the log: asking again would hide it."""


def body_of(line):
    return line.rstrip(b"\n").partition(b"*")[0]


def drives_of(body):
    return [word[1:] for word in body.split() if word[:1] == b"d"]


def is_attach(body):
    return body[:2] == b"a "


def wrong_line(request, reply, check):
    """What is wrong with the bytes of a reply, or None; the running check goes on."""
    if reply[:1] == b"!":
        return f"the port refused it: `{shown(reply)}`"
    if reply == request:
        return "the port gave the request back: its echo is on"
    if reply.endswith(b"\r\n"):
        return "a CR stands before the line's end: the port isn't raw"
    if reply != check.add(body_of(reply)):
        return f"`{shown(reply)}` has a wrong check: bytes were lost or changed on the way, or it is the reply to another request"
    return None


def wrong_body(request, reply, pins):
    """What is wrong with the body of a reply that has its right check, or None."""
    if is_attach(request):
        return None if COUNTS.fullmatch(reply) else f"`{shown(reply)}` isn't a machine's twelve counts"
    readings, many = reply[1:].split(), len(drives_of(request))
    if reply != b"=" + b" ".join(readings) or len(readings) != many:
        return f"`{shown(reply)}` isn't the reading of {many} cycles"
    digits = pin_digits(pins)
    if any(not re.fullmatch(b"[0-9a-f]{%d}" % digits, reading) or int(reading, 16) >> pins for reading in readings):
        return f"`{shown(reply)}` isn't what {pins} pins read"
    return None


class Session:
    """What a machine is to have set, and what it has read since it was loaded."""

    def __init__(self):
        self.counts, self._set, self._is_loaded, self._drives, self._readings = None, Configuration(), False, [], []

    @property
    def pins(self):
        return int(self.counts[-1]) if self.counts else 0

    def take(self, request, reply):
        """Goes on by a request and its reply, both without their checks."""
        if is_attach(request):
            self.__init__()
            self.counts = reply.split()[2:]
            return
        words = request.split()
        if b"l" in words:
            self._load(words[: words.index(b"l")])
        self._drives += drives_of(request)
        self._readings += reply[1:].split()

    def _load(self, words):
        if words[:1] == [b"z"]:
            self._set, words = Configuration(), words[1:]
        for word in words:
            make_edit(self._set, word)
        self._is_loaded, self._drives, self._readings = True, [], []

    def make(self, ask):
        """Makes it again at a machine, where `ask` gives the reply's body to a request's."""
        if self.counts is None:
            return
        if ask(attach_body(OWN_NUMBER)).split()[2:] != self.counts:
            raise Changed("another machine is behind the port than before")
        room = max(1, REPLY_BYTES // (pin_digits(self.pins) + 1))
        words, at = [*whole(self._set), b"l"] if self._is_loaded else [], 0
        while words or at < len(self._drives):
            drives = [b"d" + drive for drive in self._drives[at : at + room]]
            if ask(b" ".join(words + drives))[1:].split() != self._readings[at : at + room]:
                raise Changed("the machine reads otherwise than before: its faults aren't the ones that it had")
            words, at = [], at + room


class Log:
    """The requests that were answered, each with its reply behind it, byte by byte as the tool had them."""

    def __init__(self, name, goes_on):
        self._name, self.pairs = name, []
        flags = os.O_RDWR | os.O_CREAT | (0 if goes_on else os.O_EXCL)
        try:
            self._file = os.open(name, flags, 0o644)
        except FileExistsError:
            raise Cut(f"{name} stands already: go on from it by --go-on, or give another name") from None
        except OSError as error:
            raise Cut(f"{name} can't be written: {error.strerror}") from None
        if goes_on:
            self._read()

    def _read(self):
        """Takes what is whole. Attaching at the end came of a failure, and is left out: what failed is asked again."""
        with open(self._name, "rb") as file:
            lines = file.read().splitlines(keepends=True)
        if lines and not lines[-1].endswith(b"\n"):
            lines.pop()
        self.pairs = list(zip(lines[::2], lines[1::2]))
        check = Check()
        for at, (request, reply) in enumerate(self.pairs):
            if request != check.request(body_of(request)) or reply != check.add(body_of(reply)):
                raise Cut(f"{self._name}, line {2 * at + 1} or {2 * at + 2}: a wrong check")
        while len(self.pairs) > 1 and is_attach(self.pairs[-1][0]):
            self.pairs.pop()
        os.ftruncate(self._file, sum(len(request) + len(reply) for request, reply in self.pairs))
        os.lseek(self._file, 0, os.SEEK_END)

    def add(self, request, reply):
        pair = request + reply
        while pair:
            pair = pair[os.write(self._file, pair) :]


class NoLog:
    """In the place of a log, where none is wanted."""

    pairs = ()

    def add(self, request, reply):
        pass
