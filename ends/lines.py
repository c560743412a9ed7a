"""The lines between the tool and a machine: spelling, and a machine that answers them (docs/PORT.md has them by example)."""

import re
from itertools import accumulate

from model import Configuration, Session, Setting

NUMBER = rb"(?:0|[1-9][0-9]{0,8})"
EDIT = rb"[coxk]" + NUMBER + rb"|t" + NUMBER + rb",[0-9a-f]{16},[0-3]"
DRIVES = rb"d[0-9a-f]+(?: d[0-9a-f]+)*"
LOAD = rb"(?:z )?(?:(?:" + EDIT + rb") )*l"
REQUEST = re.compile(rb"a (?P<number>0|[1-9][0-9]{0,9})|" + LOAD + rb"(?: " + DRIVES + rb")?|" + DRIVES)
MOST_NUMBER = 2**32 - 1  # of an `a`
REPLY_BYTES = 4096  # a reply has no more before its check, but for a single reading that is wider


class Check:
    """The running check that both ends keep of all bodies since the last `a`, of requests and of replies: two sums, the second one
    of what the first one was behind each byte."""

    def __init__(self):
        self.begin()

    def begin(self):
        self._first, self._second = 1, 0

    def add(self, body):
        """Takes a body, and gives it as a line with its check."""
        sums = [*accumulate(body, initial=self._first)]
        self._second = (self._second + sum(sums) - self._first) % 256
        self._first = sums[-1] % 256
        return body + b"*%02x%02x\n" % (self._second, self._first)

    def request(self, body):
        """The same of a request: an `a` begins anew."""
        if body[:1] == b"a":
            self.begin()
        return self.add(body)


def pin_digits(pins):
    """Two digits for each eight pins begun."""
    return (pins + 7) // 8 * 2


def pin_text(pins, number):
    return b"%0*x" % (pin_digits(pins), number)


def attach_body(number):
    return b"a %d" % number


def counts_body(number, machine):
    """The reply to an `a`: the version, its number, and the twelve counts."""
    return b"=2 %d %s" % (number, machine.counts_text.encode())


class Refusal(Exception):
    """What is wrong with a request, for people."""


def edit(configuration, word):
    """Makes one edit of a request."""
    kind, (number, *rest) = word[:1], word[1:].split(b",")
    number = int(number)
    if kind == b"c":
        configuration.closed.add(number)
    elif kind == b"o":
        configuration.closed.discard(number)
    elif kind == b"k":
        configuration.ticks = number
    elif kind == b"x":
        configuration.tables.pop(number, None)
    else:
        flags = int(rest[1])
        configuration.tables[number] = Setting(int(rest[0], 16), bool(flags & 1), bool(flags & 2))


class Device:
    """A machine with its faults that answers requests.

    At first, and after each refusal, it answers an `a` alone: else a tool that never heard of it would read a machine that isn't set
    as it believes, be it that its words were lost or that the power was.

    `begin` begins sessions. What comes with a load is made so many `times`, each time from a load of its own, and refused where
    the readings differ: then the machine isn't one unchanging set of faults.
    """

    def __init__(self, machine, faults, on_load=lambda: None, begin=Session, times=1):
        self._machine, self._faults, self._on_load, self._begin, self._times = machine, faults, on_load, begin, times
        self._is_attached, self._set, self._session, self._check = False, Configuration(), None, Check()

    def answer(self, line):
        """The reply to a line without its end; nothing to an empty one, which asks nothing."""
        if not line:
            return b""
        try:
            return self._check.add(self._reply(self._body(line)))
        except Refusal as reason:
            self._is_attached = False
            return b"!%s\n" % str(reason).encode()

    def _body(self, line):
        """The words of a line. Typed by hand it may lack the check."""
        body, star, _ = line.partition(b"*")
        if not self._is_attached and body[:1] != b"a":
            raise Refusal("attach")
        if self._check.request(body) != line + b"\n" and star:
            raise Refusal("check")
        if not REQUEST.fullmatch(body):
            raise Refusal("form")
        return body

    def _reply(self, body):
        words = body.split()
        drives = [self._drive(word[1:]) for word in words if word[:1] == b"d"]
        if words[0] == b"a":
            return self._attach(int(words[1]))
        if b"l" in words:
            self._load(words[: words.index(b"l")])
            self._on_load()
        if not self._session:
            raise Refusal("load")
        readings = [self._session.cycle(drive) for drive in drives]
        for _ in range(self._times - 1 if b"l" in words else 0):
            self._compare(drives, readings)
        return b"=" + b" ".join(pin_text(self._machine.counts[-1], reading) for reading in readings)

    def _attach(self, number):
        if number > MOST_NUMBER:
            raise Refusal("number")
        self._is_attached, self._set, self._session = True, Configuration(), None
        return counts_body(number, self._machine)

    def _compare(self, drives, readings):
        again = self._begin(self._machine, self._faults, self._set.copy())
        if [again.cycle(drive) for drive in drives] != readings:
            raise Refusal("twice")

    def _drive(self, digits):
        pins = self._machine.counts[-1]
        if len(digits) != pin_digits(pins) or int(digits, 16) >> pins:
            raise Refusal("pins")
        return int(digits, 16)

    def _load(self, edits):
        edited = Configuration() if edits[:1] == [b"z"] else self._set.copy()
        for word in edits[edits[:1] == [b"z"] :]:
            self._check_edit(word)
            edit(edited, word)
        self._set = edited
        self._session = self._begin(self._machine, self._faults, edited.copy())

    def _check_edit(self, word):
        """Whether the number of an edit is one of this machine."""
        crosses, tables = range(len(self._machine.crosses)), range(len(self._machine.tables))
        known = {b"c": crosses, b"o": crosses, b"k": range(1, self._machine.most_ticks + 1)}.get(word[:1], tables)
        if int(word[1:].split(b",")[0]) not in known:
            raise Refusal("number")
