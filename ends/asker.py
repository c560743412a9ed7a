"""The tool's end of a port, in Python: it takes a reply only where each byte is right. Where it isn't it asks again, as relay.py does."""

import os

from lines import REPLY_BYTES, Check, attach_body, counts_body, pin_digits, pin_text
from model import Configuration

MOST_FAILURES = 3  # in one call
LINE_BYTES = 4101  # no right reply has more, its end with it


class WrongReply(Exception):
    """A reply that isn't the one line that was due."""


class Ended(WrongReply):
    """There is no reply any more."""


class FilePort:
    """Two files or one: requests go to the first, replies come from the last. Counts what it was asked, and the bytes."""

    def __init__(self, name):
        to, comma, back = name.partition(",")
        self._to = os.open(to, os.O_WRONLY if comma else os.O_RDWR | os.O_NOCTTY)
        self._back = os.open(back, os.O_RDONLY) if comma else self._to
        self._rest = b""
        self.requests = self.sent = self.got = 0

    def ask(self, line):
        """The line that comes behind a request."""
        self.requests += 1
        self.sent += len(line)
        while line:
            line = line[os.write(self._to, line) :]
        return self.next()

    def next(self):
        """The next line that came."""
        while b"\n" not in self._rest[:LINE_BYTES]:
            if len(self._rest) >= LINE_BYTES:
                self._drop()
                raise WrongReply("no line's end")
            self._read()
        reply, self._rest = self._rest.split(b"\n", 1)
        return reply + b"\n"

    def _drop(self):
        """The rest of a line that is too long."""
        while b"\n" not in self._rest:
            self._rest = b""
            self._read()
        self._rest = self._rest.split(b"\n", 1)[1]

    def _read(self):
        got = os.read(self._back, 4096)
        if not got:
            raise Ended("the port ended")
        self._rest += got
        self.got += len(got)


class DevicePort:
    """A device in the same process."""

    def __init__(self, device):
        self._device, self._rest = device, b""

    def ask(self, line):
        self._rest += self._device.answer(line.removesuffix(b"\n"))
        return self.next()

    def next(self):
        line, end, self._rest = self._rest.partition(b"\n")
        if not end:
            raise Ended("no line")
        return line + end


def edits(before, after):
    """The words that lead from one configuration to another."""
    words = [b"o%d" % cross for cross in sorted(before.closed - after.closed)]
    words += [b"c%d" % cross for cross in sorted(after.closed - before.closed)]
    words += [b"x%d" % table for table in sorted(before.tables.keys() - after.tables.keys())]
    for table, setting in sorted(after.tables.items()):
        if before.tables.get(table) != setting:
            words.append(b"t%d,%016x,%d" % (table, setting.cells, setting.latched | setting.initial << 1))
    return words + [b"k%d" % after.ticks] * (before.ticks != after.ticks)


def whole(configuration):
    """The words that lead to a configuration from whatever is set."""
    return [b"z", *edits(Configuration(), configuration)]


def shorter(before, after):
    """The words that lead from one configuration to another, from nothing where that is shorter."""
    return min((edits(before, after), whole(after)), key=lambda words: len(b" ".join(words)))


class Asker:
    """Attaches a machine, loads it and cycles it. A load goes out with the cycles behind it.

    Where a reply isn't the one that was due, it attaches anew under the next number, makes the session again, and wants the readings
    that it had; after three failures in one call it gives up.
    """

    def __init__(self, port, machine):
        self._port, self._machine, self._check, self._number = port, machine, Check(), 0
        self._sent = self._wanted = Configuration()
        self._is_due, self._drives, self._readings = False, [], []
        self.failures = 0
        self._again(self._attach)

    def load(self, configuration):
        self._wanted, self._is_due, self._drives, self._readings = configuration.copy(), True, [], []

    def cycles(self, drives):
        """What the pins read for each of the drives; with no drives a load that is due is sent."""
        self._drives += drives
        readings = self._again(self._go_on)
        return readings[len(readings) - len(drives) :]

    def _again(self, call):
        failures = 0
        while True:
            try:
                if failures and call != self._attach:
                    self._attach()
                return call(failures > 0)
            except Ended:
                raise
            except WrongReply:
                failures += 1
                self.failures += 1
                if failures == MOST_FAILURES:
                    raise

    def _attach(self, _=False):
        self._number += 1
        line = self._port.ask(self._check.request(attach_body(self._number)))
        while not line.startswith(b"=2 %d " % self._number):
            if line.startswith(b"!"):  # nothing else may come
                raise WrongReply(line)
            line = self._port.next()
        if line != self._check.add(counts_body(self._number, self._machine)):
            raise WrongReply(line)

    def _go_on(self, is_again):
        """Sends what is due with the drives that weren't sent, as far as each reply has room, and gives all readings."""
        pins = self._machine.counts[-1]
        room = max(1, REPLY_BYTES // (pin_digits(pins) + 1))
        before, at = self._readings, 0 if is_again else len(self._readings)
        readings, words = before[:at], self._load_words(is_again)
        while words or at < len(self._drives):
            part = self._drives[at : at + room]
            words += [b"d" + pin_text(pins, drive) for drive in part]
            readings = readings + self._take(self._port.ask(self._check.request(b" ".join(words))), len(part))
            if readings[: len(before)] != before[: len(readings)]:
                raise WrongReply("other readings than before")
            words, at = [], at + len(part)
        self._sent, self._is_due, self._readings = self._wanted, False, readings
        return readings

    def _load_words(self, is_again):
        if is_again:
            return whole(self._wanted) + [b"l"]
        return shorter(self._sent, self._wanted) + [b"l"] if self._is_due else []

    def _take(self, reply, many):
        """Spells the readings anew and compares, so no other spelling passes."""
        pins = self._machine.counts[-1]
        try:
            readings = [int(word, 16) for word in reply[1 : reply.index(b"*")].split()]
        except ValueError:
            raise WrongReply(reply) from None
        again = self._check.add(b"=" + b" ".join(pin_text(pins, reading) for reading in readings))
        if reply != again or len(readings) != many or any(reading >> pins for reading in readings):
            raise WrongReply(reply)
        return readings
