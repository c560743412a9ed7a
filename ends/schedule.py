"""Faults that come and go by a schedule, within a cycle too.

A line is a time or two and a fault in the words of a fault file: `317.3.0 stuck0 r.l3` is there from then on, and
`317.3.0 317.3.1 open r.p0 r.l1` up to the second time, without it. A time is LOAD.CYCLE.INSTANT, and what is left out is 0: loads
count from 1 on, the cycles of a load from 0, and of a cycle of n ticks these are the instants 0 to n - 1, and its reading, with
the clock edge, is instant n. A load is made with the faults of its first instant.
"""

import re
from bisect import bisect_right
from copy import deepcopy

from machine import FAULT_WORDS, FaultReader, Faults, Refused, lines_of
from model import Session

TIME = re.compile(r"[0-9]{1,9}(\.[0-9]{1,9}){0,2}")
NEVER = (float("inf"), 0, 0)


def time_of(word):
    """Load, cycle and instant; a `KeyError` where the word isn't one."""
    if not TIME.fullmatch(word):
        raise KeyError(word)
    return (*map(int, word.split(".")), 0, 0)[:3]


def part_of(kind, words):
    """What a part can have only one fault of at a time."""
    same = {"stuck0": "stuck", "stuck1": "stuck", "closed": "open"}.get(kind, kind)
    return (same, *words[: 2 if same in ("cell", "open") else 1]) if same != "bridge" else (same, *sorted(words))


class Schedule:
    """The faults at each instant: those that stay, and those of the schedule that are there."""

    def __init__(self, machine, faults, text):
        self._reader, self._stay, self._loads, changes = FaultReader(machine), faults, 0, []
        for number, words in lines_of(text):
            try:
                changes += self._line(number, words)
            except KeyError as wrong:
                raise Refused(f"schedule, line {number}: {wrong}") from None
        changes.sort(key=lambda change: change[:2])
        self._times, self._sets = [(0,)], [faults]
        for time, those in self._grouped(changes):
            self._times.append(time)
            self._sets.append(those)

    def _line(self, number, words):
        """The changes of a line: each with its time, whether it comes, the line's number, and the words of the fault."""
        begin, *rest = words
        end = time_of(rest.pop(0)) if rest and rest[0] not in FAULT_WORDS else NEVER
        if not rest or rest[0] not in FAULT_WORDS or not time_of(begin) < end:
            raise KeyError("times and a fault")
        self._reader.faults = Faults()
        self._reader.entry(*rest)
        return [(time_of(begin), True, number, rest)] + [(end, False, number, rest)] * (end != NEVER)

    def _grouped(self, changes):
        """For each time at which something changes the faults from then on. What goes at a time goes before others come."""
        there = {}
        for at, (time, comes, number, words) in enumerate(changes):
            part = part_of(words[0], words[1:])
            if comes and part in there:
                raise Refused(f"schedule, line {number}: doubled or against")
            if comes:
                there[part] = words
            else:
                del there[part]
            if at + 1 == len(changes) or changes[at + 1][0] != time:
                yield time, self._with(there.values(), time)

    def _with(self, entries, time):
        """The faults that stay, and these."""
        self._reader.faults = deepcopy(self._stay)
        try:
            for words in entries:
                self._reader.entry(*words)
        except KeyError as wrong:
            raise Refused(f"schedule, at {'.'.join(map(str, time))}: {wrong}, by the faults that stay") from None
        return self._reader.faults

    def place(self, *time):
        """A number for the set of faults at a time; the same numbers are the same sets."""
        return bisect_right(self._times, time) - 1

    def begin(self, machine, _, configuration):
        """Begins the next load, as a device asks for it."""
        self._loads += 1
        first, last = self.place(self._loads, 0, 0), self.place(self._loads, NEVER[0], 0)
        if first == last:
            return Session(machine, self._sets[first], configuration)
        return ScheduledSession(lambda place: Session(machine, self._sets[place], configuration), self, self._loads, configuration.ticks)


class ScheduledSession:
    """A session for each set of faults; these share what the tables give, and each instant asks the one that is due."""

    def __init__(self, begin, schedule, load, ticks):
        self._begin, self._schedule, self._load, self._ticks = begin, schedule, load, ticks
        self._cycles, self._made, self._first = 0, {}, None
        self._first = self._at(0, 0)

    def _at(self, cycle, instant):
        place = self._schedule.place(self._load, cycle, instant)
        if place not in self._made:
            self._made[place] = self._begin(place)
            if self._first:
                self._made[place].share_outputs(self._first)
        return self._made[place]

    def cycle(self, drive):
        for instant in range(self._ticks):
            now = self._at(self._cycles, instant)
            now.settle()
            now.tick(drive)
        now = self._at(self._cycles, self._ticks)
        now.settle()
        self._cycles += 1
        return now.read(drive)
