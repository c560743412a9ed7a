"""Ways to a port, each wait with an end: two files, one file both ways, or a TCP connection."""

import errno
import os
import select
import socket
import stat
import termios
import time
import tty

BLOCK = 65_536
LINE_BYTES = 4101  # no reply has more, its end with it
MOST_DROPPED = 1_048_576  # bytes of other lines before the reply to an `a`
QUIET = 0.3  # so many seconds without a byte, and nothing is on the way
PAUSE = 0.02  # between two tries to open a FIFO that nobody reads


class Cut(Exception):
    """Why no reply came that could be one, for people."""


def why(error):
    return error.strerror or str(error)


def open_to(name, limit):
    """Opens the file for requests; a FIFO has to have a reader within the limit."""
    end = time.monotonic() + limit
    while True:
        try:
            return os.open(name, os.O_WRONLY | os.O_NONBLOCK | os.O_NOCTTY)
        except OSError as error:
            if error.errno != errno.ENXIO:
                raise Cut(f"{name} can't be opened: {why(error)}") from None
        if time.monotonic() > end:
            raise Cut(f"nobody opened {name} for reading within {limit:g} s: is the end started, and does it open this file first?")
        time.sleep(PAUSE)


def open_file(name, flags):
    try:
        return os.open(name, flags | os.O_NONBLOCK | os.O_NOCTTY)
    except OSError as error:
        raise Cut(f"{name} can't be opened: {why(error)}") from None


def open_both(to, back, limit):
    file = open_to(to, limit)
    try:
        return file, open_file(back, os.O_RDONLY)
    except Cut:
        os.close(file)
        raise


def make_raw(file, baud):
    """A terminal that hands on each byte as it is, at this speed if one is given, and keeps DTR when it is closed."""
    tty.setraw(file)
    mode = termios.tcgetattr(file)
    mode[2] = mode[2] & ~termios.HUPCL | termios.CLOCAL | termios.CREAD
    if baud:
        try:
            mode[4] = mode[5] = getattr(termios, f"B{baud}")
        except AttributeError:
            raise Cut(f"{baud} is no speed that terminals have here") from None
    termios.tcsetattr(file, termios.TCSANOW, mode)


def connect(name, limit):
    host, _, number = name.rpartition(":")
    try:
        link = socket.create_connection((host.strip("[]"), int(number)), limit)
    except (OSError, ValueError) as error:
        raise Cut(f"no connection to {name}: {error}") from None
    link.setsockopt(socket.IPPROTO_TCP, socket.TCP_NODELAY, 1)
    link.setblocking(False)
    return link.detach()


class Way:
    """An open port. `limit` is how many seconds pass at most without a byte while one is due."""

    def __init__(self, name, limit, baud=None):
        self._limit, self._rest, self.passed = limit, b"", 0
        to, comma, back = name.partition(",")
        if name.startswith("tcp:"):
            self._to = self._back = connect(name[4:], limit)
        elif comma:
            self._to, self._back = open_both(to, back, limit)
        else:
            self._to = self._back = open_file(name, os.O_RDWR)
        self.is_recorded = stat.S_ISREG(os.fstat(self._back).st_mode)
        if os.isatty(self._to):
            make_raw(self._to, baud)

    def close(self):
        for file in {self._to, self._back} - {None}:
            os.close(file)
        self._to = self._back = None

    @property
    def is_open(self):
        return self._to is not None

    def send(self, line):
        self.passed += len(line)
        while line:
            if not select.select([], [self._to], [], self._limit)[1]:
                raise Cut(f"the port took no byte for {self._limit:g} s: is the other end there, and is flow control off?")
            try:
                line = line[os.write(self._to, line) :]
            except BlockingIOError:
                pass
            except OSError as error:
                self.close()
                raise Cut(f"the port can't be written: {why(error)}") from None

    def line(self):
        """The next line, with its end."""
        while b"\n" not in self._rest:
            if len(self._rest) >= LINE_BYTES:
                raise Cut(f"{LINE_BYTES} bytes came without a line's end")
            if not self._wait(self._limit):
                half = f"`{shown(self._rest)}` came and no line's end" if self._rest else "nothing came"
                raise Cut(f"{half} for {self._limit:g} s")
            self._take()
        line, self._rest = self._rest.split(b"\n", 1)
        return line + b"\n"

    def line_from(self, beginning):
        """The next line that begins so; others were left on the way, and are dropped."""
        last, dropped = b"", 0
        try:
            while not (line := self.line()).startswith(beginning):
                last, dropped = line, dropped + len(line)
                if dropped > MOST_DROPPED:
                    raise Cut(f"{dropped} bytes came that don't begin with `{shown(beginning)}`")
        except Cut as cut:
            raise Cut(f"{cut}; the last line that came was `{shown(last)}`" if last else str(cut)) from None
        return line

    def unasked(self, seconds=0):
        """The bytes that came and that no request asked for, dropped, up to a pause of so many seconds."""
        if self.is_recorded:
            return b""  # of a file all bytes are there at once
        end = time.monotonic() + self._limit
        while self._wait(seconds):
            self._take()
            if time.monotonic() > end:
                raise Cut(f"the port writes on and on, for {self._limit:g} s, and nobody asked")
        dropped, self._rest = self._rest, b""
        return dropped

    def _wait(self, seconds):
        return bool(select.select([self._back], [], [], seconds)[0])

    def _take(self):
        try:
            came = os.read(self._back, BLOCK)
        except BlockingIOError:
            return
        except OSError as error:
            self.close()
            raise Cut(f"the port can't be read: {why(error)}") from None
        if not came:
            self.close()
            raise Cut(f"the port ended behind `{shown(self._rest)}`" if self._rest else "the port ended: did the other end die?")
        self.passed += len(came)
        self._rest += came


def shown(text, most=60):
    """The beginning of some bytes, for people."""
    text = text.rstrip(b"\n").decode("ascii", "backslashreplace")
    text = "".join(letter if letter.isprintable() else repr(letter)[1:-1] for letter in text)
    return text if len(text) <= most else text[:most] + ".."
