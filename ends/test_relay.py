"""Tests of the relay: it stands between a tool and ends that are killed, fall silent or answer nonsense.  python3 -m unittest"""

import copy
import os
import pty
import signal
import socket
import subprocess
import sys
import tempfile
import threading
import time
import unittest
from pathlib import Path

HERE = Path(__file__).resolve().parent
sys.path.insert(0, str(HERE))

import python_end
from lines import Check, Device
from machine import Faults, read_machine
from talk import body_of

TINY_FILE = HERE.parent / "examples" / "tiny.machine"
SMALL_FILE = HERE.parent / "examples" / "small.machine"
TINY, SMALL = (read_machine(file.read_text()) for file in (TINY_FILE, SMALL_FILE))
LOADS = 40
STATUS_OF_PORT = 4

# A tool: it makes loads drawn from one number, and prints what it reads. It may kill itself behind so many requests.
TOOL = f"""
import os, random, signal, sys
sys.path.insert(0, {str(HERE)!r})
from asker import Asker, FilePort, WrongReply
from compare import random_load
from machine import read_machine
from model import Configuration

def ask(port, machine, seed, dies):
    chance, asker, configuration = random.Random(seed), Asker(port, machine), Configuration()
    for _ in range({LOADS}):
        configuration = random_load(machine, chance, configuration)
        drives = [chance.getrandbits(4) for _ in range(chance.randint(1, 4))]
        asker.load(configuration)
        print(asker.cycles(drives[:1]), asker.cycles(drives[1:]), flush=True)
        if dies <= port.requests:
            os.kill(os.getpid(), signal.SIGKILL)

try:
    ask(FilePort(sys.argv[1]), read_machine(open({str(TINY_FILE)!r}).read()), int(sys.argv[2]), int(sys.argv[3]))
except WrongReply:
    print("refused rig")
    sys.exit({STATUS_OF_PORT})
"""


class Recorded:
    """A sound device that keeps its talk."""

    def __init__(self):
        self.device, self.talk, self.requests = Device(TINY, Faults()), b"", 0

    def ask(self, line):
        self.requests += 1
        reply = self.device.answer(line.removesuffix(b"\n"))
        self.talk += line + reply
        return reply

    def next(self):
        raise AssertionError("a right reply came")


def right(seed=1):
    """What the tool prints of a sound machine, and the talk."""
    program, port, printed = {}, Recorded(), []
    exec(TOOL.partition("try:")[0], program)  # pylint: disable=exec-used
    program["print"] = lambda *words, flush: printed.append(" ".join(map(str, words)) + "\n")
    program["ask"](port, TINY, seed, 10**9)
    return "".join(printed), port.talk


class End(threading.Thread):
    """A device of this process; what `spoil` makes of the number of a request, its line and its reply is written."""

    def __init__(self, requests, replies, spoil=lambda number, line, reply: reply):
        super().__init__(daemon=True)
        self._requests, self._replies, self._spoil = requests, replies, spoil
        self.device, self.asked = Device(TINY, Faults()), []
        self._check, self._before = Check(), Check()

    def run(self):
        try:
            python_end.serve(self, *(files() if callable(files) else files for files in (self._requests, self._replies)))
        except OSError:
            pass  # the relay has gone

    def answer(self, line):
        if line:
            self.asked.append(line)
        reply = self.device.answer(line)
        self._check.request(body_of(line))
        self._before = copy.copy(self._check)
        self._check.add(body_of(reply))
        return self._spoil(self, line, reply) if line else b""

    def spelled(self, body):
        """A line of this body with the check that is due."""
        return copy.copy(self._before).add(body)


def once(number, change):
    """Spoils the reply to the request of this number alone."""
    return lambda end, line, reply: change(end, line, reply) if len(end.asked) == number else reply


class Relayed(unittest.TestCase):
    def setUp(self):
        self.folder = Path(self.enterContext(tempfile.TemporaryDirectory()))
        self.log = self.folder / "log"

    def fifos(self):
        for way in ("to", "from"):
            if not (self.folder / way).exists():
                os.mkfifo(self.folder / way)
        return f"{self.folder}/to,{self.folder}/from"

    def begin(self, port, *options, seed=1, dies=10**9, command=None):
        tool = command or [sys.executable, "-c", TOOL, "PORT", str(seed), str(dies)]
        relay = [sys.executable, HERE / "relay.py", "--limit", "5", *map(str, options), port, "--", *tool]
        return subprocess.Popen(relay, stdout=subprocess.PIPE, stderr=subprocess.PIPE, text=True)

    def run_relay(self, port, *options, **given):
        relay = self.begin(port, *options, **given)
        written, said = relay.communicate(timeout=60)
        return written, said, relay.returncode

    def real_end(self, machine=TINY_FILE):
        """A device in a process of its own, over the FIFOs."""
        port = self.fifos()
        command = 'exec "$0" "$1" "$2" < "$3" > "$4"'
        words = [sys.executable, HERE / "python_end.py", machine, *port.split(",")]
        end = subprocess.Popen(["sh", "-c", command, *words], stderr=subprocess.DEVNULL)
        self.addCleanup(lambda: (end.kill(), end.wait()))
        return end, port

    def spoilt_end(self, spoil):
        port = self.fifos()
        to, back = port.split(",")
        end = End(lambda: os.open(to, os.O_RDONLY), lambda: os.open(back, os.O_WRONLY), spoil)
        end.start()
        return end, port

    def wait_for(self, pairs):
        """Waits until so many requests stand in the log."""
        end = time.monotonic() + 30
        while not self.log.exists() or self.log.read_bytes().count(b"\n") < 2 * pairs:
            self.assertLess(time.monotonic(), end)
            time.sleep(0.005)

    def assert_right(self, ran, seed=1):
        written, said, status = ran
        self.assertEqual((written, status), (right(seed)[0], 0), said)
        return said

    def assert_failed(self, ran, cause):
        _, said, status = ran
        self.assertEqual(status, STATUS_OF_PORT, said)
        self.assertIn(cause, said)


class Ways(Relayed):
    """Nothing goes wrong."""

    def test_two_fifos(self):
        _, port = self.real_end()
        self.assert_right(self.run_relay(port, "--log", self.log))
        self.assertEqual(self.log.read_bytes(), right()[1])

    def test_a_terminal(self):
        ours, theirs = pty.openpty()
        End(ours, ours).start()
        self.assert_right(self.run_relay(os.ttyname(theirs), "--log", self.log, "--baud", 115200))
        self.assertEqual(self.log.read_bytes(), right()[1])
        os.close(theirs)

    def test_a_connection(self):
        server = self.enterContext(socket.create_server(("127.0.0.1", 0)))

        def serve():
            link, _ = server.accept()
            with link:
                End(link.fileno(), link.fileno()).run()

        thread = threading.Thread(target=serve)
        thread.start()
        self.assert_right(self.run_relay(f"tcp:127.0.0.1:{server.getsockname()[1]}", "--log", self.log))
        thread.join()
        self.assertEqual(self.log.read_bytes(), right()[1])

    def test_recorded_replies(self):
        replies = self.folder / "replies"
        replies.write_bytes(b"".join(right()[1].splitlines(keepends=True)[1::2]))
        self.assert_right(self.run_relay(f"/dev/null,{replies}"))

    def test_progress(self):
        _, port = self.real_end()
        said = self.assert_right(self.run_relay(port, "--loads", 80))
        self.assertRegex(said, rf"loads {LOADS} of 80 \(50 %\), \d+ bytes, \d+ a second, \d+ s left\n")
        _, port = self.real_end()
        said = self.assert_right(self.run_relay(port))
        self.assertRegex(said, rf"loads {LOADS} of at most 734 without faults \(5 %\), \d+ bytes, \d+ a second, at most \d+ s left\n")

    def test_the_status_is_the_command_s(self):
        for command, status in ((["sh", "-c", "exit 3"], 3), (["sh", "-c", "kill -9 $$"], 137)):
            self.assertEqual(self.run_relay(self.fifos(), command=command)[2], status)

    def test_a_name_with_repeats(self):
        written, _, status = self.run_relay(self.fifos(), command=["echo", "2xPORT", "PORTS", "9x"])
        self.assertRegex(written, r"^2x/.*/to,/.*/from PORTS 9x\n$")
        self.assertEqual(status, 0)


class Killed(Relayed):
    """A tool or an end is killed in the midst."""

    def test_the_tool(self):
        _, port = self.real_end()
        written, _, status = self.run_relay(port, "--log", self.log, dies=20)
        self.assertEqual(status, 128 + signal.SIGKILL)
        self.assertTrue(right()[0].startswith(written) and written)
        pairs = self.log.read_bytes().count(b"\n") // 2
        self.assertGreaterEqual(pairs, 20)
        end, port = self.spoilt_end(lambda end, line, reply: reply)
        self.assert_right(self.run_relay(port, "--log", self.log, "--go-on"))
        self.assertEqual(self.log.read_bytes(), right()[1])
        # The machine is set up anew by two requests, and asked what didn't stand in the log.
        self.assertEqual(len(end.asked), 2 + right()[1].count(b"\n") // 2 - pairs)

    def test_an_end_and_the_run_goes_on_later(self):
        for seed in range(3):
            self.log.unlink(missing_ok=True)
            end, port = self.real_end()
            relay = self.begin(port, "--log", self.log, "--again", 0, "--limit", 3, seed=seed)
            self.wait_for(10 + seed)
            end.kill()
            written, said = relay.communicate(timeout=60)
            if relay.returncode:  # else it was quicker
                self.assert_failed((written, said, relay.returncode), "the port")
                self.assertTrue(written.endswith("refused rig\n"))
                self.real_end()
                self.assert_right(self.run_relay(port, "--log", self.log, "--go-on", seed=seed), seed)
            self.assertEqual(self.log.read_bytes(), right(seed)[1])

    def test_an_end_that_comes_again(self):
        end, port = self.real_end()
        relay = self.begin(port, "--log", self.log)
        for pairs in (5, 30):
            self.wait_for(pairs)
            end.kill()
            end.wait()
            end, _ = self.real_end()
        self.assert_right((*relay.communicate(timeout=60), relay.returncode))
        self.assertEqual(self.log.read_bytes(), right()[1])

    def test_the_relay(self):
        _, port = self.real_end()
        relay = self.begin(port, "--log", self.log)
        self.wait_for(10)
        relay.kill()
        relay.communicate(timeout=60)
        self.real_end()
        self.assert_right(self.run_relay(port, "--log", self.log, "--go-on"))
        self.assertEqual(self.log.read_bytes(), right()[1])

    def test_the_relay_takes_the_tool_with_it(self):
        relay = self.begin(self.fifos(), command=["sh", "-c", "echo $$; exec sleep 60"])
        number = int(relay.stdout.readline())
        relay.terminate()
        relay.communicate(timeout=60)
        self.assertEqual(relay.returncode, 128 + signal.SIGTERM)
        with self.assertRaises(ProcessLookupError):
            os.kill(number, 0)


def beyond(reply):
    """The body of a reply with a bit beyond the pins."""
    body = body_of(reply)
    return b"=1" + body[2:]


# What an end makes of a reply, and the cause in words.
SPOILT = {
    "silent": (lambda end, line, reply: b"", "nothing came for 1 s"),
    "half": (lambda end, line, reply: reply[:2], "no line's end for 1 s"),
    "changed": (lambda end, line, reply: b"=e" + reply[2:], "wrong check"),
    "refused": (lambda end, line, reply: b"!hot\n", "the port refused it: `!hot`"),
    "echoed": (lambda end, line, reply: line + b"\n", "echo"),
    "with CR": (lambda end, line, reply: reply[:-1] + b"\r\n", "CR"),
    "long": (lambda end, line, reply: b"=" * 9000, "without a line's end"),
    "other width": (lambda end, line, reply: end.spelled(b"=000f"), "isn't"),
    "one reading more": (lambda end, line, reply: end.spelled(body_of(reply) + b" 0f"), "isn't the reading of"),
    "beyond the pins": (lambda end, line, reply: end.spelled(beyond(reply)), "isn't what 4 pins read"),
    "capital": (lambda end, line, reply: end.spelled(b"=0F" + b" 0F" * reply.count(b" ")), "isn't what 4 pins read"),
    "garbage": (lambda end, line, reply: b"\xff\0\n", "wrong check"),
    "doubled": (lambda end, line, reply: reply + reply, "bytes came that nobody had asked for"),
}


class Spoilt(Relayed):
    """One reply is another one."""

    def test_each_is_asked_again(self):
        for name, (change, cause) in SPOILT.items():
            with self.subTest(name):
                end, port = self.spoilt_end(once(20, change))
                self.assertIn(cause, self.assert_right(self.run_relay(port, "--log", self.log, "--limit", 1)))
                self.assertEqual(self.log.read_bytes(), right()[1])
                self.assertTrue(any(line.startswith(b"a 9999999*") for line in end.asked[20:22]))
                self.log.unlink()

    def test_each_is_asked_again_by_the_tool(self):
        for name, (change, cause) in SPOILT.items():
            with self.subTest(name):
                end, port = self.spoilt_end(once(20, change))
                self.assertIn(cause, self.assert_right(self.run_relay(port, "--log", self.log, "--limit", 1, "--again", 0)))
                self.assertTrue(any(line.startswith(b"a 2*") for line in end.asked[20:22]))
                # What failed isn't in the log, and the tool does again what it did, if it is all that there is.
                self.assert_right(self.run_relay("/no/such/port", "--log", self.log, "--go-on"))
                self.log.unlink()

    def test_a_late_reply(self):
        def late(end, line, reply):
            time.sleep(1.1)
            return reply

        _, port = self.spoilt_end(once(20, late))
        self.assert_right(self.run_relay(port, "--limit", 1))

    def test_a_device_that_was_reset(self):
        def reset(end, line, reply):
            end.device = Device(TINY, Faults())
            return reply

        for number in (7, 20, 33):
            _, port = self.spoilt_end(once(number, reset))
            self.assertIn("!attach", self.assert_right(self.run_relay(port)))

    def test_attaching_is_asked_again(self):
        _, port = self.spoilt_end(once(1, lambda end, line, reply: b""))
        self.assert_right(self.run_relay(port, "--limit", 1))

    def test_another_version(self):
        _, port = self.spoilt_end(lambda end, line, reply: b"=1 1 1 1 2 4 4 4 4 4 4 4 4*53\n")
        self.assert_failed(self.run_relay(port, "--again", 0, "--limit", 1), "the last line that came was `=1 1 1 1 2 4")

    def test_no_more_than_so_often(self):
        end, port = self.spoilt_end(lambda end, line, reply: b"!hot\n" if len(end.asked) > 20 else reply)
        self.assert_failed(self.run_relay(port, "--limit", 1), "the port refused it: `!hot`")
        self.assertEqual(len(end.asked), 20 + 1 + 2 + 3)

    def test_nobody_there(self):
        self.assert_failed(self.run_relay(self.fifos(), "--limit", 0.2, "--again", 0), "nobody opened")
        self.assert_failed(self.run_relay(str(self.folder / "gone"), "--again", 0), "can't be opened")
        self.assert_failed(self.run_relay("tcp:127.0.0.1:1", "--again", 0), "no connection")


class Noisy(Relayed):
    """Bits turn on the line, either way."""

    def noisy_end(self, rate, seed):
        port = self.fifos()
        noise = [sys.executable, HERE / "noise.py", str(rate), str(seed), sys.executable, HERE / "python_end.py", TINY_FILE]
        command = 'exec "$0" "$@" < %s > %s' % tuple(port.split(","))
        end = subprocess.Popen(["sh", "-c", command, *noise], stderr=subprocess.DEVNULL)
        self.addCleanup(lambda: (end.kill(), end.wait()))
        return port

    def test_a_talk_comes_through(self):
        failed = 0
        for seed in range(4):
            said = self.assert_right(self.run_relay(self.noisy_end(1e-4, seed), seed=seed), seed)
            failed += "failures of the port" in said
        self.assertGreater(failed, 0)


class Logs(Relayed):
    """What stands in a log, and what doesn't go on from it."""

    def setUp(self):
        super().setUp()
        self.lines = right()[1].splitlines(keepends=True)

    def test_a_log_is_never_written_over(self):
        self.log.write_bytes(b"mine\n")
        self.assert_failed(self.run_relay(self.fifos(), "--log", self.log), "stands already")
        self.assertEqual(self.log.read_bytes(), b"mine\n")

    def test_a_pair_that_was_cut(self):
        for cut in (b"".join(self.lines[:21]), b"".join(self.lines[:21])[:-3], b"".join(self.lines[:20])[:-2]):
            self.log.write_bytes(cut)
            _, port = self.real_end()
            self.assert_right(self.run_relay(port, "--log", self.log, "--go-on"))
            self.assertEqual(self.log.read_bytes(), right()[1])

    def test_attaching_at_the_end_is_asked_again(self):
        check = Check()
        again = check.request(b"a 2") + check.add(b"=2 2 1 1 1 2 4 4 4 4 4 4 4 4")
        self.log.write_bytes(b"".join(self.lines[:20]) + again)
        _, port = self.real_end()
        self.assert_right(self.run_relay(port, "--log", self.log, "--go-on"))
        self.assertEqual(self.log.read_bytes(), right()[1])

    def test_readings_that_changed(self):
        """A machine that reads otherwise when a session is made again is no machine that the tool may go on with."""

        def turned(end, line, reply):
            turns = line[:1] == b"z" and reply[:1] == b"="
            return end.spelled(b"=" + b"%02x" % (int(reply[1:3], 16) ^ 1) + body_of(reply)[3:]) if turns else reply

        self.log.write_bytes(b"".join(self.lines[:20]))
        _, port = self.spoilt_end(turned)
        self.assert_failed(self.run_relay(port, "--log", self.log, "--go-on"), "reads otherwise than before")

    def test_a_whole_log_asks_nothing(self):
        self.log.write_bytes(b"".join(self.lines))
        self.assert_right(self.run_relay("/no/such/port", "--log", self.log, "--go-on"))

    def test_a_wrong_log(self):
        self.log.write_bytes(b"".join([*self.lines[:7], b"=0f*0000\n", *self.lines[8:20]]))
        self.assert_failed(self.run_relay(self.fifos(), "--log", self.log, "--go-on"), "line 7 or 8: a wrong check")

    def test_another_command(self):
        self.log.write_bytes(b"".join(self.lines[:20]))
        self.assert_failed(self.run_relay(self.fifos(), "--log", self.log, "--go-on", seed=2), "the command asks otherwise")

    def test_another_machine(self):
        self.log.write_bytes(b"".join(self.lines[:20]))
        _, port = self.real_end(SMALL_FILE)
        self.assert_failed(self.run_relay(port, "--log", self.log, "--go-on", "--again", 0), "another machine is behind the port")

    def test_going_on_wants_a_log(self):
        self.assert_failed(self.run_relay(self.fifos(), "--go-on"), "--go-on wants --log")


if __name__ == "__main__":
    unittest.main()
