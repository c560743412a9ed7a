#!/usr/bin/env python3
"""Makes another end of a port: a machine with the faults of a file that answers the tool's requests.

KIND is one of
  python    a Python program
  c         a program in C; its port.c is what firmware needs
  switch    Verilog at switch level, for Icarus
  device    a synthesizable device, by Verilator
  serial    the same on a serial line, as a board has it, by Verilator
  fpga      the same as a bitstream for an iCE40-HX8K breakout board

DIR gets the sources, `build` with the commands that build from them, and by these (but for fpga) the program `end`. It answers
standard input on standard output:  mkfifo to from; DIR/end < to > from
"""

import argparse
import shutil
import subprocess
import sys
from pathlib import Path

import c_end
import overlay_end
import switch_end
from machine import Refused, is_small, read_faults, read_machine

HERE = Path(__file__).resolve().parent
PYTHON_FILES = ("python_end.py", "lines.py", "machine.py", "model.py", "progress.py", "schedule.py")
VERILATOR = "verilator -Wno-fatal -Wno-WIDTH -O3 --x-assign fast --noassert --cc --exe --build -MAKEFLAGS OPT_FAST=-O2 -Mdir made"
SIMULATED_DIVISOR = 4  # of a simulated serial line nothing hangs on how long a bit takes


class Made:
    """What is written to the folder: texts, files of this one, and the commands that build from both."""

    def __init__(self, texts, files, commands, program="end"):
        self.texts, self.files, self.commands, self.program = texts, files, commands, program

    def write(self, folder):
        folder.mkdir(parents=True, exist_ok=True)
        for name, text in self.texts.items():
            (folder / name).write_text(text)
        for file in self.files:
            shutil.copy(HERE / file, folder)
        build = folder / "build"
        build.write_text("\n".join(['#!/bin/sh -e\ncd "$(dirname "$0")"', *self.commands]) + "\n")
        build.chmod(0o755)


def script(command):
    """The commands that write a program of one line, which is run where it lies."""
    return [f"""printf '%s\\n' '#!/bin/sh' 'exec {command}' > end""", "chmod +x end"]


def make_python(given):
    texts = {"machine.txt": given.machine.read_text(), "faults.txt": given.faults.read_text() if given.faults else ""}
    here = '"$(dirname "$0")"'
    return Made(texts, PYTHON_FILES, script(f"python3 {here}/python_end.py {here}/machine.txt {here}/faults.txt \"$@\""))


def make_c(given):
    texts = {"board.h": c_end.header(given.parts, given.wrong)}
    return Made(texts, ("c/port.c", "c/host.h"), ["cc -O2 -o end port.c"])


def want_small(given):
    """Refuses what no end in Verilog can be: numbers there have so many digits, and ticks, as a small machine wants."""
    if not is_small(given.parts.counts):
        raise Refused("machine: in Verilog it has at most 4,096 tables, 16,384 wires and 4,194,304 crosspoints")


def make_switch(given):
    want_small(given)
    texts = {"machine.v": switch_end.verilog(given.parts, given.wrong)}
    commands = ["iverilog -g2012 -o end.vvp -s port machine.v switch_port.v"]
    return Made(texts, ("verilog/switch_port.v",), commands + script('vvp -n "$(dirname "$0")"/end.vvp'))


def overlay(given):
    want_small(given)
    return {"machine.v": overlay_end.verilog(given.parts, given.wrong)}


def make_device(given):
    loads = given.parts.most_loads
    commands = [f"{VERILATOR} --top device machine.v device.v device_main.cpp -CFLAGS -DMOST_LOADS={loads}", "cp made/Vdevice end"]
    return Made(overlay(given), ("verilog/device.v", "verilog/device_main.cpp", "verilog/progress.h"), commands)


def make_serial(given):
    flags = f"-DMOST_LOADS={given.parts.most_loads} -DDIVISOR={SIMULATED_DIVISOR}"
    sources = f"-GDIVISOR={SIMULATED_DIVISOR} machine.v device.v board.v board_main.cpp"
    commands = [f"{VERILATOR} --top board {sources} -CFLAGS '{flags}'", "cp made/Vboard end"]
    files = ("verilog/device.v", "verilog/board.v", "verilog/board_main.cpp", "verilog/progress.h")
    return Made(overlay(given), files, commands)


def make_fpga(given):
    divisor = round(given.clock / given.baud)
    commands = [
        f"yosys -q -p 'read_verilog -sv machine.v device.v board.v; chparam -set DIVISOR {divisor} board;"
        " synth_ice40 -top board -json board.json; stat'",
        "nextpnr-ice40 --hx8k --package ct256 --json board.json --pcf hx8k.pcf --asc board.asc"
        f" --freq {given.clock / 1e6:g} --quiet --log place.log",
        "icepack board.asc board.bin",
    ]
    return Made(overlay(given), ("verilog/device.v", "verilog/board.v", "verilog/hx8k.pcf"), commands, "board.bin")


KINDS = {
    "python": make_python,
    "c": make_c,
    "switch": make_switch,
    "device": make_device,
    "serial": make_serial,
    "fpga": make_fpga,
}


def words():
    parser = argparse.ArgumentParser(description=__doc__, formatter_class=argparse.RawDescriptionHelpFormatter)
    parser.add_argument("kind", choices=KINDS, metavar="KIND")
    parser.add_argument("machine", type=Path, metavar="MACHINE", help="a machine file")
    parser.add_argument("faults", type=Path, nargs="?", metavar="FAULTS", help="a fault file; without it nothing is wrong")
    parser.add_argument("-o", dest="folder", type=Path, required=True, metavar="DIR", help="the folder for what is made")
    parser.add_argument("--sources", action="store_true", help="write the sources and `build`, and build nothing")
    parser.add_argument("--clock", type=float, default=12e6, help="clocks a second of the board (default: 12e6)")
    parser.add_argument("--baud", type=float, default=115_200, help="bits a second of its serial line (default: 115200)")
    return parser.parse_args()


def main():
    given = words()
    try:
        given.parts = read_machine(given.machine.read_text())
        given.wrong = read_faults(given.parts, given.faults.read_text() if given.faults else "")
        made = KINDS[given.kind](given)
    except (Refused, OSError) as reason:
        sys.exit(f"refused {reason}")
    made.write(given.folder)
    if not given.sources:
        built = subprocess.run([given.folder.resolve() / "build"], check=False)
        if built.returncode:
            sys.exit(f"{given.folder}/build ended with status {built.returncode}")
        print(given.folder / made.program)


if __name__ == "__main__":
    main()
