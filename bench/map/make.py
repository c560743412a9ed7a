"""Makes the designs as BLIF by yosys and ABC: python3 make.py FOLDER.

Of each design yosys writes a text of gates (NAME.blif), and of every third one ABC besides one of tables of four inputs (NAME.four.blif).
Texts that stand there are kept.
"""

import subprocess
import sys
from pathlib import Path

HERE = Path(__file__).resolve().parent
# By kind each module with its parameters, as `adder N=8`; then files elsewhere with their top modules.
DESIGNS = {
    "arithmetic": """adder N=8, adder N=32, comparator N=24, multiplier N=4, multiplier N=8, multiplier N=16, squarer N=12, divider N=8,
        divider N=16, square_root N=16, bit_counter N=24, bit_counter N=64, shifter N=16, shifter N=64, alu N=8, alu N=32, decimal N=16,
        sorter N=6, moving_average N=8, fir_filter, ../multiplier.v multiplier""",
    "control": """counter N=8, counter N=24, priority_encoder N=32, decoder N=64, seven_segments, arbiter N=8, arbiter N=16, uart, fifo N=8,
        traffic_lights, interrupts N=16, interrupts N=32, timers N=3, screen, registers N=16, small_processor, ../processor.v processor""",
    "cipher": """crc N=16, crc N=32, hamming, aes_box, aes_column, des_box, present, simon, speck, xtea_round, chacha_quarter, sha256_round,
        keccak_round W=8, trivium""",
}
SYNTH = """read_verilog -sv {file}; {parameters} synth -flatten -top {top}; async2sync; dfflegalize -cell $_DFF_P_ 01;
    setundef -undriven -zero; opt_expr; opt_merge; clean -purge; write_blif {out}"""
FOUR = "read_blif {out}; strash; if -K 4; write_blif {four}"


def designs():
    """Kind, name, file, top module and parameters of each design."""
    for kind, listed in DESIGNS.items():
        for words in map(str.split, listed.split(",")):
            file, top, *parameters = words if "/" in words[0] else [f"{kind}.v", *words]
            name = "".join([top, *(word.partition("=")[2] for word in parameters), "_of_bench" * ("/" in file)])
            yield kind, name, HERE / file, top, [word.split("=") for word in parameters]


def run(*words):
    ran = subprocess.run(words, capture_output=True, text=True, timeout=900, check=False)
    if ran.returncode:
        sys.exit(f"{' '.join(map(str, words))}\n{ran.stdout[-800:]}{ran.stderr[-800:]}")


def main(folder):
    Path(folder).mkdir(parents=True, exist_ok=True)
    for k, (kind, name, file, top, parameters) in enumerate(designs()):
        out, four = (Path(folder, f"{kind}-{name}{end}") for end in (".blif", ".four.blif"))
        given = "".join(f"chparam -set {key} {value} {top};" for key, value in parameters)
        if not out.exists():
            run("yosys", "-q", "-p", SYNTH.format(file=file, parameters=given, top=top, out=out))
        if k % 3 == 0 and not four.exists():
            run("berkeley-abc", "-q", FOUR.format(out=out, four=four))
        print(kind, name, flush=True)


if __name__ == "__main__":
    main(sys.argv[1])
