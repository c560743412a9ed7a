#!/usr/bin/env python3
"""Copies of a processor, each fed by the result of the one before: python3 processors.py PROCESSOR.blif COUNT [--ring] > NEW.blif.

PROCESSOR.blif is bench/processor.v by yosys; its copies are instances, so that the text has it once. A row has the inputs of one
processor, which are those of the first, and the outputs of the last. In a ring the first is fed by the last, so the clock alone is left
of the inputs.
"""
import sys
from pathlib import Path


def names(text, word):
    """The names of a line of the text."""
    return next(line.split()[1:] for line in text.replace("\\\n", " ").splitlines() if line.startswith(word))


def joined(text, count, ring):
    model, inputs, outputs = names(text, ".model")[0], names(text, ".inputs"), names(text, ".outputs")
    free = [name for name in inputs if not (ring and name.startswith("port"))]
    lines = [".model several", ".inputs " + " ".join(free), ".outputs " + " ".join(outputs)]
    for k in range(count):
        # What a processor reads at its port is the low end of the result of the one before.
        before = "" if k == 0 else f"{k}."
        fed = ring or k > 0
        given = [(name, before + name.replace("port", "result") if fed and name.startswith("port") else name) for name in inputs]
        given += [(name, name if k + 1 == count else f"{k + 1}.{name}") for name in outputs]
        lines.append(" ".join([".subckt", model, *(f"{formal}={signal}" for formal, signal in given)]))
    return "\n".join([*lines, ".end", text])


def main():
    if len(sys.argv) not in (3, 4) or sys.argv[3:] not in ([], ["--ring"]):
        sys.exit(__doc__)
    sys.stdout.write(joined(Path(sys.argv[1]).read_text(), int(sys.argv[2]), len(sys.argv) == 4))


main()
