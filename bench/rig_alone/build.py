#!/usr/bin/env python3
"""Builds the simulated rig by itself as Rust, to measure loads and cycles: build.py OUT [SRC]

OUT/run PINS LINES LOADS EACH COMMON makes loads on one crossbar of PINS pins and LINES lines. Each closes COMMON crosspoints that all
loads have, then EACH at random on each line, and drives one pin after the other alone. It says processor time, and a sum of what was read.
Ghosts and clauses are taken out of the sources (SRC, else those of this repository); vectors, faults and the shape are those of shim.rs and stubs.rs.
"""
import os
import pathlib
import re
import shutil
import subprocess
import sys

HERE = pathlib.Path(__file__).resolve().parent
LEFT_OUT = ("lib", "sim_rig", "named")
STUBS = "machine_faults|machine_shape|machine_config|rig|base_bits|base_table|base_log"


def cut(text, pattern):
    """Takes out what matches, up to the end of the braces that the match ends with."""
    while found := re.search(pattern, text):
        depth, at = 1, found.end()
        while depth:
            depth += {"{": 1, "}": -1}.get(text[at], 0)
            at += 1
        text = text[: found.start()] + text[at:]
    return text


def as_rust(text):
    text = re.sub(r"^\s*ghost use [^;]*;\n|^//!.*\n|#!?\[tactic[^\]]*\]\n|use std::marker::Model;\n", "", text, flags=re.M)
    text = cut(text, r"impl Model for \w+ \{")
    text = cut(text, r"\n\s+(requires|ensures)\b[^{\n]*\{")
    text = text.replace("#[derive(Drop)]\n", "").replace(", Drop)", ")")
    text = re.sub(r"vec!\[in alloc; ([^;]*); ([^\]]*)\]", r"Vec::filled(alloc, \1, \2)", text)
    text = re.sub(rf"use ({STUBS})::", r"use crate::stubs::\1::", text)
    return "use crate::shim::Vec;\n" + text.replace("use std::alloc::", "use crate::shim::")


def main():
    out = pathlib.Path(sys.argv[1])
    source = pathlib.Path(sys.argv[2]) if len(sys.argv) > 2 else HERE.parent.parent / "crates/rig_simulated/src"
    os.makedirs(out, exist_ok=True)
    names = ["shim", "stubs"]
    for file in sorted(source.glob("*.rt")):
        if file.stem not in LEFT_OUT:
            (out / f"{file.stem}.rs").write_text(as_rust(file.read_text()))
            names.append(file.stem)
    for name in ("shim", "stubs"):
        shutil.copy(HERE / f"{name}.rs", out)
    mods = "".join(f"mod {name};\n" for name in names)
    (out / "main.rs").write_text("#![allow(dead_code, unused)]\n" + mods + (HERE / "run.rs").read_text())
    subprocess.run(["rustc", "-O", "--edition", "2021", "-o", out / "run", out / "main.rs"], check=True)


main()
