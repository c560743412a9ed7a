"""A study by Snakemake, as on a cluster: snakemake -s studies/yield.smk --config settings=small --cores all (see README.md).

What is to be run is said by study.py. The name of a trial's file holds a sum of all that decides about its rows, so a trial has no inputs
here: it is made anew where that file isn't there, and what study.py or another machine has made is taken.
"""

import os
import shlex
import sys

sys.path.insert(0, os.path.dirname(os.path.abspath(workflow.snakefile)))
from study import HERE, Study, from_here

STUDY = Study(config["settings"], config.get("program"), config.get("folder"), config.get("seeds"))
OUT = STUDY.folder
WORDS = {trial.file: trial.words for trial in STUDY.trials.values()}


localrules: figures, table


rule figures:
    input: f"{OUT}/rows.csv", from_here(f"{HERE}/figures.py")
    output: [f"{OUT}/{name}.{end}" for name in STUDY.figures for end in ("svg", "pdf")[: 1 + ("--pdf" in STUDY.figure_words())]]
    params: shlex.join(STUDY.figure_words())
    shell: "{sys.executable} {input[1]} {input[0]} {params}"


rule table:
    input: [STUDY.path(name) for name in STUDY.trials]
    output: f"{OUT}/rows.csv"
    run: STUDY.table()


rule trial:
    output: OUT + "/trials/{file}.csv"
    params: lambda found: shlex.join(WORDS[found.file])
    shell: "{sys.executable} {HERE:q}/trial.py {params} --result {output:q}"
