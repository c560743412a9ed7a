#!/usr/bin/env python3
"""Writes a design of two side by side, or of one twice: `compile` lays it as one, so that there is an image of both to look at.

It has the inputs of the first and then those of the second, and so of the outputs, as `pair` and `twice` have them. `twice` compares
what its copies read and writes a row once; here each row has both.
"""

import argparse

import designs
import teramac_texts as texts
from program import add_program, checked_design


def main():
    parser = argparse.ArgumentParser(description=__doc__, formatter_class=argparse.RawDescriptionHelpFormatter)
    parser.add_argument("first", help="the BLIF file of a design")
    parser.add_argument("second", nargs="?", help="that of another one (default: the first again)")
    parser.add_argument("-o", "--output", default="-", help="a new file (default: standard output)")
    add_program(parser)
    args = parser.parse_args()
    found = [checked_design(args.program, path) for path in (args.first, args.second or args.first)]
    texts.write_new(args.output, designs.blif_text(designs.both(*found)))


if __name__ == "__main__":
    main()
