#!/usr/bin/env python3
"""Counts what went over a port: loads, requests, and the bytes of both directions, from a file of each.  REQUESTS REPLIES"""

import sys
from pathlib import Path


def spread(lines):
    """The bytes of lines with their ends: the middle one, that at 95 of 100, the most, and all."""
    sizes = sorted(len(line) + 1 for line in lines)
    middle, late = (sizes[len(sizes) * share // 100] for share in (50, 95))
    return f"{middle} bytes in the middle, {late} at 95 of 100, {sizes[-1]} at most, {sum(sizes)} in all"


def main():
    requests, replies = (Path(name).read_bytes().splitlines() for name in sys.argv[1:3])
    words = [word for line in requests for word in line.partition(b"*")[0].split()]
    loads = words.count(b"l")
    cycles = sum(word[:1] == b"d" for word in words)
    print(f"diagnose: {loads} loads and {cycles} cycles in {len(requests)} requests")
    print(f"  requests: {spread(requests)}")
    print(f"  replies:  {spread(replies)}")


if __name__ == "__main__":
    main()
