#!/usr/bin/env python3
"""Prints a script of LINES lines: one node, one client, one checkpoint, and then writes of 20 bytes and
reads of 32 bytes in turn, at offsets that go over the whole section."""

import sys

SIZE = 1000
OFFSETS = 900


def lines(count):
    yield "nodes 1"
    yield "client c0 n0 B.2.2 none"
    yield f"open c0 h0 'bench 7 end 1 {SIZE} 0 1 {SIZE} 8"
    for number in range(count - 3):
        offset = number * 7 % OFFSETS
        if number % 2 == 0:
            yield f"write c0 h0 x {offset} '{number:020}"
        else:
            yield f"read c0 h0 x {offset - 7 if offset >= 7 else 0} 32"


def main():
    if len(sys.argv) != 2 or not sys.argv[1].isdigit() or int(sys.argv[1]) < 3:
        sys.exit("usage: script.py LINES, at least 3")
    print("\n".join(lines(int(sys.argv[1]))))


main()
