#!/usr/bin/env python3
"""Prints a script of writers on several nodes: writers.py FORM NODES WRITERS UPDATES

NODES nodes come up, and WRITERS clients come to them in turns, each with a section of its own. They take turns to write
20 bytes, UPDATES times in all, so that no update meets another.

FORM is one of

  plain     all writers have one checkpoint, and each write is a plain line
  begun     all writers have one checkpoint; in each round all begin a write, and then each takes one step and
            finishes it: three lines an update
  apart     each writer has a checkpoint of its own; in each round all begin, all take one step, and all finish: three
            lines an update
  read      as plain, and each line is a read of 20 bytes
"""

import sys

SIZE = 1000
OFFSETS = 900
NODES, WRITERS = 8, 16
FORMS = ("plain", "begun", "apart", "read")


def opening(form, nodes, writers):
    yield f"nodes {nodes}"
    attributes = f"1 {writers * SIZE} 0 {writers + 1} {SIZE} 8"
    for writer in range(writers):
        yield f"client c{writer} n{writer % nodes} B.2.2 none"
        if form == "apart" or writer == 0:
            yield f"open c{writer} h0 'bench{writer} 7 end {attributes}"
        else:
            yield f"open c{writer} h0 'bench0 3 end"
        yield f"create c{writer} h0 's{writer:03} end '{0:0{OFFSETS}}"


def call(form, writer, number):
    offset = number * 7 % (OFFSETS - 20)
    section = f"'s{writer:03}"
    if form == "read":
        return f"read c{writer} h0 {section} {offset} 20"
    return f"write c{writer} h0 {section} {offset} '{number:020}"


def lines(form, writers, updates):
    for first in range(0, updates, writers):
        turns = [(writer, first + writer) for writer in range(min(writers, updates - first))]
        if form in ("plain", "read"):
            yield from (call(form, writer, number) for writer, number in turns)
            continue
        yield from (f"begin {call(form, writer, number)}" for writer, number in turns)
        if form == "apart":
            yield from (f"step c{writer} 1" for writer, _ in turns)
            yield from (f"finish c{writer}" for writer, _ in turns)
        else:
            for writer, _ in turns:
                yield f"step c{writer} 1"
                yield f"finish c{writer}"


def main():
    words = sys.argv[1:]
    if len(words) != 4 or words[0] not in FORMS or not all(word.isdigit() for word in words[1:]):
        sys.exit(__doc__)
    form, (nodes, writers, updates) = words[0], map(int, words[1:])
    if not 1 <= nodes <= NODES or not 1 <= writers <= WRITERS:
        sys.exit("NODES is 1 to 8, and WRITERS 1 to 16")
    for line in opening(form, nodes, writers):
        print(line)
    for line in lines(form, writers, updates):
        print(line)


main()
