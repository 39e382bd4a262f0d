#!/usr/bin/env python3
"""Prints a script of updates at the declared limits: updates.py KIND SECTIONS PLACE LINES [BYTES]

A checkpoint of 1,048,576 bytes and 1,024 sections of 1,024 bytes is opened at the place h0, and SECTIONS sections
are made and filled to the last byte. Then come LINES lines of one kind through PLACE: h0 stands for the handle,
and any other place for none, so that each line is refused with BAD_HANDLE before it comes to a section.

KIND is one of

  none      no line more
  write     BYTES bytes (20 if not given) are written into a section, another each time
  elements  64 bytes are written, each as an element of its own, into the sections in turn
  over      a section gets BYTES other bytes
  expire    a section gets another expiration
  given     the first section is deleted, and made again under its identifier, in turn
  gen       the same, of sections whose identifiers the service makes
  last      the last section is deleted, and the service makes its identifier again, in turn
  passing   a section is made that expires, and the moment comes at which it does, in turn; SECTIONS counts it
"""

import sys

SECTIONS = 1024
SIZE = 1024
ELEMENTS = 64
KINDS = ("none", "write", "elements", "over", "expire", "given", "gen", "last", "passing")


def identifier(kind, number):
    return f"x{number + 1:016x}" if kind in ("gen", "last") else f"'s{number:04}"


def opening(kind, sections):
    yield "nodes 1"
    yield "client c0 n0 B.2.2 none"
    yield f"open c0 h0 'updates 7 end 1 {SECTIONS * SIZE} 0 {SECTIONS} {SIZE} 8"
    for number in range(sections):
        yield f"create c0 h0 {'gen' if kind in ('gen', 'last') else identifier(kind, number)} end x"
    for first in range(0, sections, ELEMENTS):
        filled = range(first, min(first + ELEMENTS, sections))
        yield "write c0 h0" + "".join(f" {identifier(kind, number)} {SIZE} x" for number in filled)


def update(kind, sections, place, number, size):
    section = identifier(kind, number * 7 % sections)
    data = f"'{number:0{size}}"[: size + 1]
    first = number % 2 == 0
    if kind == "write":
        return f"write c0 {place} {section} {number * 13 % (SIZE - size + 1)} {data}"
    if kind == "elements":
        written = (identifier(kind, (number + element) % sections) for element in range(ELEMENTS))
        return f"write c0 {place}" + "".join(f" {each} {number % SIZE} 'b" for each in written)
    if kind == "over":
        return f"over c0 {place} {section} {data}"
    if kind == "expire":
        return f"expire c0 {place} {section} {10**9 + number}"
    if kind == "passing":
        return f"create c0 {place} 'passing {number + 1} {data}" if first else f"at {number}"
    gone = identifier(kind, sections - 1 if kind == "last" else 0)
    return f"delete c0 {place} {gone}" if first else f"create c0 {place} {gone if kind == 'given' else 'gen'} end {data}"


def main():
    words = sys.argv[1:]
    numbers = words[1:2] + words[3:]
    if len(words) not in (4, 5) or words[0] not in KINDS or not all(word.isdigit() for word in numbers):
        sys.exit(__doc__)
    kind, place = words[0], words[2]
    sections, count, size = int(words[1]), int(words[3]), int(words[4]) if len(words) == 5 else 20
    if not 1 <= sections <= SECTIONS or not 1 <= size <= SIZE:
        sys.exit("SECTIONS is 1 to 1,024, and BYTES 1 to 1,024")
    for line in opening(kind, sections - 1 if kind == "passing" else sections):
        print(line)
    for number in range(0 if kind == "none" else count):
        print(update(kind, sections, place, number, size))


main()
