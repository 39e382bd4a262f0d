"""Step logs: what their lines are, and which of them each line of a script has printed."""
import collections
import itertools
import math
import re

# A call is of a client, or of a node where it is a copying.
CALL = r"(?P<call>(?P<client>[cn]\d+)\.\d+)"
# The kinds of lines, in the order in which a line is held against them.
LINES = {
    "moment": re.compile(r"\+ (?P<text>at \d+)"),
    "begin": re.compile(rf"\+ (?P<text>{CALL} begin (?P<operation>[a-z]+))"),
    "step": re.compile(
        rf"\+ {CALL} (?P<verb>[a-z]+)( (?P<checkpoint>K\d+))?( (?P<node>n\d+))?"
        r" (?P<reply>ok|done|refused|older|memory|held [cn]\d+\.\d+|free \d+)"
    ),
    "gone": re.compile(r"(?P<text>(?P<checkpoint>K\d+) gone)"),
    "pull": re.compile(r"(?P<text>K\d+ pull (OK \d+|HELD c\d+\.\d+|NONE))"),
    "put": re.compile(r"(?P<checkpoint>K\d+) put (?P<node>n\d+)(?P<text> (OK \d+|OLD \d+ \d+|STALE \d+ \d+|NONE))"),
    "show": re.compile(
        r"(?P<checkpoint>K\d+) (?P<node>n\d+)(?P<text>(?P<active>\*?) g(?P<generation>\d+) u(?P<updates>\d+)"
        r" (?P<slot>free|held [cn]\d+\.\d+|mark c\d+\.\d+)(?P<sections>( [-0-9A-Za-z]+)*))"
    ),
    "result": re.compile(rf"(?P<text>{CALL} (?P<operation>[a-z]+) (?P<result>[A-Z_]+)(?P<details>( [-0-9A-Za-z_.]+)*))"),
    "callback": re.compile(r"(?P<text>(?P<who>c\d+) (?P<told>callback (?P<operation>open|sync) \d+ [-0-9A-Za-z_. ]+))"),
    "word": re.compile(r"(?P<text>(?P<who>c\d+|n\d+) (?P<operation>[a-z]+) (?P<result>[A-Z]+|OK \d+))"),
}


class Unfit(Exception):
    """The log is not that of the script."""


def parts_of(line):
    """Returns the kind of a line of a log and its parts by name, or None where it is no such line."""
    for kind, form in LINES.items():
        found = form.fullmatch(line)
        if found:
            return kind, found.groupdict()
    return None


def front(log, words):
    """Whether the next line of the log begins with these words."""
    return bool(log) and f"{log[0]} ".startswith(f"{words} ")


def take(log, words):
    """Takes the next line of the log, which begins with these words."""
    if not front(log, words):
        raise Unfit
    return log.popleft()


def taken_steps(log, most):
    """Takes at most so many steps of the call that is next in the log, and its result where it ends with them."""
    if not front(log, "+"):
        raise Unfit
    call, lines = log[0].split(" ")[1], []
    while front(log, f"+ {call}") and len(lines) < most:
        lines.append(log.popleft())
    # A line `step` or `finish` may be about a call by its name, and is answered by a word.
    if front(log, call) and log[0].split(" ")[1] not in ("step", "finish"):
        lines.append(log.popleft())
        lines += taken_callbacks(log, *lines[-1].split(" "))
    return lines


def taken_callbacks(log, call, operation, result, *details):
    """Takes the lines of the callbacks that a call with this result line has given, as many as this tells."""
    given = int(details[0]) if operation == "dispatch" and result == "OK" else 0
    return [take(log, f"{call.partition('.')[0]} callback") for _ in range(given)]


def taken_show(log, checkpoint):
    """Takes the lines of one `show`: those of rising nodes, or the one that tells that the checkpoint is gone."""
    lines = [take(log, checkpoint)]
    while front(log, checkpoint) and lines[-1].split(" ")[1] < log[0].split(" ")[1] < "o":
        lines.append(log.popleft())
    return lines


def taken_propagation(log, checkpoint, later):
    """Takes the line of a pull and those of the puts behind it, but for the puts of the lines that come later."""
    pulled, puts = take(log, f"{checkpoint} pull"), 0
    while puts < len(log) and log[puts].startswith(f"{checkpoint} put "):
        puts += 1
    others = sum(1 for _ in itertools.takewhile(lambda line: line.startswith(f"put {checkpoint} "), later))
    return [pulled, *(log.popleft() for _ in range(puts - others))]


def taken(log, line, later):
    """Takes from the front of the log what the line printed, where these lines come later."""
    first, *words = line.split(" ")
    if first == "nodes":
        return []
    if first == "at":
        return [take(log, f"+ at {words[0]}")]
    if first == "show":
        return taken_show(log, words[0])
    if first == "pull":
        return [take(log, f"{words[0]} pull")]
    if first == "put":
        return [take(log, f"{words[0]} put {words[1]}")]
    if first in ("fail", "join"):
        return [take(log, f"{words[0]} {first}")]
    if first == "propagate":
        return taken_propagation(log, words[0], later)
    if first in ("step", "finish"):
        if front(log, f"{words[0]} {first}"):
            return [log.popleft()]
        return taken_steps(log, int(words[1]) if first == "step" else math.inf)
    operation, client = words[:2] if first == "begin" else [first, words[0]]
    if front(log, f"{client} {operation}"):
        return [log.popleft()]
    return taken_steps(log, 1 if first == "begin" else math.inf)


def printed(lines, log):
    """Returns for each of the lines, none of which is empty or a comment, what it printed of the step log."""
    left, out = collections.deque(log), []
    for place, line in enumerate(lines):
        out.append(taken(left, line, itertools.islice(lines, place + 1, None)))
    if left:
        raise Unfit
    return out
