"""Scripts: how they are read and played, what their lines are, and which rule a line at fault breaks."""
import os
import re
import subprocess
from typing import NamedTuple

from commands import Failed

TOP = os.path.dirname(os.path.dirname(os.path.realpath(__file__)))
# Of a line that is at fault no more is shown.
SHOWN = 160

# The forms of the lines that are built. What stands before the two dots may come again, three words at once.
CALLS = {
    "client": "C NODE VERSION CALLBACKS",
    "open": "C H NAME FLAGS TIMEOUT CREATION SIZE RETENTION SECTIONS MAX IDSIZE",
    "openasync": "C H INVOCATION NAME FLAGS CREATION SIZE RETENTION SECTIONS MAX IDSIZE",
    "status": "C H",
    "create": "C H NEWID TIME DATA",
    "delete": "C H ID",
    "expire": "C H ID TIME",
    "over": "C H ID DATA",
    "write": "C H ID OFFSET DATA ..",
    "read": "C H ID OFFSET LENGTH ..",
    "iter": "C I H CHOICE TIME",
    "next": "C I",
    "enditer": "C I",
    "close": "C H",
    "unlink": "C NAME",
    "retain": "C H TIME",
    "active": "C H",
    "sync": "C H TIMEOUT",
    "syncasync": "C H INVOCATION",
    "dispatch": "C FLAGS",
    "finalize": "C",
    "copy": "NODE",
}
# Their client does not wait for these.
ASYNCHRONOUS = ("openasync", "syncasync")
OTHERS = {"nodes": "NODES", "at": "MOMENT", "begin": "LINE", "step": "A STEPS", "finish": "A", "show": "K"} | {
    "pull": "K",
    "put": "K NODE",
    "propagate": "K",
    "fail": "NODE",
    "join": "NODE",
}

PLACE = r"(0|[1-9]\d?)"
NUMBER = r"(0|[1-9]\d{0,19})"
BYTES = r"x([0-9a-fA-F]{2})*|'[!-~]+"
# The classes of words: what each is, how it is spelled, and for the numbers the range.
CLASSES = {
    "C": ("a client, c0 to c99", f"c{PLACE}"),
    "NODE": ("a node, n0 to n7", "n[0-7]"),
    "H": ("a place of a handle, h0 to h99", f"h{PLACE}"),
    "I": ("a place of an iteration, i0 to i99", f"i{PLACE}"),
    "A": ("a client, a node or the name of a call", rf"c{PLACE}(\.[1-9]\d{{0,9}})?|n[0-7]"),
    "K": ("a checkpoint, K1 to K9999", r"K[1-9]\d{0,3}"),
    "VERSION": ("a version, as B.2.2, with numbers to 255", r"[A-Z](\.(\d|[1-9]\d|1\d\d|2[0-4]\d|25[0-5])){2}"),
    "CALLBACKS": ("`none`, `open`, `sync` or `both`", "none|open|sync|both"),
    "NAME": ("bytes", BYTES),
    "DATA": ("bytes", BYTES),
    "ID": ("an identifier, bytes of which there are at most 256", BYTES),
    "NEWID": ("a new identifier, at most 256 bytes or `gen`", f"{BYTES}|gen"),
    "NODES": ("a number from 1 to 8", NUMBER, 1, 8),
    "STEPS": ("a number from 1 to 1,000,000", NUMBER, 1, 1_000_000),
    "MOMENT": ("a moment, 0 to 2^63 - 2", NUMBER, 0, 2**63 - 2),
    "FLAGS": ("flags, a number to 2^32 - 1", NUMBER, 0, 2**32 - 1),
    "SECTIONS": ("a number to 2^32 - 1", NUMBER, 0, 2**32 - 1),
    "TIME": ("a time, a number from -2^63 to 2^63 - 1 or `end`", f"{NUMBER}|-[1-9]\\d{{0,18}}|end", -(2**63), 2**63 - 1),
    "SIZE": ("a number to 2^64 - 1", NUMBER, 0, 2**64 - 1),
}
SAME = {"CREATION": "FLAGS", "TIMEOUT": "TIME", "RETENTION": "TIME"} | dict.fromkeys(
    ("MAX", "IDSIZE", "OFFSET", "LENGTH", "CHOICE", "INVOCATION"), "SIZE"
)

RULES = {
    "length": "A script has at most 262,144 bytes.",
    "lines": "A script has at most 10,000 lines, with the empty ones and the comments.",
    "nodes": "The first line that says something is `nodes`, and it is the only one of its kind.",
    "moment": "No moment is below that of the `at` line before it.",
    "reads": "The lengths that the `read` lines ask for are together at most 16,777,216, up to this line too.",
    "shows": "A script has at most 16 `show` lines.",
}
# How many `show` lines a script may have.
SHOWS = 16


class Run(NamedTuple):
    """What came of a script: the status, the lines printed, the line and the reason of its fault, and what else was said."""

    status: int
    log: list
    fault: tuple | None
    said: str


def shown_name(name):
    """Returns the name of a file as it is told."""
    return "standard input" if name == "-" else name


def read(name, status=1):
    """Returns the bytes of the file of that name, or of standard input where `-` stands for it; or fails with the status."""
    try:
        with open(0 if name == "-" else name, "rb") as file:
            return file.read()
    except OSError as fault:
        raise Failed(f"{shown_name(name)}: {fault.strerror}", status) from None


def lines_of(script):
    """Returns the lines of a script, with the empty ones and the comments."""
    return script.removesuffix(b"\n").split(b"\n") if script else []


def says(line):
    """Whether the line is neither empty nor a comment."""
    return line and not line.startswith(b"#")


def built(given):
    """Returns the program that is given, or that of this repository, which `bash run` builds where it has to."""
    if given:
        return given
    words = ["bash", f"{TOP}/run", f"{TOP}/examples/first.script"]
    if subprocess.run(words, stdin=subprocess.DEVNULL, stdout=subprocess.DEVNULL).returncode:
        raise Failed("there is no program")
    return f"{TOP}/crates/ckptsim/out/ckptsim"


def play(command, script, *more):
    """Plays the bytes of a script, or these lines, by the words of a command and `run`."""
    given = script if isinstance(script, bytes) else "".join(f"{line}\n" for line in script).encode()
    words = [*([command] if isinstance(command, str) else command), "run", *more]
    try:
        run = subprocess.run(words, input=given, capture_output=True)
    except OSError as missing:
        raise Failed(f"{words[0]}: {missing.strerror}") from None
    fault, others = None, ""
    for said in run.stderr.decode("utf-8", "replace").splitlines(keepends=True):
        found = re.fullmatch(r"line (\d+): ([a-z ]+)\n", said)
        if found:
            fault = int(found[1]), found[2]
        else:
            others += said
    status = run.returncode if run.returncode >= 0 else 128 - run.returncode
    return Run(status, run.stdout.decode("ascii", "replace").splitlines(), fault, others)


def cut(call, who, steps, node):
    """The lines that begin a call, step it so often, and let the node fail."""
    return [f"begin {call}", *([f"step {who} {steps}"] if steps else []), f"fail {node}"]


def fits(word, name):
    """Whether the word is of the class of that name."""
    _, form, *ends = CLASSES[SAME.get(name, name)]
    if not re.fullmatch(form, word, re.ASCII):
        return False
    if name in ("ID", "NEWID") and word != "gen":
        return (len(word) - 1) // (2 if word[0] == "x" else 1) <= 256
    if name == "A" and "." in word:
        return int(word.partition(".")[2]) < 2**32
    return word == "end" or not ends or ends[0] <= int(word) <= ends[1]


def rule_of_word(words, form):
    """Returns what the first word is to be that is not of its class, of a line that has this form."""
    names = form.split()
    if names[-1] == "..":
        names = names[:-1] + names[-4:-1] * 255
    for word, name in zip(words, names):
        if not fits(word, name):
            return f"`{visible(word)}` is to be {CLASSES[SAME.get(name, name)][0]}."
    return "A word is not of its class."


def rule(line, reason):
    """Returns the rule that the line breaks, by the reason that the program tells."""
    if reason in RULES:
        return RULES[reason]
    words = line.split(" ")
    begun = ["begin"] if words[0] == "begin" and words[1:] else []
    first, *others = words[len(begun) :]
    forms = CALLS if begun else CALLS | OTHERS
    if reason == "not built":
        return f"No line `{' '.join([*begun, first])}` is built yet."
    if reason == "word" and "" in words:
        return "Exactly one space stands between two words, and none at the ends of a line."
    if first not in forms:
        return f"`{visible(first)}` is {'no call, as it has to be behind `begin`' if begun else 'the first word of no line'}."
    if reason == "count":
        form = " ".join([*begun, first, forms[first]])
        if first in ("open", "openasync"):
            form += ", or the same without the last six words"
        return f"The line has too few or too many words. Its form: {form}"
    return rule_of_word(others, forms[first])


def visible(line):
    """Returns the text with all that does not show spelled out, cut where it is long."""
    text = "".join(sign if " " <= sign <= "~" else repr(sign)[1:-1] for sign in line)
    return text if len(text) <= SHOWN else f"{text[:SHOWN]} ..."


def told(fault, lines):
    """Returns what is told of a fault of the script with these lines: where and why, the line, and the rule."""
    number, reason = fault
    line = lines[number - 1].decode("latin-1") if number else ""
    return f"line {number}: {reason}", visible(line), rule(line, reason)
