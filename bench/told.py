"""The lines of output that docs/FORMAT.md knows, read from its tables. For the commands beside it."""
import os
import re

PAGE = os.path.join(os.path.dirname(os.path.dirname(os.path.realpath(__file__))), "docs", "FORMAT.md")
CALL = r"[cn]\d+\.\d+"
NUMBER, TIME, BYTES = r"\d+", r"(end|-?\d+)", r"x([0-9a-f]{2})*"
STATE = "(VALID|CORRUPTED)"
# What stands for something else in the forms of the page.
WORDS = dict(K=r"K\d+", NODE="n[0-7]", CALL=CALL, HOLDER=CALL, C=r"c\d+", A=rf"(c\d+|n[0-7]|{CALL})", OP="[a-z]+", TIME=TIME)
WORDS |= dict.fromkeys(("COUNT", "G", "P", "U", "NEW", "INCARNATION", "INDEX"), NUMBER)
WORDS |= dict.fromkeys(("DEADLINE", "MOMENT"), TIME)
# It is a generation, and of a put the word itself.
WORDS["OLD"] = r"(OLD|\d+)"
# What stands behind OK, by the call; the others have nothing there.
DONE = dict(client=r"B\.2\.2", open=WORDS["K"], create=BYTES, read=rf"{BYTES}( {BYTES})*", sync=NUMBER)
DONE |= dict(dispatch=r"\d+ \d+", next=rf"{BYTES} {TIME} \d+ {STATE} \d+", status=rf"\d+ \d+ {TIME}( \d+){{5}}")
# The calls that are answered NOT_EXIST where there is no active, or the checkpoint is gone; a text of the page tells it.
ABSENT = "create delete expire over write read status iter next sync retain".split()


def form(text):
    """The form of the lines that the page tells so."""
    return " ".join(WORDS.get(word, re.escape(word)) for word in text.split(" "))


def tables(page):
    """The tables of the page: the head of each, and its rows by cells, where an empty first cell is that above it."""
    head, rows = None, []
    for line in [*page.split("\n"), ""]:
        cells = [cell.strip() for cell in line.strip().strip("|").split("|")] if line.startswith("|") else None
        if cells is None:
            if head:
                yield head, rows
            head, rows = None, []
        elif head is None:
            head = cells
        elif not line.startswith("|---"):
            rows.append([cells[0] or rows[-1][0], *cells[1:]])


def codes(cell):
    """What a cell shows as code, one after the other."""
    return re.findall("`([^`]*)`", cell)


def refusals(rows):
    """The forms of refusals, and of callbacks that tell one."""
    before = None
    for call, result, _cause in rows:
        if call == "its callback":
            word = before.removesuffix("async")
            yield from (rf"{WORDS['C']} callback {word} \d+ {form(code)}" for code in codes(result))
        else:
            before = call
            yield from (f"{CALL} {call} {form(code)}" for code in codes(result))


def steps(verbs, replies):
    """The forms of the step log: each verb with what stands behind it, and with the replies that it has."""
    behind = {codes(row[0])[0]: form(" ".join(codes(row[1]) or row[1].split(" "))) for row in verbs}
    answers = {verb: [] for verb in behind}
    for reply, of, _says in replies:
        of_any = set(behind) - {"look"} if of.startswith("any verb") else codes(of)
        for verb in of_any:
            answers[verb].append(form(codes(reply)[0]))
    for verb, words in behind.items():
        yield rf"\+ {CALL} {verb} {f'{words} ' if words else ''}({'|'.join(answers[verb])})"


def forms():
    """The forms of all lines."""
    with open(PAGE, encoding="utf-8") as file:
        found = list(tables(file.read()))
    rows = {head[0]: rows for head, rows in found if head[0] in ("Verb", "Reply")}
    yield from steps(rows["Verb"], rows["Reply"])
    called = {row[0] for head, rows in found if head == ["Call", "Result", "Cause"] for row in rows} - {"its callback"}
    for head, rows in found:
        if head == ["Line", "When"]:
            yield from (form(code) for row in rows for code in codes(row[0]))
        if head == ["Line", "Event"]:
            yield from (form(codes(row[0])[0]) for row in rows if "VERB" not in row[0])
        if head == ["Call", "Result", "Cause"]:
            yield from refusals(rows)
    yield from (f"{CALL} {call} OK{f' {DONE[call]}' if call in DONE else ''}" for call in sorted(called))
    yield from (f"{CALL} {call} NOT_EXIST" for call in ABSENT)
    yield from (rf"{WORDS['C']} callback open \d+ OK {WORDS['K']}", rf"{WORDS['C']} callback sync \d+ (OK \d+|NOT_EXIST)")
    slot = rf"(free|held {CALL}|mark {CALL})"
    yield rf"{WORDS['K']} n[0-7]\*? g\d+ u\d+ {slot}( {BYTES} {STATE} {TIME} \d+ {BYTES})*"
    yield rf"{WORDS['K']} gone"


def known():
    """What tells of a line whether the page knows it."""
    return re.compile("|".join(f"({it})" for it in forms())).fullmatch
