"""Recorded answers as text: cases of a name, a sentence, and records with their answers beside them.

    == name
    # One sentence that says what the case shows.
    poll 0   # rust 3 wait 500000000

`rust` stands before a line that stun-proto's own agent decided, `ours` before one that the second
reading decided. Everything behind a # is a comment to tools/trace, so a case's records are a trace.
"""
import collections
import sys

import tracetext

Case = collections.namedtuple("Case", "name sentence trace answers")
JUDGES = ("rust", "ours")


def show(case):
    """A case as text; each answer begins with its judge."""
    rows = tracetext.beside(tracetext.entries(case.trace), case.answers)
    return "\n".join([f"== {case.name}", f"# {case.sentence}", *rows]) + "\n"


def read(text):
    """The cases in a text; raises ValueError at one that isn't whole."""
    return [case_of(block) for block in text.split("\n== ")] if text else []


def all_cases(folder):
    """The cases of all files in a folder; ends the command where there is none or a name is used twice."""
    found = [case for file in sorted(folder.glob("*.txt")) for case in read(file.read_text())]
    twice = [name for name, count in collections.Counter(case.name for case in found).items() if count > 1]
    if not found or twice:
        sys.exit(f"recorded answers: names used twice: {twice}" if twice else "no recorded answers")
    return found


def case_of(block):
    name, sentence, *rows = block.removeprefix("== ").rstrip("\n").split("\n")
    if not name or not sentence.startswith("# ") or not sentence.endswith("."):
        raise ValueError(f"case {name!r} has no sentence")
    comments = [row.partition("  # ")[2] for row in rows]
    answers = [comment for comment in comments if comment != "(no answer)"]
    for number, answer in enumerate(answers, 1):
        judge, _, line = answer.partition(" ")
        if judge not in JUDGES or not line.startswith(f"{number} "):
            raise ValueError(f"case {name!r}: {answer!r} is no answer number {number}")
    return Case(name, sentence[2:], tracetext.assemble("\n".join(rows)), answers)


def lines(case):
    """The lines that a program should print."""
    return "".join(answer.partition(" ")[2] + "\n" for answer in case.answers)
