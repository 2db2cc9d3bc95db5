"""What happened to each request of a trace, from its records and the answers to them alone.

A trace has a section for each agent that it makes, and a section has a row for each identifier that was sent: its
marks, the spans for which it was under way, and the waits that a poll asked for on its behalf.
"""
import collections
import re

import tracetext

Mark = collections.namedtuple("Mark", "kind clock text")
Story = collections.namedtuple("Story", "sections notes")

ID = "[0-9a-f]{24}"
FITTING = {
    **dict.fromkeys(("settings", "send", "cancel_retransmissions", "cancel", "configure", "validate_peer", "reset"), "ok"),
    **dict.fromkeys(("received", "received_untimed", "is_peer"), "yes|no"),
    "send_request": f"send {ID} [0-9]+",
    "poll_transmit": f"none|send {ID} [0-9]+",
    "poll": f"wait [0-9]+|timeout {ID}|cancelled {ID}",
    "stats": "stats(?: (?:[0-9]+|-)){14}",
    "query": "none|sha1|sha256",
}
UNITS = {"s": 9, "ms": 6, "µs": 3, "ns": 0}
TIMED = ("send_request", "received", "poll_transmit", "poll")
ASKED = {
    "cancel_retransmissions": "told to send no more",
    "cancel": "told to cancel",
    "configure": "given other waits",
}
REFUSALS = dict(enumerate((
    "STATE", "SETTINGS", "CLOCK", "TOO_LONG", "BAD_MESSAGE", "WRONG_CLASS", "IN_PROGRESS", "TABLE_FULL", "NO_REQUEST",
    "PEERS_FULL", "NO_STATS", "COUNTS"), 1))


class Unfit(Exception):
    """A trace that isn't one, or answers that aren't its own: what is wrong."""


class Row:
    """One identifier of one agent."""

    def __init__(self, identifier, address):
        self.identifier, self.address = identifier, address
        self.marks, self.lives, self.waits = [], [], {}
        self.last_send = None

    def sent(self, kind, clock, text):
        if kind == "first":
            self.lives.append([clock, None])
        self.last_send = clock
        self.marks.append(Mark(kind, clock, text))

    def ended(self, kind, clock, text):
        self.lives[-1][1] = clock
        self.marks.append(Mark(kind, clock, text))

    def waited(self, start, end):
        """A wait that was asked for: it begins with the last send at the earliest, and the earliest poll counts."""
        start = max(start, self.last_send)
        if start < end:
            self.waits[end] = min(start, self.waits.get(end, end))


class Section:
    """One agent: its settings, its rows in the order in which they came up, and the last clock that it saw."""

    def __init__(self, settings):
        self.settings, self.rows, self.clock = settings, {}, 0
        self.under_way, self.polls = set(), {}

    def row(self, identifier):
        if identifier not in self.under_way:
            raise Unfit(f"{identifier} isn't under way")
        return self.rows[identifier]

    def met(self, row):
        """Something was due for a row: a poll that named this clock did it on this row's behalf."""
        if self.clock in self.polls:
            row.waited(self.polls[self.clock], self.clock)

    def first_send(self, words, answer):
        message = class_place(words)
        identifier = words[message + 1]
        if answer[1] != identifier or identifier in self.under_way:
            raise Unfit(f"{identifier} can't be what is sent")
        row = self.rows.setdefault(identifier, Row(identifier, " ".join(words[2:message])))
        row.sent("first", self.clock, "first send")
        self.under_way.add(identifier)

    def again(self, answer):
        if answer[0] == "send":
            row = self.row(answer[1])
            self.met(row)
            row.sent("again", self.clock, "sent again")

    def polled(self, answer):
        if answer[0] == "wait":
            end = int(answer[1])
            if end < self.clock:
                raise Unfit("a wait that ends before it begins")
            self.polls.setdefault(end, self.clock)
            if len(self.under_way) == 1:
                self.rows[next(iter(self.under_way))].waited(self.clock, end)
            return
        row = self.row(answer[1])
        self.met(row)
        row.ended(answer[0], self.clock, {"timeout": "timed out"}.get(answer[0], answer[0]))
        self.under_way.remove(row.identifier)

    def received(self, words, answer):
        """A note where an answer was not accepted that belongs to no row."""
        message = class_place(words)
        if words[message] not in ("success", "error"):
            return None
        noun, identifier = {"success": "answer", "error": "error answer"}[words[message]], words[message + 1]
        if answer[0] == "yes":
            self.row(identifier).ended("accepted", self.clock, f"{noun} accepted")
            self.under_way.remove(identifier)
        elif identifier in self.rows:
            self.rows[identifier].marks.append(Mark("dropped", self.clock, f"{noun} not accepted"))
        else:
            return f"{noun} for {identifier}, which was never sent: not accepted"
        return None

    def play(self, words, answer):
        """Takes in one record that wasn't refused; a note where it can't stand on a row."""
        name = words[0]
        if name == "send_request":
            self.first_send(words, answer)
        elif name == "poll_transmit":
            self.again(answer)
        elif name == "poll":
            self.polled(answer)
        elif name in ("received", "received_untimed"):
            return self.received(words, answer)
        elif name in ASKED:
            self.row(words[1]).marks.append(Mark("asked", self.clock, ASKED[name]))
        return None


def class_place(words):
    """Where the message begins in a record's words."""
    return next(place for place, word in enumerate(words) if word in tracetext.CLASSES or word == "raw")


def answer_words(number, name, line):
    """The words of an answer behind its number; raises Unfit where it isn't one to such a record."""
    match = re.fullmatch(rf"{number} (refused [0-9]+|{FITTING[name]})", line)
    if not match:
        raise Unfit(f"{line[:80]!r} is no answer to {name}")
    return match[1].split()


def clock_text(value, unit=None):
    """A clock in exact decimals, as 51.508 s; without a unit, in the largest one that it reaches."""
    unit = unit or next((name for name, power in UNITS.items() if value >= 10 ** power), "ns")
    whole, rest = divmod(value, 10 ** UNITS[unit])
    decimals = f".{rest:0{UNITS[unit]}d}".rstrip("0") if rest else ""
    return f"{whole:,}{decimals} {unit}"


def note(number, name, clock, text):
    return f"Record {number}, {name} at {clock_text(clock)}: {text}"


def story(trace, answers):
    """The sections of a trace with its answers, and notes on what stands on no row; raises Unfit."""
    records = tracetext.entries(trace)
    for number, record in enumerate(records, 1):
        if record.startswith(("record ", "bytes ")):
            raise Unfit(f"record {number} is broken: {record[:80]}")
    if records and not records[0].startswith("settings "):
        raise Unfit("no trace: the first record isn't settings")
    if len(answers) != len(records):
        last = f", the last one {answers[-1][:80]!r}" if answers else ""
        raise Unfit(f"{len(answers)} answers for {len(records)} records{last}")
    sections, notes = [], []
    for number, (record, line) in enumerate(zip(records, answers), 1):
        words = record.split()
        name, clock = words[0], sections[-1].clock if sections else 0
        if name in TIMED:
            clock = tracetext.nanoseconds(words[1])
        try:
            answer = answer_words(number, name, line)
            if answer[0] == "refused":
                notes.append(note(number, name, clock, f"refused by {answer[1]}, {REFUSALS.get(int(answer[1]), 'unknown')}"))
            elif name == "settings":
                sections.append(Section(record))
            elif not sections or clock < sections[-1].clock:
                raise Unfit(f"{name} wasn't refused, " + ("and its clock falls" if sections else "and there is no agent"))
            else:
                sections[-1].clock = clock
                left = sections[-1].play(words, answer)
                if left:
                    notes.append(note(number, name, clock, left))
        except Unfit as unfit:
            raise Unfit(f"record {number}: {unfit}") from None
    return Story(sections, notes)
