"""Draws what happened to each request of a trace as an SVG picture.

Sends stand on a request's line, with their numbers above them and the waits above these; everything else hangs below
the line as a flag with its text. Kinds differ by shape as well as colour, and every mark has a title of its own.
"""
import textwrap
from xml.sax.saxutils import escape, quoteattr

import tracetext
from timelinerows import clock_text

WIDTH, LEFT, RIGHT = 1000, 206, 976
MARGIN, INSET = 16, 10
SMALL, PLAIN, LARGE = 11, 12, 17
LINES, FLAGS, NOTES = 40, 12, 30
INK, QUIET, FAINT = "#222222", "#666666", "#dddddd"
LANE = 17
SENDS = ("again", "first")
# Colours of the palette of Okabe and Ito, which differ for the colour-blind too.
BLUE, GREEN, VERMILION, PURPLE = "#0072b2", "#009e73", "#d55e00", "#cc79a7"
SHAPES = {
    "first": f'<circle r="4.5" fill="{BLUE}" stroke="{BLUE}" stroke-width="1.5"/>',
    "again": f'<circle r="4.5" fill="white" stroke="{BLUE}" stroke-width="1.5"/>',
    "accepted": f'<path d="M0-6.5L6.5 0L0 6.5L-6.5 0Z" fill="{GREEN}" stroke="{INK}"/>',
    "dropped": f'<path d="M0-6.5L6.5 0L0 6.5L-6.5 0Z" fill="white" stroke="{INK}"/>'
               f'<path d="M-7 7L7-7" stroke="{VERMILION}" stroke-width="2"/>',
    "timeout": f'<path d="M-5-5L5 5M-5 5L5-5" stroke="{VERMILION}" stroke-width="4"/>',
    "cancelled": f'<path d="M-5-5H5V5H-5Z" fill="{PURPLE}" stroke="{INK}"/><path d="M-5 0H5" stroke="{INK}" stroke-width="2"/>',
    "asked": f'<path d="M-5-4H5L0 5Z" fill="white" stroke="{INK}" stroke-width="1.5"/>',
    "wait": f'<path d="M-12 0H12" stroke="#aaaaaa" stroke-width="4"/><path d="M-12-4V4M12-4V4" stroke="{QUIET}"/>',
    "line": f'<path d="M-12 0H12" stroke="{INK}" stroke-width="2.5"/>',
}
LEGEND = {
    "first": "first send", "again": "sent again", "accepted": "answer accepted", "dropped": "answer not accepted",
    "timeout": "timed out", "cancelled": "cancelled", "asked": "asked by the host", "line": "under way",
    "wait": "wait until the next call",
}


def text_width(text, size):
    """Roughly the width of a text in a wide font, for what must not overlap."""
    return sum(0.36 if letter in " .,:;'|!()ijlftr1" else 0.64 for letter in text) * size


def shortened(text, size, room):
    if text_width(text, size) <= room:
        return text
    while text and text_width(text + "…", size) > room:
        text = text[:-1]
    return text + "…"


def plain(number):
    return f"{number:.1f}".removesuffix(".0")


class Sheet:
    """The picture so far, how far down it reaches, and how many marks have no text."""

    def __init__(self):
        self.parts, self.y, self.untold = [], MARGIN, 0

    def text(self, x, y, text, size=PLAIN, fill=INK, **attributes):
        more = "".join(f" {key.replace('_', '-')}={quoteattr(value)}" for key, value in attributes.items())
        self.parts.append(f'<text x="{plain(x)}" y="{plain(y)}" font-size="{size}" fill="{fill}"{more}>{escape(text)}</text>')

    def path(self, path, stroke, width=1):
        self.parts.append(f'<path d="{path}" fill="none" stroke="{stroke}" stroke-width="{width}"/>')

    def shape(self, kind, x, y, group, title=None):
        head = f"<title>{escape(title)}</title>" if title else ""
        self.parts.append(f'<g class="{group} {kind}" transform="translate({plain(x)} {plain(y)})">{head}{SHAPES[kind]}</g>')

    def paragraph(self, text, size=PLAIN, **attributes):
        """A text over the whole width, in as many lines as it takes."""
        letter = 0.7 if "font_weight" in attributes else 0.62
        for line in textwrap.wrap(text, int((WIDTH - 2 * MARGIN) / (letter * size))):
            self.y += size + 4
            self.text(MARGIN, self.y, line, size, **attributes)

    def svg(self, title, description):
        height = plain(self.y + MARGIN)
        return "\n".join([
            f'<svg xmlns="http://www.w3.org/2000/svg" width="{WIDTH}" height="{height}" viewBox="0 0 {WIDTH} {height}" '
            'role="img" aria-labelledby="title desc" font-family="sans-serif">',
            f'<title id="title">{escape(title)}</title>', f'<desc id="desc">{escape(description)}</desc>',
            f'<rect width="{WIDTH}" height="{height}" fill="white"/>', *self.parts, "</svg>"]) + "\n"


class Axis:
    """The clock along the bottom of a section: from the first thing that is drawn to the last one."""

    def __init__(self, section, rows, until):
        clocks = [mark.clock for row in rows for mark in row.marks]
        clocks += [section.clock for row in rows if row.lives[-1][1] is None]
        self.start, self.end = min(clocks), max(clocks)
        longest = max((end for row in rows for end in row.waits), default=0)
        if self.end > self.start:  # an hour's wait isn't to hide what happened
            longest = min(longest, 2 * self.end - self.start)
        self.end = max(self.end, longest, until)
        self.span = self.end - self.start
        units = (("s", 10), ("ms", 7), ("µs", 4), ("ns", 0), (None, None))
        self.unit = next(unit for unit, power in units if power is None or self.span >= 10 ** power)

    def x(self, clock):
        share = (min(clock, self.end) - self.start) / self.span if self.span else 0
        return LEFT + INSET + share * (RIGHT - LEFT - 2 * INSET)

    def text(self, clock):
        return clock_text(clock, self.unit)

    def ticks(self):
        """Round clocks, as many as have room for their texts."""
        if not self.span:
            return [self.start]
        for step in (digit * 10 ** power for power in range(20) for digit in (1, 2, 5)):
            first = -(-self.start // step) * step
            if self.span // step > 40:
                continue
            found = list(range(first, self.end + 1, step))
            room = step / self.span * (RIGHT - LEFT - 2 * INSET)
            if all(text_width(self.text(clock), SMALL) + 14 <= room for clock in found) or len(found) <= 1:
                return found or [self.start]
        return [self.start]


class Flag:
    """A mark below the line with its text, in a lane and on one side of it."""

    def __init__(self, mark, axis):
        self.mark, self.x = mark, axis.x(mark.clock)
        self.text = f"{mark.text}, {axis.text(mark.clock)}"
        self.width = text_width(self.text, SMALL) + 14
        self.lane, self.left = 0, False

    def span(self, mark=9):
        """From where to where it reaches; with -7, its text alone."""
        return (self.x - self.width, self.x + mark) if self.left else (self.x - mark, self.x + self.width)

    def crosses(self, other):
        """They overlap, or the stem of the lower one passes the text of the upper one."""
        if self.lane == other.lane:
            (a, b), (c, d) = self.span(), other.span()
            return a < d and c < b
        upper, lower = sorted((self, other), key=lambda flag: flag.lane)
        start, end = upper.span(-7)
        return start < lower.x < end

    def place(self, placed, sides):
        """Takes the highest lane that has room; False where there is none."""
        for self.lane in range(len(placed) + 1):
            for self.left in sides:
                start, end = self.span()
                if start >= LEFT and end <= WIDTH and not any(map(self.crosses, placed)):
                    return True
        return False


def arrange(flags, sides):
    """Places flags in this order; how many found no room, and how many lanes there are."""
    placed, failed = [], 0
    for flag in flags:
        failed += not flag.place(placed, sides)
        placed.append(flag)
    return failed, max((flag.lane + 1 for flag in flags), default=0)


def flags_of(row, axis):
    """The flags of a row in their places, the marks that have none, and the number of lanes."""
    marks = [mark for mark in row.marks if mark.kind not in SENDS]
    flags = [Flag(mark, axis) for mark in marks[:FLAGS]]
    # In the order of the clock if that takes no more room; but where texts to the right are placed from the right, or texts
    # to the left from the left, no stem has to pass a text.
    ways = [(flags, (False, True)), (flags[::-1], (False, True)), (flags, (True, False))]
    best = min(ways, key=lambda way: arrange(*way))
    return flags, marks[FLAGS:], arrange(*best)[1]


def apart(texts):
    """Of texts with their middles, those that don't overlap, the last ones first."""
    edge = float("inf")
    for x, text in reversed(texts):
        half = text_width(text, SMALL) / 2
        if x + half + 3 < edge:
            edge = x - half
            yield x, text


def draw_waits(sheet, row, axis, y):
    texts = []
    for end, start in sorted(row.waits.items()):
        left, right = axis.x(start), axis.x(end)
        sheet.parts.append(f'<g class="mark wait"><title>{escape(f"wait until {axis.text(end)}")}</title>')
        sheet.path(f"M{plain(left)} {plain(y)}H{plain(right)}", "#aaaaaa", 4)
        ends = f"M{plain(left)} {plain(y - 4)}v8" + (f"M{plain(right)} {plain(y - 4)}v8" if end <= axis.end else "")
        sheet.path(ends, QUIET)
        sheet.parts.append("</g>")
        texts.append(((left + right) / 2, clock_text(end - start)))
    for x, text in apart(texts):
        sheet.text(x, y - 8, text, SMALL, QUIET, text_anchor="middle")


def draw_sends(sheet, row, axis, y):
    number, texts = 0, []
    sends = [mark for mark in row.marks if mark.kind in SENDS]
    for mark in sorted(sends, key=lambda mark: SENDS.index(mark.kind)):  # a first send hides others at its place
        sheet.shape(mark.kind, axis.x(mark.clock), y, "mark", f"{mark.text}, {axis.text(mark.clock)}")
    for mark in sends:
        number = 1 if mark.kind == "first" else number + 1
        texts.append((axis.x(mark.clock), str(number)))
    for x, text in apart(texts):
        sheet.text(x, y - 9, text, SMALL, text_anchor="middle")


def draw_flags(sheet, flags, others, axis, y):
    for flag in flags:
        sheet.path(f"M{plain(flag.x)} {plain(y)}V{plain(y + LANE * (flag.lane + 1))}", QUIET)
    for flag in flags:
        below = y + LANE * (flag.lane + 1)
        sheet.shape(flag.mark.kind, flag.x, below, "mark", flag.text)
        sheet.text(flag.x + (-10 if flag.left else 10), below + 4, flag.text, SMALL, text_anchor="end" if flag.left else "start")
    sheet.untold += len(others)
    for mark in others:
        sheet.shape(mark.kind, axis.x(mark.clock), y + LANE, "mark", f"{mark.text}, {axis.text(mark.clock)}")


def draw_row(sheet, row, axis, last):
    flags, others, lanes = flags_of(row, axis)
    y = sheet.y + (46 if row.waits else 24)
    sheet.path(f"M{LEFT} {plain(y)}H{RIGHT}", FAINT)
    sheet.text(MARGIN, y - 4, row.identifier, SMALL, font_family="monospace")
    sheet.text(MARGIN, y + 10, shortened(f"to {row.address}", SMALL, LEFT - MARGIN - 8), SMALL, QUIET)
    for start, end in row.lives:
        left, right = axis.x(start), axis.x(last if end is None else end)
        sheet.path(f"M{plain(left)} {plain(y)}H{plain(right)}", INK, 2.5)
        if end is None:
            sheet.path(f"M{plain(right + 4)} {plain(y - 5)}l6 5l-6 5", INK, 1.5)
    draw_waits(sheet, row, axis, y - 25)
    draw_flags(sheet, flags, others, axis, y)
    draw_sends(sheet, row, axis, y)
    sheet.y = y + 16 + LANE * lanes


def draw_axis(sheet, axis, top):
    y = sheet.y + 6
    for clock in axis.ticks():
        x, text = axis.x(clock), axis.text(clock)
        sheet.parts.insert(0, f'<path d="M{plain(x)} {plain(top)}V{plain(y)}" stroke="#eeeeee"/>')
        sheet.path(f"M{plain(x)} {plain(y)}v5", INK)
        sheet.text(min(x, WIDTH - 4 - text_width(text, SMALL) / 2), y + 18, text, SMALL, text_anchor="middle")
    sheet.path(f"M{LEFT} {plain(y)}H{RIGHT}", INK)
    sheet.text(MARGIN, y + 18, "clock", SMALL)
    sheet.y = y + 24


def settings_text(record):
    """Settings in words: UDP, initial wait 500 ms, no maximum, R = 7, final wait 8 s."""
    transport, _, *values = record.split()[1:]
    initial, maximum, count, final = (value.partition("=")[2] for value in values)
    most = "no maximum" if maximum == "none" else f"maximum {clock_text(tracetext.nanoseconds(maximum))}"
    first, last = (clock_text(tracetext.nanoseconds(word)) for word in (initial, final))
    return f"{transport.upper()}, initial wait {first}, {most}, R = {count}, final wait {last}"


def draw_section(sheet, section, rows, heading, until):
    sheet.y += 10
    sheet.paragraph(heading, font_weight="bold")
    if not rows:
        sheet.paragraph("No request was sent.")
        return
    sheet.y += 8
    axis, top = Axis(section, rows, until), sheet.y
    for row in rows:
        draw_row(sheet, row, axis, section.clock)
    draw_axis(sheet, axis, top)


def draw_legend(sheet, kinds):
    """The marks that the picture has, with their names."""
    x, y = MARGIN, sheet.y + 20
    for kind, text in LEGEND.items():
        if kind in kinds:
            width = 40 + text_width(text, SMALL)
            if x + width > WIDTH - MARGIN:
                x, y = MARGIN, y + 20
            sheet.shape(kind, x + 12, y, "legend")
            sheet.text(x + 29, y + 4, text, SMALL)
            x += width + 6
    sheet.y = y + 6


def told(row):
    """A row in words, for those who can't see it."""
    sends = [mark for mark in row.marks if mark.kind in SENDS]
    others = [f"; {mark.text} at {clock_text(mark.clock)}" for mark in row.marks if mark.kind not in SENDS]
    rest = "".join(others[:FLAGS]) + (f"; and {len(others) - FLAGS:,} marks more" if len(others) > FLAGS else "")
    times = f"sent {len(sends)} times, from {clock_text(sends[0].clock)} to" if len(sends) > 1 else "sent at"
    open_end = "; still under way" if row.lives[-1][1] is None else ""
    return f"Request {row.identifier} to {row.address}: {times} {clock_text(sends[-1].clock)}{rest}{open_end}."


def drawn(sections):
    """The sections with the rows that are drawn: forty lines at most, where a section without one counts as one too."""
    room, found = LINES, []
    for section in sections:
        if room > 0:
            rows = list(section.rows.values())[:room]
            found.append((section, rows))
            room -= max(len(rows), 1)
    return found


def left_out(sections, shown):
    """What isn't drawn, as a sentence; nothing where all is."""
    requests = sum(len(section.rows) for section in sections) - sum(len(rows) for _, rows in shown)
    counts = ((requests, "requests"), (len(sections) - len(shown), "agents"))
    words = " and ".join(f"{count:,} {noun}" for count, noun in counts if count)
    return f"Only the first {LINES} lines are drawn, without {words} more." if words else ""


def draw_notes(sheet, notes):
    sheet.y += 8
    for text in notes[:NOTES]:
        sheet.paragraph(text, SMALL)
    if len(notes) > NOTES:
        sheet.paragraph(f"and {len(notes) - NOTES:,} more records", SMALL)
    if sheet.untold:
        sheet.paragraph(f"{sheet.untold:,} marks have no text: a line has room for {FLAGS}", SMALL)


def picture(story, title, until=0):
    """The picture as text; the clock along the bottom goes on to `until` at least."""
    sheet, shown = Sheet(), drawn(story.sections)
    title = "".join(letter if letter.isprintable() else " " for letter in title)
    rows = [row for _, part in shown for row in part]
    sheet.paragraph(title, LARGE, font_weight="bold")
    sheet.paragraph(left_out(story.sections, shown))
    kinds = {mark.kind for row in rows for mark in row.marks}
    draw_legend(sheet, kinds | ({"line"} if rows else set()) | ({"wait"} if any(row.waits for row in rows) else set()))
    for number, (section, part) in enumerate(shown, 1):
        agent = f"Agent {number}: " if len(story.sections) > 1 else ""
        draw_section(sheet, section, part, agent + settings_text(section.settings), until)
    if not shown:
        sheet.paragraph("There is no agent in this trace.")
    draw_notes(sheet, story.notes)
    return sheet.svg(title, " ".join(map(told, rows)) or "No request was sent.")
