"""Traces as text: turns lines a person can write into document 01's trace bytes, and back.

Every kind of record is one row of KINDS, a list of fields; a field knows how it is written and how it
lies in the bytes, in both directions. A change of the trace format changes this table alone. The
language itself is described in docs/BENCH.md.
"""
import ipaddress
import re

MARK = b"\xa5\x5a"
COOKIE = 0x2112A442
NONE = 1 << 61
BODY_LIMIT = 4096
UNITS = {"": 1, "ns": 1, "us": 1000, "ms": 1000_000, "s": 1000_000_000}
CLASSES = {"request": 0x0000, "indication": 0x0010, "success": 0x0100, "error": 0x0110}
BINDING = 1


class Mistake(Exception):
    """Text that is no trace: the place of it and what should stand there."""

    def __init__(self, line, column, expected, found):
        super().__init__(f"line {line}, column {column}: expected {expected}, found {found}")
        self.line, self.column, self.expected = line, column, expected


class NoRecord(Exception):
    """Bytes that are no record of the kind they claim to be."""


class Words:
    """The words of a line that aren't read yet."""

    def __init__(self, number, text):
        self.number = number
        text = text.split("#", 1)[0]
        self.words = [(m.start() + 1, m.group()) for m in re.finditer(r"\S+", text)]
        self.end = len(text.rstrip()) + 1

    def peek(self):
        return self.words[0][1] if self.words else None

    def fail(self, expected):
        column, word = self.words[0] if self.words else (self.end, None)
        raise Mistake(self.number, column, expected, "the end of the line" if word is None else repr(word))

    def take(self, expected, read):
        """The next word as `read` makes it; a ValueError of `read` is the writer's mistake."""
        if not self.words:
            self.fail(expected)
        try:
            value = read(self.words[0][1])
        except ValueError:
            self.fail(expected)
        self.words.pop(0)
        return value

    def key(self, name, expected, read):
        """The value of a word `name=value`."""

        def value(word):
            start, equals, rest = word.partition("=")
            if start != name or not equals:
                raise ValueError
            return read(rest)

        return self.take(f"{name}= and {expected}", value)

    def close(self):
        if self.words:
            self.fail("the end of the line")


class Bytes:
    """The bytes of a body that aren't read yet."""

    def __init__(self, body):
        self.rest = body

    def take(self, count):
        if len(self.rest) < count:
            raise NoRecord
        part, self.rest = self.rest[:count], self.rest[count:]
        return part

    def number(self, count):
        return int.from_bytes(self.take(count), "big")


def number_below(limit):
    """Reads a decimal or 0x number below a limit."""

    def read(word):
        value = int(word, 16 if word.startswith("0x") else 10)
        if not re.fullmatch(r"0x[0-9a-fA-F]+|[0-9]+", word) or value >= limit:
            raise ValueError
        return value

    return read


def time(word):
    """Nanoseconds of `8s`, `500ms`, `3us`, `7ns`, `7`, `none` or `2^60-1`, in eight bytes."""
    power = re.fullmatch(r"2\^(\d{1,2})([+-]\d{1,19})?", word)
    plain = re.fullmatch(r"(\d{1,20})(|ns|us|ms|s)", word)
    if word == "none":
        value = NONE
    elif power:
        value = 2 ** int(power[1]) + int(power[2] or 0)
    elif plain:
        value = int(plain[1]) * UNITS[plain[2]]
    else:
        raise ValueError
    if not 0 <= value < 1 << 64:
        raise ValueError
    return value.to_bytes(8, "big")


def nanoseconds(word):
    """The same as a number."""
    return int.from_bytes(time(word), "big")


def show_time(value, none=False):
    """The shortest way to write a time; 2^61 is `none` where a duration stands."""
    if none and value == NONE:
        return "none"
    for power in (60, 61, 64):
        if abs(value - 2 ** power) <= 1:
            return f"2^{power}" + (f"{value - 2 ** power:+d}" if value != 2 ** power else "")
    for unit in ("s", "ms"):
        if value and value % UNITS[unit] == 0:
            return f"{value // UNITS[unit]}{unit}"
    return str(value)


def some_bytes(word):
    """Bytes of `00ff` or `00*20`, or several of these joined by commas; no word makes no byte."""
    found = b""
    for part in word.split(",") if word else []:
        run = re.fullmatch(r"([0-9a-fA-F]{2})\*(\d{1,5})", part)
        if run:
            found += bytes.fromhex(run[1]) * int(run[2])
        elif re.fullmatch(r"([0-9a-fA-F]{2})+", part):
            found += bytes.fromhex(part)
        else:
            raise ValueError
    return found


def show_bytes(data):
    """The same, a run of eight equal bytes or more as `00*20` (of five digits at most)."""
    parts = re.findall(rb"(?s)((.)\2{7,99998})|((?:(.)(?!\4{7}))+)", data)
    return ",".join(f"{run[:1].hex()}*{len(run)}" if run else rest.hex() for run, _, rest, _ in parts)


def identifier(word):
    """Twelve bytes of up to 24 hex digits, the last digit rightmost."""
    if not re.fullmatch(r"[0-9a-fA-F]{1,24}", word):
        raise ValueError
    return bytes.fromhex(word.rjust(24, "0"))


class Code:
    """One byte that stands for a word."""

    def __init__(self, *words, key=None):
        self.words, self.key = words, key

    def read(self, words):
        expected = " or ".join(self.words)

        def index(word):
            return bytes([self.words.index(word)])

        return words.key(self.key, expected, index) if self.key else words.take(expected, index)

    def show(self, body):
        code = body.number(1)
        if code >= len(self.words):
            raise NoRecord
        return f"{self.key}={self.words[code]}" if self.key else self.words[code]


class Clock:
    """A moment, eight bytes."""

    def read(self, words):
        return words.take("a clock, as 0, 500ms, 8s or 2^60", time)

    def show(self, body):
        return show_time(body.number(8))


class Duration:
    """A duration with its name, eight bytes."""

    def __init__(self, key):
        self.key = key

    def read(self, words):
        return words.key(self.key, "a duration, as 500ms, 8s or none", time)

    def show(self, body):
        return f"{self.key}={show_time(body.number(8), none=True)}"


class Count:
    """R, four bytes."""

    def read(self, words):
        return words.key("R", "a number below 2^32", number_below(1 << 32)).to_bytes(4, "big")

    def show(self, body):
        return f"R={body.number(4)}"


class Identifier:
    """Twelve bytes."""

    def read(self, words):
        return words.take("an identifier of up to 24 hex digits", identifier)

    def show(self, body):
        return body.take(12).hex()


class Address:
    """An address, 27 bytes: `192.0.2.1:3478`, or `[2001:db8::1]:3478` with flow= and scope= unless zero."""

    def read(self, words):
        kind, port, host = words.take("an address, as 192.0.2.1:3478 or [2001:db8::1]:3478", self.split)
        tail = b"".join(self.tail(words, key) for key in ("flow", "scope")) if kind == 6 else bytes(8)
        return bytes([kind]) + port.to_bytes(2, "big") + host.ljust(16, b"\0") + tail

    @staticmethod
    def split(word):
        match = re.fullmatch(r"\[([0-9a-fA-F:.]+)\]:(\d{1,5})|([0-9.]+):(\d{1,5})", word)
        if not match:
            raise ValueError
        port = number_below(1 << 16)(match[2] or match[4])
        if match[1]:
            return 6, port, ipaddress.IPv6Address(match[1]).packed
        return 4, port, ipaddress.IPv4Address(match[3]).packed

    @staticmethod
    def tail(words, key):
        if not (words.peek() or "").startswith(f"{key}="):
            return bytes(4)
        return words.key(key, "a number below 2^32", number_below(1 << 32)).to_bytes(4, "big")

    def show(self, body):
        kind, port, host, flow, scope = (body.number(1), body.number(2), body.take(16), body.number(4), body.number(4))
        if kind == 6:
            tails = "".join(f" {key}={value}" for key, value in (("flow", flow), ("scope", scope)) if value)
            return f"[{ipaddress.IPv6Address(host)}]:{port}{tails}"
        if kind != 4 or any(host[4:]) or flow or scope:
            raise NoRecord
        return f"{ipaddress.IPv4Address(host[:4])}:{port}"


class Message:
    """The rest of a body: `request ID` and so on with method= and attributes, or `raw` and bytes."""

    def read(self, words):
        kind = words.take("request, success, error, indication or raw", self.kind)
        if kind == "raw":
            return words.take("bytes in hex", some_bytes) if words.peek() else b""
        identity = Identifier().read(words)
        method = BINDING
        if (words.peek() or "").startswith("method="):
            method = words.key("method", "a number below 0x1000", number_below(0x1000))
        attributes = b""
        while words.peek():
            attributes += words.take("an attribute, as 0x8022=00ff or 0x0006=616263/00", self.attribute)
        if len(attributes) >= 1 << 16:
            words.fail("attributes below 65,536 bytes")
        return self.join(CLASSES[kind], method, identity, attributes)

    @staticmethod
    def kind(word):
        if word not in CLASSES and word != "raw":
            raise ValueError
        return word

    @staticmethod
    def attribute(word):
        match = re.fullmatch(r"(0x[0-9a-fA-F]{4})=([^/]*)(?:/(.*))?", word)
        if not match:
            raise ValueError
        value = some_bytes(match[2])
        gap = -len(value) % 4
        padding = bytes(gap) if match[3] is None else some_bytes(match[3])
        if len(padding) != gap or len(value) >= 1 << 16:
            raise ValueError
        return int(match[1], 16).to_bytes(2, "big") + len(value).to_bytes(2, "big") + value + padding

    @staticmethod
    def join(bits, method, identity, attributes):
        kind = (method & 0xF80) << 2 | (method & 0x070) << 1 | (method & 0x00F) | bits
        head = kind.to_bytes(2, "big") + len(attributes).to_bytes(2, "big") + COOKIE.to_bytes(4, "big")
        return head + identity + attributes

    def show(self, body):
        message = body.take(len(body.rest))
        try:
            return self.symbols(message)
        except NoRecord:
            return f"raw {show_bytes(message)}".rstrip()

    def symbols(self, message):
        """The message in words; NoRecord where it breaks a rule of its layout."""
        body = Bytes(message)
        kind, length, cookie, identity = body.number(2), body.number(2), body.number(4), body.take(12)
        if kind >= 0x4000 or length % 4 or length != len(body.rest) or cookie != COOKIE:
            raise NoRecord
        name = next(name for name, bits in CLASSES.items() if bits == kind & 0x0110)
        method = (kind & 0x3E00) >> 2 | (kind & 0x00E0) >> 1 | kind & 0x000F
        words = [name, identity.hex()] + ([f"method=0x{method:03x}"] if method != BINDING else [])
        while body.rest:
            words.append(self.show_attribute(body))
        return " ".join(words)

    @staticmethod
    def show_attribute(body):
        kind, length = body.number(2), body.number(2)
        value, padding = body.take(length), body.take(-length % 4)
        tail = f"/{padding.hex()}" if any(padding) else ""
        return f"0x{kind:04x}={show_bytes(value)}{tail}"


WAITS = [Duration("initial"), Duration("max"), Count(), Duration("final")]
KINDS = {
    "settings": (1, [Code("udp", "tcp"), Code("off", "on", key="stats"), *WAITS]),
    "send_request": (2, [Clock(), Address(), Message()]),
    "send": (3, [Address(), Message()]),
    "received": (4, [Clock(), Address(), Message()]),
    "received_untimed": (5, [Address(), Message()]),
    "poll_transmit": (6, [Clock()]),
    "poll": (7, [Clock()]),
    "cancel_retransmissions": (8, [Identifier()]),
    "cancel": (9, [Identifier()]),
    "configure": (10, [Identifier(), *WAITS]),
    "is_peer": (11, [Address()]),
    "validate_peer": (12, [Address()]),
    "stats": (13, []),
    "reset": (14, []),
    "query": (15, [Identifier()]),
}
NAMES = {number: name for name, (number, _) in KINDS.items()}


def frame(kind, body):
    return MARK + bytes([kind]) + len(body).to_bytes(2, "big") + body


def assemble_line(words):
    """The bytes of one line."""

    def known(word):
        if word not in KINDS and word not in ("record", "bytes"):
            raise ValueError
        return word

    name = words.take(f"a record, one of {', '.join(KINDS)}, record or bytes", known)
    if name == "bytes":
        return words.take("bytes in hex", some_bytes)
    if name == "record":
        kind = words.take("a kind below 256", number_below(256))
        body = words.take("bytes in hex", some_bytes) if words.peek() else b""
    else:
        kind, fields = KINDS[name]
        body = b"".join(field.read(words) for field in fields)
    if len(body) >= 1 << 16:
        words.fail("a body below 65,536 bytes")
    return frame(kind, body)


def assemble(text):
    """The trace's bytes; raises Mistake."""
    trace = b""
    for number, line in enumerate(text.splitlines(), 1):
        words = Words(number, line)
        if words.peek():
            trace += assemble_line(words)
            words.close()
    return trace


def text_of(data):
    """The text in these bytes; what isn't UTF-8 is a mistake at its place."""
    try:
        return data.decode()
    except UnicodeDecodeError as error:
        before = data[:error.start]
        line, column = before.count(b"\n") + 1, error.start - before.rfind(b"\n")
        raise Mistake(line, column, "text in UTF-8", f"byte 0x{data[error.start]:02x}")


def trace_of(data):
    """The trace in a file that holds it as bytes, which begin with the mark, or as text; raises Mistake."""
    return data if data.startswith(MARK) else assemble(text_of(data))


def show_record(kind, body):
    """One whole record in words, or as `record` where its body isn't what its kind asks for."""
    try:
        if kind not in NAMES or len(body) > BODY_LIMIT:
            raise NoRecord
        name, rest = NAMES[kind], Bytes(body)
        words = [name] + [field.show(rest) for field in KINDS[name][1]]
        if rest.rest:
            raise NoRecord
        return " ".join(words)
    except NoRecord:
        return f"record {kind} {show_bytes(body)}".rstrip()


def entries(trace):
    """The text of each record; what has no frame any more is one last `bytes` line."""
    found = []
    while trace:
        length = int.from_bytes(trace[3:5], "big")
        if trace[:2] != MARK or len(trace) < 5 + length:
            return found + [f"bytes {show_bytes(trace)}"]
        found.append(show_record(trace[2], trace[5:5 + length]))
        trace = trace[5 + length:]
    return found


def beside(records, answers):
    """Each record with its answer behind it as a comment, so that the text can still be assembled."""
    width = min(max(map(len, records), default=0), 72)
    rows = [f"{record:<{width}}  # {answer}" for record, answer in zip(records, answers)]
    return rows + [f"{record:<{width}}  # (no answer)" for record in records[len(answers):]]
