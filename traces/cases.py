"""The recorded traces: what each one plays and the sentence that says what it shows.

`traces/regenerate` plays them on the oracle and writes them with their answers into traces/recorded.
Identifiers are short here (`1`); the first number on a line with a clock is in nanoseconds unless it has
a unit. A family of cases that differ in one number is made by a loop.
"""

PEER, OTHER = "192.0.2.1:3478", "192.0.2.2:3478"
GROUPS = {}


def case(group, name, sentence, *lines):
    """Adds a case to a group; lines may be lists of lines."""
    flat = [line for part in lines for line in ([part] if isinstance(part, str) else part)]
    GROUPS.setdefault(group, []).append((name, sentence, "\n".join(flat)))


def settings(initial=10, maximum="none", r=3, final=5, transport="udp", stats="off"):
    return f"settings {transport} stats={stats} initial={initial} max={maximum} R={r} final={final}"


def configure(identifier=1, initial=10, maximum="none", r=3, final=5):
    return f"configure {identifier} initial={initial} max={maximum} R={r} final={final}"


def ask(clock=0, identifier=1, to=PEER, rest=""):
    return f"send_request {clock} {to} request {identifier} {rest}".rstrip()


def answer(clock=0, identifier=1, sender=PEER, kind="success"):
    return f"received {clock} {sender} {kind} {identifier}"


def untimed(identifier=1, sender=PEER, kind="success"):
    return f"received_untimed {sender} {kind} {identifier}"


def step(clock):
    return f"poll_transmit {clock}"


def poll(clock):
    return f"poll {clock}"


def waits(initial, maximum, r):
    """The waits by UDP, from the document's formula."""
    return [min(initial * 2 ** i, maximum) for i in range(max(r, 1) - 1)]


def rounds(moments):
    """A poll one before and a send on each moment."""
    return [line for moment in moments for line in (poll(moment - 1), step(moment))]


def sums(start, durations):
    """The moments at which the waits end when each is met on time."""
    found = []
    for duration in durations:
        start += duration
        found.append(start)
    return found


SECOND = 1_000_000_000
MS = 1_000_000
NO_MAXIMUM = 1 << 61


def document():
    case("document", "whole-example", "Document 01's whole example.",
         settings("500ms", r=2, final="8s"), ask(), poll(0), step("500ms"), poll("8500ms"), poll("8500ms"))
    default = sums(0, waits(500 * MS, NO_MAXIMUM, 7))
    late = answer(default[-1] + 50 * MS)
    for name, final, sentence in (
            ("stopped-car-8ms", "8ms",
             "The Rust's own default: 8 ms behind the seventh send the request is given up, and the answer 50 ms "
             "behind it is dropped."),
            ("stopped-car-8s", "8s",
             "The default of RFC 8489: with 8 s behind the seventh send the answer 50 ms behind it is taken.")):
        case("document", name, sentence, settings("500ms", r=7, final=final, stats="on"), ask(),
             [step(moment) for moment in default], poll(default[-1] + 8 * MS), late, "stats")
    case(
        "document", "default-to-the-end",
        "S1: the default sends at 0, 500, 1,500, 3,500, 7,500, 15,500 and 31,500 ms and ends at 39,500 ms.",
        settings("500ms", r=7, final="8s"), ask(), rounds(default), poll(default[-1] + 8 * SECOND - 1),
        poll(default[-1] + 8 * SECOND))
    for r in (0, 1):
        case("document", f"one-send-R{r}", f"S2: R = {r} gives no wait; the first send is the only one.",
             settings(r=r), ask(), poll(0), step(0), poll(4), poll(5))
    capped = sums(0, waits(500 * MS, 3000 * MS, 6))
    case(
        "document", "capped-waits",
        "S3: 500 ms with a maximum of 3,000 ms and R = 6 waits 500, 1,000, 2,000, 3,000, 3,000 ms.",
        settings("500ms", "3s", 6, "8s"), ask(), rounds(capped), poll(capped[-1]))
    long = sums(0, waits(1, NO_MAXIMUM, 33))
    case(
        "document", "thirty-two-waits",
        "S4: R = 33 with an initial wait of 1 ns; the last of 32 waits is 2,147,483,648 ns.",
        settings(1, r=33, final=1), ask(), [step(moment) for moment in long[:-1]], poll(long[-2]), step(long[-1] - 1),
        step(long[-1]), poll(long[-1] + 1))
    case(
        "document", "default-by-tcp", "S5: by TCP the default sends once and ends at 39,500 ms.",
        settings("500ms", r=7, final="8s", transport="tcp"), ask(), poll(0), step("500ms"), poll(39500 * MS - 1),
        poll("39500ms"))
    case(
        "document", "R-34-refused", "S6: R = 34 is refused, and as the first settings it ends the replay.",
        settings(r=34), poll(0))
    case(
        "document", "four-classes", "S7: the four classes by the call that takes each.", settings(stats="on"),
        ask(0, 1), f"send {PEER} indication 2", f"send {PEER} success 3", f"send {PEER} error 4", "stats")
    case("document", "short-and-odd-messages", "S8: 0 and 19 bytes, and a length of 2, are bad messages.",
         settings(), f"send_request 0 {PEER} raw", f"send_request 0 {PEER} raw 00*19",
         f"send_request 0 {PEER} raw 000100022112a442,00*14", poll(0))
    case("document", "on-the-moment", "S9: due = now sends, end = now times out.",
         settings(r=2), ask(), step(9), step(10), poll(14), poll(15))
    case(
        "document", "late-step",
        "S10: sent at 0 with 500 ms and R = 3, the next call at 700 ms sends, and the next is due at 1,700 ms.",
        settings("500ms", r=3, final="8s"), ask(), step("700ms"), poll("700ms"), step(1700 * MS - 1), step("1700ms"))


def waits_cases():
    for r in range(2, 9):
        moments = sums(0, waits(10, NO_MAXIMUM, r))
        case(
            "waits", f"udp-R{r}",
            f"R = {r} by UDP: {r} sends on the moment, each wait twice the last, then the final wait.", settings(r=r),
            ask(), rounds(moments), poll(moments[-1]), poll(moments[-1] + 5))
    for r in range(34):
        end = sum(waits(1, NO_MAXIMUM, r)) + 5
        case(
            "waits", f"tcp-R{r}",
            f"R = {r} by TCP: one send, and the end behind the final wait and the sum of {max(r, 1) - 1} waits.",
            settings(1, r=r, transport="tcp"), ask(), poll(0), step(end - 1), poll(end - 1), poll(end))
    for maximum in (0, 1, 9, 10, 11, 19, 20, 21, 39, 40):
        moments = sums(0, waits(10, maximum, 4))
        case(
            "waits", f"maximum-{maximum}", f"A maximum of {maximum} over waits of 10, 20 and 40.",
            settings(maximum=maximum, r=4), ask(),
            [line for moment in moments for line in (poll(moment), step(moment))], poll(moments[-1]),
            poll(moments[-1] + 5))
    case("waits", "zero-initial", "With an initial wait of 0 every step is due at the clock of the send.",
         settings(0, r=3), ask(), poll(0), step(0), step(0), step(0), poll(0), poll(5))
    case(
        "waits", "zero-final", "A final wait of 0 times out at the clock of the last send.", settings(r=2, final=0),
        ask(), step(10), poll(10))
    case(
        "waits", "all-zero", "Nothing to wait for at all: one send, timed out at once.", settings(0, 0, 0, 0), ask(),
        poll(0))
    case("waits", "an-hour-at-most", "No wait is longer than 3,600 s, whatever is due later.",
         settings("none", r=2), ask(7), poll(7), poll(8))
    case("waits", "an-hour-exactly", "A due moment just before, on and just behind the hour.",
         settings(3600 * SECOND, r=2), ask(1), poll(0), poll(1), poll(2))
    case("waits", "no-final-wait-known", "A final wait of 2^61 is never reached: the hour is said instead.",
         settings(r=1, final="none"), ask(), poll(0), poll("2^60"))
    case("waits", "last-clock", "On clock 2^60 the wait that is said may lie above it.",
         settings(r=1), poll("2^60"), ask("2^60"), poll("2^60"))
    case(
        "waits", "late-poll-sends-nothing",
        "A poll never steps: however late, a request with steps left waits until now.", settings(r=2), ask(),
        poll(1000), poll(1000), step(1000), poll(1000), poll(1005))
    case(
        "waits", "steps-one-at-a-time",
        "Long overdue, each poll_transmit sends once, and the next wait counts from that send.", settings(r=3), ask(),
        step(1000), step(1000), poll(1000), step(1019), step(1020), step(9999), poll(1025))
    case("waits", "no-send-past-the-end", "At and past the end poll_transmit hands out nothing and removes nothing.",
         settings(r=1), ask(), step(4), step(5), step(6), "query 1", poll(6))
    for transport in ("udp", "tcp"):
        case(
            "waits", f"products-above-{transport}",
            f"Products above 2^61 stop there by {transport.upper()}: outside the runs against the Rust, and no clock "
            "can tell.",
            settings("none", r=33, final="none", transport=transport), ask(), poll(0), step("2^60"), poll("2^60"))


def moments_cases():
    for name, r, due in (("due", 2, 10), ("second-due", 3, 30)):
        lead = [step(10)] if r == 3 else []
        for offset in (-1, 0, 1):
            case(
                "moments", f"{name}{offset:+d}",
                f"poll_transmit {offset:+d} from the {name.replace('-', ' ')} moment, and what a poll says then.",
                settings(r=r), ask(), lead, poll(due + offset), step(due + offset), poll(due + offset))
    for r, last in ((1, 0), (2, 10)):
        for offset in (-1, 0, 1):
            case(
                "moments", f"end-R{r}{offset:+d}", f"A poll {offset:+d} from the end with R = {r}.", settings(r=r),
                ask(), [step(10)] if r == 2 else [], step(last + 5 + offset), poll(last + 5 + offset),
                poll(last + 5 + offset))
    case(
        "moments", "waits-of-several", "A poll says the earliest of all due moments and ends.", settings(10, r=2),
        ask(0, 3), ask(2, 1), ask(4, 2), poll(4), step(10), poll(10), step(12), poll(12), step(14), poll(14))
    case(
        "moments", "first-due-first",
        "poll_transmit stops at the first request that goes out; later ones aren't touched.", settings(r=2),
        ask(0, 2), ask(0, 1), ask(0, 3), step(10), step(11), step(12), step(13), poll(14), poll(15), poll(16),
        poll(17))
    case(
        "moments", "one-report-a-poll",
        "Each poll reports one request, in identifier order, timed out and cancelled alike.", settings(r=1),
        ask(0, 3), ask(0, 1), ask(0, 2), "cancel 2", poll(5), poll(5), poll(5), poll(5))
    case("moments", "ready-behind-waiting", "A request that waits doesn't hide a later one that timed out.",
         settings(r=1), ask(0, 2), ask(3, 1), poll(5), poll(5), poll(8))
    for place in range(12):
        low, high = "00" * 12, "00" * place + "80" + "00" * (11 - place)
        case(
            "moments", f"order-byte-{place}",
            f"Two identifiers that differ in byte {place} alone come in their order, however they were sent.",
            settings(r=2), ask(0, high), ask(0, low), step(10), step(10), poll(15), poll(15))
    case("moments", "first-byte-heaviest", "The first byte weighs most: 00ff.. comes before 0100...",
         settings(r=1), ask(0, "01" + "00" * 11), ask(0, "00" + "ff" * 11), poll(5), poll(5))


STAGES = (
    ("just-sent", [], 0, "right after the first send"),
    ("stepped", [step(10)], 10, "after one of two steps"),
    ("all-steps", [step(10), step(30)], 30, "after all steps"),
    ("overdue", [], 50, "while a step is overdue"),
    ("past-end", [step(10), step(30)], 40, "past the end"),
)


def cancel_cases():
    silence, cancel = "cancel_retransmissions 1", "cancel 1"
    for name, calls, what in (("silence", [silence], "Retransmissions cancelled"), ("cancel", [cancel], "Cancelled"),
                              ("silence-cancel", [silence, cancel], "Both cancels, the outright one last,"),
                              ("cancel-silence", [cancel, silence], "Both cancels, the outright one first,")):
        for stage, lead, now, when in STAGES:
            case(
                "cancels", f"{name}-{stage}", f"{what} {when}: the steps that pass and what the polls say.",
                settings(stats="on"), ask(), lead, calls, step(now), poll(now), poll(now + 100), step(now + 100),
                step(now + 100), poll(now + 100), "stats")
    case(
        "cancels", "silent-steps-count",
        "Silent steps raise the count and set the last send: the end counts from the last of them.", settings(),
        ask(), silence, poll(0), step(12), poll(12), step(31), step(32), poll(36), poll(37))
    case("cancels", "silenced-timed-out", "Silenced and polled first at its end, a request has timed out.",
         settings(r=2), ask(), silence, step(10), poll(15))
    case(
        "cancels", "silenced-cancelled-at-once",
        "Silenced with all steps passed and polled before its end, a request is cancelled at once.", settings(r=2),
        ask(), silence, step(10), poll(14))
    case(
        "cancels", "silenced-one-send",
        "With R = 1 there is no step left: silenced, then cancelled by the next poll.", settings(r=1), ask(), silence,
        poll(4))
    case(
        "cancels", "silenced-by-tcp",
        "By TCP there are no steps: silenced, a request is cancelled by the next poll before its end.",
        settings(transport="tcp"), ask(), silence, poll(34))
    case("cancels", "silenced-by-tcp-at-end", "By TCP, silenced and polled at its end, a request has timed out.",
         settings(transport="tcp"), ask(), silence, poll(35))
    case(
        "cancels", "silence-on-the-way",
        "On its way to the one that goes out, poll_transmit passes a silent step for each silenced request before it.",
        settings(), [ask(0, n) for n in (1, 2, 3, 4)], silence, "cancel_retransmissions 2",
        "cancel_retransmissions 4", step(10), poll(10), step(10), poll(10))
    case("cancels", "silence-behind-a-send", "A silenced request behind the one that goes out keeps its step.",
         settings(r=2), ask(0, 1), ask(0, 2), "cancel_retransmissions 2", step(10), poll(10), step(11), poll(11))
    case("cancels", "cancelled-passed-by", "poll_transmit passes a cancelled request by and sends the next.",
         settings(r=2), ask(0, 1), ask(0, 2), cancel, step(10), poll(10), poll(10))
    case(
        "cancels", "cancel-frees-the-identifier",
        "Until a poll has reported it a cancelled request is in progress; then its identifier is free.", settings(),
        ask(), cancel, ask(1), poll(1), ask(1))
    case(
        "cancels", "cancelled-order",
        "Of a cancelled and a timed out request the smaller identifier is reported first.", settings(r=1), ask(0, 1),
        ask(0, 2), ask(0, 3), "cancel 3", "cancel 1", poll(5), poll(5), poll(5))
    case("cancels", "cancel-twice", "A second cancel of either kind is as good as one.",
         settings(), ask(), silence, silence, cancel, cancel, poll(0), poll(0))


def configure_cases():
    for stage, lead, now, when in STAGES:
        for r, what in ((0, "no waits"), (2, "one wait"), (3, "as many waits"), (6, "more waits")):
            case(
                "configure", f"to-R{r}-{stage}", f"Configured to {what} {when}: count and times stay.", settings(),
                ask(), lead, configure(r=r, initial=4), poll(now), step(now), poll(now), step(now + 200),
                poll(now + 200), poll(now + 205))
    case(
        "configure", "one-request-alone",
        "Configure changes one request, not the agent's settings or another request.", settings(r=2), ask(0, 1),
        ask(0, 2), configure(1, initial=3, r=2), ask(0, 3), step(3), step(3), step(10), step(10), step(10))
    case(
        "configure", "configured-by-tcp", "By TCP the sum is redone and there are still no steps.",
        settings(transport="tcp"), ask(), poll(0), configure(initial=7, r=4, final=1), poll(0), step(49), poll(49),
        poll(50))
    case("configure", "keeps-silence", "Configure doesn't undo cancelled retransmissions.",
         settings(r=1), ask(), "cancel_retransmissions 1", configure(r=2), poll(0), step(10), poll(10))
    case(
        "configure", "keeps-cancel", "Configure doesn't undo a cancel.", settings(), ask(), "cancel 1",
        configure(r=6), step(10), poll(10))
    case(
        "configure", "maximum", "Configure's maximum caps the waits (its place is behind the initial wait).",
        settings(), ask(), configure(initial=10, maximum=15, r=3, final=1), step(10), poll(10), step(24), step(25),
        poll(26))
    case("configure", "no-maximum", "2^61 as configure's maximum never caps, as in its short form.",
         settings(maximum=1), ask(), configure(r=3), poll(0), step(10), poll(10), step(30), poll(30))
    case(
        "configure", "revives",
        "A request past its end and not yet polled goes on when it is configured to more waits.", settings(r=1),
        ask(), step(9), configure(r=3), poll(9), step(10), poll(10))
    case(
        "configure", "ends-at-once",
        "Configured to a final wait that is already over, a request times out at the next poll.",
        settings(r=1, final="8s"), ask(), poll(100), configure(r=1, final=100), poll(100))


def answer_cases():
    on = settings(stats="on")
    for kind in ("success", "error"):
        case(
            "answers", f"{kind}-early",
            f"An answer by {kind} takes its request out, counts a round trip and validates its sender.", on, ask(),
            answer(7, kind=kind), "query 1", f"is_peer {PEER}", "stats", poll(7))
        case(
            "answers", f"{kind}-untimed", f"Without a clock an answer by {kind} counts no round trip.", on, ask(),
            untimed(kind=kind), "stats")
    case(
        "answers", "round-trip-of-zero", "An answer at the clock of the send counts a round trip of 0.", on, ask(5),
        answer(5), "stats")
    case("answers", "round-trips", "Sum, least, most and count of three round trips.",
         on, ask(0, 1), ask(0, 2), ask(0, 3), answer(4, 2), answer(5, 1), answer(9, 3), "stats")
    case(
        "answers", "after-a-send", "After a retransmission no round trip is counted.", on, ask(), step(10),
        answer(11), "stats")
    case(
        "answers", "after-a-silent-step", "A silent step rules the round trip out too.", on, ask(),
        "cancel_retransmissions 1", step(10), answer(11), "stats")
    case("answers", "answered-by-tcp", "By TCP nothing raises the count, so the round trip counts even past the end.",
         settings(transport="tcp", stats="on"), ask(), answer(1000), "stats")
    case(
        "answers", "past-the-end", "An answer past the end is taken if no poll has reported the request.",
        settings(r=1, stats="on"), ask(), answer(50), "stats", poll(50))
    case("answers", "after-the-report", "After the report an answer isn't accepted and validates nobody.",
         settings(r=1, stats="on"), ask(), poll(5), answer(6), f"is_peer {PEER}", "stats")
    case(
        "answers", "doubled", "The second of two answers isn't accepted.", on, ask(), answer(1),
        answer(1, sender=OTHER), f"is_peer {OTHER}", "stats")
    case(
        "answers", "unasked", "An answer that nobody asked for isn't accepted; only the clock mark moves.", on,
        answer(7), poll(6), poll(7), f"is_peer {PEER}", "stats")
    case(
        "answers", "unasked-untimed", "Without a clock an unasked answer changes nothing.", on, untimed(), poll(0),
        "stats")
    case("answers", "other-address", "An answer is taken whatever address it came from, and that one is validated.",
         on, ask(), answer(1, sender=OTHER), f"is_peer {OTHER}", f"is_peer {PEER}")
    case(
        "answers", "to-a-cancelled", "A cancelled request not yet polled can be answered.", on, ask(), "cancel 1",
        answer(3), poll(3), "stats")
    case(
        "answers", "to-a-silenced", "A silenced request can be answered, with its round trip.", on, ask(),
        "cancel_retransmissions 1", answer(3), "stats")
    case(
        "answers", "to-another-identifier", "An identifier that differs in one digit is another request.", on,
        ask(0, 1), answer(1, 2), answer(1, "100000000000000000000001"), answer(1, 1))
    case(
        "answers", "identifier-again", "After the answer the identifier can be used again.", on, ask(), answer(1),
        ask(2), answer(3), "stats")
    case(
        "answers", "other-method", "Method and length of an answer don't matter.", on, ask(),
        f"received 1 {PEER} success 1 method=0x123 0x8022=00*300", "stats")
    for kind in ("request", "indication"):
        case(
            "answers", f"{kind}-heard",
            f"A received {kind} is accepted, validates its sender and never touches the table.", on, ask(),
            answer(1, 1, OTHER, kind), "query 1", f"is_peer {OTHER}", "stats")
        case(
            "answers", f"{kind}-heard-untimed", f"The same for a {kind} without a clock.", on, ask(),
            untimed(1, OTHER, kind), "query 1", f"is_peer {OTHER}", "stats")


def statistics_cases():
    on = settings(stats="on")
    case("statistics", "fresh", "A fresh record is zero, with no least and no most.", on, "stats")
    case("statistics", "requests-and-bytes", "A request counts itself and its bytes; later sends count bytes only.",
         on, ask(rest="0x8022=00*100"), "stats", step(10), "stats", step(30), "stats")
    case("statistics", "refused-request", "A request in progress counts nothing.", on, ask(), ask(), "stats")
    for kind, counter in (("indication", "an indication"), ("success", "a response"), ("error", "a response")):
        case("statistics", f"send-{kind}", f"Sending {kind} counts {counter} and its bytes, and validates nobody.",
             on, f"send {PEER} {kind} 1 0x0020=0001a147e112a643", f"is_peer {PEER}", "stats")
    case("statistics", "received-bytes", "Bytes of all accepted messages count as received.",
         on, ask(), answer(1), answer(1, kind="request"), answer(1, kind="indication"), answer(1), "stats")
    case(
        "statistics", "timed-out", "Timed out counts when poll reports it.", settings(r=1, stats="on"), ask(),
        step(5), "stats", poll(5), "stats")
    case(
        "statistics", "cancelled", "Cancelled counts when poll reports it.", on, ask(), "cancel 1", "stats", poll(0),
        "stats")
    case(
        "statistics", "silent-bytes", "A silent step counts no bytes.", on, ask(), "cancel_retransmissions 1",
        step(10), "stats")
    case(
        "statistics", "reset", "Reset zeroes the record and leaves requests, peers and clock.", on, ask(3), answer(4),
        ask(5, 2), "reset", "stats", "query 2", f"is_peer {PEER}", poll(4), answer(6, 2), "stats")
    case("statistics", "off", "While off, statistics and reset are refused by 11 and everything else works.",
         settings(), "stats", "reset", ask(), step(10), answer(11), "stats")
    case("statistics", "fresh-agent", "Settings in the middle make a fresh agent with a record of its own.",
         on, ask(7), "stats", on, "stats", ask(0), settings(), "stats", poll(0))
    case(
        "statistics", "sum-stops",
        "The sum of round trips stops at 2^64-1; the Rust's has no stop, so this is outside the runs.", on,
        [ask(0, n) for n in range(1, 18)], [answer("2^60", n) for n in range(1, 4)], "stats",
        [answer("2^60", n) for n in range(4, 18)], "stats")
    case(
        "statistics", "sum-of-2^61",
        "A sum of round trips of 2^61 exactly is the Rust's to decide, the next one isn't.", on, ask(0, 1), ask(0, 2),
        ask("2^60-1", 3), answer("2^60", 1), answer("2^60", 2), "stats", answer("2^60", 3), "stats")


SIX = "[2001:db8::1]:3478"
NEIGHBOURS = (
    ("ipv4-address", PEER, "192.0.2.129:3478"),
    ("ipv4-port", PEER, "192.0.2.1:3479"),
    ("ipv4-high-port", PEER, "192.0.2.1:36246"),
    ("ipv6-address", SIX, "[2001:db8::2]:3478"),
    ("ipv6-first-byte", SIX, "[a001:db8::1]:3478"),
    ("ipv6-port", SIX, "[2001:db8::1]:3479"),
    ("ipv6-flow", SIX, SIX + " flow=1"),
    ("ipv6-scope", SIX, SIX + " scope=1"),
    ("ipv6-high-flow", SIX + " flow=1", SIX + " flow=2147483649"),
    ("kinds", "1.2.3.4:5", "[102:304::]:5"),
    ("mapped", "1.2.3.4:5", "[::ffff:1.2.3.4]:5"))


def peer_cases():
    for name, one, other in NEIGHBOURS:
        case(
            "peers", f"differs-in-{name}",
            f"Two addresses that differ in one thing ({name.replace('-', ' ')}) are two peers.", settings(),
            f"is_peer {one}", f"validate_peer {one}", f"is_peer {one}", f"is_peer {other}", f"validate_peer {other}",
            f"is_peer {other}")
    many = [f"validate_peer 198.51.100.{n}:1" for n in range(64)]
    full = [settings(stats="on"), ask(0, 1, "198.51.100.7:1"), *many]
    case(
        "peers", "full-list", "64 peers fit; the 65th is refused by 10, a known one isn't.", settings(), many,
        f"validate_peer {PEER}", "validate_peer 198.51.100.63:1", f"is_peer {PEER}")
    case(
        "peers", "full-answer-from-new",
        "An answer from a new sender with a full list is refused by 10: the request, the mark and the counters stay.",
        full, answer(9), "query 1", poll(8), "stats", answer(9, sender="198.51.100.7:1"), "stats")
    case(
        "peers", "full-untimed", "The same for an answer without a clock.", full, untimed(), "query 1",
        untimed(sender="198.51.100.0:1"))
    case(
        "peers", "full-unasked", "An unasked answer from a new sender is not accepted before 10 is considered.", full,
        answer(9, 2), poll(8), untimed(2))
    case(
        "peers", "full-heard", "A request or an indication from a new sender is refused by 10.", full,
        answer(1, 1, PEER, "request"), untimed(1, PEER, "indication"), answer(1, 1, "198.51.100.1:1", "request"),
        "stats")
    case(
        "peers", "twice", "A peer that is validated twice takes one place.", settings(), many[:63], many[0],
        f"validate_peer {PEER}", f"validate_peer {OTHER}")
    case(
        "peers", "sending-validates-nobody", "Sending to an address doesn't validate it.", settings(), ask(),
        step(10), f"is_peer {PEER}")
    case(
        "peers", "fresh-agent-forgets", "A fresh agent knows nobody.", settings(), f"validate_peer {PEER}",
        settings(), f"is_peer {PEER}")


GOOD = "000100002112a442,00*11,01"
FAULTS = (
    ("empty", "raw", "no byte at all"),
    ("nineteen", "raw 000100002112a442,00*11", "19 bytes"),
    ("top-bit", "raw 800100002112a442,00*12", "the top bit set"),
    ("second-bit", "raw 400100002112a442,00*12", "the second bit set"),
    ("cookie", "raw 000100002112a443,00*12", "another cookie"),
    ("length-too-long", "raw 000100042112a442,00*12", "a length beyond the bytes"),
    ("length-too-short", "raw 000100002112a442,00*16", "more bytes than the length"),
    ("odd-length", "raw 000100062112a442,00*12,802200020000", "a length of 6, bytes and all"),
    ("attribute-head-cut", "raw 000100042112a442,00*12,80220001", "an attribute whose value passes the end"),
    ("attribute-passes-end", "raw 000100082112a442,00*12,80220005,00*4", "an attribute one byte too long"),
    ("second-attribute", "raw 0001000c2112a442,00*12,80220004,00*4,80220004", "a second attribute that passes the end"),
    ("longest-attribute", "raw 000100042112a442,00*12,8022ffff", "an attribute of 65,535 bytes that aren't there"))


def message_cases():
    for name, message, what in FAULTS:
        case(
            "messages", f"bad-{name}",
            f"Bytes with {what} are refused by 5 wherever a message goes, and the mark stays.", settings(stats="on"),
            f"send_request 5 {PEER} {message}", f"send {PEER} {message}", f"received 5 {PEER} {message}",
            f"received_untimed {PEER} {message}", poll(0), "stats")
    for length in range(1, 10):
        case(
            "messages", f"attribute-of-{length}", f"An attribute of {length} bytes with padding that isn't zero.",
            settings(), ask(rest="0x0006=" + "41" * length + ("/" + "ff" * (-length % 4) if length % 4 else "")),
            "query 1", step(10))
    for kind, word in (("0x0008", "SHA-1"), ("0x001c", "SHA-256")):
        size = 20 if kind == "0x0008" else 32
        case(
            "messages", f"integrity-{word}", f"A request with {word} integrity, alone and with attributes before it.",
            settings(), ask(0, 1, rest=f"{kind}=11*{size}"), "query 1",
            ask(0, 2, rest=f"0x0006=616263 {kind}=11*{size}"), "query 2")
    case("messages", "no-integrity", "Types that differ from the integrity types in one byte are none.",
         settings(), ask(rest="0x0009= 0x0108= 0x801c= 0x0800= 0x1c00= 0x0000="), "query 1")
    for name, order, what in (
            ("sha256-last", "0x0008=11*20 0x001c=22*32", "SHA-256 behind SHA-1"),
            ("sha1-last", "0x001c=22*32 0x0008=11*20", "SHA-1 behind SHA-256"),
            ("others-behind", "0x0008=11*20 0x0006=616263", "another attribute behind SHA-1"),
            ("any-length", "0x001c=", "an empty SHA-256 attribute"),
            ("both-twice", "0x0008= 0x001c= 0x0008=", "SHA-1, SHA-256, SHA-1")):
        case(
            "messages", f"integrity-{name}", f"The last of the two types on the whole walk counts: {what}.",
            settings(), ask(rest=order), "query 1")
    vector = (
        "raw 000100582112a442b7e7a701bc34d686fa87dfae802200105354554e207465737420636c69656e74002400046e0001ff"
        "80290008932ff9b151263b36000600096576746a3a68367659202020000800149aeaa70cbfd8cb56781ef2b5b2d3f249c1b571a2"
        "80280004e57a3bcf")
    reply = (
        "raw 0101003c2112a442b7e7a701bc34d686fa87dfae8022000b7465737420766563746f7220002000080001a147e112a643"
        "000800142b91f599fd9e90c38c7489f92af9ba53f06be7d780280004c07d4c96")
    case(
        "messages", "rfc5769",
        "RFC 5769's sample request (2.1) and its IPv4 response (2.2): SHA-1, FINGERPRINT and padding of spaces.",
        settings(stats="on"), f"send_request 0 {PEER} {vector}", "query b7e7a701bc34d686fa87dfae",
        f"received 3 {PEER} {reply}", "stats")
    for method in ("0x000", "0x002", "0x080", "0x555", "0xfff"):
        case(
            "messages", f"method-{method}", f"Method {method} in all four classes.", settings(stats="on"),
            ask(rest=f"method={method}"), f"send {PEER} indication 2 method={method}",
            f"received 1 {PEER} error 1 method={method}", f"received 1 {PEER} request 3 method={method}", "stats")
    case(
        "messages", "longest-request", "1,024 bytes are the longest request; it goes out whole each time.",
        settings(stats="on"), ask(rest="0x8022=5a*1000"), step(10), "stats")
    case(
        "messages", "long-received", "Received and sent messages may be longer than requests.", settings(stats="on"),
        f"received 0 {PEER} request 1 0x8022=5a*4036", f"send {PEER} indication 1 0x8022=5a*4044", "stats")


def refusal_cases():
    limit = (
        ("R", dict(r=34)),
        ("R-max", dict(r=2 ** 32 - 1)),
        ("initial", dict(initial="2^61+1")),
        ("max", dict(maximum="2^61+1")),
        ("final", dict(final="2^61+1")))
    for name, change in limit:
        case(
            "refusals", f"2-first-{name}",
            f"First settings beyond the limit in {name} are refused by 2 and end the replay.", settings(**change),
            poll(0))
        case(
            "refusals", f"2-later-{name}",
            f"Later settings beyond the limit in {name} are refused by 2 and keep the old agent.",
            settings(stats="on"), ask(3), settings(**change), poll(2), "query 1", "stats")
        case(
            "refusals", f"2-configure-{name}",
            f"Configure beyond the limit in {name} is refused by 2 and changes nothing, known identifier or not.",
            settings(), ask(), configure(1, **change), configure(2, **change), poll(0))
    case(
        "refusals", "2-limits-hold", "R = 33 and durations of 2^61 are within the limits.",
        settings("none", "none", 33, "none"), poll(0))
    calls = (
        ("send_request", lambda clock: ask(clock, 2)),
        ("received", lambda clock: answer(clock)),
        ("unasked", lambda clock: answer(clock, 9)),
        ("poll_transmit", step),
        ("poll", poll))
    for name, call in calls:
        case(
            "refusals", f"3-{name}",
            f"{name} with a clock below the mark, above 2^60 and far above is refused by 3; on the mark it isn't.",
            settings(), ask(5), call(4), call("2^60+1"), call("2^64-1"), call(5))
    case(
        "refusals", "3-mark-stays", "A refused call leaves the mark: the highest clock is that of an unrefused call.",
        settings(), ask(5), ask(9), "cancel 2", poll("2^60+1"), poll(5))
    case(
        "refusals", "3-mark-moves", "Every unrefused call with a clock moves the mark.", settings(), ask(1), poll(0),
        step(2), poll(1), poll(3), step(2), answer(4), poll(3), answer(6), poll(5))
    case("refusals", "3-fresh-mark", "A fresh agent's mark is 0.", settings(), poll(100), settings(), poll(0))
    for length, what in ((1028, "a good message of 1,028 bytes"), (1025, "1,025 bytes that are no message")):
        message = "request 1 0x8022=5a*1004" if length == 1028 else "raw 00*1025"
        case(
            "refusals", f"4-{length}", f"{what[0].upper() + what[1:]} in send_request is 4.", settings(),
            f"send_request 0 {PEER} {message}", f"received 0 {PEER} {message}", poll(0))
    case(
        "refusals", "4-wrong-class", "A response of 1,028 bytes in send_request is 4 before it is 6.", settings(),
        f"send_request 0 {PEER} success 1 0x8022=5a*1004")
    case(
        "refusals", "4-in-progress", "A request of 1,028 bytes with an outstanding identifier is 4 before it is 7.",
        settings(), ask(), ask(rest="0x8022=5a*1004"))
    for kind in ("success", "error", "indication"):
        case(
            "refusals", f"6-request-{kind}", f"send_request with {kind} is refused by 6.", settings(),
            f"send_request 3 {PEER} {kind} 1", poll(0))
    case(
        "refusals", "6-send", "send with a request is refused by 6.", settings(stats="on"), f"send {PEER} request 1",
        "stats")
    case("refusals", "7-in-progress", "A request with an outstanding identifier is 7; the first one stays as it was.",
         settings(), ask(0, 1), ask(3, 1, OTHER, "0x8022=00*8"), poll(2), step(10))
    case(
        "refusals", "7-cancelled", "A cancelled request is outstanding until it is polled.", settings(), ask(),
        "cancel 1", ask(), poll(0), ask())
    crowd = [ask(0, n) for n in range(1, 33)]
    case(
        "refusals", "8-full-table", "32 requests fit; the 33rd is refused by 8.", settings(), crowd, ask(0, 33),
        poll(0), "query 20")
    case(
        "refusals", "8-freed-by-answer", "An answer frees a row.", settings(), crowd, answer(0, 17), ask(0, 33),
        ask(0, 34))
    case(
        "refusals", "8-freed-by-timeout", "A timeout frees a row when poll reports it.", settings(r=1), crowd,
        ask(5, 33), poll(5), ask(5, 33), ask(5, 34))
    case(
        "refusals", "8-freed-by-cancel", "A cancel frees a row when poll reports it.", settings(), crowd, "cancel 9",
        ask(0, 33), poll(0), ask(0, 33))
    case(
        "refusals", "7-before-8", "With a full table an outstanding identifier is 7.", settings(), crowd, ask(0, 5),
        ask(0, 40))
    case(
        "refusals", "5-before-8", "With a full table a bad message is 5 and a wrong class 6.", settings(), crowd,
        f"send_request 0 {PEER} raw 00", f"send_request 0 {PEER} success 40")
    for name, call in (
            ("cancel_retransmissions", "cancel_retransmissions 2"),
            ("cancel", "cancel 2"),
            ("configure", configure(2)),
            ("query", "query 2")):
        case(
            "refusals", f"9-{name}", f"{name} of an identifier that isn't outstanding is refused by 9.", settings(),
            call, ask(0, 1), call, ask(0, 2), call)
    case(
        "refusals", "9-gone", "After answer, timeout and cancel an identifier isn't outstanding.", settings(r=1),
        ask(0, 1), answer(0, 1), "query 1", ask(0, 2), poll(5), "cancel 2", ask(5, 3), "cancel 3", poll(5),
        configure(3))
    case("refusals", "11-off", "Statistics and reset while off are refused by 11.", settings(), "stats", "reset")
    several = (
        ("3-4", ask(2, 2, rest="0x8022=5a*1004"), "a low clock and 1,028 bytes"),
        ("3-5", f"send_request 2 {PEER} raw 00", "a low clock and a bad message"),
        ("3-6", f"send_request 2 {PEER} error 2", "a low clock and a wrong class"),
        ("3-7", ask(2, 1), "a low clock and an outstanding identifier"),
        ("3-5-received", f"received 2 {PEER} raw 00", "a low clock and a bad message received"),
        ("5-no", f"received 5 {PEER} raw {GOOD},00", "a bad message with an unknown identifier"),
        ("6-7", f"send_request 5 {PEER} indication 1", "a wrong class and an outstanding identifier"),
        ("2-9", configure(2, r=34), "settings beyond the limit and an unknown identifier"))
    for name, call, what in several:
        case(
            "refusals", f"lowest-of-{name}", f"Of several numbers the lowest is answered: {what}.", settings(),
            ask(5), call, poll(5))


FIXED = {1: 30, 6: 8, 7: 8, 8: 12, 9: 12, 10: 40, 11: 27, 12: 27, 13: 0, 14: 0, 15: 12}
HEADS = {2: 35, 3: 27, 4: 35, 5: 27}
GOOD_ADDRESS = "04,0d96,c0000201,00*20"


def broken_cases():
    def broken(name, sentence, *lines):
        case("broken", name, sentence, settings(), lines, poll(0))

    for kind, length in FIXED.items():
        lengths = [length + 1] + ([length - 1] if length else [])
        for other in lengths:
            broken(
                f"kind-{kind}-length-{other}",
                f"Kind {kind} with a body of {other} bytes instead of {length} is bad and ends the replay.",
                f"record {kind} 00*{other}")
    for kind, length in HEADS.items():
        broken(
            f"kind-{kind}-length-{length - 1}", f"Kind {kind} with one byte fewer than its fixed part is bad.",
            f"record {kind} " + ("00*8," if length == 35 else "") + "04,00*25")
        broken(
            f"kind-{kind}-empty-message",
            f"Kind {kind} with its fixed part alone has an empty message: refused by 5, not bad.",
            f"record {kind} " + ("00*8," if length == 35 else "") + GOOD_ADDRESS)
    for kind in (0, 16, 255):
        broken(f"unknown-kind-{kind}", f"Kind {kind} doesn't exist.", f"record {kind}")
    for mark in ("a55b", "a45a", "5aa5"):
        broken(f"mark-{mark}", f"The mark {mark.upper()} is another mark.", f"bytes {mark}0d0000")
    for count, rest in ((1, "a5"), (2, "a55a"), (4, "a55a0d00")):
        case(
            "broken", f"cut-head-{count}", f"A frame cut after {count} of 5 bytes is one bad line.", settings(),
            f"bytes {rest}")
    case("broken", "cut-body", "A body cut short by one byte is bad.", settings(), "bytes a55a070008,00*7")
    broken("leftover", "Bytes behind the last record that make no record are one bad line.", "stats", "bytes 000000")
    broken(
        "body-4096", "A body of 4,096 bytes is within the limit: its message is refused, the record isn't bad.",
        f"record 3 {GOOD_ADDRESS},00*4069")
    broken(
        "body-4097", "A body of 4,097 bytes is bad even if the bytes are there.", f"record 3 {GOOD_ADDRESS},00*4070")
    broken(
        "transport-code", "Transport 2 is a bad code, in settings that would be refused too.",
        "record 1 0200,00*16,000000ff,00*8")
    broken("statistics-code", "Statistics 2 is a bad code.", "record 1 0002,00*28")
    for code in ("00", "05", "07"):
        broken(f"address-code-{code}", f"Address kind {int(code)} is a bad code.", f"record 11 {code},00*26")
    for name, address in (
            ("address", "04,0d96,c0000201,01,00*11,00*8"),
            ("last-address-byte", "04,0d96,c0000201,00*11,01,00*8"),
            ("flow", "04,0d96,c0000201,00*12,00000001,00*4"),
            ("scope", "04,0d96,c0000201,00*12,00*4,80000000")):
        broken(
            f"filler-{name}", f"An IPv4 address whose filler in the {name.replace('-', ' ')} isn't zero is bad.",
            f"record 12 {address}")
    broken(
        "bad-code-before-refusal", "A bad code is looked at before the call: bad, not refused by 3.", poll(5),
        "record 4 00*8,05,00*26")
    case(
        "broken", "refused-then-bad", "A refusal doesn't end the replay; a bad record does.", settings(), "query 1",
        "record 0", poll(0))
    for name, line in (("poll", poll(0)), ("stats", "stats"), ("request", ask())):
        case(
            "broken", f"first-{name}", f"A first record that isn't kind 1 ({name}) is bad and ends the replay.", line,
            settings())
    case("broken", "empty", "Empty input gives no line.")
    case("broken", "settings-alone", "Settings alone give one line.", settings())
    case(
        "broken", "numbers-run-on", "Line numbers run through the whole trace, fresh agents or not.", settings(),
        poll(0), settings(), poll(0), settings(r=34), poll(0))


for group in (
        document, waits_cases, moments_cases, cancel_cases, configure_cases, answer_cases, statistics_cases,
        peer_cases, message_cases, refusal_cases, broken_cases):
    group()
