"""Tests of traces as text: both directions, mistakes and their places, the command line, recorded cases."""
import pathlib
import random
import subprocess
import sys
import tempfile
import unittest

TOOLS = pathlib.Path(__file__).resolve().parent.parent
sys.path.insert(0, str(TOOLS))

import bench
import recordedtext
import tracetext

ADDRESS = "04 0d96 c0000201 000000000000000000000000 00000000 00000000"
WAITS = "000000001dcd6500 2000000000000000 00000007 00000001dcd65000"
ID = "00112233445566778899aabb"
MESSAGE = f"0001 0000 2112a442 {ID}"
# One record of each kind, laid out by hand from document 01.
BY_HAND = [
    ("settings tcp stats=on initial=500ms max=none R=7 final=8s", f"01 001e 01 01 {WAITS}"),
    (f"send_request 7 192.0.2.1:3478 request {ID}", f"02 0037 0000000000000007 {ADDRESS} {MESSAGE}"),
    (f"send 192.0.2.1:3478 request {ID}", f"03 002f {ADDRESS} {MESSAGE}"),
    (f"received 2^60 192.0.2.1:3478 request {ID}", f"04 0037 1000000000000000 {ADDRESS} {MESSAGE}"),
    (f"received_untimed 192.0.2.1:3478 request {ID}", f"05 002f {ADDRESS} {MESSAGE}"),
    ("poll_transmit 3s", "06 0008 00000000b2d05e00"),
    ("poll 2^64-1", "07 0008 ffffffffffffffff"),
    (f"cancel_retransmissions {ID}", f"08 000c {ID}"),
    (f"cancel {ID}", f"09 000c {ID}"),
    (f"configure {ID} initial=500ms max=none R=7 final=8s", f"0a 0028 {ID} {WAITS}"),
    ("is_peer [2001:db8::1]:3478 flow=258 scope=3",
     "0b 001b 06 0d96 20010db8000000000000000000000001 00000102 00000003"),
    ("validate_peer 192.0.2.1:3478", f"0c 001b {ADDRESS}"),
    ("stats", "0d 0000"),
    ("reset", "0e 0000"),
    (f"query {ID}", f"0f 000c {ID}"),
]


def laid_out(hexes):
    return b"".join(bytes.fromhex("a55a" + text) for text in hexes)


def random_address(rng):
    if rng.random() < 0.5:
        return b"\4" + rng.randbytes(6) + bytes(20)
    tail = rng.choice([bytes(8), rng.randbytes(8), bytes(4) + rng.randbytes(4), rng.randbytes(4) + bytes(4)])
    return b"\6" + rng.randbytes(2) + rng.choice([rng.randbytes(16), bytes(16), bytes(15) + b"\1"]) + tail


def random_message(rng):
    """A message, well formed or not; a record with either is well formed."""
    if rng.random() < 0.2:
        return rng.randbytes(rng.randrange(40))
    attributes = b""
    for _ in range(rng.randrange(4)):
        value = rng.choice([rng.randbytes(rng.randrange(12)), bytes([rng.randrange(256)]) * rng.randrange(60)])
        padding = rng.choice([bytes(3), rng.randbytes(3)])[:-len(value) % 4]
        attributes += rng.randbytes(2) + len(value).to_bytes(2, "big") + value + padding
    kind = rng.randrange(0x4000).to_bytes(2, "big")
    return kind + len(attributes).to_bytes(2, "big") + b"\x21\x12\xa4\x42" + rng.randbytes(12) + attributes


def random_time(rng):
    value = rng.choice([0, 1, 5 * 10 ** 8, 8 * 10 ** 9, 2 ** 60, 2 ** 61, 2 ** 61 + 1, rng.randrange(2 ** 64)])
    return value.to_bytes(8, "big")


def random_record(rng):
    waits = random_time(rng) + random_time(rng) + rng.randbytes(4) + random_time(rng)
    kind = rng.randrange(1, 16)
    body = {
        1: lambda: bytes([rng.randrange(2), rng.randrange(2)]) + waits,
        2: lambda: random_time(rng) + random_address(rng) + random_message(rng),
        3: lambda: random_address(rng) + random_message(rng),
        4: lambda: random_time(rng) + random_address(rng) + random_message(rng),
        5: lambda: random_address(rng) + random_message(rng),
        6: lambda: random_time(rng),
        7: lambda: random_time(rng),
        10: lambda: rng.randbytes(12) + waits,
        11: lambda: random_address(rng),
        12: lambda: random_address(rng),
        13: bytes,
        14: bytes,
    }.get(kind, lambda: rng.randbytes(12))()
    return tracetext.frame(kind, body)


class BothWays(unittest.TestCase):
    def test_every_kind_as_laid_out_by_hand(self):
        for text, hexes in BY_HAND:
            self.assertEqual(tracetext.assemble(text), laid_out([hexes]), text)
        whole = laid_out(hexes for _, hexes in BY_HAND)
        self.assertEqual(tracetext.entries(whole), [text for text, _ in BY_HAND])

    def test_well_formed_traces_come_back(self):
        rng = random.Random(1)
        for _ in range(3000):
            trace = b"".join(random_record(rng) for _ in range(rng.randrange(6)))
            records = tracetext.entries(trace)
            self.assertFalse([record for record in records if record.startswith(("record", "bytes"))])
            self.assertEqual(tracetext.assemble("\n".join(records)), trace)

    def test_damaged_traces_come_back(self):
        rng = random.Random(2)
        for _ in range(3000):
            trace = bytearray(b"".join(random_record(rng) for _ in range(1 + rng.randrange(3))))
            for _ in range(1 + rng.randrange(3)):
                trace[rng.randrange(len(trace))] = rng.randrange(256)
            trace = bytes(trace[:rng.randrange(len(trace) + 1)])
            self.assertEqual(tracetext.assemble("\n".join(tracetext.entries(trace))), trace)

    def test_runs_of_bytes_come_back(self):
        for count in (0, 1, 7, 8, 9, 99_999, 100_000, 100_005, 250_000):
            for data in (bytes(count), b"\1" + bytes(count) + b"\2", b"\n" * count + b"\nab"):
                self.assertEqual(tracetext.some_bytes(tracetext.show_bytes(data)), data)

    def test_other_ways_to_write_the_same(self):
        bare = "send 1.2.3.4:5 request 1"
        for one, other in (("poll 1s", "poll 1000ms"), ("poll 1us", "poll 1000ns"), ("poll 2^61", "poll none"),
                           ("cancel 1", "cancel " + "0" * 23 + "1"), ("stats  # why", "stats"),
                           ("bytes 00*4", "bytes 00,0000,00"), ("record 13", "stats"),
                           ("\n\n# nothing\nstats", "stats"), (f"{bare} method=1", bare),
                           (f"{bare} 0x0006=41", f"{bare} 0x0006=41/000000")):
            self.assertEqual(tracetext.assemble(one), tracetext.assemble(other))

    def test_classes_and_methods(self):
        for word, kind in (("request 1", "0001"), ("indication 1", "0011"), ("success 1", "0101"),
                           ("error 1", "0111"), ("error 1 method=0xfff", "3fff")):
            trace = tracetext.assemble(f"send 1.2.3.4:5 {word}")
            self.assertEqual(trace[32:34].hex(), kind)


class Mistakes(unittest.TestCase):
    TABLE = [
        ("pol 0", 1, 1, "a record"),
        ("stats\n  poll", 2, 7, "a clock"),
        ("poll 5x", 1, 6, "a clock"),
        ("poll 2^65", 1, 6, "a clock"),
        ("poll 1 2", 1, 8, "the end of the line"),
        ("settings sctp", 1, 10, "udp or tcp"),
        ("settings udp stats=maybe", 1, 14, "stats="),
        ("settings udp stats=on max=1", 1, 23, "initial="),
        ("cancel 1g", 1, 8, "an identifier"),
        ("cancel " + "0" * 25, 1, 8, "an identifier"),
        ("is_peer 192.0.2.1", 1, 9, "an address"),
        ("is_peer 192.0.2.256:1", 1, 9, "an address"),
        ("is_peer [::g]:1", 1, 9, "an address"),
        ("is_peer [::1]:65536", 1, 9, "an address"),
        ("is_peer [::1]:1 flow=x", 1, 17, "flow="),
        ("is_peer 1.2.3.4:5 flow=1", 1, 19, "the end of the line"),
        ("send 1.2.3.4:5 reply 1", 1, 16, "request, success"),
        ("send 1.2.3.4:5 request 1 6=00", 1, 26, "an attribute"),
        ("send 1.2.3.4:5 request 1 0x0006=00/0000", 1, 26, "an attribute"),
        ("send 1.2.3.4:5 raw 0", 1, 20, "bytes in hex"),
        ("send 1.2.3.4:5 request 1 method=0x1000", 1, 26, "method="),
        ("record 256", 1, 8, "a kind"),
        ("bytes", 1, 6, "bytes in hex"),
        ("configure 1 initial=1 max=2 R=4294967296 final=3", 1, 29, "R="),
        ("record 3 00*65536", 1, 18, "a body"),
    ]

    def test_place_and_what_was_expected(self):
        for text, line, column, expected in self.TABLE:
            with self.assertRaises(tracetext.Mistake, msg=text) as caught:
                tracetext.assemble(text)
            mistake = caught.exception
            self.assertEqual((mistake.line, mistake.column), (line, column), text)
            self.assertTrue(mistake.expected.startswith(expected), f"{text}: {mistake}")


class CommandLine(unittest.TestCase):
    def run_trace(self, *words, data=b""):
        return subprocess.run([TOOLS / "trace", *words], input=data, capture_output=True)

    def test_a_mistake_writes_nothing(self):
        with tempfile.TemporaryDirectory() as folder:
            out = pathlib.Path(folder) / "trace"
            done = self.run_trace("assemble", "-o", str(out), data=b"stats\npoll\n")
            self.assertEqual((done.returncode, done.stdout, out.exists()), (1, b"", False))
            self.assertIn(b"line 2, column 5: expected a clock", done.stderr)

    def test_bytes_that_are_no_text_are_a_mistake_too(self):
        done = self.run_trace("assemble", data=b"stats\n  \xff")
        self.assertEqual((done.returncode, done.stdout), (1, b""))
        self.assertIn(b"line 2, column 3", done.stderr)

    def test_list_with_answers_can_be_assembled_again(self):
        with tempfile.TemporaryDirectory() as folder:
            answers = pathlib.Path(folder) / "answers"
            answers.write_text("1 refused 11\n")
            trace = tracetext.assemble("stats\npoll 0")
            listed = self.run_trace("list", "--with", str(answers), data=trace).stdout
            self.assertEqual(listed, b"stats   # 1 refused 11\npoll 0  # (no answer)\n")
            self.assertEqual(self.run_trace("assemble", data=listed).stdout, trace)

    def test_more_answers_than_records_fail(self):
        with tempfile.TemporaryDirectory() as folder:
            answers = pathlib.Path(folder) / "answers"
            answers.write_text("1 ok\n2 ok\n")
            self.assertEqual(self.run_trace("list", "--with", str(answers), data=laid_out(["0d 0000"])).returncode, 1)


class RecordedCases(unittest.TestCase):
    def test_cases_come_back(self):
        cases = [recordedtext.Case("one", "It shows one.", tracetext.assemble("stats"), ["rust 1 refused 11"]),
                 recordedtext.Case("none", "It shows nothing.", b"", [])]
        self.assertEqual(recordedtext.read("\n".join(map(recordedtext.show, cases))), cases)

    def test_a_case_without_sentence_judge_or_number_is_refused(self):
        good = "== one\n# It shows one.\nstats  # rust 1 refused 11\n"
        self.assertEqual(len(recordedtext.read(good)), 1)
        for part, wrong in (("# It shows one.\n", ""), ("rust", "who"), ("1 ref", "2 ref")):
            with self.assertRaises(ValueError):
                recordedtext.read(good.replace(part, wrong))


class TheProgramsInput(unittest.TestCase):
    def test_it_is_the_recorded_whole_example(self):
        cases = recordedtext.read((bench.RECORDED / "document.txt").read_text())
        whole = next(case for case in cases if case.name == "whole-example")
        program = bench.ROOT / "crates" / "purlanchor"
        self.assertEqual((program / "stdin").read_bytes(), whole.trace)
        self.assertEqual((program / "stdout").read_text(), recordedtext.lines(whole))


if __name__ == "__main__":
    unittest.main()
