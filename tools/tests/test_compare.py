"""Tests of tools/compare, tools/recorded and tools/streamed: a program with a fault is found, and an empty run can't look good."""
import pathlib
import subprocess
import sys
import unittest

TOOLS = pathlib.Path(__file__).resolve().parent.parent
sys.path.insert(0, str(TOOLS))

import bench


def run(command, *words):
    done = subprocess.run([TOOLS / command, *words], stdout=subprocess.PIPE, text=True)
    return done.returncode, done.stdout


class Programs(unittest.TestCase):
    def setUp(self):
        self.reading = str(bench.host_program("reading"))
        # Says of every timeout that the request was cancelled.
        self.wrong = ["sh", "-c", '"$0" | sed s/timeout/cancelled/', self.reading]

    def test_the_second_reading_agrees_started_once_a_trace_and_once_a_hundred(self):
        for words in (["--seeds", "0..60", "--", self.reading], ["--seeds", "0..60", "--", self.reading, "{}"],
                      ["--seeds", "0..600", "--join", "100", "--", self.reading]):
            code, text = run("compare", *words)
            self.assertEqual((code, text.splitlines()[-1]), (0, "no difference"), text)

    def test_a_fault_is_found_and_shortened(self):
        for join in ("1", "50"):
            code, text = run("compare", "--seeds", "0..60", "--join", join, "--", *self.wrong)
            self.assertEqual(code, 1)
            shown = text.partition("DIFFERENCE in ")[2].splitlines()[1:]
            self.assertEqual([row.split()[0] for row in shown[:3]], ["settings", "send_request", "poll"], text)
            self.assertTrue(shown[3].startswith("#   the other side: 3 cancelled"), text)
            self.assertEqual(len(shown), 4, text)

    def test_a_program_that_fails_or_says_nothing_is_a_difference(self):
        for words in (["false"], ["true"]):
            code, text = run("compare", "--seeds", "0..5", "--", *words)
            self.assertEqual((code, "DIFFERENCE" in text), (1, True), text)

    def test_a_run_that_meets_little_is_not_complete(self):
        code, text = run("compare", "--seeds", "0..5", "--complete")
        self.assertEqual((code, text.splitlines()[-1][:10]), (1, "INCOMPLETE"))

    def test_recorded_answers_see_the_fault(self):
        code, text = run("recorded", *self.wrong)
        self.assertEqual(code, 1)
        self.assertIn("DIFFERENCE in silenced-timed-out", text)
        self.assertEqual(run("recorded", "false")[0], 1)

    def differs(self, filter, *words):
        """Which traces of tools/streamed differ on the second reading behind a filter."""
        code, text = run("streamed", *words, "sh", "-c", f'cat "$@" 2>/dev/null | {filter} | "$0"', self.reading)
        self.assertEqual(code, 1)  # the broken trace differs in any case: nobody says that it can't be read
        rows = [row for row in text.splitlines() if row.startswith("DIFFERENCE")]
        return [any(row.startswith(f"DIFFERENCE, the {name} trace, ") for row in rows) for name in ("long", "slow")]

    def test_a_program_that_takes_one_buffer_or_one_read_is_found(self):
        self.assertEqual(self.differs("cat"), [False, False])
        self.assertEqual(self.differs("head -c 65536"), [True, False])
        self.assertEqual(self.differs("dd bs=65536 count=1 status=none"), [True, True])

    def test_a_linked_library_with_a_fault_is_found(self):
        self.assertEqual(self.differs("cat", "--library", self.reading), [False, False])
        self.assertEqual(self.differs("cat", "--library", "false"), [True, True])


if __name__ == "__main__":
    unittest.main()
