"""Tests of the examples and of tools/examples: each example is whole, and a wrong answer or a missing half is found."""
import pathlib
import subprocess
import sys
import tempfile
import unittest

TOOLS = pathlib.Path(__file__).resolve().parent.parent
sys.path.insert(0, str(TOOLS))

import bench
import tracetext

EXAMPLES = bench.ROOT / "examples"
GOOD = "# It is asked once.\n# It is asked\n# a second time.\n\nsettings udp stats=off initial=5 max=none R=2 final=8\nstats  # why\n"
ANSWERS = "1 ok\n2 refused 11\n"


def lines_of(name):
    return (EXAMPLES / f"{name}.lines").read_text().splitlines()


def run(folder, *words):
    done = subprocess.run([TOOLS / "examples", "--in", folder, *words], capture_output=True, text=True)
    return done.returncode, done.stdout + done.stderr


class TheExamples(unittest.TestCase):
    def test_each_has_an_answer_for_each_record(self):
        names = sorted(file.stem for file in EXAMPLES.glob("*.trace"))
        self.assertEqual(names, ["answered-late", "cancelled-retransmissions", "full-table", "stopped-car", "stopped-car-8ms", "tcp"])
        for name in names:
            records = tracetext.entries(tracetext.assemble((EXAMPLES / f"{name}.trace").read_text()))
            self.assertEqual([line.split()[0] for line in lines_of(name)], [str(n + 1) for n in range(len(records))], name)

    def test_the_stopped_cars_differ_in_the_final_wait_and_what_follows_from_it(self):
        one, other = (tracetext.entries(tracetext.assemble((EXAMPLES / f"{name}.trace").read_text()))
                      for name in ("stopped-car", "stopped-car-8ms"))
        self.assertEqual(one[0].replace("8s", "8ms"), other[0])
        self.assertEqual([record for record in other[1:] if record != "poll 51508ms"], one[1:])

    def test_a_stopped_car_polls_as_it_is_told(self):
        for name in ("stopped-car", "stopped-car-8ms"):
            records = tracetext.entries(tracetext.assemble((EXAMPLES / f"{name}.trace").read_text()))
            told = [line.split()[2] for line in lines_of(name) if " wait " in line]
            clocks = [str(tracetext.nanoseconds(record.split()[1])) for record in records[1:]]
            followed = [clock for clock in told if clock in clocks]
            self.assertEqual(followed, told[:-1] if name == "stopped-car-8ms" else told[:-2])

    def test_what_each_shows(self):
        for name, number, answer in (("stopped-car", 16, "yes"), ("stopped-car-8ms", 17, "no"), ("answered-late", 5, "yes"),
                                     ("cancelled-retransmissions", 10, "none"), ("tcp", 5, "none"), ("full-table", 34, "refused 8")):
            self.assertEqual(lines_of(name)[number - 1], f"{number} {answer}")


class Command(unittest.TestCase):
    def setUp(self):
        folder = tempfile.TemporaryDirectory()
        self.addCleanup(folder.cleanup)
        self.folder = pathlib.Path(folder.name)
        self.write(GOOD, ANSWERS)

    def write(self, trace, answers):
        (self.folder / "one.trace").write_text(trace)
        (self.folder / "one.lines").write_text(answers)

    def printing(self, text):
        return ["sh", "-c", 'cat > /dev/null; printf %s "$0"', text]

    def test_the_trace_goes_in_and_the_lines_are_compared(self):
        trace = tracetext.assemble(GOOD)
        right = ["sh", "-c", f'test "$(od -An -v -tx1 | tr -d " \\n")" = {trace.hex()} && printf %s "$0"', ANSWERS]
        self.assertEqual(run(self.folder, *right), (0, "one.trace: agrees\n1 examples agree, 0 fail\n"))

    def test_a_difference_is_shown(self):
        code, text = run(self.folder, *self.printing("1 ok\n2 ok\n"))
        self.assertEqual(code, 1)
        self.assertIn("  -2 refused 11\n  +2 ok\n", text)

    def test_lines_too_few_too_many_or_without_an_end_fail(self):
        for lines in ("", "1 ok\n", ANSWERS + "3 ok\n", ANSWERS.rstrip("\n")):
            self.assertEqual(run(self.folder, *self.printing(lines))[0], 1, lines)

    def test_a_program_that_fails_or_is_not_there_fails(self):
        for words in (["false"], ["./no-such-program"]):
            self.assertEqual(run(self.folder, *words)[0], 1)

    def test_an_example_that_is_not_whole_fails(self):
        for part, wrong, says in (("# It is asked once.\n", "", "1 sentences"), ("second time.", "second time. It is.", "3 sentences"),
                                  ("time.", "time", "0 sentences"), ("stats  #", "stets  #", "line 6, column 1")):
            self.write(GOOD.replace(part, wrong), ANSWERS)
            code, text = run(self.folder, *self.printing(ANSWERS))
            self.assertEqual((code, says in text), (1, True), text)

    def test_a_missing_half_fails(self):
        (self.folder / "other.lines").write_text(ANSWERS)
        self.assertIn("other.lines: FAILS\n  its trace is missing\n", run(self.folder, *self.printing(ANSWERS))[1])
        (self.folder / "one.lines").unlink()
        self.assertIn("one.trace: FAILS\n  one.lines is missing\n", run(self.folder, *self.printing(ANSWERS))[1])
        (self.folder / "one.trace").unlink()
        self.assertEqual(run(self.folder, *self.printing(ANSWERS))[0], 1)


if __name__ == "__main__":
    unittest.main()
