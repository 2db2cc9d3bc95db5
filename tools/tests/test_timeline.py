"""Tests of the timeline: the marks of each kind, readable pictures of any trace, and no picture of what isn't one."""
import collections
import pathlib
import re
import subprocess
import sys
import tempfile
import unittest
from xml.etree import ElementTree

TOOLS = pathlib.Path(__file__).resolve().parent.parent
sys.path.insert(0, str(TOOLS))

import bench
import timelinerows
import timelinesvg
import tracetext

EXAMPLES = bench.ROOT / "examples"
SVG = "{http://www.w3.org/2000/svg}"
SETTINGS = "settings udp stats=off initial=500ms max=none R=7 final=8s"
ID = [f"{number:024x}" for number in range(4000)]


def ask(clock, number):
    return f"send_request {clock} 192.0.2.1:3478 request {number:x}"


def answer(clock, number, kind="success"):
    return f"received {clock} 192.0.2.1:3478 {kind} {number:x}"


def story(*pairs):
    """The story of records with their answers, which get their numbers here."""
    trace = tracetext.assemble("\n".join(record for record, _ in pairs))
    return timelinerows.story(trace, [f"{number} {line}" for number, (_, line) in enumerate(pairs, 1)])


def example(name):
    trace = tracetext.assemble((EXAMPLES / f"{name}.trace").read_text())
    return timelinerows.story(trace, (EXAMPLES / f"{name}.lines").read_text().splitlines())


class Picture:
    """A picture that was read back, and what every picture has to be."""

    def __init__(self, test, text):
        self.root = ElementTree.fromstring(text)
        groups = [(group, group.get("class").split()) for group in self.root.iter(f"{SVG}g")]
        self.marks = collections.Counter(kind for _, (group, kind) in groups if group == "mark")
        self.legend = [kind for _, (group, kind) in groups if group == "legend"]
        self.titles = [group.find(f"{SVG}title").text for group, (kind, _) in groups if kind == "mark"]
        self.texts = [text.text for text in self.root.iter(f"{SVG}text")]
        self.whole, self.told = self.root.find(f"{SVG}title").text, self.root.find(f"{SVG}desc").text
        width, height = (float(self.root.get(name)) for name in ("width", "height"))
        for element in self.root.iter():
            test.assertNotIn(element.tag, (f"{SVG}script", f"{SVG}style", f"{SVG}image"))
            test.assertGreaterEqual(float(element.get("font-size", 11)), 11)
            test.assertIn(element.get("font-family", "sans-serif"), ("sans-serif", "monospace"))
        for group, (kind, _) in groups:
            place = re.fullmatch(r"translate\((\S+) (\S+)\)", group.get("transform", ""))
            if place:
                test.assertTrue(0 <= float(place[1]) <= width and 0 <= float(place[2]) <= height, group.attrib)
        test.assertEqual(self.root.find(f"{SVG}rect").get("fill"), "white")
        test.assertLessEqual(set(self.marks), set(self.legend))


class Case(unittest.TestCase):
    def draw(self, told, *words):
        return Picture(self, timelinesvg.picture(told, "A title", *words))


class StoppedCar(Case):
    def test_with_8_s_the_answer_is_accepted(self):
        picture = self.draw(example("stopped-car"))
        self.assertEqual(picture.marks, {"first": 1, "again": 6, "wait": 7, "accepted": 1})
        self.assertIn("answer accepted, 53.5 s", picture.titles)
        self.assertIn("wait until 59.5 s", picture.titles)
        self.assertEqual(picture.told, "Request 8f3a61c0d72be94415506ea9 to 192.0.2.10:3478: sent 7 times, from 20 s to 51.5 s; "
                                       "answer accepted at 53.5 s.")

    def test_with_8_ms_it_times_out_first(self):
        picture = self.draw(example("stopped-car-8ms"))
        self.assertEqual(picture.marks, {"first": 1, "again": 6, "wait": 7, "timeout": 1, "dropped": 1})
        self.assertIn("timed out, 51.508 s", picture.titles)
        self.assertIn("answer not accepted, 53.5 s", picture.titles)
        self.assertIn("8 ms", picture.texts)

    def test_sends_have_numbers_and_the_clock_has_units(self):
        texts = self.draw(example("stopped-car"), 60 * 10 ** 9).texts
        self.assertEqual([text for text in texts if text.isdigit()], list("7654321"))
        self.assertLessEqual({"clock", "20 s", "60 s", "16 s", "UDP, initial wait 500 ms, no maximum, R = 7, final wait 8 s"}, set(texts))

    def test_the_pictures_are_what_is_drawn_today(self):
        done = subprocess.run([TOOLS / "pictures", "--check"], capture_output=True, text=True)
        self.assertEqual((done.returncode, done.stderr), (0, ""))


class OtherExamples(Case):
    def test_each_has_its_marks(self):
        for name, marks in (("answered-late", {"first": 2, "again": 1, "accepted": 2, "wait": 1}),
                            ("cancelled-retransmissions", {"first": 2, "again": 2, "asked": 2, "accepted": 1, "cancelled": 1, "wait": 3}),
                            ("tcp", {"first": 2, "accepted": 1, "timeout": 1, "wait": 1}),
                            ("full-table", {"first": 33, "accepted": 1})):
            self.assertEqual(self.draw(example(name)).marks, marks, name)

    def test_a_refusal_is_a_note(self):
        self.assertIn("Record 34, send_request at 20.32 s: refused by 8, TABLE_FULL", self.draw(example("full-table")).texts)


class AnyTrace(Case):
    def test_an_empty_trace(self):
        picture = self.draw(story())
        self.assertEqual((picture.marks, picture.legend, picture.whole), ({}, [], "A title"))
        self.assertIn("There is no agent in this trace.", picture.texts)

    def test_an_agent_without_requests(self):
        self.assertIn("No request was sent.", self.draw(story((SETTINGS, "ok"), ("poll 0", "wait 3600000000000"))).texts)

    def test_refused_first_settings(self):
        picture = self.draw(story((SETTINGS.replace("R=7", "R=34"), "refused 2")))
        self.assertIn("Record 1, settings at 0 ns: refused by 2, SETTINGS", picture.texts)

    def test_two_agents_have_a_section_and_a_clock_each(self):
        told = story((SETTINGS, "ok"), (ask("20s", 1), f"send {ID[1]} 20"), (SETTINGS.replace("R=7", "R=34"), "refused 2"),
                     (SETTINGS.replace("udp", "tcp"), "ok"), (ask("3ms", 1), f"send {ID[1]} 20"), (answer("4ms", 1), "yes"))
        picture = self.draw(told)
        self.assertEqual([text.split(",")[0] for text in picture.texts if text.startswith("Agent")], ["Agent 1: UDP", "Agent 2: TCP"])
        self.assertEqual((picture.marks, picture.texts.count("clock")), ({"first": 2, "accepted": 1}, 2))
        self.assertIn("20 s", picture.texts)
        self.assertIn("answer accepted, 4,000 µs", picture.texts)

    def test_thirty_two_requests(self):
        told = story((SETTINGS, "ok"), *((ask(f"{n}ms", n), f"send {ID[n]} 20") for n in range(32)))
        picture = self.draw(told)
        self.assertEqual(picture.marks, {"first": 32})
        self.assertEqual([text for text in picture.texts if text in ID], ID[:32])
        self.assertFalse([text for text in picture.texts if text.startswith("Only")])

    def test_more_lines_than_there_is_room_for(self):
        pairs = [pair for n in range(1000) for pair in ((ask(n, n), f"send {ID[n]} 20"), (answer(n, n), "yes"))]
        picture = self.draw(story((SETTINGS, "ok"), *pairs, (SETTINGS, "ok")))
        self.assertEqual(picture.marks, {"first": 40, "accepted": 40})
        self.assertIn("Only the first 40 lines are drawn, without 960 requests and 1 agents more.", picture.texts)

    def test_more_agents_than_there_is_room_for(self):
        picture = self.draw(story(*50 * [(SETTINGS, "ok")]))
        self.assertEqual(picture.texts.count("No request was sent."), 40)
        self.assertIn("Only the first 40 lines are drawn, without 10 agents more.", picture.texts)

    def test_thousands_of_marks_on_one_line(self):
        pairs = [pair for n in range(2000) for pair in ((ask(n, 1), f"send {ID[1]} 20"), (answer(n, 1), "yes"))]
        picture = self.draw(story((SETTINGS, "ok"), *pairs))
        self.assertEqual(picture.marks, {"first": 2000, "accepted": 2000})
        self.assertIn("1,988 marks have no text: a line has room for 12", picture.texts)

    def test_the_largest_clocks(self):
        for first, last in (("0", "2^60"), ("2^60-1", "2^60"), ("2^60", "2^60")):
            picture = self.draw(story((SETTINGS, "ok"), (ask(first, 1), f"send {ID[1]} 20"), (f"poll {last}", f"timeout {ID[1]}")))
            self.assertEqual(picture.marks, {"first": 1, "timeout": 1})
            self.assertTrue(any("1,152,921,504" in title for title in picture.titles))

    def test_an_hour_of_waiting_hides_nothing(self):
        told = story((SETTINGS, "ok"), (ask(0, 1), f"send {ID[1]} 20"), ("poll_transmit 1s", f"send {ID[1]} 20"),
                     ("poll 1s", "wait 3601000000000"))
        self.assertEqual(self.draw(told).marks, {"first": 1, "again": 1, "wait": 1})
        self.assertIn("2,000 ms", self.draw(told).texts)

    def test_records_without_a_clock_stand_at_the_last_one(self):
        told = story((SETTINGS, "ok"), (ask("1s", 1), f"send {ID[1]} 20"), ("poll 2^61", "refused 3"), ("poll_transmit 2s", "none"),
                     ("cancel 1", "ok"), ("configure 1 initial=1 max=1 R=1 final=1", "ok"), ("cancel_retransmissions 1", "ok"),
                     ("received_untimed 192.0.2.1:1 error 1", "yes"))
        marks = [(mark.kind, mark.clock) for mark in told.sections[0].rows[ID[1]].marks]
        self.assertEqual(marks, [("first", 10 ** 9)] + 3 * [("asked", 2 * 10 ** 9)] + [("accepted", 2 * 10 ** 9)])
        self.assertIn("error answer accepted, 2,000 ms", self.draw(told).titles)

    def test_an_answer_that_belongs_to_no_line_is_a_note(self):
        told = story((SETTINGS, "ok"), (answer("1s", 7), "no"), (answer("1s", 7, "request"), "yes"), (answer("1s", 7, "indication"), "yes"))
        self.assertEqual(told.notes, [f"Record 2, received at 1 s: answer for {ID[7]}, which was never sent: not accepted"])

    def test_a_wait_stands_where_it_concerns(self):
        two = [(SETTINGS, "ok"), (ask(0, 1), f"send {ID[1]} 20"), (ask(5, 2), f"send {ID[2]} 20"), ("poll 6", "wait 9"), ("poll 7", "wait 9")]
        waits = {name: row.waits for name, row in story(*two, ("poll_transmit 9", f"send {ID[2]} 20")).sections[0].rows.items()}
        self.assertEqual(waits, {ID[1]: {}, ID[2]: {9: 6}})

    def test_a_wait_begins_with_the_last_send_and_has_a_length(self):
        told = story((SETTINGS, "ok"), (ask(0, 1), f"send {ID[1]} 20"), ("poll 2", "wait 9"), ("poll 3", "wait 9"),
                     (ask(5, 2), f"send {ID[2]} 20"), ("poll_transmit 9", f"send {ID[2]} 20"), (answer(9, 1), "yes"), ("poll 10", "wait 10"))
        self.assertEqual([row.waits for row in told.sections[0].rows.values()], [{9: 2}, {9: 5}])

    def test_what_is_still_under_way_is_said(self):
        begun = [(SETTINGS, "ok"), (ask(0, 1), f"send {ID[1]} 20")]
        arrow = "l6 5l-6 5"
        for pairs, still in ((begun, True), (begun + [(answer(9, 1), "yes")], False)):
            text = timelinesvg.picture(story(*pairs), "A title")
            self.assertEqual((arrow in text, Picture(self, text).told.endswith("; still under way.")), (still, still))

    def test_a_title_may_hold_anything(self):
        picture = Picture(self, timelinesvg.picture(story(), "<a> & \"b\" \x00\udcff " + 30 * "word "))
        self.assertIn('<a> & "b"', picture.whole)
        self.assertGreater(len([text for text in picture.texts if "word" in text]), 1)

    def test_clocks_are_exact(self):
        for value, unit, text in ((0, None, "0 ns"), (51508000000, None, "51.508 s"), (51508000000, "ms", "51,508 ms"),
                                  (1500, None, "1.5 µs"), (10 ** 9 - 1, None, "999.999999 ms"), (2 ** 60, "s", "1,152,921,504.606846976 s")):
            self.assertEqual(timelinerows.clock_text(value, unit), text)


class NoPicture(unittest.TestCase):
    def setUp(self):
        folder = tempfile.TemporaryDirectory()
        self.addCleanup(folder.cleanup)
        self.folder = pathlib.Path(folder.name)

    def run_timeline(self, trace, answers, *words):
        (self.folder / "trace").write_bytes(trace)
        (self.folder / "answers").write_text(answers)
        command = [TOOLS / "timeline", self.folder / "trace", "--with", self.folder / "answers", *words]
        return subprocess.run(command, capture_output=True)

    def test_text_and_bytes_give_the_same_picture(self):
        text = f"# why\n{SETTINGS}\n{ask('1s', 1)}\n"
        pictures = [self.run_timeline(trace, f"1 ok\n2 send {ID[1]} 20\n", "--title", "T", "--until", "2s")
                    for trace in (text.encode(), tracetext.assemble(text))]
        self.assertEqual([done.returncode for done in pictures], [0, 0])
        self.assertEqual(pictures[0].stdout, pictures[1].stdout)
        self.assertIn(b"<title id=\"title\">T</title>", pictures[0].stdout)

    def test_what_is_wrong_is_said(self):
        good, answers = f"{SETTINGS}\n{ask('1s', 1)}\n", f"1 ok\n2 send {ID[1]} 20\n"
        for trace, lines, says in (
                (good + "pol 0", answers, "line 3, column 1: expected a record"),
                (b"\xff\xfe", answers, "expected text in UTF-8"),
                (b"\xa5\x5a\x63", answers, "record 1 is broken"),
                (tracetext.assemble(good)[:-1], answers, "record 2 is broken"),
                (good + "record 99", answers + "3 bad\n", "record 3 is broken"),
                ("poll 0", "1 bad\n", "the first record isn't settings"),
                (good, "", "0 answers for 2 records"),
                (good, answers + "3 ok\n", "3 answers for 2 records, the last one '3 ok'"),
                (good, answers.replace("2 send", "3 send"), "is no answer to send_request"),
                (good, "1 ok\n2 yes\n", "'2 yes' is no answer to send_request"),
                (good, answers.replace(ID[1], ID[2]), f"record 2: {ID[1]} can't be what is sent"),
                (good + ask("2s", 1), answers + f"3 send {ID[1]} 20\n", f"record 3: {ID[1]} can't be what is sent"),
                (good + "poll_transmit 2s", answers + f"3 send {ID[2]} 20\n", f"record 3: {ID[2]} isn't under way"),
                (good + "poll 2s", answers + f"3 timeout {ID[2]}\n", f"{ID[2]} isn't under way"),
                (good + "poll 2s", answers + "3 wait 7\n", "a wait that ends before it begins"),
                (good + "poll 0", answers + "3 wait 7\n", "its clock falls"),
                (good + answer("2s", 2), answers + "3 yes\n", f"{ID[2]} isn't under way"),
                (good, "1 refused 2\n" + answers.splitlines()[1], "there is no agent")):
            done = self.run_timeline(trace.encode() if isinstance(trace, str) else trace, lines)
            self.assertEqual((done.returncode, done.stdout), (1, b""), says)
            self.assertIn(says, done.stderr.decode())
            self.assertNotIn("Traceback", done.stderr.decode())

    def test_files_that_are_not_there(self):
        done = subprocess.run([TOOLS / "timeline", self.folder / "none", "--with", self.folder / "none"], capture_output=True)
        self.assertEqual((done.returncode, done.stdout), (1, b""))
        self.assertIn(b"No such file", done.stderr)


if __name__ == "__main__":
    unittest.main()
