"""Tests of traces as text against the host's own reader: made traces come back, and both see the same broken record."""
import pathlib
import subprocess
import sys
import unittest

sys.path.insert(0, str(pathlib.Path(__file__).resolve().parent.parent))

import bench
import tracetext

SEEDS = 150


class MadeTraces(unittest.TestCase):
    def setUp(self):
        self.generate, self.reading = bench.host_program("generate"), bench.host_program("reading")

    def test_both_readers_agree(self):
        broken = 0
        for family in ("inside", "outside", "short"):
            for seed in range(SEEDS):
                trace = subprocess.check_output([self.generate, family, str(seed)])
                records = tracetext.entries(trace)
                self.assertEqual(tracetext.assemble("\n".join(records)), trace)
                lines = bench.run_program([self.reading], trace).splitlines()
                broken += self.check(records, lines)
        self.assertGreater(broken, 20, "hardly any broken record was met")

    def check(self, records, lines):
        """1 where both see the same first broken record, 0 where neither sees one."""
        first = next((place for place, record in enumerate(records) if record.startswith(("record ", "bytes "))), None)
        if records and not records[0].startswith("settings"):
            self.assertEqual(lines, ["1 bad"])
        elif lines[-1:] == ["1 refused 2"]:
            self.assertTrue(records[0].startswith("settings"))
        elif first is None:
            self.assertEqual(len(lines), len(records))
            self.assertFalse([line for line in lines if line.endswith(" bad")])
        else:
            self.assertEqual(lines[first:], [f"{first + 1} bad"])
            return 1
        return 0


if __name__ == "__main__":
    unittest.main()
