"""The waveforms of the plans, and what every dump keeps to."""

import random
import re
import unittest

from sim import generate
from sim.entries import Refused
from sim.files import read_file
from sim.tests.plans import plan
from sim.waveform import HEADER, dump, samples


class Shown:
    """A reader of dumps that knows nothing of how they are made: the values at each tick."""

    def __init__(self, text):
        head, body = text.split("$enddefinitions $end\n")
        self.names = dict(re.findall(r"\$var wire \d+ (\S+) (\S+) \$end", head))
        self.marks = []
        for line in body.splitlines():
            if line.startswith("#"):
                self.marks.append((int(line[1:]), {}))
            elif line.startswith("b"):
                value, code = line[1:].split(" ")
                self.marks[-1][1][code] = int(value, 2)
            else:
                self.marks[-1][1][line[1:]] = int(line[0])

    def at(self, tick):
        shown = {}
        for time, values in self.marks:
            if time <= tick:
                shown.update(values)
        return {self.names[code]: value for code, value in shown.items()}


# By hand: the copy of task 2 is done at 4, and is thrown out by the release of 1, which the processor copies in from 7 on.
PLAN_B = """#0
b11111111 a
b00000011 b
b11111111 c
0d
#2
b00000011 a
b00000010 b
1d
#4
b11111111 b
#7
b00000001 a
b00000011 c
0d
#9
b00000010 b
b11111111 c
#11
b11111111 b
#12
b00000010 a
b00000001 c
1d
#13
b11111111 c
#16
b11111111 a
b00000010 c
0d
#17
b11111111 c
"""


class Dumps(unittest.TestCase):
    def test_with_nothing_released_the_header_and_time_0_stand_alone(self):
        self.assertEqual(dump(plan("G")).decode(), HEADER + "#0\nb11111111 a\nb11111111 b\nb11111111 c\n0d\n")

    def test_plan_b_is_shown_tick_by_tick(self):
        self.assertEqual(dump(plan("B")).decode(), HEADER + PLAN_B)

    def test_too_short_a_slice_is_13_with_the_length_needed(self):
        whole = dump(plan("A"))
        self.assertEqual(dump(plan("A"), lent=len(whole)), whole)
        with self.assertRaises(Refused) as refused:
            dump(plan("A"), lent=len(whole) - 1)
        self.assertEqual((refused.exception.number, refused.exception.place), (13, len(whole)))

    def test_random_runs_show_their_values_and_nothing_idle_stands(self):
        for index in range(60):
            data = generate.random_file(random.Random(f"waveform-{index}"))
            try:
                table, releases = read_file(data)
            except Refused:
                continue
            shown, runs = Shown(dump(data).decode()), samples(table, releases)
            times = [time for time, _ in shown.marks]
            self.assertEqual(times, sorted(set(times)))
            self.assertEqual(times[0], 0)
            before = {}
            for _, values in shown.marks:
                self.assertTrue(values)
                self.assertEqual(list(values), sorted(values))
                for code, value in values.items():
                    self.assertNotEqual(before.get(code), value)
                before.update(values)
            for (time, values), (later, _) in zip(runs, [*runs[1:], (runs[-1][0] + 3, None)]):
                for tick in {time, later - 1}:
                    self.assertEqual(shown.at(tick), values._asdict())


if __name__ == "__main__":
    unittest.main()
