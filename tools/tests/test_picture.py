"""The picture of a run: what is drawn and where, for document 01's plans A, B and F and for random runs."""

import itertools
import math
import pathlib
import random
import re
import tempfile
import unittest
from xml.etree import ElementTree

from sim import generate
from sim.dispatcher import Dispatcher
from sim.entries import release_entry
from sim.files import read_file, record, released_sets
from sim.generate_tables import small_length, some_tasks
from sim.lines import record_lines, text
from tools.commands import picture
from tools.drawing import LEFT, MOST_WIDTH, PAGE, draw, stack, tick_step
from tools.shapes import LEAST, RING, task_colours
from tools.lives import READY, lives
from tools.output import Rejected
from tools.plan import sound_plan
from tools.tests.captured import gateway
from tools.timeline import timeline

ROOT = pathlib.Path(__file__).resolve().parents[2]
SVG = "{http://www.w3.org/2000/svg}"

# The tasks of document 01's plans.
TASKS = "task 1 1 1 2 3 1\ntask 2 2 0 2 4 1\ntask 3 3 0 2 5 2\n"
A = TASKS + "release 0 3\nrelease 2 2\nrelease 3 1\n"
LINES_A = """\
I 0 2 0 - 0 - 3 1 -
I 2 7 1 3 1 - 2 2 1
J 3 0 2 9 0
I 7 12 0 1 2 3 2 1 -
J 1 3 9 13 1
I 12 16 1 2 1 1 - 0 -
J 2 2 12 17 1
I 16 17 0 - 0 2 - 0 -
"""

# (unit, kind, task, begin, end, interval, fate), by hand from the lines of document 01 and the lengths L, C and U.
CANCELLED_A = ("engine", "copy-in", 2, 2, 3, 2, "cancelled")
BARS_A = {
    ("engine", "copy-in", 3, 0, 2, 1, "done"),
    ("processor", "execution", 3, 2, 7, 2, "done"),
    CANCELLED_A,
    ("processor", "copy-in", 1, 7, 9, 3, "done"),
    ("processor", "execution", 1, 9, 12, 3, "done"),
    ("engine", "copy-out", 3, 7, 9, 3, "done"),
    ("engine", "copy-in", 2, 9, 11, 3, "done"),
    ("processor", "execution", 2, 12, 16, 4, "done"),
    ("engine", "copy-out", 1, 12, 13, 4, "done"),
    ("engine", "copy-out", 2, 16, 17, 5, "done"),
}
# In plan B the copy-in of 2 comes to its end.
THROWN_OUT_B = ("engine", "copy-in", 2, 2, 4, 2, "thrown out")
BARS_B = BARS_A - {CANCELLED_A} | {THROWN_OUT_B}


class Drawn:
    """A picture taken apart again."""

    def __init__(self, svg):
        self.root = ElementTree.fromstring(svg)
        self.width, self.height = float(self.root.get("width")), float(self.root.get("height"))

    @classmethod
    def of_plan(cls, plan, lines=None):
        with tempfile.TemporaryDirectory() as folder:
            return cls(picture_of(*written(folder, plan, lines)))

    def having(self, name):
        return [element for element in self.root.iter() if element.get(name) is not None]

    def of_kind(self, kind, *names):
        """The data attributes of all elements of a kind, numbers as numbers."""
        return [tuple(int(element.get(f"data-{name}")) for name in names)
                for element in self.having("data-kind") if element.get("data-kind") == kind]

    def elements(self, kind):
        return [element for element in self.having("data-kind") if element.get("data-kind") == kind]

    def bars(self):
        return [(bar.get("data-unit"), bar.get("data-kind"), *(int(bar.get(f"data-{name}")) for name in
                 ("task", "begin", "end", "interval")), bar.get("data-fate")) for bar in self.having("data-unit")]

    def crossed_out(self):
        """The fates of the bars with lines from corner to corner."""
        found = []
        for bar in self.having("data-unit"):
            left, top, width, height = first_rect(bar)
            lines = [tuple(map(float, re.findall(r"-?[\d.]+", path.get("d")))) for path in bar.findall(f"{SVG}path")]
            if lines == [(left, top, width, height, 0, -height, -width, height)]:
                found.append(bar.get("data-fate"))
        return found

    def intervals(self):
        return self.of_kind("interval", "number", "begin", "end", "half")

    def x_by_time(self):
        """The axis as a function, from its first and last number."""
        numbers = [(int(tick.get("data-time")), float(tick.get("x"))) for tick in self.elements("tick")]
        (first, x_first), (last, x_last) = numbers[0], numbers[-1]
        return lambda time: x_first + (time - first) * (x_last - x_first) / (last - first)

    def name_columns(self):
        """Where the row names stand, by the place behind them at which the rows go on."""
        return [float(element.get("x")) + 12 - LEFT for element in self.root.iter(f"{SVG}text") if element.text == "processor"]

    def texts(self):
        """Each text with the box that it takes, about: left, top, right, bottom."""
        for element in self.root.iter(f"{SVG}text"):
            style = element.get("class", "").split()
            size = 9 if "small" in style else 16 if "heading" in style else 11
            width = 0.6 * size * len(element.text)
            left = float(element.get("x")) - (width / 2 if "middle" in style else width if "end" in style else 0)
            base = float(element.get("y"))
            yield element.text, (left, base - 0.75 * size, left + width, base)


def picture_of(path, lines_path=None, **part):
    """The picture of a plan by the simulator's lines, or by those of a file."""
    plan = sound_plan(path)
    lines = record_lines(record(plan.data)) if lines_path is None else picture.stored_lines(lines_path)
    return picture.picture(plan, lines, "lines", **part)


def written(folder, plan, lines=None):
    """The paths of a plan and of lines, written into a folder."""
    paths = []
    for name, content in (("x.plan", plan), ("lines", lines)):
        if content is not None:
            path = pathlib.Path(folder, name)
            path.write_text(content, encoding="utf-8")
            paths.append(str(path))
    return paths


def random_run(seed, tasks=6, releases=330, gap=6):
    """The input of a run of some hundred intervals."""
    rng = random.Random(seed)
    table = some_tasks(rng, tasks, small_length)
    numbers = [task[1] for task in table]
    found = {(rng.randrange(releases * gap), rng.choice(numbers)) for _ in range(releases)}
    return b"".join(table + [release_entry(*release) for release in sorted(found)])


def drawn_input(data):
    return Drawn(draw(timeline(*read_file(data), record_lines(record(data))), "a run"))


def first_rect(element):
    rect = element.find(f"{SVG}rect")
    return tuple(float(rect.get(name)) for name in ("x", "y", "width", "height"))


def first_path_x(element):
    return float(re.match(r"M(-?[\d.]+) ", element.find(f"{SVG}path").get("d")).group(1))


class PlanA(unittest.TestCase):
    @classmethod
    def setUpClass(cls):
        cls.drawn = Drawn(picture_of(str(ROOT / "plans/a.plan")))

    def test_bars(self):
        self.assertEqual(len(self.drawn.bars()), len(BARS_A))
        self.assertEqual(set(self.drawn.bars()), BARS_A)

    def test_intervals(self):
        self.assertEqual(self.drawn.intervals(), [(1, 0, 2, 0), (2, 2, 7, 1), (3, 7, 12, 0), (4, 12, 16, 1), (5, 16, 17, 0)])

    def test_the_copy_in_of_2_is_cancelled_at_3_by_1(self):
        self.assertEqual(self.drawn.of_kind("cancellation", "task", "time", "by"), [(2, 3, 1)])
        hatched = [bar for bar in self.drawn.having("data-unit") if any(rect.get("fill") == "url(#hatch)" for rect in bar)]
        self.assertEqual([bar.get("data-fate") for bar in hatched], ["cancelled"])
        self.assertEqual(self.drawn.elements("throw-out") + self.drawn.crossed_out(), [])

    def test_1_is_promoted_at_the_end_of_interval_2(self):
        self.assertEqual(self.drawn.of_kind("promotion", "task", "time", "interval"), [(1, 7, 2)])

    def test_releases_and_jobs_done(self):
        self.assertEqual(self.drawn.of_kind("release", "time", "task"), [(0, 3), (2, 2), (3, 1)])
        self.assertEqual(self.drawn.of_kind("skipped", "time", "task"), [])
        self.assertEqual(self.drawn.of_kind("completion", "task", "release", "time", "blocked"),
                         [(3, 0, 9, 0), (1, 3, 13, 1), (2, 2, 17, 1)])

    def test_bars_are_as_long_as_their_phases(self):
        x = self.drawn.x_by_time()
        for bar in self.drawn.having("data-unit"):
            begin, end = int(bar.get("data-begin")), int(bar.get("data-end"))
            left, _, width, _ = first_rect(bar)
            self.assertAlmostEqual(left, x(begin), places=1)
            self.assertAlmostEqual(left + width, x(end), places=1)
        self.assertGreater(x(17) - x(0), 17 * 30)

    def test_marks_stand_at_their_ticks(self):
        x = self.drawn.x_by_time()
        for kind, offset in (("release", 0), ("cancellation", 5), ("promotion", 5)):
            for element in self.drawn.elements(kind):
                self.assertAlmostEqual(first_path_x(element) + offset, x(int(element.get("data-time"))), places=1)
        for element in self.drawn.elements("completion"):
            self.assertAlmostEqual(float(element.find(f"{SVG}circle").get("cx")), x(int(element.get("data-time"))), places=1)

    def test_rows(self):
        """Each unit's bars lie in its row; an interval's box goes over both and has each row in its half's colour."""
        rows = {"processor": set(), "engine": set()}
        for bar in self.drawn.having("data-unit"):
            rows[bar.get("data-unit")].add(first_rect(bar)[1::2])
        self.assertEqual([len(row) for row in rows.values()], [1, 1])
        ((processor, height),), ((engine, _),) = rows["processor"], rows["engine"]
        self.assertLess(processor + height, engine)
        colours = {}
        for band in self.drawn.elements("interval"):
            upper, lower, box = band.findall(f"{SVG}rect")
            for row, bar_top in ((upper, processor), (lower, engine)):
                self.assertLess(float(row.get("y")), bar_top)
                self.assertGreater(float(row.get("y")) + float(row.get("height")), bar_top + height)
            self.assertLess(float(box.get("y")), processor)
            self.assertGreater(float(box.get("y")) + float(box.get("height")), engine + height)
            colours.setdefault(band.get("data-half"), set()).add((upper.get("fill"), lower.get("fill")))
        ((one, other),), ((other_too, one_too),) = colours["0"], colours["1"]
        self.assertEqual((one, other), (one_too, other_too))
        self.assertNotEqual(one, other)

    def test_ready_time_is_shown(self):
        self.assertEqual(self.drawn.of_kind("ready", "task", "begin", "end"), [(1, 3, 7), (2, 3, 9)])

    def test_each_task_has_its_colour(self):
        fills = {}
        for bar in self.drawn.having("data-unit"):
            if bar.get("data-kind") == "execution":
                fills[bar.get("data-task")] = bar.find(f"{SVG}rect").get("fill")
        self.assertEqual(len(set(fills.values())), 3)

    def test_labels(self):
        """Everything has its label here: intervals, ticks, halves, bars, marks."""
        labels = [label for label, _ in self.drawn.texts()]
        for label in ("interval 1", "0–2", "interval 4", "12–16", "16–17", "run 3", "in 1", "run 1", "out 3", "run 2",
                      "out 1", "out 2", "1 promoted", "processor", "engine", "releases", "jobs done", "Run of a.plan"):
            self.assertEqual(labels.count(label), 1, label)
        self.assertEqual((labels.count("in 2"), labels.count("half 0"), labels.count("half 1")), (2, 5, 5))
        self.assertEqual([int(tick.text) for tick in self.drawn.elements("tick")], list(range(18)))

    def test_size(self):
        self.assertLess(self.drawn.height, 500)
        self.assertLess(self.drawn.width, 1000)

    def test_title_and_description(self):
        self.assertEqual(self.drawn.root.find(f"{SVG}title").text, "Run of a.plan")
        self.assertIn("ticks 0 to 17, 3 tasks, 3 releases (0 skipped), 5 intervals, 1 copy-in cancelled, 1 job promoted, "
                      "3 jobs done", self.drawn.root.find(f"{SVG}desc").text)
        for element in self.drawn.having("data-kind"):
            if element.tag == f"{SVG}g" and element.get("data-kind") != "axis":
                self.assertTrue(element.find(f"{SVG}title").text)

    def test_from_printed_lines(self):
        self.assertEqual(set(Drawn.of_plan(A, LINES_A).bars()), BARS_A)

    def test_nothing_comes_from_outside(self):
        self.assertEqual(self.drawn.root.tag, f"{SVG}svg")
        for element in self.drawn.root.iter():
            self.assertNotIn(element.tag.removeprefix(SVG), ("script", "image", "use", "foreignObject"))
            self.assertFalse([name for name in element.keys() if name.startswith("on") or name.endswith("href")])
        self.assertNotRegex(self.drawn.root.find(f"{SVG}style").text, "@import|url")


class PlanB(unittest.TestCase):
    @classmethod
    def setUpClass(cls):
        cls.drawn = Drawn(picture_of(str(ROOT / "plans/b.plan")))

    def test_bars(self):
        self.assertEqual(len(self.drawn.bars()), len(BARS_B))
        self.assertEqual(set(self.drawn.bars()), BARS_B)

    def test_intervals(self):
        self.assertEqual(self.drawn.intervals(), [(1, 0, 2, 0), (2, 2, 7, 1), (3, 7, 12, 0), (4, 12, 16, 1), (5, 16, 17, 0)])

    def test_marks(self):
        self.assertEqual(self.drawn.of_kind("release", "time", "task"), [(0, 3), (2, 2), (4, 1)])
        self.assertEqual(self.drawn.of_kind("completion", "task", "time", "blocked"), [(3, 9, 0), (1, 13, 1), (2, 17, 1)])
        self.assertEqual(self.drawn.of_kind("promotion", "task", "time", "interval"), [(1, 7, 2)])
        self.assertEqual(self.drawn.elements("cancellation"), [])

    def test_the_copy_in_of_2_is_thrown_out_at_4_by_1(self):
        self.assertEqual(self.drawn.of_kind("throw-out", "task", "time", "by"), [(2, 4, 1)])
        (mark,) = self.drawn.elements("throw-out")
        self.assertEqual(mark.find(f"{SVG}title").text, "the release of task 1 at 4 throws out the copy-in of task 2")
        self.assertEqual(self.drawn.crossed_out(), ["thrown out"])

    def test_description(self):
        self.assertIn("0 copy-ins cancelled, 1 thrown out, 1 job promoted", self.drawn.root.find(f"{SVG}desc").text)


class ThrownOut(unittest.TestCase):
    """A copy-in that ended before it was thrown out: its bar is whole, and a line leads to the mark at the tick of the release."""

    @classmethod
    def setUpClass(cls):
        cls.drawn = Drawn.of_plan(A.replace("release 3 1", "release 6 1"))

    def test_the_bar_comes_to_its_end(self):
        self.assertIn(THROWN_OUT_B, self.drawn.bars())
        self.assertEqual(self.drawn.of_kind("throw-out", "task", "time", "by"), [(2, 6, 1)])

    def test_the_mark_stands_at_the_tick_of_the_release(self):
        (mark,), x = self.drawn.elements("throw-out"), self.drawn.x_by_time()
        self.assertAlmostEqual(float(mark.find(f"{SVG}circle").get("cx")), x(6), places=1)
        line, cross = mark.findall(f"{SVG}path")
        self.assertAlmostEqual(first_path_x(mark), x(4), places=1)
        self.assertAlmostEqual(float(line.get("d").partition("H")[2]), x(6) - RING, places=1)
        self.assertEqual(cross.get("class"), "cross")

    def test_it_looks_like_neither_a_copy_that_is_done_nor_a_cancelled_one(self):
        drawn = Drawn.of_plan(TASKS + "release 0 3\nrelease 2 2\nrelease 3 1\nrelease 20 3\nrelease 22 2\nrelease 24 1\n")
        looks = {bar.get("data-fate"): [element.tag.removeprefix(SVG) for element in bar if element.tag != f"{SVG}title"]
                 for bar in drawn.having("data-unit") if bar.get("data-kind") == "copy-in"}
        self.assertEqual(looks, {"done": ["rect", "text"], "cancelled": ["rect", "rect", "text"], "thrown out": ["rect", "path", "text"]})
        self.assertEqual(drawn.crossed_out(), ["thrown out"])

    def test_the_legend_tells_how_copies_gave_way_where_they_did(self):
        cancelled, thrown_out = "copy-in cancelled", "copy thrown out"
        for releases, expected in (("", []), ("release 3 1\n", [cancelled]), ("release 4 1\n", [thrown_out]), ("release 7 1\n", []),
                                   ("release 3 1\nrelease 20 3\nrelease 22 2\nrelease 24 1\n", [cancelled, thrown_out])):
            drawn = Drawn.of_plan(TASKS + "release 0 3\nrelease 2 2\n" + releases)
            self.assertEqual([label for label, _ in drawn.texts() if label in (cancelled, thrown_out)], expected)
            Labels().assert_apart(drawn)

    def test_the_first_release_that_could_is_the_one(self):
        """The releases of 3, which is unmarked, of 4, which is lower, and of 1, which wait and are skipped, throw out nothing; that of 0 comes too
        late."""
        tasks = ("task 0 0 1 1 1 1\ntask 1 1 1 1 20 1\ntask 2 5 0 2 1 1\ntask 3 4 0 1 1 1\ntask 4 6 1 1 1 1\ntask 5 2 1 1 1 1\n")
        drawn = Drawn.of_plan(tasks + "release 0 1\nrelease 1 2\nrelease 4 1\nrelease 5 1\nrelease 5 3\nrelease 6 4\nrelease 7 5\nrelease 8 0\n")
        self.assertEqual(drawn.of_kind("waiting", "time", "task"), [(4, 1)])
        self.assertEqual(drawn.of_kind("skipped", "time", "task"), [(5, 1)])
        self.assertIn(("engine", "copy-in", 2, 1, 3, 2, "thrown out"), drawn.bars())
        self.assertEqual(drawn.of_kind("throw-out", "task", "time", "by"), [(2, 7, 5)])
        self.assertEqual(drawn.of_kind("promotion", "task", "time", "interval")[0], (0, 21, 2))

    def test_in_a_part(self):
        with tempfile.TemporaryDirectory() as folder:
            (path,) = written(folder, A.replace("release 3 1", "release 6 1"))
            drawn = Drawn(picture_of(path, first=3, last=6))
        self.assertEqual(drawn.of_kind("throw-out", "task", "time", "by"), [(2, 6, 1)])


class PlanF(unittest.TestCase):
    """The release at 5 waits for the completion at 6: it is seen waiting, and runs as if it had come then."""

    @classmethod
    def setUpClass(cls):
        cls.drawn = Drawn(picture_of(str(ROOT / "plans/f.plan")))

    def test_bars_and_intervals(self):
        self.assertEqual(set(self.drawn.bars()), {
            ("engine", "copy-in", 1, 0, 2, 1, "done"), ("processor", "execution", 1, 2, 5, 2, "done"), ("engine", "copy-out", 1, 5, 6, 3, "done"),
            ("engine", "copy-in", 1, 6, 8, 3, "done"), ("processor", "execution", 1, 8, 11, 4, "done"), ("engine", "copy-out", 1, 11, 12, 5, "done")})
        self.assertEqual(self.drawn.intervals(), [(1, 0, 2, 0), (2, 2, 5, 1), (3, 5, 8, 0), (4, 8, 11, 1), (5, 11, 12, 0)])

    def test_marks(self):
        self.assertEqual(self.drawn.of_kind("release", "time", "task"), [(0, 1)])
        self.assertEqual(self.drawn.of_kind("waiting", "time", "task"), [(5, 1)])
        self.assertEqual(self.drawn.elements("skipped"), [])
        self.assertEqual(self.drawn.of_kind("completion", "task", "release", "time"), [(1, 0, 6), (1, 5, 12)])

    def test_the_wait_is_a_bar_from_the_release_to_the_taking(self):
        (wait,), x = self.drawn.elements("wait"), self.drawn.x_by_time()
        self.assertEqual(self.drawn.of_kind("wait", "task", "begin", "end"), [(1, 5, 6)])
        self.assertEqual(wait.find(f"{SVG}title").text, "the release of task 1 at 5 waits until 6")
        left, top, width, height = first_rect(wait)
        self.assertAlmostEqual(left, x(5), places=1)
        self.assertAlmostEqual(left + width, x(6), places=1)
        (band,) = [band for band in self.drawn.elements("interval") if band.get("data-number") == "3"]
        self.assertLess(top + height, float(band.findall(f"{SVG}rect")[2].get("y")))
        self.assertAlmostEqual(first_path_x(wait) + height / 2, x(6), places=1)

    def test_it_stands_below_its_arrow(self):
        (arrow,), (wait,) = self.drawn.elements("waiting"), self.drawn.elements("wait")
        tip = float(re.match(r"M[\d.]+ ([\d.]+)v14", arrow.find(f"{SVG}path").get("d")).group(1)) + 14
        self.assertTrue(0 < first_rect(wait)[1] - tip < 8)

    def test_words(self):
        labels = [label for label, _ in self.drawn.texts()]
        self.assertEqual([labels.count(label) for label in ("waiting", "release waits")], [1, 1])
        self.assertIn("2 releases (1 waiting, 0 skipped)", self.drawn.root.find(f"{SVG}desc").text)

    def test_where_none_waits_nothing_is_said_of_waiting(self):
        labels = [label for label, _ in Drawn.of_plan(A).texts()]
        self.assertEqual([label for label in labels if "wait" in label], [])


class Waits(unittest.TestCase):
    """Several waits at once, one behind the other, and parts of them."""

    IN_TURN = TASKS + "release 0 1\nrelease 5 1\nrelease 6 1\n"

    def tops(self, drawn):
        return {(wait.get("data-task"), wait.get("data-begin")): first_rect(wait)[1] for wait in drawn.elements("wait")}

    def test_in_turn_they_stand_in_one_row(self):
        drawn = Drawn.of_plan(self.IN_TURN)
        self.assertEqual(drawn.of_kind("wait", "task", "begin", "end"), [(1, 5, 6), (1, 6, 12)])
        self.assertEqual(len(set(self.tops(drawn).values())), 1)
        self.assertIn("1 waits", [label for label, _ in drawn.texts()])

    def test_at_once_they_stand_below_each_other(self):
        drawn = Drawn.of_plan(TASKS + "release 0 1\nrelease 0 2\nrelease 0 3\nrelease 1 1\nrelease 2 2\nrelease 3 3\n")
        self.assertEqual([wait[0] for wait in drawn.of_kind("wait", "task", "begin")], [1, 2, 3])
        tops = list(self.tops(drawn).values())
        self.assertEqual(tops, sorted(set(tops)))
        Labels().assert_apart(drawn)

    def test_many_are_thin_and_all_there(self):
        tasks = "".join(f"task {number} {number} 0 2 2 2\n" for number in range(32))
        drawn = Drawn.of_plan(tasks + "".join(f"release {time} {number}\n" for time in (0, 1) for number in range(32)))
        waits = drawn.elements("wait")
        self.assertEqual(len(waits), 32)
        boxes = sorted((top, top + height) for _, top, _, height in map(first_rect, waits))
        for (_, bottom), (top, _) in zip(boxes, boxes[1:]):
            self.assertLess(bottom, top)
        self.assertLess(boxes[-1][1] - boxes[0][0], 120)
        Labels().assert_apart(drawn)

    def test_in_a_part(self):
        """The interval 8 to 11 lies within the wait from 6 to 12, of which neither end is seen."""
        with tempfile.TemporaryDirectory() as folder:
            (path,) = written(folder, self.IN_TURN)
            drawn = Drawn(picture_of(path, first=9, last=10))
        self.assertEqual(drawn.of_kind("wait", "task", "begin", "end"), [(1, 6, 12)])
        (wait,), x = drawn.elements("wait"), drawn.x_by_time()
        left, _, width, _ = first_rect(wait)
        self.assertAlmostEqual(left, x(8), places=1)
        self.assertAlmostEqual(left + width, x(11), places=1)
        self.assertEqual(wait.findall(f"{SVG}path"), [])

    def test_a_part_without_them(self):
        with tempfile.TemporaryDirectory() as folder:
            (path,) = written(folder, self.IN_TURN + "release 40 1\n")
            drawn = Drawn(picture_of(path, first=40, last=50))
        self.assertEqual(drawn.elements("wait"), [])

    def test_where_a_part_ends_before_the_taking(self):
        with tempfile.TemporaryDirectory() as folder:
            (path,) = written(folder, TASKS + "release 0 1\nrelease 3 1\n")
            drawn = Drawn(picture_of(path, first=3, last=3))
        (wait,) = drawn.elements("wait")
        self.assertEqual(wait.find(f"{SVG}title").text, "the release of task 1 at 3 waits on")


class OtherPlans(unittest.TestCase):
    def test_a_skipped_release(self):
        """The release at 3 waits, and so that at 5 is skipped. Its line is dashed and its number struck out."""
        drawn = Drawn.of_plan(TASKS + "release 0 1\nrelease 3 1\nrelease 5 1\n")
        self.assertEqual(drawn.of_kind("release", "time", "task"), [(0, 1)])
        self.assertEqual(drawn.of_kind("waiting", "time", "task"), [(3, 1)])
        self.assertEqual(drawn.of_kind("skipped", "time", "task"), [(5, 1)])
        styles = [[path.get("class") for path in drawn.elements(kind)[0].iter(f"{SVG}path")] for kind in ("release", "waiting", "skipped")]
        self.assertEqual(styles, [["line", None], ["line", None], ["dashed", "stop", "strike"]])
        heads = [drawn.elements(kind)[0].findall(f"{SVG}path")[1].get("fill") for kind in ("release", "waiting")]
        self.assertEqual(heads, ["#1a1a1a", "#ffffff"])

    def test_a_release_that_came_too_soon(self):
        """The release at 5 is one tick sooner than the spacing: a second stop at its tail, and its own entry in the legend. 6 is taken."""
        drawn = Drawn.of_plan(TASKS + "spacing 1 6\nrelease 0 1\nrelease 5 1\nrelease 6 1\n")
        self.assertEqual(drawn.of_kind("release", "time", "task"), [(0, 1), (6, 1)])
        [mark] = drawn.elements("skipped")
        self.assertEqual(mark.find(f"{SVG}title").text, "release of task 1 at 5, skipped: sooner than its spacing")
        self.assertEqual([path.get("class") for path in mark.iter(f"{SVG}path")], ["dashed", "stop", "stop", "strike"])
        self.assertIn("3 releases (1 skipped, 1 of them too soon)", drawn.root.find(f"{SVG}desc").text)
        texts = {text.text for text in drawn.root.iter(f"{SVG}text")}
        self.assertIn("release skipped, too soon", texts)
        self.assertIn("task 1: priority 1, latency-sensitive, L 2, C 3, U 1, spacing 6", texts)

    def test_a_copy_in_cancelled_at_the_end_of_its_interval(self):
        """Plan D: interval 0 to 1, and the job that cancelled is promoted."""
        drawn = Drawn.of_plan(TASKS + "release 0 2\nrelease 1 1\n")
        self.assertIn(("engine", "copy-in", 2, 0, 1, 1, "cancelled"), drawn.bars())
        self.assertEqual(drawn.of_kind("promotion", "task", "time", "interval"), [(1, 1, 1)])

    def test_a_copy_in_cancelled_behind_a_copy_out(self):
        """The releases of 3, which is unmarked, and of 4, which is lower, do not cancel."""
        tasks = "task 0 9 0 1 20 4\ntask 1 5 0 6 1 1\ntask 2 3 1 1 1 1\ntask 3 4 0 1 1 1\ntask 4 6 1 1 1 1\n"
        drawn = Drawn.of_plan(tasks + "release 0 0\nrelease 21 1\nrelease 26 3\nrelease 27 4\nrelease 28 2\n")
        self.assertIn(("engine", "copy-out", 0, 21, 25, 3, "done"), drawn.bars())
        self.assertIn(("engine", "copy-in", 1, 25, 28, 3, "cancelled"), drawn.bars())
        self.assertEqual(drawn.of_kind("cancellation", "task", "time", "by"), [(1, 28, 2)])

    def test_a_release_that_waits_or_is_skipped_does_not_cancel(self):
        tasks = "task 0 0 1 1 1 1\ntask 1 1 1 2 10 1\ntask 2 2 0 6 1 1\n"
        drawn = Drawn.of_plan(tasks + "release 0 1\nrelease 1 2\nrelease 3 1\nrelease 4 1\nrelease 6 0\n")
        self.assertEqual(drawn.of_kind("waiting", "time", "task"), [(3, 1)])
        self.assertEqual(drawn.of_kind("skipped", "time", "task"), [(4, 1)])
        self.assertIn(("engine", "copy-in", 2, 2, 6, 2, "cancelled"), drawn.bars())
        self.assertEqual(drawn.of_kind("cancellation", "task", "time", "by"), [(2, 6, 0)])

    def test_a_release_on_the_tick_of_the_choice_does_not_cancel(self):
        """The release of 1 cuts interval 1 short and is promoted; 2 is chosen again on that tick, and cancelled by 0."""
        tasks = "task 0 0 1 1 1 1\ntask 1 1 1 2 3 1\ntask 2 2 0 4 1 1\n"
        drawn = Drawn.of_plan(tasks + "release 0 2\nrelease 1 1\nrelease 3 0\n")
        self.assertEqual(drawn.of_kind("cancellation", "task", "time", "by"), [(2, 1, 1), (2, 3, 0)])
        self.assertIn(("engine", "copy-in", 2, 1, 3, 2, "cancelled"), drawn.bars())

    def test_no_release(self):
        """Plan G: an empty record, and still a picture."""
        drawn = Drawn.of_plan(TASKS)
        self.assertEqual((drawn.bars(), drawn.intervals()), ([], []))

    def test_time_far_from_zero(self):
        drawn = Drawn.of_plan(TASKS + "release 1000000000 1\n")
        self.assertEqual(drawn.intervals()[0][1:3], (1_000_000_000, 1_000_000_002))
        self.assertLess(drawn.width, 1000)

    def test_one_short_phase_does_not_stretch_a_run(self):
        self.assertLess(Drawn.of_plan("task 1 1 1 1 1000000 1000000\nrelease 0 1\n").width, 1000)


def observed_waits(data):
    """The waits of a run as (task, begin, end), by looking at what waits in the simulator at each instant."""
    table, releases = read_file(data)
    dispatcher, sets, found, before = Dispatcher(dict(table)), dict(released_sets(releases)), [], {}
    while sets or dispatcher.due() is not None:
        now = min([*list(sets)[:1], *([] if dispatcher.due() is None else [dispatcher.due()])])
        dispatcher.instant(now, sets.pop(now, 0))
        found += [(task, begin, now) for task, begin in before.items() if dispatcher.waiting.get(task) != begin]
        before = dict(dispatcher.waiting)
    return sorted(found)


def observed_phases(data):
    """The phases of a run as (unit, name, task, begin, end), by looking at the simulator's units at each instant."""
    table, releases = read_file(data)
    dispatcher, sets = Dispatcher(dict(table)), dict(released_sets(releases))
    phases, current = [], {"processor": (None, 0), "engine": (None, 0)}
    while sets or dispatcher.due() is not None:
        now = min([*list(sets)[:1], *([] if dispatcher.due() is None else [dispatcher.due()])])
        dispatcher.instant(now, sets.pop(now, 0))
        for unit, (phase, begin) in current.items():
            seen = getattr(dispatcher.interval, unit, None)
            if seen is not phase:
                current[unit] = seen, now
                if phase is not None:
                    phases.append((unit, phase.name, phase.job.task.number, begin, now))
    return sorted(phases)


class RandomRuns(unittest.TestCase):
    def assert_sound(self, data):
        """As many boxes as intervals, the phases that the simulator went through, none outside its interval."""
        lines, drawn = record_lines(record(data)), drawn_input(data)
        self.assertEqual(len(drawn.intervals()), sum(line.startswith("I") for line in lines))
        self.assertEqual(len(drawn.elements("skipped")), sum(line.startswith("S") for line in lines))
        self.assertEqual(len(drawn.elements("completion")), sum(line.startswith("J") for line in lines))
        self.assertEqual(sum(len(drawn.elements(kind)) for kind in ("release", "waiting", "skipped")), len(read_file(data)[1]))
        self.assertEqual(sorted(drawn.of_kind("wait", "task", "begin", "end")), observed_waits(data))
        self.assertEqual(sorted(drawn.of_kind("waiting", "task", "time")), sorted(wait[:2] for wait in drawn.of_kind("wait", "task", "begin")))
        self.assertEqual(sorted(bar[:5] for bar in drawn.bars()), observed_phases(data))
        ready = [(life.task.number, phase.begin, phase.end) for life in lives(*read_file(data)).done() for phase in life.phases if phase.kind == READY]
        self.assertEqual(sorted(drawn.of_kind("ready", "task", "begin", "end")), sorted(ready))
        boxes = {band.get("data-number"): first_rect(band) for band in drawn.elements("interval")}
        for bar in drawn.having("data-unit"):
            (left, _, width, _), (box_left, _, box_width, _) = first_rect(bar), boxes[bar.get("data-interval")]
            self.assertGreaterEqual(left, box_left - 0.02)
            self.assertLessEqual(left + width, box_left + box_width + (0.04 if width > LEAST else LEAST + 0.02))
        self.assertLessEqual(drawn.width, MOST_WIDTH)
        return drawn

    def test_a_run_of_some_hundred_intervals(self):
        for seed in (3, 6, 14):
            drawn = self.assert_sound(random_run(seed))
            self.assertGreater(len(drawn.intervals()), 200)
            for kind in ("cancellation", "throw-out", "promotion"):
                self.assertGreater(len(drawn.elements(kind)), 0)
            self.assertGreater(drawn.width, 10_000)

    def test_random_files(self):
        rng = random.Random(6)
        for _ in range(60):
            self.assert_sound(generate.random_file(rng))


class Labels(unittest.TestCase):
    def assert_apart(self, drawn):
        """No text runs into another or out of the picture."""
        active = []
        for label, (left, top, right, bottom) in sorted(drawn.texts(), key=lambda each: each[1]):
            active = [other for other in active if other[1][2] > left]
            for other, (_, other_top, _, other_bottom) in active:
                self.assertFalse(top < other_bottom and other_top < bottom, f"'{label}' and '{other}' near x {left}")
            active.append((label, (left, top, right, bottom)))
            self.assertTrue(left >= 0 and top >= 0 and right <= drawn.width and bottom <= drawn.height, label)

    def test_plans(self):
        for name in ("a", "b", "f"):
            self.assert_apart(Drawn(picture_of(str(ROOT / f"plans/{name}.plan"))))

    def test_long_and_crowded_runs(self):
        for data in (random_run(9), random_run(2, tasks=32, gap=2), random_run(3, tasks=32, releases=2000, gap=1),
                     random_run(4, releases=40), random_run(5, releases=30, gap=100_000)):
            self.assert_apart(drawn_input(data))

    def test_numbers_are_left_out_where_they_do_not_fit(self):
        drawn = drawn_input(random_run(3, tasks=32, releases=2000, gap=1))
        shown = [mark for mark in drawn.elements("release") + drawn.elements("skipped") if mark.find(f"{SVG}text") is not None]
        self.assertTrue(0 < len(shown) < 2000)

    def test_a_high_stack_ends_with_the_number_of_the_rest(self):
        self.assertEqual(stack(range(8)), ["0", "1", "2", "3", "4", "5", "6", "7"])
        self.assertEqual(stack(range(32)), ["0", "1", "2", "3", "4", "5", "6", "+25"])

    def test_marks_on_the_axis_are_apart(self):
        """Also where a tenth of the step between numbers, or one tick, is too little."""
        eights, twenties = (Drawn.of_plan(f"task 1 1 1 {ticks} {ticks} {ticks}\nrelease 0 1\n") for ticks in (8, 20))
        for drawn in (drawn_input(random_run(9)), drawn_input(random_run(5, releases=30, gap=100_000)), eights, twenties):
            (axis,) = drawn.elements("axis")
            marks = [float(re.match(r"M([\d.]+) ", path.get("d")).group(1)) for path in axis.findall(f"{SVG}path")[1:]]
            breaks = [first_path_x(mark) for mark in drawn.elements("break")]
            breaks = sorted(breaks + [x for x in drawn.name_columns() if x > LEFT])  # the row names are a break too
            for begin, end in zip([0, *breaks], [*breaks, drawn.width]):  # between two breaks all marks are equally far apart, but the first number
                gaps = [right - left for left, right in zip(marks, marks[1:]) if begin < left and right <= end + 0.02]
                gaps = gaps[1:] if begin else gaps
                self.assertGreaterEqual(min(gaps, default=6), 5.98)
                self.assertLessEqual(max(gaps, default=6) - min(gaps, default=6), 0.02)
            self.assertLessEqual({float(number.get("x")) for number in drawn.elements("tick")}, set(marks))
        self.assertEqual(eights.of_kind("tick", "time"), [(0,), (5,), (10,), (15,), (20,)])
        self.assertEqual(twenties.of_kind("tick", "time"), [(0,), (20,), (40,), (60,)])

    def test_the_axis_is_thinned(self):
        self.assertEqual([tick_step(pixels, 1000) for pixels in (44, 30, 12, 4.5, 0.3)], [1, 2, 5, 10, 200])


class LongRuns(unittest.TestCase):
    """Few jobs with long idle time between them, and a part of a long run."""

    FIVE = TASKS + "".join(f"release {250_000_000 * job} {1 + job % 3}\n" for job in range(5))

    def test_five_jobs_over_a_thousand_million_ticks_can_be_seen(self):
        drawn = Drawn.of_plan(self.FIVE)
        self.assertEqual(len(drawn.intervals()), 15)
        self.assertLess(drawn.width, 4000)
        for bar in drawn.having("data-unit"):
            self.assertGreater(first_rect(bar)[2], 10)
        self.assertEqual([begin for begin, _ in drawn.of_kind("break", "begin", "end")], [6, 250_000_007, 500_000_009, 750_000_006])
        self.assertEqual([end for _, end in drawn.of_kind("break", "begin", "end")], [250_000_000, 500_000_000, 750_000_000, 1_000_000_000])
        numbers = [time for (time,) in drawn.of_kind("tick", "time")]
        self.assertEqual(numbers, sorted(numbers))
        for time in (0, 250_000_000, 500_000_000, 750_000_000, 1_000_000_000):
            self.assertIn(time, numbers)
        Labels().assert_apart(drawn)

    def test_what_comes_later_stands_further_right(self):
        drawn = Drawn.of_plan(self.FIVE)
        marks = sorted((int(mark.get("data-time")), first_path_x(mark)) for mark in drawn.elements("release"))
        self.assertEqual([x for _, x in marks], sorted({x for _, x in marks}))
        boxes = [first_rect(band) for band in drawn.elements("interval")]
        for (left, _, width, _), (right, _, _, _) in zip(boxes, boxes[1:]):
            self.assertGreaterEqual(right, left + width - 0.02)

    def test_short_idle_time_is_drawn(self):
        self.assertEqual(Drawn.of_plan(TASKS + "release 0 1\nrelease 9 1\n").elements("break"), [])

    def test_row_names_and_legend_again_and_again(self):
        """In a gap of their own: nothing else is drawn there, and no part of the rows is without them for long."""
        drawn = drawn_input(random_run(3))
        columns = drawn.name_columns()
        self.assertGreater(len(columns), 5)
        self.assertLess(max(right - left for left, right in zip(columns, columns[1:])), 1.3 * PAGE)
        self.assertLess(drawn.width - columns[-1], 1.3 * PAGE)
        labels = [label for label, _ in drawn.texts()]
        for label in ("engine", "releases", "ready", "jobs done", "ticks"):
            self.assertEqual(labels.count(label), len(columns), label)
        self.assertGreaterEqual(labels.count("copy-in (in)"), len(columns) - 1)
        for bar in drawn.having("data-unit"):
            left, _, width, _ = first_rect(bar)
            self.assertFalse(any(left < column + LEFT - 1 and column + 1 < left + width for column in columns), left)

    def test_the_last_number_of_the_axis_is_whole(self):
        for end in (0, 9_999_990, 999_999_990):
            drawn = Drawn.of_plan(f"task 1 1 1 5 5 5\nrelease {end} 1\n")
            for tick in drawn.elements("tick"):
                self.assertLessEqual(float(tick.get("x")) + 0.62 * 11 * len(tick.text) / 2, drawn.width)

    def test_a_phase_of_one_tick_is_never_invisible(self):
        drawn = Drawn.of_plan("task 1 1 1 1 1000000 1\ntask 2 2 0 1 1 1\n" + "".join(f"release {at * 1_000_002} 1\n" for at in range(60)) + "release 70000000 2\n")
        for bar in drawn.having("data-unit"):
            self.assertGreaterEqual(first_rect(bar)[2], 1)

    def test_idle_time_is_left_out_only_where_that_saves_room(self):
        drawn = drawn_input(random_run(3, tasks=8, releases=4000, gap=7))
        (axis,) = drawn.elements("axis")
        for gap in drawn.elements("break"):
            ticks = int(gap.get("data-end")) - int(gap.get("data-begin"))
            self.assertGreater(ticks, 50)

    def test_a_day_of_32_tasks_shows_something(self):
        """The worst response of each task by time, in a table: every job is in a cell of it."""
        rng = random.Random(2)
        tasks = "".join(f"task {number} {number} {number % 3 == 0:d} {rng.randint(1, 30)} {rng.randint(1, 90)} {rng.randint(1, 20)}\n" for number in range(32))
        releases = sorted({(rng.randrange(86_400_000), rng.randrange(32)) for _ in range(4096)})
        drawn = Drawn.of_plan(tasks + "".join(f"release {time} {task}\n" for time, task in releases))
        cells = drawn.of_kind("worst", "task", "response", "jobs", "skipped")
        self.assertEqual({cell[0] for cell in cells}, set(range(32)))
        self.assertEqual(sum(cell[2] for cell in cells), len(drawn.elements("completion")))
        worst = max(int(job.get("data-time")) - int(job.get("data-release")) for job in drawn.elements("completion"))
        self.assertEqual(max(cell[1] for cell in cells), worst)
        self.assertIn(str(worst), [label for label, _ in drawn.texts()])
        self.assertLessEqual(drawn.width, MOST_WIDTH)

    def test_a_short_run_has_no_such_table(self):
        self.assertEqual(Drawn.of_plan(A).elements("worst"), [])

    def test_thousands_of_breaks(self):
        tasks = "task 1 1 1 2 3 1\n"
        drawn = Drawn.of_plan(tasks + "".join(f"release {200_000 * job} 1\n" for job in range(4096)))
        self.assertLessEqual(drawn.width, MOST_WIDTH)
        self.assertEqual(len(drawn.elements("break")), 4095)

    def test_a_part(self):
        with tempfile.TemporaryDirectory() as folder:
            (path,) = written(folder, self.FIVE)
            drawn = Drawn(picture_of(path, first=250_000_001, last=500_000_000))
        self.assertEqual([band[0] for band in drawn.intervals()], [4, 5, 6, 7])
        self.assertEqual(drawn.of_kind("release", "time", "task"), [(250_000_000, 2), (500_000_000, 3)])
        self.assertEqual(drawn.of_kind("completion", "task", "time"), [(2, 250_000_007)])
        with tempfile.TemporaryDirectory() as folder:
            (path,) = written(folder, A)
            drawn = Drawn(picture_of(path, first=13, last=13))
        self.assertEqual(drawn.intervals(), [(4, 12, 16, 1)])
        self.assertEqual(drawn.of_kind("completion", "task", "time"), [(1, 13)])

    def test_a_promotion_in_a_part(self):
        with tempfile.TemporaryDirectory() as folder:
            (path,) = written(folder, A)
            drawn = Drawn(picture_of(path, first=3, last=7))
        self.assertEqual(drawn.of_kind("promotion", "task", "time", "interval"), [(1, 7, 2)])

    def test_a_part_in_which_nothing_happens(self):
        with tempfile.TemporaryDirectory() as folder:
            (path,) = written(folder, self.FIVE)
            with self.assertRaisesRegex(Rejected, "nothing happens from tick 100 to 200"):
                picture_of(path, first=100, last=200)


class Command(unittest.TestCase):
    def run_main(self, *arguments):
        return gateway("picture", *arguments)

    def refused(self, plan, lines=None):
        """The message about a bad plan or bad lines, behind the file's name."""
        with tempfile.TemporaryDirectory() as folder:
            paths = written(folder, plan, lines)
            status, drawn, message = self.run_main(paths[0], *(["--lines", paths[1]] if lines is not None else []))
        self.assertEqual((status, drawn), (1, b""))
        self.assertTrue(message.startswith(paths[-1] + ": "), message)
        return message.removeprefix(paths[-1] + ": ").rstrip("\n")

    def test_plans_that_are_refused(self):
        task = "# a table\n\ntask 1 1 1 2 3 1\n"
        for plan, expected in (
                (task + "tusk\n", "line 4: 'tusk' is none of 'task', 'spacing' and 'release'"),
                (task + f"release {'9' * 4000} 1\n", "line 4: time has 4000 digits, over 20"),
                (task + "release 0 1\n# late\ntask 2 2 0 1 1 1\n", "line 6: a task after a release: the first release is in line 4 (refusal 3)"),
                (task + "task 32 2 0 1 1 1\n", "line 4: task number 32 is over 31 (refusal 4)"),
                (task + "task 2 2 2 1 1 1\n", "line 4: mark is 2, over 1 (refusal 6)"),
                (task + "task 2 2 0 0 1 1\n", "line 4: L is 0, outside 1 to 1000000 (refusal 7)"),
                ("release 0 1\n", "line 1: a release of task 1, which is not in the table (refusal 8)"),
                (task + "release 5 1\nrelease 5 1\n", "line 5: the release of task 1 at 5 is not after that of task 1 at 5 in line 4 (refusal 9)"),
                (task + "release 1000000001 1\n", "line 4: release time 1000000001 is over 1000000000 (refusal 10)"),
                (task + "".join(f"release {time} 1\n" for time in range(4097)), "line 4100: a 4097th release; nothing behind it is read (refusal 11)"),
                ("# nothing\n", "the plan has no entry (refusal 12)")):
            self.assertEqual(self.refused(plan), expected)

    def test_lines_that_do_not_parse(self):
        first = "I 0 2 0 - 0 - 3 1 -\n"
        for lines, expected in (
                (first + "X 1\n", "line 2: 'X 1' is no J, I or S line"),
                (first + "\n", "line 2: '' is no J, I or S line"),
                ("S 1\n", "line 1: S takes 2 fields, and here are 1"),
                ("S one 2\n", "line 1: task is 'one', not a number of the record"),
                ("S - 2\n", "line 1: task is '-', not a number of the record"),
                (f"S 1 {'9' * 5000}\n", f"line 1: time is '{'9' * 60}.. (398 letters)', not a number of the record"),
                ("I 0 2 2 - 0 - 3 1 -\n", "line 1: half is 2, over 1"),
                ("I 0 2 0 - 0 - 9 1 -\n", "line 1: chosen is 9, and the plan has no such task"),
                ("R 9 58\n", "line 1: the input was refused (R 9 58), there is no run to draw")):
            self.assertEqual(self.refused(A, lines), expected)

    def test_lines_that_do_not_fit_the_plan(self):
        for old, new, expected in (
                ("I 2 7 1 3 1 - 2 2 1", "I 2 7 1 - 1 - 2 2 1", "line 2: the processor's task and its work do not fit"),
                ("I 2 7 1 3 1 - 2 2 1", "I 2 7 1 3 1 - 2 0 1", "line 2: the chosen task and its fate do not fit"),
                ("I 2 7 1 3 1 - 2 2 1", "I 2 7 1 3 1 - 1 2 1", "line 2: no release cancels the copy-in of task 1 from 2 to 4"),
                ("I 2 7 1 3 1 - 2 2 1", "I 2 7 1 3 1 - 2 3 1", "line 2: no release throws out the copy-in of task 2, which ends at 4"),
                ("I 2 7 1 3 1 - 2 2 1", "I 2 7 1 3 1 - 2 4 1", "line 2: fate is 4, over 3"),
                ("I 7 12 0 1 2 3 2 1", "I 7 12 0 1 2 3 2 3", "line 4: no release throws out the copy-in of task 2, which ends at 11"),
                ("I 7 12", "I 7 13", "line 4: the interval from 7 ends at 13, its phases at 12"),
                ("I 12 16", "I 11 15", "line 6: the interval begins at 11, before the end of the one before"),
                ("J 1 3 9", "S 1 4\nJ 1 3 9", "line 5: the plan has no release of task 1 at 4"),
                ("J 1 3 9", "J 1 4 9", "line 5: the plan has no release of task 1 at 4"),
                ("J 1 3 9", "J 1 3 14", "line 5: a job's release, execution start and completion do not rise")):
            self.assertEqual(self.refused(A, LINES_A.replace(old, new)), expected)

    def test_lines_that_do_not_fit_what_waits(self):
        plan = TASKS + "release 0 1\nrelease 3 1\nrelease 5 1\n"
        lines = ("I 0 2 0 - 0 - 1 1 -\nI 2 5 1 1 1 - - 0 -\nS 1 5\nJ 1 0 2 6 0\nI 5 8 0 - 0 1 1 1 -\nI 8 11 1 1 1 - - 0 -\nJ 1 3 8 12 0\n"
                 "I 11 12 0 - 0 1 - 0 -\n")
        Drawn.of_plan(plan, lines)
        for old, new, expected in (
                ("S 1 5", "S 1 3", "line 7: the release of task 1 at 5 is taken before the one at 3"),
                ("S 1 5\n", "S 1 3\nS 1 5\n", "line 3: the release of task 1 at 3 is skipped, and none of its task waits"),
                ("J 1 3 8", "J 1 5 8", "line 7: the release of task 1 at 3 is taken before the one at 5"),
                ("J 1 3 8", "J 1 3 6", "line 7: the job starts at 6, and is taken at 6")):
            self.assertEqual(self.refused(plan, lines.replace(old, new)), expected)

    def test_lines_that_do_not_fit_a_spacing(self):
        plan = TASKS + "spacing 1 6\nrelease 0 1\nrelease 5 1\nrelease 6 1\n"
        lines = ("I 0 2 0 - 0 - 1 1 -\nI 2 5 1 1 1 - - 0 -\nS 1 5\nJ 1 0 2 6 0\nI 5 8 0 - 0 1 1 1 -\nI 8 11 1 1 1 - - 0 -\nJ 1 6 8 12 0\n"
                 "I 11 12 0 - 0 1 - 0 -\n")
        Drawn.of_plan(plan, lines)
        for old, new, expected in (
                ("S 1 5\n", "", "line 6: the release of task 1 at 5 is taken before the one at 6"),
                ("S 1 5\n", "S 1 5\nS 1 6\n", "line 8: the plan has no release of task 1 at 7"),
                ("S 1 5", "S 1 6", "line 7: the release of task 1 at 5 came sooner than its spacing, and is not skipped")):
            changed = lines.replace(old, new).replace("J 1 6", {"S 1 6": "J 1 5", "S 1 5\nS 1 6\n": "J 1 7"}.get(new, "J 1 6"))
            self.assertEqual(self.refused(plan, changed), expected)

    def test_lines_that_are_not_whole(self):
        """Each line that is left out, or added at the end, is missed."""
        lines = LINES_A.splitlines(keepends=True)
        for at in range(len(lines)):
            self.assertIn(f"line {at + 1}: the run of this plan has '{lines[at].strip()}' here" if at else "line", self.refused(A, "".join(lines[:at] + lines[at + 1:])))
        self.assertEqual(self.refused(A, ""), f"line 1: the run of this plan has '{lines[0].strip()}' here")
        self.assertEqual(self.refused(A, LINES_A + "I 17 19 1 - 0 - 3 1 -\n"), "line 9: the run of this plan ends before it")

    def test_lines_of_the_rule_by_which_nothing_waited(self):
        lines = "I 0 2 0 - 0 - 1 1 -\nI 2 5 1 1 1 - - 0 -\nS 1 5\nJ 1 0 2 6 0\nI 5 6 0 - 0 1 - 0 -\n"
        self.assertEqual(self.refused(TASKS + "release 0 1\nrelease 5 1\n", lines),
                         "line 3: the release of task 1 at 5 is skipped, and none of its task waits")

    def test_other_fates_of_the_copy_in_of_plan_b(self):
        """A release on the tick on which a copy-in ends does not cancel it, and it does not stay."""
        for fate, expected in (("2", "no release cancels the copy-in of task 2 from 2 to 4"),
                               ("1", "the copy-in of task 2 is done, and yet gives way to the release of task 1 at 4")):
            lines = f"I 0 2 0 - 0 - 3 1 -\nI 2 7 1 3 1 - 2 {fate} 1\n"
            self.assertEqual(self.refused(A.replace("release 3 1", "release 4 1"), lines), f"line 2: {expected}")

    def test_a_release_on_the_tick_on_which_an_interval_ends_throws_out_nothing(self):
        self.assertEqual(self.refused(A.replace("release 3 1", "release 7 1"), "I 0 2 0 - 0 - 3 1 -\nI 2 7 1 3 1 - 2 3 1\n"),
                         "line 2: no release throws out the copy-in of task 2, which ends at 4")

    def test_no_such_file(self):
        self.assertEqual(self.run_main("no.plan"), (2, b"", "no.plan: No such file or directory\n"))

    def test_usage(self):
        for arguments in ((), ("--lines",), ("--lines", "a.plan"), ("a.plan", "b.plan"), ("-", "--lines", "-"), ("--from", "x", "a.plan"),
                          ("--from", "9", "--to", "8", "a.plan"), ("--from", str(2**64), "a.plan")):
            self.assertEqual(self.run_main(*arguments)[0], 2)

    def test_help(self):
        status, printed, _ = self.run_main("--help")
        self.assertEqual(status, 0)
        for word in ("--lines", "--from", "--to", "status"):
            self.assertIn(word, printed.decode())

    def test_a_byte_order_mark(self):
        with tempfile.TemporaryDirectory() as folder:
            path, lines = pathlib.Path(folder, "x.plan"), pathlib.Path(folder, "lines")
            path.write_text(A, encoding="utf-8-sig")
            lines.write_text(LINES_A, encoding="utf-8-sig")
            self.assertEqual(set(Drawn(picture_of(str(path), str(lines))).bars()), BARS_A)

    def test_a_file_name_that_xml_cannot_hold(self):
        with tempfile.TemporaryDirectory() as folder:
            path = pathlib.Path(folder, "a\x01<&.plan")
            path.write_text(A, encoding="utf-8")
            self.assertEqual(Drawn(picture_of(str(path))).root.find(f"{SVG}title").text, "Run of a?<&.plan")


class Colours(unittest.TestCase):
    def test_32_tasks_are_told_apart(self):
        """By the distance of colours as people see them (CIE L*a*b*): 2.3 is just noticeable."""
        def seen(colour):
            red, green, blue = (((part / 255 + 0.055) / 1.055)**2.4 if part > 10 else part / 255 / 12.92
                                for part in (int(colour[at:at + 2], 16) for at in (1, 3, 5)))
            x, y, z = (0.4124 * red + 0.3576 * green + 0.1805 * blue) / 0.9505, 0.2126 * red + 0.7152 * green + 0.0722 * blue, \
                (0.0193 * red + 0.1192 * green + 0.9505 * blue) / 1.089
            x, y, z = (part**(1 / 3) if part > 0.008856 else 7.787 * part + 16 / 116 for part in (x, y, z))
            return 116 * y - 16, 500 * (x - y), 200 * (y - z)
        colours = [seen(full) for full, _, _ in task_colours(range(32)).values()]
        self.assertGreater(min(math.dist(one, other) for one, other in itertools.combinations(colours, 2)), 20)


class Documents(unittest.TestCase):
    def test_pictures_are_up_to_date(self):
        for name in ("a", "b", "f", "desks", "spacing"):
            kept = (ROOT / f"docs/plan-{name}.svg").read_text(encoding="utf-8")
            self.assertEqual(kept, picture_of(str(ROOT / f"plans/{name}.plan")),
                             f"./gateway picture plans/{name}.plan > docs/plan-{name}.svg makes it anew")

    def lines(self, name):
        return record_lines(record(sound_plan(str(ROOT / f"plans/{name}.plan")).data))

    def test_lines_of_document_01(self):
        self.assertEqual(text(self.lines("a")), LINES_A)

    def test_lines_in_the_documents(self):
        """Plan A in the README; of plan B what is not plan A's, and the plans of waiting and of spacings, in RULES."""
        readme, rules = ((ROOT / name).read_text(encoding="utf-8") for name in ("README.md", "docs/RULES.md"))
        lines_a = self.lines("a")
        for text_of, lines in ((readme, lines_a), (rules, [line for line in self.lines("b") if line not in lines_a]), (rules, self.lines("f")),
                               (rules, self.lines("spacing"))):
            self.assertIn("\n\n" + "".join(f"    {line}\n" for line in lines) + "\n", text_of)

    def test_what_is_told_in_the_documents(self):
        desks = (ROOT / "docs/DESKS.md").read_text(encoding="utf-8")
        plan, spacing = (str(ROOT / f"plans/{name}.plan") for name in ("a", "spacing"))
        for words in (("why", plan, "1", "3"), ("why", spacing, "1", "5"), ("summary", plan), ("figure", plan)):
            told = gateway(*words)[1].decode()
            self.assertIn("\n\n" + "".join(f"    {line}".rstrip() + "\n" for line in told.splitlines()) + "\n", desks)

    def test_the_readme_is_short_and_its_links_lead_somewhere(self):
        self.assertLessEqual(len((ROOT / "README.md").read_text(encoding="utf-8").splitlines()), 150)
        for path in [ROOT / "README.md", ROOT / "CONTRIBUTING.md", *ROOT.glob("docs/*.md")]:
            for link in re.findall(r"\]\(([^)#]+)\)", path.read_text(encoding="utf-8")):
                self.assertTrue((path.parent / link).exists(), f"{path.name}: {link}")


if __name__ == "__main__":
    unittest.main()
