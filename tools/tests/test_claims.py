"""The statements on histories, read and computed: what is read, what holds of a run, and that a changed line does not."""

import pathlib
import unittest

from sim.entries import spacing_entry, task_entry
from tools import antt, statements
from tools.claims import Claims, listed
from tools.edits import parse
from tools.happenings import OF_RUNS, Run

CRATES = pathlib.Path(__file__).resolve().parents[2] / "crates"

TASKS = task_entry(1, 1, 1, 2, 3, 1) + task_entry(2, 2, 0, 2, 4, 1) + task_entry(3, 3, 0, 2, 5, 2)

# Plan F: the release of 5 waits, and is taken at 6.
PLAN_F = [("Instant", 0, 2), ("Instant", 2, 0), ("Instant", 5, 2)]


def read(crate, file):
    return (CRATES / crate / file).read_text(encoding="utf-8")


class Happenings(unittest.TestCase):
    def happens(self, *calls):
        run = Run(TASKS, calls)
        return [event for events in run.events for event in events], dict(run.points[-1])

    def test_marks_of_a_set_are_those_of_its_tasks(self):
        self.assertEqual(self.happens(("Marks", 12, 1), *PLAN_F), self.happens(("Mark", 3, 1), ("Mark", 2, 1), *PLAN_F))
        self.assertEqual(self.happens(("Marks", 13, 1), ("Marks", 2, 2), *PLAN_F), self.happens(*PLAN_F))


class Reading(unittest.TestCase):
    def test_a_definition_by_clauses(self):
        found = antt.read_definitions("module _ (n : ℕ) where\n  abbrev pub f : ℕ → ℕ\n  f (Some k) = cond (eqb n k) 1\n      (k + 2)\n")
        [(patterns, body)] = found["f"].clauses
        self.assertEqual((found["f"].params, patterns), (("n",), [("app", ("var", "Some"), [("var", "k")])]))
        self.assertEqual(body, ("app", ("var", "cond"), [
            ("app", ("var", "eqb"), [("var", "n"), ("var", "k")]), ("num", 1), ("op", "+", ("var", "k"), ("num", 2))]))

    def test_a_record_of_statements(self):
        record = "pub record R (h : List Event) : Type 0 where\n  -- a comment\n  pub line : (t : ℕ) → h.x ≡ Some t → t < 3\n"
        found = antt.read_definitions(record)
        self.assertEqual(found["R"].fields, [("line", ("pi", ["t"], ("arrow",
            ("op", "≡", ("proj", ("var", "h"), "x"), ("app", ("var", "Some"), [("var", "t")])), ("op", "<", ("var", "t"), ("num", 3)))))])

    def test_what_is_not_read(self):
        with self.assertRaises(antt.Unread):
            antt.read_definitions("f = a ∘ b\n")


class Runs(unittest.TestCase):
    def test_the_events_of_plan_f(self):
        events = [event for each in Run(TASKS, PLAN_F).events for event in each]
        none, one = ("None",), ("Some", 1)
        self.assertEqual(events[:18], [
            ("Comes", 0), ("Takes", 1, 0, True), ("Begins", 0, none, none),
            ("Comes", 2), ("Finishes", 1), ("Ends", 2), ("Begins", 2, one, none), ("Starts", 1, 2),
            ("Comes", 5), ("Stops", 1, 5), ("Ends", 5), ("Defers", 1, 5), ("Begins", 5, none, one),
            ("Comes", 6), ("Completes", 1, 6), ("Takes", 1, 6, True), ("Comes", 8), ("Finishes", 1)])

    def test_what_came_too_soon_is_no_event(self):
        """Neither taken nor set waiting, it stands in the answer alone."""
        run = Run(TASKS + spacing_entry(1, 6), PLAN_F)
        self.assertEqual(run.events[2], [("Comes", 5), ("Stops", 1, 5), ("Ends", 5), ("Begins", 5, ("None",), ("Some", 1))])
        self.assertEqual(run.answers[2][1]["skipped"], 2)
        self.assertEqual((run.table["spaced"], run.table["columns"][96:]), (2, [0, 6] + [0] * 30))

    def changed(self, file, old, new):
        texts = {each: read("guarantees", each) for each in statements.CLAIM}
        self.assertEqual(texts[file].count(old), 1)
        texts[file] = texts[file].replace(old, new)
        claims = Claims([texts[each] for each in statements.CLAIM], OF_RUNS)
        return statements.with_room(statements.holds, claims, Run(TASKS, PLAN_F))

    def test_the_claim_holds_of_plan_f(self):
        self.assertTrue(self.changed("specs/Claim.antt", "-- ---- The order\n", ""))

    def test_a_line_that_says_otherwise_does_not(self):
        self.assertFalse(self.changed("specs/Pending.antt", "Some u → taking n after ≡ Some c", "Some u → taking n after ≡ Some u"))
        self.assertFalse(self.changed("specs/Intervals.antt", "(1 - x.half)", "x.half"))
        self.assertFalse(self.changed("specs/Releases.antt", ".set_waiting + skipped", ".later + skipped"))
        self.assertFalse(self.changed("specs/Copying.antt", "false (completes e || x.choosing)", "false x.choosing"))
        self.assertFalse(self.changed("specs/Claim.antt", "place n before ≡ 1 →", "place n before ≡ 0 →"))
        self.assertFalse(self.changed("specs/Copying.antt", "((details e).tick + copyin_length columns n)", "((details e).tick + copyin_length columns n + 1)"))
        self.assertFalse(self.changed("specs/Copying.antt", "(completes e || (takes e && x.choosing))", "(completes e)"))

    def test_a_history_that_an_event_is_missing_of(self):
        claims = Claims([read("guarantees", file) for file in statements.CLAIM], OF_RUNS)
        run = Run(TASKS, PLAN_F)
        events = listed([event for each in run.events for event in each if event[0] != "Defers"])
        self.assertTrue(claims.record_holds(claims.found["Holds"], (run.table, listed([event for each in run.events for event in each]))))
        self.assertFalse(claims.record_holds(claims.found["Placed"], (1, run.table, 0, 0, 0, listed([]), listed([("Comes", 0), ("Takes", 1, 0, True)]))))
        self.assertTrue(claims.record_holds(claims.found["InTime"], (events,)))


class Judging(unittest.TestCase):
    def judged(self, crate, text, why=""):
        edit = parse(crate, "label", text + why)
        files = {change.file: read(crate, change.file).replace(change.old, change.new) for change in edit.changes}
        return statements.judged(edit, files, read)

    def test_a_statement_that_a_run_breaks(self):
        edit = "file: specs/Claim.antt\nold: total is_begin history ≤ 3 *\nnew: total is_begin history ≤ 2 *\n"
        self.assertEqual(self.judged("guarantees", edit)[0], "statement")
        self.assertEqual(self.judged("guarantees", edit, "why: none\n")[0], "error")

    def test_a_statement_of_no_history(self):
        edit = "file: src/lib.rt\nold: a\nnew: a\n"
        self.assertEqual(self.judged("exports", edit)[0], "error")
        self.assertEqual(self.judged("exports", edit, "why: no history speaks of it\n"), ("reason", "a statement: no history speaks of it"))


if __name__ == "__main__":
    unittest.main()
