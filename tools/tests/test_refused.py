"""The verdicts on wrong programs, of what the prover says."""

import contextlib
import io
import pathlib
import tempfile
import unittest

from tools import edits
from tools.refused import Copy, Tally, by_crate, first_place, verdict

NOT_PROVED = "logic=not-proved\n"
DIFFERS = "./proofs/f/Answers.antt:13:13: error: `returns`: the two types first differ where one has `2`\n"
FOLLOWS = "./proofs/g/Answers.antt:19:48: error: 1 declaration that depends on `returns`, which was rejected, was not checked: g\n"
NO_NAME = "./proofs/f/Answers.antt:8:23: error: `goal.x`: module `Goals` has no `x` that can be named from here\n"
NO_FIELD = "./proofs/f/Answers.antt:9:31: error: `returns`: record `f.Lts.After-x`\n  has no field `y`\n"
NO_PROOF = "note: src/lib.rt:57:1: it is not proved that what the function ensures holds when it returns (`returns`)\n"


class Verdicts(unittest.TestCase):
    def test_a_crate_that_is_proved_with_the_edit(self):
        self.assertEqual(verdict(0, "logic=proved functions=3\n"), "taken")

    def test_what_the_compiler_does_not_take(self):
        self.assertEqual(verdict(2, "error[no-such-name]\n"), "unread")
        self.assertEqual(verdict(1, "error[no-such-name]\n"), "unread")

    def test_a_fact_that_no_longer_holds(self):
        self.assertEqual(verdict(1, DIFFERS + FOLLOWS + NOT_PROVED), "fact")

    def test_a_fact_that_no_search_finds(self):
        self.assertEqual(verdict(1, FOLLOWS + NO_PROOF + NOT_PROVED), "fact")

    def test_a_proof_that_does_not_fit(self):
        self.assertEqual(verdict(1, NO_NAME + FOLLOWS + NOT_PROVED), "shape")

    def test_an_error_that_goes_on_in_the_next_line(self):
        self.assertEqual(verdict(1, NO_FIELD + FOLLOWS + NOT_PROVED), "shape")
        self.assertEqual(verdict(1, NO_FIELD + DIFFERS + NOT_PROVED), "fact")

    def test_a_fact_beside_a_proof_that_does_not_fit(self):
        self.assertEqual(verdict(1, NO_NAME + DIFFERS + NOT_PROVED), "fact")

    def test_the_first_place_is_told_within_its_folder(self):
        self.assertEqual(first_place("rt: x proved\n" + DIFFERS), "proofs/f/Answers.antt:13:13")
        self.assertEqual(first_place(NO_PROOF), "src/lib.rt:57:1")
        self.assertEqual(first_place(""), "no place")


class Told(Copy):
    """A copy whose prover takes a crate that has no 2 in it."""

    def rt(self, word, crate):
        self.seen = (self.folder / "crates" / crate / "src" / "lib.rt").read_text(encoding="utf-8")
        return (1, DIFFERS + NOT_PROVED) if "2" in self.seen else (0, "logic=proved\n")


class Tried(unittest.TestCase):
    def setUp(self):
        self.room = tempfile.TemporaryDirectory()
        self.addCleanup(self.room.cleanup)
        root = pathlib.Path(self.room.name, "root")
        (root / "crates" / "one" / "src").mkdir(parents=True)
        (root / "crates" / "one" / "must-fail").mkdir()
        (root / "crates" / "one" / "src" / "lib.rt").write_text("1 + 3\n", encoding="utf-8")
        (root / "crates" / "one" / "must-fail" / "two.edit").write_text("file: src/lib.rt\nold: 1\nnew: 2\n", encoding="utf-8")
        (root / "crates.txt").write_text("one:\n", encoding="utf-8")
        self.crates = root / "crates"
        self.copy = Told(pathlib.Path(self.room.name, "copy"), self.crates)

    def test_the_edit_is_made_and_taken_back(self):
        edit = edits.parse("one", "two", "file: src/lib.rt\nold: 1\nnew: 2\n")
        self.assertEqual(self.copy.tried(edit), ("fact", DIFFERS + NOT_PROVED))
        self.assertEqual(self.copy.seen, "2 + 3\n")
        self.assertEqual((self.copy.folder / "crates" / "one" / "src" / "lib.rt").read_text(encoding="utf-8"), "1 + 3\n")

    def test_an_edit_that_is_harmless_is_taken(self):
        edit = edits.parse("one", "three", "file: src/lib.rt\nold: 3\nnew: 4\n")
        self.assertEqual(self.copy.tried(edit)[0], "taken")

    def test_the_edits_of_a_crate(self):
        (crate, found), = by_crate(self.crates, ())
        self.assertEqual((crate, [edit.name for edit in found]), ("one", ["one/two"]))

    def test_the_last_line_counts_them(self):
        tally = Tally()
        with contextlib.redirect_stdout(io.StringIO()) as told:
            for found in ("fact", "fact", "shape", "taken"):
                tally.add("one/two", found, "src/lib.rt:1:1", 2)
        self.assertIn("one/two", told.getvalue())
        self.assertEqual(tally.last_line(), "3 refused, 1 of them at the proof's shape; 1 taken, 0 not read")


if __name__ == "__main__":
    unittest.main()
