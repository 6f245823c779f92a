"""Rows for a comparison by computation."""

import unittest

from sim.dispatcher import Answer, Dispatcher
from sim.entries import INTERVAL, NO_TASK, SKIPPED, Refused, encode, release_entry, spacing_entry, task_entry
from sim.files import job_entry, read_file, record, run
from sim.other_spacings import ALL
from sim.rows import FILES, MOST_RELEASES, MOST_TASKS, SEED, answer_of, bytes_term, call_lists, file_row, rows


class Rows(unittest.TestCase):
    def test_small_and_fixed_by_the_seed(self):
        found = rows(3, 60)
        self.assertEqual(found, rows(3, 60))
        self.assertNotEqual(found, rows(4, 60))
        served = [(data, result[1]) for data, result in found if result[0] == "record"]
        refused = [result for _, result in found if result[0] == "refused"]
        self.assertEqual(len(served) + len(refused), 60)
        self.assertGreater(len(served), 40)
        self.assertGreater(len(refused), 3)
        for data, written in served:
            self.assertEqual(record(data), written)
            table, releases = read_file(data)
            self.assertLessEqual(len(table), MOST_TASKS + 1)  # damage may have added one
            self.assertLessEqual(len(releases), MOST_RELEASES + 1)

    def test_a_longer_list_begins_with_the_shorter(self):
        self.assertEqual(rows(0, 20)[:10], rows(0, 10))
        self.assertEqual(call_lists(0, 20)[:10], call_lists(0, 10))

    def test_call_lists_are_small_and_have_every_kind_of_answer(self):
        kinds = set()
        for opening, calls in call_lists(1, 40):
            dispatcher = Dispatcher.open(opening)
            self.assertLessEqual(len(dispatcher.table), MOST_TASKS)
            kinds |= {type(answer_of(dispatcher, call)) for call in calls}
        self.assertEqual(kinds, {Answer, type(None), Refused})

    def test_some_tables_have_spacings_and_some_runs_show_them(self):
        files = [read_file(data) for data, result in rows(SEED, FILES) if result[0] == "record"]
        spaced = [table for table, _ in files if any(task.spacing is not None for task in table.values())]
        self.assertGreater(len(spaced), 10)
        self.assertLess(len(spaced), len(files) - 10)
        for wrong in ALL:
            self.assertTrue(any(list(run(*each, wrong)) != list(run(*each)) for each in files), wrong.__name__)

    def test_a_file_that_runs_is_written_with_its_record_and_the_bytes_behind_it(self):
        self.assertEqual(file_row(b"\1\2", ("record", b"\3")), "recorded (1 ∷ 2 ∷ []) (3 ∷ []) 1 3")

    def test_whole_entries_are_written_by_their_fields(self):
        self.assertEqual(bytes_term(task_entry(1, 2, 0, 3, 4, 256) + release_entry(300, 1)), "(task 1 2 0 3 4 256 ++ release 300 1)")
        self.assertEqual(bytes_term(spacing_entry(1, 300)), "(spacing 1 300)")
        interval = encode(INTERVAL, 2, 7, 1, 3, 1, NO_TASK, 2, 2, 1)
        written = job_entry((3, 0, 2, 9, 0)) + interval + encode(SKIPPED, 1, 5)
        self.assertEqual(bytes_term(written), "(job 3 0 2 9 0 ++ interval 2 7 1 3 1 none 2 2 1 ++ skipped 1 5)")

    def test_what_no_entry_begins_is_written_byte_by_byte(self):
        whole = release_entry(0, 1)
        self.assertEqual(bytes_term(whole + whole[:3]), "(release 0 1 ++ (2 ∷ 1 ∷ 0 ∷ []))")
        self.assertEqual(bytes_term(b"\7" + whole[:1]), "(7 ∷ 2 ∷ [])")
        self.assertEqual(bytes_term(b""), "([])")

    def test_a_refusal_is_written_with_its_number_and_place(self):
        self.assertEqual(file_row(b"\7", ("refused", 2, 0)), "refused (7 ∷ []) 2 2 0")
        self.assertEqual(file_row(b"", ("refused", 12, None)), "refused ([]) 2 12 0")


if __name__ == "__main__":
    unittest.main()
