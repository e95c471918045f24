"""Which wrong bodies tools/mutants.py draws, in a small repository."""

import os
import tempfile
import unittest
from unittest import mock

from tools import mutants, recorder_mutants


class Drawn(unittest.TestCase):
    """A crate, and some of its wrong bodies, by a commit's hash."""

    def setUp(self) -> None:
        folder = tempfile.TemporaryDirectory()
        self.addCleanup(folder.cleanup)
        self.top = folder.name
        self.write("crates.txt", "# What stands on what.\nlow:\nmany: low io\ncostly may_wait 2: many\nbare: low\nunproved: low\n")
        self.write("tools/seconds", "low 60\nmany 399\ncostly 1700\n")
        for crate, number in (("low", 2), ("many", 9), ("costly", 7), ("bare", 0), ("unproved", 3)):
            self.write(f"crates/{crate}/src/lib.rt")
            for each in range(number):
                self.write(f"crates/{crate}/wrong-bodies/body_{each}.edit")
            if crate != "unproved":
                self.write(f"crates/{crate}/out/rlib/lib")

    def write(self, path: str, text: str = "") -> None:
        os.makedirs(os.path.dirname(os.path.join(self.top, path)), exist_ok=True)
        with open(os.path.join(self.top, path), "w", encoding="utf-8") as file:
            file.write(text)

    def test_each_crate_and_each_body_is_drawn_by_some_commit(self) -> None:
        seen = {(crate, edit) for commit in range(300) for crate, edits in [mutants.drawn(self.top, f"{commit}")] for edit in edits}
        self.assertEqual(seen, {(crate, f"body_{each}") for crate, number in (("low", 2), ("many", 9), ("costly", 7)) for each in range(number)})

    def test_as_many_are_drawn_as_the_crate_allows(self) -> None:
        for commit in range(100):
            crate, edits = mutants.drawn(self.top, f"{commit}")
            self.assertEqual((len(edits), len(set(edits))), ({"low": 2, "many": 5, "costly": 1}[crate],) * 2)

    def test_a_commit_draws_the_same_each_time(self) -> None:
        self.assertEqual(mutants.drawn(self.top, "some commit"), mutants.drawn(self.top, "some commit"))

    def test_a_crate_without_the_libraries_below_it_is_not_drawn(self) -> None:
        os.rmdir(self.emptied("crates/many/out/rlib"))
        self.assertEqual({mutants.drawn(self.top, f"{commit}")[0] for commit in range(100)}, {"low"})
        os.rmdir(self.emptied("crates/low/out/rlib"))
        self.assertEqual(mutants.drawn(self.top, "any"), ("", []))

    def emptied(self, folder: str) -> str:
        path = os.path.join(self.top, folder)
        os.remove(os.path.join(path, "lib"))
        return path

    def test_of_a_crate_with_many_those_that_are_named_and_there(self) -> None:
        with mock.patch.dict(mutants.NAMED, {"many": "body_3 body_of_old body_5"}):
            self.assertEqual(mutants.wrong_bodies(self.top, "many"), ["body_3", "body_5"])


class ThisRepository(unittest.TestCase):
    """What there is to draw from here."""

    def test_all_crates_with_wrong_bodies_can_be_drawn(self) -> None:
        with mock.patch.object(mutants, "has_libraries", lambda *_: True):
            seen = {mutants.drawn(mutants.TOP, f"{commit}")[0] for commit in range(500)}
        there = {name for name in os.listdir(os.path.join(mutants.TOP, "crates")) if os.path.isdir(os.path.join(mutants.TOP, "crates", name, "wrong-bodies"))}
        self.assertEqual(seen, there)


class OfTheRecorder(unittest.TestCase):
    """What was tried of the recorder, in docs/."""

    def test_the_page_is_made_of_the_file(self) -> None:
        with open(recorder_mutants.PAGE, encoding="utf-8") as file:
            self.assertEqual(file.read(), recorder_mutants.page(), "tools/recorder_mutants.py table writes it")

    def test_enough_were_tried_and_few_survive_each_with_a_word(self) -> None:
        tried = recorder_mutants.results()
        survivors = {name: told["note"] for name, told in tried.items() if not told["seen by"]}
        self.assertGreaterEqual(len(tried), 400)
        self.assertLessEqual(len(survivors), 10)
        self.assertEqual([name for name, note in survivors.items() if not note], [])

    def test_most_of_them_are_still_in_the_sources(self) -> None:
        there = {mutant.name for mutant in recorder_mutants.mutants(recorder_mutants.MODULES)}
        tried = recorder_mutants.results()
        self.assertGreater(sum(name in there for name in tried), 0.6 * len(tried), "try some of what the sources have now")
