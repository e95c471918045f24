"""Tests of how each form of statement that an application sends is said, and that no anomaly runs through one unseen.

    PGSERIAL=path/to/pgserial PGSERIAL_DSN=.. python3 clients/python/test_forms.py

Where $PGSERIAL_DSN names no database of PostgreSQL, sqlite3 alone is tried.
"""

import os
import unittest
from typing import List

import orm_forms
from statement_forms import FORMS
from try_forms import ENDS, REFUSED, WORDS, Place, Postgres, Sqlite, Tried, by_group, counts, postgres_places
from test_recording import DSN, module


GROUPS = ("UPDATE", "ON CONFLICT")  # of forms that other drivers are tried with
WRITTEN_OF = {"psycopg2": -2, "sqlite3": -1}  # the columns of FORMS.md


MADE = "python3 clients/python/try_forms.py --table > clients/python/FORMS.md"


SUMMED = "python3 clients/python/try_forms.py --summary: the table at the end of clients/python/README.md"


def page(name: str = "FORMS.md") -> List[str]:
    """The lines of a page."""
    with open(os.path.join(os.path.dirname(os.path.abspath(__file__)), name), encoding="utf-8") as file:
        return file.read().split("\n")


class Forms(unittest.TestCase):
    """Each form is done alone, and with anomalies planted; see try_forms.py."""

    def judged(self, place: Place, ending: int, refused: int) -> List[Tried]:
        """Tries all forms in a place, of which no more than so many may end the verdict, or have their table refused."""
        self.addCleanup(place.close)
        results = place.tried(lambda form: True)
        self.assert_right(results)
        found = counts(results)
        self.assertLessEqual(found.get(ENDS, 0), ending, [result.form.name for result in results if result.said == ENDS])
        self.assertLessEqual(found.get(REFUSED, 0), refused, [result.form.name for result in results if result.said == REFUSED])
        if place.name in WRITTEN_OF:
            self.assert_written(results)
            self.assert_summed(results)
        return results

    def assert_summed(self, results: List[Tried]) -> None:
        """So do the counts at the README's end."""
        lines = page("README.md")
        rows = [line.strip("| ").split(" | ") for line in lines[lines.index("| Forms | PostgreSQL | sqlite3 |") :] if line.startswith("| ")]
        written = {row[0]: row[WRITTEN_OF[results[0].place]] for row in rows if len(row) == 3}
        for group, words in by_group(results).items():
            self.assertEqual(written.get(group), words, SUMMED)

    def assert_right(self, results: List[Tried]) -> None:
        """No verdict is wrong, and no form behaves otherwise than without a recorder."""
        for result in results:
            with self.subTest(result.form.name, place=result.place):
                self.assertEqual(result.faults, ())

    def assert_written(self, results: List[Tried]) -> None:
        """FORMS.md says the same."""
        rows = [line.split(" | ") for line in page() if line.startswith("| `")]
        at = WRITTEN_OF[results[0].place]
        written = {" | ".join(row[:-2]): row[at].strip(" |") for row in rows}
        for result in results:
            shown = "| `" + result.form.name.replace("|", "\\|") + "`"
            self.assertEqual(written.get(shown), WORDS[result.said], MADE)

    @unittest.skipUnless(DSN and module("psycopg2"), "PostgreSQL or psycopg2 isn't there (Debian: postgresql, python3-psycopg2)")
    def test_on_postgres(self) -> None:
        results = self.judged(Postgres(module("psycopg2")), 10, 1)
        self.assertGreaterEqual(len(results), 250)

    @unittest.skipUnless(DSN, "PostgreSQL isn't there (Debian: postgresql)")
    def test_writes_by_other_drivers(self) -> None:
        """pg8000 isn't known, so that nothing is added to what it sends."""
        for place in postgres_places():
            if place.name == "psycopg2":
                place.close()
                continue
            self.addCleanup(place.close)
            results = place.tried(lambda form: form.group in GROUPS)
            self.assert_right(results)
            self.assertGreaterEqual(len(results), 50, place.name)
            ended = [result.form.name for result in results if result.said == ENDS]
            self.assertLessEqual(len(ended), len(results) if place.name == "pg8000" else 4, (place.name, ended))

    def test_on_sqlite(self) -> None:
        results = self.judged(Sqlite(), 5, 0)
        self.assertGreaterEqual(len(results), 200)

    def test_forms_have_names_of_their_own(self) -> None:
        names = [form.name for form in FORMS]
        self.assertEqual(len(names), len(set(names)))


class Mappers(unittest.TestCase):
    """The operations of object mappers, each done alone; see orm_forms.py."""

    @unittest.skipUnless(module("sqlalchemy"), "sqlalchemy isn't there (Debian: python3-sqlalchemy)")
    @unittest.skipUnless(module("django"), "django isn't there (Debian: python3-django)")
    def test_which_share_is_said(self) -> None:
        """Of the writes 95 %, of the reads 80 %."""
        operations = orm_forms.done()
        shares = orm_forms.shares(operations)
        self.assertEqual(len(shares), 8 if DSN and module("psycopg2") else 4)
        for (mapper, place, writes), (count, said, _) in shares.items():
            with self.subTest(mapper, place=place, writes=writes):
                self.assertGreaterEqual(count, 25)
                self.assertGreaterEqual(100 * said, (95 if writes else 80) * count)
        for line in orm_forms.table(operations):
            with self.subTest(line):
                self.assertIn(line, page(), MADE)


if __name__ == "__main__":
    unittest.main()
