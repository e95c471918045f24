"""`explore --expect FILE`: outcomes beside a list of them that was kept, as of a test that is run again after a change."""

import re
from typing import List

from tests.program import DEVICE, MISTAKEN, NO, Case, run

SETUP = (
    "CREATE TABLE outcome (id bigint PRIMARY KEY, oncall bigint NOT NULL);\n1 BEGIN;\n1 INSERT INTO outcome VALUES (1, 1);\n"
    "1 INSERT INTO outcome VALUES (2, 1);\n1 COMMIT;\nCHECKPOINT;\n")


def doctor(session: int, row: int, *first: str) -> str:
    """A doctor who goes off call where two are, and begins with some lines more."""
    lines = ["BEGIN", *first, "SELECT count(*) FROM outcome WHERE oncall = 1", f"UPDATE outcome SET oncall = 0 WHERE id = {row}", "COMMIT"]
    return "".join(f"{session} {line};\n" for line in lines)


SKEW = SETUP + doctor(1, 1) + doctor(2, 2)


def blocks_of(listing: str) -> List[str]:
    """The outcomes of a list."""
    return re.split(r"\n(?=outcome \d)", listing.partition("\nrefused: ")[0])[1:]


class Expected(Case):
    """Outcomes beside those that were kept."""

    def setUp(self) -> None:
        super().setUp()
        self.listing = run("explore", self.write("script", SKEW), "--orders").stdout.decode()
        self.write("kept", self.listing)

    def explore(self, *words: str, script: str = SKEW) -> "tuple[int, str, str]":
        """How `explore --expect kept` ends of a script."""
        self.write("script", script)
        done = run("explore", "script", "--expect", "kept", *words, folder=self.folder)
        return done.returncode, done.stdout.decode(), done.stderr.decode()

    def read(self) -> str:
        with open(f"{self.folder}/kept", encoding="utf-8") as file:
            return file.read()

    def test_the_same_outcomes(self) -> None:
        for words in ((), ("--update",), ("--expect-outcomes",), ("--jobs", "3")):
            self.same(f"{words}", (0, "expect yes\n", ""), self.explore(*words))
        self.same("the list", self.listing, self.read())

    def test_a_list_that_is_not_there(self) -> None:
        self.same("without --update", DEVICE, run("explore", "script", "--expect", "gone", folder=self.folder).returncode)
        done = run("explore", "script", "--expect", "new", "--update", folder=self.folder)
        self.same("with --update", (0, b"expect updated\n", b""), (done.returncode, done.stdout, done.stderr))
        with open(f"{self.folder}/new", encoding="utf-8") as file:
            self.same("what was written", self.listing, file.read())
        done = run("explore", "script", "--expect", "gone/new", "--update", folder=self.folder)
        self.same("in no folder", (DEVICE, b"device: gone/new"), (done.returncode, done.stderr.split(b"\n")[0]))

    def test_a_changed_line_is_told_with_first_schedules(self) -> None:
        """Both go off call for the same doctor: all outcomes are others. Each that has come is what its first schedule comes to."""
        changed = SETUP + doctor(1, 1) + doctor(2, 1)
        status, told, _ = self.explore(script=changed)
        now = run("explore", "script", "--orders", folder=self.folder).stdout.decode()
        wanted = "".join(f"came {block}\n" for block in blocks_of(now)) + "".join(f"went {block}\n" for block in blocks_of(self.listing)) + "expect no\n"
        self.same("a changed line", (NO, wanted), (status, told))
        for block in blocks_of(now):
            lines = block.split("\n")
            self.write("one", run("explore", "script", "--order", lines[1].removeprefix("first: "), folder=self.folder).stdout)
            replies = run("run", "one", folder=self.folder).stdout.decode().split("\n")
            for session in "12":
                came = [line.partition(" cause")[0] for line in replies[replies.index("CHECKPOINT") + 1:] if line.startswith(session)]
                self.same(f"session {session} of {lines[1]}", came, [line.partition(" cause")[0] for line in lines[2:] if line.startswith(session)])
        self.same("updated", (0, wanted.replace("expect no", "expect updated")), self.explore("--update", script=changed)[:2])
        self.same("the list", now, self.read())

    def test_one_outcome_that_came_and_one_that_went(self) -> None:
        first, *others = blocks_of(self.listing)
        self.write("kept", self.listing.replace(first + "\n", ""))
        self.same("one came", (NO, f"came {first}\nexpect no\n"), self.explore()[:2])
        gone = first.replace("outcome 1: 34", "outcome 9: 2").replace("outcome | 1\t0", "outcome | 1\t7")
        self.write("kept", self.listing.replace(first, f"{first}\n{gone}"))
        for words in ((), ("--expect-outcomes",)):
            self.same(f"one went {words}", (NO, f"went {gone}\nexpect no\n"), self.explore(*words)[:2])

    def test_another_number_of_schedules(self) -> None:
        first = blocks_of(self.listing)[0].split("\n")
        self.write("kept", self.listing.replace("outcome 1: 34 ", "outcome 1: 33 "))
        self.same("--expect", (NO, f"recounted {first[0]}, where there were 33\n{first[1]}\nexpect no\n"), self.explore()[:2])
        self.same("--expect-outcomes", (0, "expect yes\n"), self.explore("--expect-outcomes")[:2])

    def test_a_new_line(self) -> None:
        """It changes numbers and replies, and no outcome beyond its reply."""
        longer = SETUP + doctor(1, 1) + doctor(2, 2, "SELECT oncall FROM outcome WHERE id = 2")
        self.same("--expect", NO, self.explore(script=longer)[0])
        self.same("--expect-outcomes", (0, "expect yes\n"), self.explore("--expect-outcomes", script=longer)[:2])
        self.write("kept", run("explore", self.write("script", longer), "--orders").stdout)
        self.same("a line that is gone", NO, self.explore("--expect-outcomes")[0])

    def test_mistaken_words(self) -> None:
        for words in ("--update", "--expect-outcomes", "--expect", "--expect kept --orders", "--expect kept --expect kept", "--expect kept --order 1"):
            self.same(words, MISTAKEN, run("explore", "script", *words.split(), folder=self.folder).returncode)
