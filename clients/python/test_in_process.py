"""Tests of answers in this process, by a library that is made up: that the package reads them whole.

    python3 clients/python/test_in_process.py

test_pgserial.py tries the library itself, where $PGSERIAL_LIBRARY names one.
"""

import ctypes
import unittest
from typing import Any, Callable, Dict

from pgserial import library
from pgserial.library import DONE, NEEDS_ROOM, REFUSED, Conversation, Library, LibraryError, Prepared

LENGTHS = (0, 1, library.FIRST_ROOM - 1, library.FIRST_ROOM, library.FIRST_ROOM + 1, 2 * library.FIRST_ROOM, 70000)


class Made:
    """A library whose answers are as long as is asked for, and end in a letter of their own."""

    def __init__(self) -> None:
        self.status, self.text = DONE, b""

    def answers(self, length: int, status: int = DONE) -> None:
        self.status, self.text = status, (b"x" * length)[1:] + b"y" * bool(length)

    def pgserial_open(self, *_: Any) -> int:
        return DONE

    pgserial_open_dump = pgserial_execute = pgserial_open

    def pgserial_call(self, *_: Any) -> int:
        return self.status

    pgserial_dump = pgserial_serial_order = pgserial_tables = pgserial_call

    def pgserial_reply(self, _: Any, out: Any, room: int, report: Any) -> int:
        return self._put(out, room, report, DONE)

    def run(self, given: bytes, size: int, most: int, out: Any, room: int, report: Any) -> int:
        return self._put(out, room, report, self.status)

    def explore(self, given: bytes, size: int, events: int, most: int, out: Any, room: int, report: Any) -> int:
        return self._put(out, room, report, self.status)

    def _put(self, out: Any, room: int, report: Any, status: int) -> int:
        report._obj.length = len(self.text)
        if room < len(self.text):
            return NEEDS_ROOM
        ctypes.memmove(out, self.text, len(self.text))
        return status


class Whole(unittest.TestCase):
    def setUp(self) -> None:
        self.made = Made()
        of: Any = Library.__new__(Library)
        of._loaded, of._run, of._audit, of._explore = self.made, self.made.run, self.made.run, self.made.explore
        self.library, self.talk = of, Conversation(of, 100)

    def test_an_answer_to_a_line(self) -> None:
        for length in (*LENGTHS, 5):
            self.made.answers(length)
            for told in (self.talk.ask_bytes(b"1 BEGIN;"), self.talk.ask("1 BEGIN;").encode(), self.talk.answer().encode(), self.talk.dump(1).encode(), self.talk.serial_order().encode()):
                self.assertEqual(told, self.made.text)

    def test_a_refusal(self) -> None:
        for length in (*LENGTHS, 5):
            self.made.answers(length, REFUSED)
            with self.assertRaises(LibraryError) as raised:
                self.talk.ask_bytes(b"1 BEGIN;")
            self.assertEqual((raised.exception.status, raised.exception.text), (REFUSED, self.made.text.decode()))

    def test_what_a_script_prints(self) -> None:
        for length in LENGTHS:
            self.made.answers(length)
            self.assertEqual(self.library.run("1 BEGIN;"), self.made.text.decode())

    def test_numbers_that_a_call_would_cut(self) -> None:
        """As ctypes takes them, the first of these is session 1, the next line 1, and so on."""
        calls: Dict[str, Callable[[int], Any]] = {
            "dump": self.talk.dump, "execute": lambda number: self.talk.execute(Prepared(number, 0)), "open": self.library.open,
            "open a dump": lambda number: self.library.open(number, ""), "run": lambda number: self.library.run("", number),
            "audit": lambda number: self.library.audit("", number), "explore": lambda number: self.library.explore("", number),
            "schedules": lambda number: self.library.explore("", 1, number),
        }
        for name, call in calls.items():
            bits = 64 if name in ("execute", "schedules") else 32
            for number in (-1, -5, (1 << bits), (1 << bits) + 1):
                with self.subTest(f"{name} {number}"):
                    self.assertRaises(OverflowError, call, number)
            for number in (0, 1, (1 << bits) - 1):
                with self.subTest(f"{name} {number}"):
                    call(number)


if __name__ == "__main__":
    unittest.main()
