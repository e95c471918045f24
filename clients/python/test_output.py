"""Tests of the file of a recording: it has whole lines, whatever the disk does.

    python3 clients/python/test_output.py
"""

import errno
import gc
import os
import stat
import tempfile
import unittest
from typing import Any, Callable, List
from unittest import mock

from pgserial import output
from pgserial.keys import Refused
from pgserial.output import Output, path_of


class Files(unittest.TestCase):
    def setUp(self) -> None:
        folder = tempfile.TemporaryDirectory()
        self.addCleanup(folder.cleanup)
        self.path = os.path.join(folder.name, "file")
        self.writes = os.write

    def made(self, data: bytes = b"") -> Output:
        made = Output(self.path)
        self.addCleanup(made.close)
        if data:
            made.add(data)
        return made

    def data(self) -> bytes:
        with open(self.path, "rb") as file:
            return file.read()

    def full(self, room: int = 0) -> Any:
        """A disk with so much room: what is more isn't written, and where there is none that is an error."""
        left = [room]

        def write(file: int, data: bytes) -> int:
            if data and not left[0]:
                raise OSError(errno.ENOSPC, "No space left on device")
            size = self.writes(file, data[: left[0]])
            left[0] -= size
            return size

        return mock.patch.object(os, "write", write)

    def test_a_file_that_was_there_is_emptied(self) -> None:
        with open(self.path, "wb") as file:
            file.write(b"old\n")
        made = self.made()
        self.assertEqual(self.data(), b"")
        made.add(b"new\n")
        made.add(b"newer\n")
        self.assertEqual(self.data(), b"new\nnewer\n")

    def test_nobody_may_execute_it(self) -> None:
        self.made()
        self.assertEqual(stat.S_IMODE(os.stat(self.path).st_mode) & 0o111, 0)

    def test_lines_are_written_in_as_many_parts_as_it_takes(self) -> None:
        made = self.made()
        with mock.patch.object(os, "write", lambda file, data: self.writes(file, data[:3])):
            made.add(b"a line that has ten parts or so\n")
        self.assertEqual(self.data(), b"a line that has ten parts or so\n")

    def test_what_has_no_room_is_not_there(self) -> None:
        made = self.made(b"first\n")
        for room in range(7):
            with self.full(room), self.assertRaises(OSError):
                made.add(b"second\n")
            self.assertEqual(self.data(), b"first\n")
        made.add(b"third\n")
        self.assertEqual(self.data(), b"first\nthird\n")

    def test_an_end_that_has_room(self) -> None:
        made = self.made(b"first\n")
        made.end(b"the end\n", b"end\n")
        self.assertEqual(self.data(), b"first\nthe end\n")

    def test_an_end_in_place_of_the_last_lines(self) -> None:
        for data, line, left in (
            (b"a\nbb\nccc\n", b"X\n", b"a\nbb\nX\n"), (b"a\nbb\nccc\n", b"XYZ\n", b"a\nbb\nXYZ\n"), (b"a\nbb\nccc\n", b"XYZW\n", b"a\nXYZW\n"), (b"a\nbb\nccc\n", b"XYZWVUT\n", b"XYZWVUT\n"),
            (b"a\nbb\nccc\n", b"XYZWVUTS\n", b"XYZWVUTS\n"), (b"abc\n", b"X\n", b"X\n"),
        ):  # fmt: skip
            made = self.made(data)
            with self.subTest(line), self.full():
                with mock.patch.object(made, "_all", self.over(made)):
                    made.end(line)
            self.assertEqual(self.data(), left)
            made.close()

    def over(self, made: Output) -> Callable[[bytes], None]:
        """Writes where there is something already, and nowhere else."""

        def write(data: bytes) -> None:
            place = os.lseek(made._file, 0, os.SEEK_CUR)
            if place + len(data) > os.fstat(made._file).st_size:
                raise OSError(errno.ENOSPC, "No space left on device")
            self.writes(made._file, data)

        return write

    def test_a_shorter_end_where_the_longer_has_no_place(self) -> None:
        made = self.made(b"a\nbb\n")
        with mock.patch.object(made, "_all", self.over(made)):
            made.end(b"longer than all\n", b"XY\n", b"Z\n")
        self.assertEqual(self.data(), b"a\nXY\n")

    def test_an_end_in_a_large_file(self) -> None:
        lines = b"".join(b"line %d\n" % at for at in range(20000))
        made = self.made(lines)
        with mock.patch.object(made, "_all", self.over(made)):
            made.end(b"the end\n")
        self.assertEqual(self.data(), lines[: lines.rindex(b"line 19999")] + b"the end\n")

    def test_where_no_line_has_a_place_the_first_byte_is_turned(self) -> None:
        made = self.made(b"a\nbb\n")
        with self.full():
            made.end(b"longer than all\n", b"so is this one\n")
        self.assertEqual(self.data(), b"!\nbb\n")

    def test_a_last_line_without_a_beginning_near(self) -> None:
        data = b"head\n" + b"x" * 70000 + b"\n"
        made = self.made(data)
        with mock.patch.object(made, "_all", self.over(made)):
            made.end(b"XY\n")
        self.assertEqual(self.data(), b"!" + data[1:])

    def test_an_empty_file_stays_empty(self) -> None:
        made = self.made()
        with self.full():
            made.end(b"the end\n")
        self.assertEqual(self.data(), b"")

    def test_one_recorder_at_a_time(self) -> None:
        made = self.made(b"first\n")
        open_before = len(os.listdir("/proc/self/fd")) if os.path.isdir("/proc/self/fd") else 0
        try:
            Output(self.path)
        except Refused as refused:
            kept: Any = refused  # and with it all that it has come by
        self.assertIn(f"another recorder writes {self.path}: where several processes record, each needs a file of its own", str(kept))
        self.assertEqual((self.data(), len(os.listdir("/proc/self/fd")) if open_before else 0), (b"first\n", open_before))
        number = os.open(self.path, os.O_RDONLY)  # likely that of the file which was refused
        self.addCleanup(os.close, number)
        del kept
        gc.collect()
        os.fstat(number)  # which isn't closed with that
        made.close()
        self.made()
        self.assertEqual(self.data(), b"")

    @unittest.skipIf(output.fcntl is None, "there are no locks")
    def test_a_file_system_without_locks(self) -> None:
        for number, is_refused in ((errno.ENOLCK, False), (errno.ENOSYS, False), (errno.EOPNOTSUPP, False), (errno.EINVAL, False), (errno.EWOULDBLOCK, True), (errno.EACCES, True)):
            with self.subTest(number), mock.patch.object(output.fcntl, "flock", mock.Mock(side_effect=OSError(number, "no"))):
                if is_refused:
                    self.assertRaises(Refused, Output, self.path)
                else:
                    Output(self.path).close()
        with mock.patch.object(output, "fcntl", None):
            one, other = self.made(), self.made()
            one.add(b"a\n")
            other.add(b"b\n")
            self.assertEqual(self.data(), b"a\nb\n")

    def test_what_is_no_plain_file(self) -> None:
        one, other = Output(os.devnull), Output(os.devnull)
        told: List[bytes] = []
        with mock.patch.object(os, "write", lambda file, data: told.append(bytes(data[:2])) or len(data[:2])):
            one.add(b"line\n")
        self.assertEqual(told, [b"li", b"ne", b"\n"])
        one.close()
        other.close()

    def test_it_is_closed_once_and_when_it_goes(self) -> None:
        made = Output(self.path)
        number = made._file
        made.close()
        self.assertRaises(OSError, os.fstat, number)
        made.close()
        made = Output(self.path)
        number = made._file
        os.fstat(number)
        del made
        self.assertRaises(OSError, os.fstat, number)
        self.assertRaises(OSError, Output, os.path.join(self.path, "no folder"))

    def test_a_path_for_each_process(self) -> None:
        self.assertEqual(path_of("a-{pid}.b"), f"a-{os.getpid()}.b")
        self.assertEqual(path_of("a.b"), "a.b")


if __name__ == "__main__":
    unittest.main()
