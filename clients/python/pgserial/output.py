"""The file of a recording: lines are added whole and in their order, at most a second late, or the file ends in a line that
says it doesn't go on. What a killed process has kept back is the end of all that it recorded, of every session, so that the
file is what it was a moment before."""

import contextlib
import errno
import os
import stat
import threading
import weakref
from typing import Any, Callable, List, Optional

from .keys import Refused

try:
    import fcntl
except ImportError:  # not on Windows
    fcntl = None  # type: ignore

_UNLOCKED = (errno.ENOLCK, errno.ENOSYS, errno.EOPNOTSUPP, errno.EINVAL)  # where the file system has no locks
_READ_BACK = 65536
_CLOSED = -1  # no file
_MOST_KEPT, _LATEST = 1 << 18, 0.5  # bytes that are kept back, and seconds


class Output:
    """A file that one recorder writes. Whoever calls it holds the recorder's lock. `writes_kept` takes that lock and calls
    `write_late`, for what was kept back for long enough; without it nothing is kept back."""

    def __init__(self, path: str, writes_kept: Optional[Callable[[], None]] = None) -> None:
        self.path = path
        self._kept: List[bytes] = []
        self._size = 0  # of what is kept back
        self._writes_kept = None if writes_kept is None else weakref.WeakMethod(writes_kept)
        self._process = os.getpid()
        self._is_due = False  # whether a thread is waiting to write that
        self._is_lost = False  # whether lines were lost, behind which none may stand
        _open.add(self)
        self._file = os.open(path, os.O_RDWR | os.O_CREAT | getattr(os, "O_BINARY", 0), 0o666)
        self._is_plain = stat.S_ISREG(os.fstat(self._file).st_mode)
        if self._is_plain:
            try:
                self._lock()
                os.ftruncate(self._file, 0)
            except BaseException:
                self.close()
                raise

    def _lock(self) -> None:
        """Refuses a file that another recorder writes, of this process or of another."""
        if fcntl is None:
            return
        try:
            fcntl.flock(self._file, fcntl.LOCK_EX | fcntl.LOCK_NB)
        except OSError as error:
            if error.errno not in _UNLOCKED:
                raise Refused(
                    f"another recorder writes {self.path}: where several processes record, each needs a file of its own, "
                    "as by {pid} in the path"
                ) from None

    def close(self) -> None:
        """Closes it."""
        with contextlib.suppress(OSError):
            self.write_kept()
        file, self._file = self._file, _CLOSED
        with contextlib.suppress(OSError):  # somebody has closed it
            os.close(file)

    def __del__(self) -> None:
        with contextlib.suppress(AttributeError):  # of one that couldn't be opened
            self.close()

    def forget(self) -> None:
        """Nothing is kept back: it is another process's."""
        self._kept, self._size = [], 0

    def _all(self, data: bytes) -> None:
        while data:
            data = data[os.write(self._file, data) :]

    def add(self, data: bytes) -> None:
        """Adds lines, which are written together with those that come soon."""
        if self._writes_kept is None:
            self._write(data)
            return
        self._kept.append(data)
        self._size += len(data)
        if self._size >= _MOST_KEPT or not (self._is_due or self._is_soon()):
            self.write_kept()

    def _is_soon(self) -> bool:
        """Has what is kept back written in time, by a thread of its own; False where none can be had."""
        timer = threading.Timer(_LATEST, _write_kept, (self._writes_kept,))
        timer.daemon = True
        with contextlib.suppress(RuntimeError):
            timer.start()
            self._is_due = True
        return self._is_due

    def write_late(self) -> None:
        """Writes what is kept back, as that thread."""
        self._is_due = False
        self.write_kept()

    def write_kept(self) -> None:
        """Writes what is kept back: all, or the beginning that has room, and then nothing more."""
        kept = self._kept
        self.forget()
        if self._is_lost:
            raise OSError(errno.EIO, "lines before these were lost")
        if not kept:
            return
        self._is_lost = True
        if os.getpid() != self._process:
            raise OSError(errno.EPERM, "another process uses a connection that is recorded")
        try:
            self._write(b"".join(kept))
        except OSError:
            for data in kept:
                self._write(data)
        self._is_lost = False

    def _write(self, data: bytes) -> None:
        """Writes lines: all, or none where that fails."""
        if not self._is_plain:
            self._all(data)
            return
        end = os.lseek(self._file, 0, os.SEEK_END)
        try:
            self._all(data)
        except BaseException:
            with contextlib.suppress(OSError):
                os.ftruncate(self._file, end)
            raise

    def end(self, *lines: bytes) -> None:
        """Adds the first of these lines that has room: where the disk has none, in place of the last lines. Where none has,
        the first byte is turned, by which the file is no transcript; or there was none."""
        with contextlib.suppress(OSError):
            self.write_kept()
        for line in lines:
            for way in (self._write, self._over):
                with contextlib.suppress(OSError):
                    way(line)
                    return
        with contextlib.suppress(OSError):
            self._turn()

    def _over(self, line: bytes) -> None:
        """Writes a line in place of the last ones that have its length, whose room is there already."""
        end = os.fstat(self._file).st_size
        start = max(0, end - len(line) - _READ_BACK)
        os.lseek(self._file, start, os.SEEK_SET)
        data = os.read(self._file, end - start)
        if len(data) < len(line):
            raise OSError(errno.ENOSPC, "no line fits")
        before = data.rfind(b"\n", 0, len(data) - len(line))
        if before < 0 and start:
            raise OSError(errno.ENOSPC, "no line fits")
        place = start + before + 1
        os.lseek(self._file, place, os.SEEK_SET)
        self._all(line)
        os.ftruncate(self._file, place + len(line))

    def _turn(self) -> None:
        if os.path.getsize(self.path):
            with open(self.path, "r+b") as file:
                file.write(b"!")


_open: "weakref.WeakSet[Output]" = weakref.WeakSet()


def _write_kept(writes_kept: "Optional[weakref.WeakMethod[Callable[[], None]]]") -> None:
    """Writes what a recorder has kept back, where it is there still."""
    writes = writes_kept() if writes_kept is not None else None
    if writes is not None:
        writes()


def write_all_kept() -> None:
    """Writes what the recorders of this process have kept back, for who reads their files now."""
    for output in list(_open):
        _write_kept(output._writes_kept)


def path_of(path: Any) -> str:
    """A path in which `{pid}` is this process's number."""
    given: str = os.fspath(path)
    return given.replace("{pid}", str(os.getpid()))
