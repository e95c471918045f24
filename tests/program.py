"""The program that is tested, and how a case says what was wanted of it and what came."""

import concurrent.futures
import os
import subprocess
import tempfile
import traceback
import unittest
from typing import Any, Callable, Iterable, List, Optional, Sequence, Tuple, TypeVar

TOP = os.path.dirname(os.path.dirname(os.path.abspath(__file__)))
TOOLS = os.path.join(TOP, "tools")
# Seconds for a run of the program whose time isn't measured.
PATIENCE = 60
# How a command may end otherwise than well.
REFUSED, MISTAKEN, DEVICE, UNKNOWN, NO = 1, 2, 3, 4, 5
Item = TypeVar("Item")
Result = TypeVar("Result")


class Differs(AssertionError):
    """A case that came out otherwise than was wanted. The smaller its size, the easier it is to look at."""

    def __init__(self, case: str, wanted: Any, came: Any, size: Optional[int] = None) -> None:
        self.case, self.wanted, self.came = case, shown(wanted), shown(came)
        places = [frame for frame in traceback.extract_stack() if os.path.basename(frame.filename).startswith("test_")]
        self.where = f"{os.path.relpath(places[-1].filename, TOP)}:{places[-1].lineno}" if places else ""
        self.size = len(case) + len(self.wanted) + len(self.came) if size is None else size
        super().__init__(f"{case}\nwanted: {self.wanted}\ncame:   {self.came}")


def shown(value: Any) -> str:
    """A value as a person reads it."""
    return value if isinstance(value, str) else repr(value)


def chosen() -> Tuple[str, str]:
    """Whether the program of these sources is proved, unproved or changed since a proof, and where it is, or is to be."""
    words = ["bash", "-c", 'top=$1; . "$0"; choose; echo "$told"; echo "$folder"', os.path.join(TOOLS, "sources"), TOP]
    told, folder = subprocess.run(words, stdout=subprocess.PIPE, text=True, check=True).stdout.splitlines()
    return told, os.path.join(folder, "pgserial")


def program() -> str:
    """The path of the program: that of $PGSERIAL, or else that of these sources, which is compiled where it isn't there."""
    if not os.environ.get("PGSERIAL"):
        told, path = chosen()
        if told != "proved":
            path = subprocess.run([os.path.join(TOOLS, "quick.py")], stdout=subprocess.PIPE, text=True, check=True).stdout.strip()
        os.environ["PGSERIAL"] = path
    return os.path.abspath(os.environ["PGSERIAL"])


def jobs() -> int:
    """How many runs of the program a test may have at a time."""
    return int(os.environ.get("PGSERIAL_TEST_JOBS", "0")) or len(os.sched_getaffinity(0))


def side_by_side(function: Callable[[Item], Result], items: Iterable[Item]) -> List[Result]:
    """What a function makes of each item, in their order."""
    with concurrent.futures.ThreadPoolExecutor(jobs()) as pool:
        return list(pool.map(function, items))


def run(*words: str, folder: Optional[str] = None, given: bytes = b"", timeout: float = PATIENCE, **how: Any) -> "subprocess.CompletedProcess[bytes]":
    """Runs the program to its end."""
    return subprocess.run([program(), *words], cwd=folder, input=given, capture_output=True, timeout=timeout, **how)


def first_line(data: bytes) -> str:
    """The first line of what standard error got: what follows is for a person to read."""
    return data.decode("utf-8", "backslashreplace").partition("\n")[0]


def difference(wanted: Sequence[str], came: Sequence[str]) -> Optional[Tuple[int, str, str]]:
    """The first line that differs, counted from 1: what was wanted there, and what came; nothing where none does."""
    for place in range(max(len(wanted), len(came))):
        pair = [f"`{lines[place]}`" if place < len(lines) else "the end" for lines in (wanted, came)]
        if wanted[place : place + 1] != came[place : place + 1]:
            return place + 1, pair[0], pair[1]
    return None


def timed(test: Any) -> Any:
    """Marks a test that measures time: where it fails beside others, it is run again alone."""
    test.is_timed = True
    return test


class Case(unittest.TestCase):
    """Tests of the program, in a folder of their own."""

    def setUp(self) -> None:
        folder = tempfile.TemporaryDirectory()
        self.addCleanup(folder.cleanup)
        self.folder = folder.name

    def same(self, case: str, wanted: Any, came: Any, size: Optional[int] = None) -> None:
        """One case: what was wanted must have come."""
        with self.subTest(case):
            if wanted != came:
                raise Differs(case, wanted, came, size)

    def write(self, name: str, data: Any) -> str:
        """Writes a file into the folder: its path."""
        path = os.path.join(self.folder, name)
        with open(path, "wb") as file:
            file.write(data if isinstance(data, bytes) else data.encode())
        return path
