"""The application's own places: the function and line that each transaction and each statement comes from, as comments of a
transcript: `-- at checkout shop/views.py:41`, a function or a name, a blank, and a path relative to the project with a line.

Frames of installed packages, of the standard library and of this package are passed over."""

import contextlib
import contextvars
import os
import re
import sys
import sysconfig
from typing import Any, Dict, Iterator, List, NamedTuple, Optional, Tuple

_HERE = os.path.dirname(os.path.abspath(__file__)) + os.sep
_LIBRARIES = tuple(
    {
        os.path.join(os.path.realpath(folder), "")
        for folder in (sysconfig.get_path("stdlib"), sysconfig.get_path("platstdlib"), os.path.dirname(os.__file__))
        if folder
    }
)
_INSTALLED = re.compile(r"[/\\](?:site|dist)-packages[/\\]")
_AT = re.compile(r"-- at (\S+) (.+):([0-9]{1,9})")
_UNPRINTABLE = re.compile(r"[^\x21-\x7e\u00a1-\u2027\u2030-\ud7ff\uf900-\ufffd]+")
_LONGEST = 200
_MOST_KNOWN = 65536


class Place(NamedTuple):
    """A function, or a name that was given to it, with its file and line."""

    name: str
    file: str
    line: int

    def __str__(self) -> str:
        return f"{self.file}:{self.line}"

    def comment(self) -> str:
        """The line that says it in a transcript."""
        return f"-- at {self.name} {self.file}:{self.line}\n"


def _word(text: str) -> str:
    """A text as one word of a transcript's comment."""
    return _UNPRINTABLE.sub("_", text)[:_LONGEST] or "_"


def _parent_frame() -> Any:
    """The frame from which this greenlet was switched to, where it is one."""
    greenlet = sys.modules.get("greenlet")
    parent = greenlet.getcurrent().parent if greenlet is not None else None
    return None if parent is None else parent.gr_frame


class Places:
    """Finds the application's places. `project` is its folder, by default the one in which the process has begun."""

    def __init__(self, project: Any = None) -> None:
        self._project = os.path.join(os.path.realpath(os.getcwd() if project is None else os.fspath(project)), "")
        self._files: Dict[str, Tuple[int, str]] = {}  # how near to the application, and how it is shown
        self._known: Dict[Tuple[int, int], Tuple[Any, Place]] = {}  # by code, which is kept, and instruction
        self._name: contextvars.ContextVar[Optional[str]] = contextvars.ContextVar("name", default=None)

    @contextlib.contextmanager
    def named(self, name: str) -> Iterator[None]:
        """Gives the transactions that begin within a name, in this task or thread."""
        before = self._name.get()
        self._name.set(_word(name))
        try:
            yield
        finally:
            self._name.set(before)

    def place(self, own: int = 1) -> Optional[Place]:
        """The innermost line of the project that has led here; else the innermost of no installed package. `own` are the
        frames that are surely of this package, this one included."""
        other: Optional[Place] = None
        files = self._files
        frame: Any = sys._getframe(own)
        while frame is not None:
            name = frame.f_code.co_filename
            near = (files.get(name) or self._file(name))[0]
            if near == 2:
                return self._of(frame)
            if near == 1 and other is None:
                other = self._of(frame)
            frame = frame.f_back
            if frame is None and other is None:
                frame = _parent_frame()
                if frame is not None:
                    return self._outer(frame)
        return other

    def _outer(self, frame: Any) -> Optional[Place]:
        """The same behind a greenlet's first frame."""
        while frame is not None:
            if self._file(frame.f_code.co_filename)[0]:
                return self._of(frame)
            frame = frame.f_back
        return None

    def _of(self, frame: Any) -> Place:
        """The place of a frame."""
        code = frame.f_code
        key = (id(code), frame.f_lasti)
        known = self._known.get(key)
        if known is not None:
            return known[1]
        place = Place(_function_of(frame), self._file(code.co_filename)[1], frame.f_lineno)
        if not code.co_name.startswith("<"):  # else its name is that of the function around it
            if len(self._known) >= _MOST_KNOWN:
                self._known.clear()
            self._known[key] = code, place
        return place

    def called(self, place: Optional[Place]) -> Optional[Place]:
        """The place of a transaction that begins at one, with its name."""
        name = self._name.get()
        return place if name is None or place is None else place._replace(name=name)

    def _file(self, name: str) -> Tuple[int, str]:
        found = self._files.get(name)
        if found is None:
            found = self._files[name] = self._looked_at(name)
        return found

    def _looked_at(self, name: str) -> Tuple[int, str]:
        """2 for a file of the project, 1 for another, 0 where it is passed over; and how it is shown."""
        if name.startswith("<"):
            return int(name in ("<stdin>", "<string>")), _word(name)
        path = os.path.realpath(name)
        is_own = os.path.abspath(name).startswith(_HERE) or path.startswith(_HERE)
        if is_own or _INSTALLED.search(path) or path.startswith(_LIBRARIES):
            return 0, ""
        if path.startswith(self._project):
            return 2, _path(path[len(self._project) :])
        return 1, _path(path)


def _path(path: str) -> str:
    """A path on one line."""
    parts = [_word(part.replace(" ", "\u2007")).replace("\u2007", " ") if part else "" for part in path.split(os.sep)]
    return "/".join(parts)


def _function_of(frame: Any) -> str:
    """The name of a frame's function; of the one around it where that has none."""
    file = frame.f_code.co_filename
    while frame.f_code.co_name.startswith("<") and frame.f_code.co_name != "<module>":
        if frame.f_back is None or frame.f_back.f_code.co_filename != file:
            break
        frame = frame.f_back
    return _word(frame.f_code.co_name)


# ---- read again


class Placed(NamedTuple):
    """The places of a transcript: of its transactions by their numbers, of its statements by their lines."""

    transactions: Dict[int, Place]
    lines: Dict[int, Place]


def _place_of(line: str) -> Optional[Place]:
    found = _AT.fullmatch(line)
    return None if found is None else Place(found[1], found[2], int(found[3]))


def places_of(text: str) -> Placed:
    """The places of a transcript. Transactions have the numbers of the BEGINs that were answered so, in their order."""
    lines: Dict[int, Place] = {}
    begun: List[Tuple[Optional[Place], bool]] = []
    asked: Dict[str, int] = {}  # the BEGIN that a session awaits an answer to
    place: Optional[Place] = None
    for number, line in enumerate(text.split("\n"), 1):
        if line.startswith("-- at "):
            place = _place_of(line)
            continue
        if line.startswith("> "):
            session, _, command = line[2:].partition(" ")
            if command.startswith("BEGIN"):
                asked[session] = len(begun)
                begun.append((place, False))
            if place is not None:
                lines[number] = place
        elif line.startswith("  "):
            session, _, reply = line[2:].partition(" ")
            at = asked.pop(session, None)
            if at is not None and reply == "BEGIN":
                begun[at] = (begun[at][0], True)
        place = None
    answered = [place for place, is_answered in begun if is_answered]
    return Placed({number: place for number, place in enumerate(answered, 1) if place is not None}, lines)


_LINE = re.compile(r"\(line ([0-9]{1,9})\)")
_CYCLE = re.compile(r"cycle ((?:[0-9]{1,9} )*[0-9]{1,9})\b")
_FIRST = re.compile(r" *(?:suppose |txn )?([0-9]{1,9}) ")


def with_places(reasons: List[str], text: str) -> List[str]:
    """The reasons of a `no` with the places of a transcript: each line's beside it, and at the end each transaction's."""
    placed = places_of(text)
    shown = [str(place) for place in placed.lines.values()]
    if any(f"({place}" in line or f", {place})" in line for place in set(shown) for line in reasons):
        return reasons  # they are there already

    def line_of(found: "re.Match[str]") -> str:
        place = placed.lines.get(int(found[1]))
        return found[0] if place is None else f"(line {found[1]}, {place})"

    numbers = {int(found[1]) for found in map(_FIRST.match, reasons) if found}
    for found in filter(None, map(_CYCLE.match, reasons)):
        numbers.update(map(int, found[1].split()))
    told = [
        f"{number} is {placed.transactions[number].name} ({placed.transactions[number]})"
        for number in sorted(numbers)
        if number in placed.transactions
    ]
    at = next((at for at, line in enumerate(reasons) if line.startswith("check ")), len(reasons))
    changed = [_LINE.sub(line_of, line) for line in reasons]
    return changed[:at] + told + changed[at:]
