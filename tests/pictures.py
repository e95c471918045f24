"""Reads a picture of `pgserial draw`: which lanes it has, which events stand in them, how transactions ended, which arrows there
are, and the texts. Where things stand, and their looks, isn't read."""

import os
import re
import tempfile
import xml.etree.ElementTree as xml
from typing import Any, Dict, List, Optional, Tuple

from tests import program

MOST = 400  # events of a picture
ROW, LINE = 28, 200  # characters of a row and of a script's line, at most
Event = Tuple[Any, ...]


def number(element: xml.Element, name: str) -> int:
    """A whole number of an element."""
    return int(element.get(name, ""))


def below(element: xml.Element, tag: str) -> xml.Element:
    """The element of a tag that is part of another."""
    found = element.find("{*}" + tag)
    assert found is not None, f"{tag} isn't there"
    return found


def title_of(element: xml.Element) -> str:
    """What pointing at an element shows."""
    return below(element, "title").text or ""


def first(pattern: str, text: str) -> str:
    """The first part of a text that is like this, or what stands there in brackets."""
    found = re.search(pattern, text)
    assert found, f"{text!r} has no {pattern}"
    return found[found.re.groups]


class Picture:
    """What a picture shows. Sessions are named by the lane in which something stands."""

    def __init__(self, svg: str) -> None:
        self.root = xml.fromstring(svg)
        self.lanes = {y: int(first(r"\Asession (\d+)\Z", text)) for _, y, text in self.texts("session")}
        self.heading = " ".join(text for _, _, text in self.texts("title"))
        self.whys = [text for _, _, text in self.texts("why")]
        self.notes = [text for _, _, text in self.texts("note middle")]

    def elements(self, tag: str, kind: str) -> List[Tuple[xml.Element, str]]:
        """The elements of a class, or of this and another, with their classes."""
        found = self.root.iter("{http://www.w3.org/2000/svg}" + tag)
        return [(it, it.get("class", "")) for it in found if (it.get("class", "") + " ").startswith(kind + " ")]

    def texts(self, kind: str) -> List[Tuple[int, int, str]]:
        """Where each text of a class stands, and what it is without its title, from the left."""
        found = [(number(it, "x"), number(it, "y"), "".join([it.text or "", *[part.tail or "" for part in it]]))
                 for it, _ in self.elements("text", kind)]
        return sorted(found)

    def sessions(self) -> List[int]:
        """The sessions that have lanes, from the top."""
        return [session for _, session in sorted(self.lanes.items())]

    def placed_events(self) -> List[Tuple[int, int, Event]]:
        """Each event from the left: where it stands, its session, its letter, and whether it is refused."""
        found: List[Tuple[int, int, Event]] = []
        for it, kind in self.elements("text", "event"):
            letter, y = "".join(part.tail or "" for part in it), number(it, "y")
            found.append((number(it, "x"), y, (self.lanes[y], letter) + tuple(kind.split()[1:])))
        return sorted(found)

    def events(self) -> List[Event]:
        return [event for _, _, event in self.placed_events()]

    def titles(self) -> List[str]:
        """What pointing at each event shows, from the left."""
        found = [(number(it, "x"), "".join(part.text or "" for part in it)) for it, _ in self.elements("text", "event")]
        return [title for _, title in sorted(found)]

    def lines(self) -> List[int]:
        """The script's lines above events, from the left; where events stand close there aren't all."""
        return [int(text) for _, _, text in self.texts("count middle")]

    def bars(self) -> List[Tuple[Optional[str], Any]]:
        """How each transaction ended, as its bar says: by its colour, and to who points at it."""
        bars = [(it, it.get("class")) for it in self.root.iter("{http://www.w3.org/2000/svg}g")]
        return [(kind, title_of(it)) for it, kind in bars]

    def lane_at(self, y: int) -> int:
        """The session whose lane is next to a height."""
        return self.lanes[min(self.lanes, key=lambda lane: abs(lane - y))]

    def spans(self) -> List[Tuple[int, int, str]]:
        """Each transaction, the session in whose lane its bar stands, and the letters of that lane's events that it covers."""
        spans = []
        for it in self.root.iter("{http://www.w3.org/2000/svg}g"):
            x, y, width, height = [number(below(it, "rect"), name) for name in ("x", "y", "width", "height")]
            session = self.lane_at(y + height // 2)
            covered = [letter for at, _, (own, letter, *_) in self.placed_events() if own == session and x < at < x + width]
            spans.append((int(first(r"\d+", title_of(it))), session, "".join(covered)))
        return sorted(spans)

    def strokes(self) -> Dict[str, int]:
        """Of how many strokes the mark of each transaction is, with how it ended."""
        marks = [(it.get("d", ""), kind.split()[1]) for it, kind in self.elements("path", "mark")]
        return {kind: path.count("m") for path, kind in marks}

    def ends(self) -> List[Event]:
        """From which event to which each arrow goes: the session, the script's line, and the same of the other."""
        found = []
        for it, _ in self.elements("path", "arrow"):
            numbers = [int(number) for number in re.findall(r"-?\d+", it.get("d", ""))]
            found.append(tuple(self.event_at(*numbers[at : at + 2]) for at in (0, 6)))
        return sorted(found)

    def event_at(self, x: int, y: int) -> Event:
        """The session and the line of the event nearest to a point."""
        at, lane, event = min(self.placed_events(), key=lambda it: (abs(it[0] - x), abs(it[1] - y)))
        title = next(title for (own, _, _), title in zip(self.placed_events(), self.titles()) if own == at)
        return event[0], int(first(r"\Aline (\d+)", title))

    def marks(self) -> List[Tuple[int, str]]:
        """The session below whose lane each note stands, and the note."""
        return [(self.lanes[max(lane for lane in self.lanes if lane < y)], note) for _, y, note in self.texts("note middle")]

    def names(self) -> List[Tuple[str, Optional[str]]]:
        """What transactions are called, and the places in the serial order that stand below them."""
        ranks = {x: text for x, _, text in self.texts("rank")}
        return [(name, ranks.get(x)) for x, _, name in self.texts("name")]

    def arrows(self) -> List[Tuple[int, int, str]]:
        """From whom to whom each arrow goes, and its looks: those of danger are bold, those of two that stand apart pale."""
        told = [(re.findall(r"T(\d+)", title_of(it)), kind) for it, kind in self.elements("path", "arrow")]
        return sorted((int(numbers[0]), int(numbers[1]), kind.split()[1]) for numbers, kind in told)

    def labels(self) -> List[str]:
        """The rows of the arrows."""
        return sorted(text for _, _, text in self.texts("label"))


def drawn(script: str, *words: str, **files: str) -> str:
    """The text of a script's picture, which is written without a word; or what is told instead."""
    with tempfile.TemporaryDirectory() as folder:
        for name, text in {"script": script, **files}.items():
            with open(os.path.join(folder, name), "w", encoding="utf-8", newline="") as file:
                file.write(text)
        done = program.run("draw", "script", "--out", "out", *words, folder=folder)
        if done.returncode or done.stdout or done.stderr:
            return f"{done}"
        with open(os.path.join(folder, "out"), encoding="utf-8", newline="") as file:
            return file.read()


def lines_of(script: str, first: int) -> List[str]:
    """What pointing at the events of a script's lines shows, from this line on."""
    lines = list(enumerate(script.splitlines(), 1))[first - 1:]
    return [f"line {number}: {line[:LINE]}" for number, line in lines if line[0].isdigit() and " DUMP " not in line]
