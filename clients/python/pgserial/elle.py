"""Elle's names of the anomalies in what `check` says of a history of Jepsen's: by the reasons, and by what is known of the lists.

The names are those of Kingsbury and Alvaro, Elle: Inferring Isolation Anomalies from Experimental Observations, and of Adya,
Weak Consistency: A Generalized Theory and Optimistic Implementations for Distributed Transactions. Edges of a cycle are ww where
a write comes before the next, wr where a write is read, and rw where what was read is written over."""

import re
from typing import Dict, Iterable, Iterator, List, NamedTuple, Optional, Sequence, Set, Tuple

from .micros import APPEND, BALANCE, CAS, READ, WRITE, Micro, Micros, elements_of
from .operations import NIL, SPACE, Event
from .survey import ListOfKey

G0, G1A, G1B, G1C, G_SINGLE, G_NONADJACENT, G2_ITEM = "G0", "G1a", "G1b", "G1c", "G-single", "G-nonadjacent", "G2-item"
LOST_UPDATE, INTERNAL, GARBAGE = "lost update", "internal", "garbage read"
INCOMPATIBLE, DUPLICATE = "incompatible order", "duplicate elements"
_OF_NAME = {G_SINGLE: {"lost update", "read skew", "read-only anomaly", "stale read"}, G2_ITEM: {"write skew", "lost update", "read-only anomaly"},
            G_NONADJACENT: {"long fork", "read-only anomaly"}}  # fmt: skip

_BEHIND_ALL = 2**63  # the place of an element that nobody has read
WW, WR, RW, TIME, UNKNOWN = range(5)  # an edge's kinds, the least first that says most

_X = r"(\d+)(?: \([^()]*\))?"
_EDGE = re.compile(rf"{_X} read .*\(line (\d+)\), (before|as|and all who) .*: so {_X} comes before {_X}")
_NOT = re.compile(rf".* and not {_X}, which wrote it before \(line \d+\): so .*")
_TIME = re.compile(rf"{_X} ended \(line \d+\) before .*: so {_X} comes before {_X}")
_CYCLE = re.compile(r"(cycle ((?:\d+ )+\d+))(?:: (.*))?")
_OWN = re.compile(rf"(the replies of {_X} about .* can't all be \(line (\d+)\)): non-repeatable read")
_SOURCELESS = re.compile(rf"({_X} read .* \(line (\d+)\), (?:which nobody wrote|as nobody left it in the end|as nobody can have left it))(?:: .*)?")
_COUNTED = re.compile(rf"({_X} counted 2 rows of lists .* \(line (\d+)\), but so many can't have been there)(?:: .*)?")


def _written(does: str, value: str) -> str:
    """What a micro-operation writes, or reads."""
    return value.split(" ")[1].replace(SPACE, " ") if does == CAS else value


class Found(NamedTuple):
    """A transaction that the reasons name: the history's line, and the places of its statements among them by their lines."""

    line: int
    places: Dict[int, int]


def numbers_in(reasons: Iterable[str]) -> Set[int]:
    """The transactions that reasons name."""
    return {int(number) for line in reasons if line[:1] in " 123456789tc" for number in re.findall(r"\b[0-9]{1,18}\b", line)}


def found_in(transcript: Iterable[str], numbers: Set[int]) -> Dict[int, Found]:
    """Where these transactions of a transcript come from. All of its BEGINs were answered so."""
    found: Dict[int, Found] = {}
    open_in: Dict[str, int] = {}
    before = ""
    begun = 0
    for number, line in enumerate(transcript, 1):
        if line.startswith("> "):
            session, _, command = line[2:].partition(" ")
            if command.startswith("BEGIN"):
                begun += 1
                open_in[session] = begun
                if begun in numbers:
                    found[begun] = Found(int(before.rpartition(":")[2]) if before.startswith("-- at ") else 0, {})
            elif open_in.get(session) in numbers:
                places = found[open_in[session]].places
                places[number] = len(places)
        before = line
    return found


class History:
    """What a history says of the transactions that reasons name."""

    def __init__(self, lists: Dict[str, ListOfKey], found: Dict[int, Found]) -> None:
        self._lists, self._found = lists, found
        self._micros: Dict[int, Tuple[Micro, ...]] = {}  # by the history's lines
        self._writers: Dict[Tuple[str, str], Tuple[str, Tuple[Micro, ...]]] = {}  # who has written a value, and how it ended
        self._keys: Set[str] = set()

    def look(self, events: Iterable[Event], micros: Micros) -> None:
        """Keeps what the transactions did."""
        wanted = {each.line for each in self._found.values()}
        for _, kind, one in events:
            if kind != "invoke" and one.line in wanted:
                told = micros.of(one)
                self._micros[one.line] = told if kind == "ok" else tuple(each for each in told if each[0] not in (READ, BALANCE))
                self._keys.update(key for _, key, _ in told)

    def look_again(self, events: Iterable[Event], micros: Micros) -> None:
        """Keeps who has written what they read."""
        for _, kind, one in events:
            if kind != "invoke":
                told = micros.of(one)
                for does, key, value in told:
                    if does in (APPEND, WRITE, CAS) and key in self._keys:
                        self._writers[key, _written(does, value)] = kind, told

    def micros(self, number: int) -> Tuple[Micro, ...]:
        """What a transaction did."""
        found = self._found.get(number)
        return () if found is None else self._micros.get(found.line, ())

    def micro(self, number: int, line: int) -> Optional[Micro]:
        """The micro-operation that a transaction did at a line of the transcript."""
        found, micros = self._found.get(number), self.micros(number)
        place = None if found is None else found.places.get(line)
        return micros[place] if place is not None and place < len(micros) else None

    def writes(self, number: int, line: int) -> bool:
        """Whether a transaction writes at a line."""
        micro = self.micro(number, line)
        return micro is not None and micro[0] not in (READ, BALANCE, CAS)

    # what is wrong with a transaction by itself

    def own(self, number: int, key: str) -> Optional[str]:
        """What a transaction's own operations on a key show."""
        told = [micro for micro in self.micros(number) if micro[1] == key]
        return self._own_of_list(key, told) if key in self._lists else self._own_of_register(told)

    def _own_of_register(self, told: Sequence[Micro]) -> Optional[str]:
        known: Optional[str] = None
        for does, _, value in told:
            read = value if does == READ else value.split(" ")[0].replace(SPACE, " ") if does == CAS else known
            if known is not None and read != known:
                return INTERNAL
            known = _written(does, value)
        return None

    def _own_of_list(self, key: str, told: Sequence[Micro]) -> Optional[str]:
        """By the lengths that the list had: as it was read, and as it was appended to."""
        length: Optional[int] = None
        was_read = False
        for does, _, value in told:
            if does == READ:
                seen = self._lists[key].seen(value)
                if length is not None and seen != length:
                    return INTERNAL
                length, was_read = seen, True
                continue
            place = self._lists[key].appended.get(value, 0)
            if length is not None and place and place != length + 1:
                return INTERNAL if place <= length else self._between(key, length) if was_read else G0
            length, was_read = place or _BEHIND_ALL, False
        return None

    def _between(self, key: str, length: int) -> str:
        """What an append by another shows between a read of this length and an append."""
        element = self._element(key, length + 1)
        _, told = self._writers.get((key, element), ("", ()))
        before = told[: told.index((APPEND, key, element))] if element else ()
        reads = [self._lists[key].seen(value) for does, other, value in before if does == READ and other == key]
        return f"{G_SINGLE}, {LOST_UPDATE}" if length in reads else G_SINGLE

    def _element(self, key: str, place: int) -> str:
        elements = elements_of(f"[{self._lists[key].longest}]")
        return elements[place - 1] if 0 < place <= len(elements) else ""

    # what is wrong with what it has read

    def sourceless(self, number: int, line: int) -> Optional[str]:
        """What it shows that nobody can have left what was read at a line."""
        micro = self.micro(number, line)
        if micro is None:
            return None
        does, key, value = micro
        if does not in (READ, WRITE, APPEND, CAS):
            return None  # a sum, of which nobody knows more
        own = self.own(number, key)
        if own is not None:
            return own
        if key not in self._lists:
            return self._of_value(key, value.split(" ")[0].replace(SPACE, " ") if does == CAS else value, G1B)
        if does == READ:
            length = self._lists[key].seen(value) or 0
        else:
            length = (self._lists[key].appended.get(value, 0) or self._lists[key].length + 1) - 1
        elements = [self._element(key, place) for place in range(1, length + 1)]
        names = [self._of_value(key, element, "") for element in elements]
        wrong = next((name for name in names if name), None)
        return wrong or (G1B if does == READ else G0) if elements else None

    def _of_value(self, key: str, value: str, otherwise: str) -> str:
        """What it shows that a value was read."""
        if (key, value) not in self._writers:
            return otherwise if value == NIL else GARBAGE
        return G1A if self._writers[key, value][0] == "fail" else otherwise

    def impossible(self, number: int, line: int) -> Optional[str]:
        """What a read shows that no list can give."""
        micro = self.micro(number, line)
        if micro is None or micro[0] != READ:
            return None
        elements = elements_of(micro[2])
        return DUPLICATE if len(set(elements)) < len(elements) else INCOMPATIBLE


# ---- cycles


def _edges(history: History, line: str) -> Iterator[Tuple[int, int, int]]:
    """What a reason says: who comes before whom, and how."""
    time = _TIME.fullmatch(line)
    if time:
        yield int(time[2]), int(time[3]), TIME
    found = _EDGE.fullmatch(line)
    if not found:
        return
    reader, at, how, first, second = int(found[1]), int(found[2]), found[3], int(found[4]), int(found[5])
    if how == "and all who":
        yield first, second, UNKNOWN
    elif _NOT.fullmatch(line):
        yield first, second, WW
    elif history.writes(reader, at):
        yield first, second, WW
    else:
        yield first, second, RW if how == "before" else WR


def name_of_cycle(kinds: Sequence[int], is_known: str) -> Optional[str]:
    """Elle's name of a cycle of such edges, which `check` knows by another, or by none."""
    if UNKNOWN in kinds:
        return None
    against = [kind == RW for kind in kinds]
    if is_known == LOST_UPDATE:  # whichever wrote second has read what came before the first
        name = G_SINGLE
    elif sum(against) == 0:
        name = G1C if WR in kinds else G0 if WW in kinds else ""
    elif sum(against) == 1:
        name = G_SINGLE
    else:
        name = G2_ITEM if any(one and other for one, other in zip(against, against[1:] + against[:1])) else G_NONADJACENT
    if not name:
        return None
    name += "-realtime" if TIME in kinds else ""
    return f"{name}, {is_known}" if is_known in _OF_NAME.get(name, ()) else name


class Named(NamedTuple):
    """Reasons with Elle's names, and these names."""

    reasons: List[str]
    names: Tuple[str, ...]


def named(history: History, reasons: Sequence[str]) -> Named:
    """The reasons of a `no` with Elle's names of what they end in."""
    edges: Dict[Tuple[int, int], int] = {}
    told: List[str] = []
    names: List[str] = []
    for line in reasons:
        if line.startswith(" "):  # it holds by a supposition alone
            told.append(line)
            continue
        for first, second, kind in _edges(history, line):
            edges[first, second] = min(kind, edges.get((first, second), UNKNOWN))
        said, name = _named_line(history, edges, line)
        told.append(line if said is None else f"{said}: {name}")
        names += [each for each in name.split(", ") if each not in names] if name else []
    return Named(told, tuple(names))


def _named_line(history: History, edges: Dict[Tuple[int, int], int], line: str) -> Tuple[Optional[str], Optional[str]]:
    """What a line says without its name, and Elle's name; None where there is none."""
    cycle = _CYCLE.fullmatch(line)
    if cycle:
        along = [int(number) for number in cycle[2].split()]
        kinds = [edges.get(pair, UNKNOWN) for pair in zip(along, along[1:])]
        name = name_of_cycle(kinds, cycle[3] or "")
        return (cycle[1], name) if name else (None, cycle[3])
    for form, look in ((_OWN, _own_at), (_SOURCELESS, History.sourceless), (_COUNTED, History.impossible)):
        found = form.fullmatch(line)
        if found:
            name = look(history, int(found[2]), int(found[3]))
            return (found[1], name) if name else (None, None)
    return None, None


def _own_at(history: History, number: int, line: int) -> Optional[str]:
    micro = history.micro(number, line)
    return None if micro is None else history.own(number, micro[1])
