"""Statements that are executed again with other numbers and texts: what a transcript says of one is kept, with holes in the
place of its parameters, so that only these are put in."""

import itertools
from typing import Any, Callable, Dict, Iterable, List, Optional, Sequence, Tuple, Type

from . import BIGINT, TEXT
from .catalog import Column
from .sql import In, Slot, Sum
from .translation import Arguments, Exchange, Result, Told, _ChangeTold, _InsertTold, _SelectTold
from .values import MOST_BYTES, Unsaid

_NUMBERS = (7046029254386350000, 3915724681029460000)  # in whose digits numbers stand in place of parameters, twice
_TEXTS = ("q7z", "x7w")  # and texts
_MOST_SHAPES, _MOST_HOLES = 16, 256  # of classes of parameters, for one statement; of parameters
_MOST_TEXT = MOST_BYTES // 8  # characters of a parameter
_LEAST, _MOST = -(2**63), 2**63 - 1  # numbers of 64 bits
_GIVEN = frozenset((tuple, list, dict))  # classes of parameters that are given
_NEW: Any = object()  # classes of parameters that a statement hasn't been given yet
Key = Any  # of a parameter: its place, or its name


class _Number(int):
    """What stands in the place of a number."""

    kind = BIGINT
    columns: List[Column]


class _Text(str):
    """What stands in the place of a text."""

    kind = TEXT
    columns: List[Column]


_HOLES: Dict[type, Any] = {int: _Number, str: _Text}


class _Marked(Arguments):
    """Parameters in whose places are holes."""

    are_marked = True

    def __init__(self, kinds: Sequence[Tuple[Key, type]], turn: int) -> None:
        super().__init__(())
        self.holes: Dict[Key, Any] = {}
        for at, (key, kind) in enumerate(kinds):
            hole: Any = _Number(_NUMBERS[turn] + at) if kind is int else _Text(f"{_TEXTS[turn]}{at:02x}")
            hole.columns = []
            self.holes[key] = hole

    def value(self, key: Key) -> object:
        if key not in self.holes:
            raise Unsaid(f"there is no parameter {key}")
        return self.holes[key]

    def given_to(self, column: Column, value: object) -> None:
        """Refuses what is said otherwise than as it is given."""
        if isinstance(value, (_Number, _Text)):
            if column.kind is not value.kind:
                raise Unsaid("it stands as another value")
            value.columns.append(column)


class Hole:
    """A parameter's place in a text."""

    def __init__(self, key: Key, hole: Any) -> None:
        self.key, self.is_number = key, isinstance(hole, int)
        self.mark = str(int(hole)) if self.is_number else f"'{hole}'"
        lengths = [column.length for column in hole.columns if column.length is not None]
        self.longest = min([_MOST_TEXT, *lengths])

    def literal(self, value: Any) -> Optional[str]:
        """A value as a literal; None where it must be looked at more closely."""
        if self.is_number:
            return int.__repr__(value) if -(2**63) <= value < 2**63 else None
        if len(value) > self.longest or "\\" in value or not value.isprintable():
            return None
        return "'" + value.replace("'", "''") + "'" if "'" in value else f"'{value}'"


class _Selected(Told):
    """A SELECT."""

    writes, shows = False, True

    def __init__(self, text: str, model: Any) -> None:
        self.first, self._model, self.left_out = text, model, model.left_out

    def exchanges(self, result: Result) -> List[Exchange]:
        saying, rows = self._model._saying, result.rows
        if saying.columns:
            return [(self.first or "", [f"SELECT {len(rows)}", *saying.reply_rows(saying.columns, rows)])]
        said: List[Exchange] = self._model.exchanges(result)
        return [(self.first or "", said[0][1])]


class _Written(Told):
    """An INSERT of a row, an UPDATE or a DELETE."""

    def __init__(self, text: str, model: Any) -> None:
        self.first, self._model, self.surely = text, model, model.surely

    def exchanges(self, result: Result) -> List[Exchange]:
        return [(self.first or "", [self._model.reply(result.number)])]


class Template:
    """What is said of a statement, with holes for its parameters. `model` is what was said of one with others."""

    def __init__(self, model: Told, holes: Sequence[Hole], is_positive: bool) -> None:
        self._model, self._is_positive = model, is_positive
        self.kinds = frozenset(int if hole.is_number else str for hole in holes)
        self._made: Type[Any] = _Selected if isinstance(model, _SelectTold) else _Written
        pieces: List[Any] = [model.first]
        for hole in holes:
            pieces = list(itertools.chain.from_iterable(_cut(piece, hole) for piece in pieces))
        self._pieces: List[str] = ["" if isinstance(piece, Hole) else piece for piece in pieces]
        self._holes = [(at, piece, piece.key, piece.is_number) for at, piece in enumerate(pieces) if isinstance(piece, Hole)]

    def told(self, parameters: Any) -> Optional[Told]:
        """One execution of it; None where a value must be looked at more closely."""
        pieces = self._pieces[:]
        for at, hole, key, is_number in self._holes:
            value = parameters[key]
            literal = repr(value) if is_number and _LEAST <= value <= _MOST else hole.literal(value)
            if literal is None or (self._is_positive and is_number and value < 0):
                return None
            pieces[at] = literal
        text = "".join(pieces)
        told: Told = self._made(text, self._model)
        return told if len(text) * 4 <= MOST_BYTES else None


def _cut(piece: Any, hole: Hole) -> List[Any]:
    """A piece of text with a hole wherever its mark stands."""
    if isinstance(piece, Hole) or hole.mark not in piece:
        return [piece]
    parts: List[Any] = []
    for part in piece.split(hole.mark):
        parts += [hole, part]
    return parts[1:]


class Templates:
    """The templates of one statement, by the classes of its parameters."""

    def __init__(self, saying: Any, text: str) -> None:
        self._saying = saying
        self._known: Dict[Any, Optional[Template]] = {}
        marks = (*_TEXTS, *[str(number)[:15] for number in _NUMBERS])
        self._is_none = any(mark in text for mark in marks) or not _is_plain(saying)

    def told(self, parameters: Any, are_sent: Callable[[Iterable[type]], bool]) -> Optional[Told]:
        """One execution, where it is said as others were. `are_sent` tells whether the driver sends values of some classes as
        they are."""
        kind = type(parameters)
        if self._is_none or kind not in _GIVEN or not parameters:
            return None
        kinds = tuple(map(type, parameters.values() if kind is dict else parameters))
        key = (tuple(parameters), kinds) if kind is dict else kinds
        template = self._known.get(key, _NEW)
        if template is _NEW:
            if len(self._known) >= _MOST_SHAPES:
                return None
            template = self._known[key] = self._template(list(zip(parameters if kind is dict else itertools.count(), kinds)))
        return template.told(parameters) if template is not None and are_sent(template.kinds) else None

    def _template(self, kinds: List[Tuple[Key, type]]) -> Optional[Template]:
        """A template, where what is said with other parameters is what it makes of these."""
        if not all(kind in _HOLES for _, kind in kinds) or len(kinds) > _MOST_HOLES:
            return None
        if self._saying.table.parts and any(kind is str for _, kind in kinds):
            return None
        first, second = (_Marked(kinds, turn) for turn in range(2))
        try:
            model, other = self._saying.told(first), self._saying.told(second)
        except Unsaid:
            return None
        if model.first is None or not model.is_sure or model.left_out is not None or model.cascades is not None:
            return None
        if isinstance(model, (_InsertTold, _ChangeTold)) and model.shows:
            return None
        template = Template(model, [Hole(key, hole) for key, hole in first.holes.items()], self._adds())
        made = template.told(second.holes)
        return template if made is not None and made.first == other.first else None

    def _adds(self) -> bool:
        """Whether it adds numbers, whose signs are turned."""
        return any(isinstance(value, Sum) for _, value in getattr(self._saying.tree, "assigned", ()))


def _is_plain(saying: Any) -> bool:
    """Whether what it says depends on the values of its parameters by these alone: it lists none, has no number of rows that
    is given, and inserts one row whose key is known."""
    tree, table = saying.tree, saying.table
    if any(isinstance(condition, In) for condition in getattr(tree, "where", ())):
        return False
    return not isinstance(getattr(tree, "limit", None), Slot) and table.numbers is None and len(getattr(tree, "rows", ((),))) == 1
