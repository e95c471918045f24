"""The tables of a recording with the rows that they begin with, as a transcript says them."""

from typing import Callable, Dict, Iterable, List, Sequence, Tuple

from .catalog import Hazard, Table, numbered, without_columns
from .setters import Setter
from .values import Plain, Unsaid, plain

Row = Tuple[Plain, ...]


def _columns_of(table: Table, rows: Sequence[Sequence[object]]) -> Tuple[Dict[int, List[Plain]], Dict[int, str]]:
    """The values of each recorded column; and why others can't be said."""
    values: Dict[int, List[Plain]] = {}
    faults: Dict[int, str] = {}
    for at, place in enumerate(range(len(table.columns) - len(table.own_columns), len(table.columns))):
        try:
            values[place] = [plain(table.columns[place].kind, row[at]) for row in rows]
        except Unsaid as unsaid:
            faults[place] = f"has a value that can't be said: {unsaid}"
    return values, faults


def opening_of(table: Table, rows: Sequence[Sequence[object]]) -> Tuple[Table, List[Row]]:
    """A table and its rows, each with its key first. Columns that have a value which can't be said are passed over; where one
    of the key has such, or null, its rows are numbered."""
    values, faults = _columns_of(table, rows)
    if any(place in faults or None in values[place] for place in table.key_places):
        return opening_of(numbered(table), rows)
    kept = without_columns(table, faults) if faults else table
    said: List[Row] = [row for row in zip(*[values[place] for place in sorted(values)])] if values else [()] * len(rows)
    if not kept.columns[0].real:
        said = [(kept.key_of((None, *row)), *row) for row in said]
    return kept, said


def trusting(table: Table, only_reads: Callable[[str], bool]) -> Table:
    """A table without those hazards of which the user says that they write nothing."""
    hazards: Iterable[Hazard] = table.hazards
    return table._replace(hazards=tuple(each for each in hazards if each.function is None or not only_reads(each.function)))


def with_setters(table: Table, is_quiet: Callable[[Setter], bool]) -> Table:
    """A table whose triggers that set columns, and surely do nothing else, are no hazards."""
    setters = tuple(each.setter for each in table.hazards if each.setter is not None and is_quiet(each.setter))
    hazards = tuple(each for each in table.hazards if each.setter not in setters or each.setter is None)
    return table._replace(hazards=hazards, setters=setters)
