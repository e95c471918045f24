"""What foreign keys change by themselves where rows are deleted that others refer to, as a transcript says it."""

from typing import Any, Dict, List, NamedTuple, Optional, Sequence, Tuple

from .catalog import MADE, Cascade, Column, Names, Table
from .values import Plain, Spelling, Unsaid, plain

Exchange = Tuple[str, List[str]]
Rows = Sequence[Dict[int, Any]]  # values by their places
_UNREAD = "what foreign keys read as they changed no rows"


class Counts(NamedTuple):
    """How many rows a transaction has changed so far: of each table that foreign keys change, or of all together."""

    each: Optional[Tuple[Tuple[int, int], ...]] = None  # how many were deleted, and how many updated
    total: Optional[int] = None
    acts: bool = True  # whether foreign keys do anything at all


class Cascades:
    """The foreign keys that change rows with those that a DELETE takes from a table."""

    def __init__(self, names: Names, spelling: Spelling, table: Table) -> None:
        self._names, self._spelling, self._table = names, spelling, table
        self.all: Tuple[Cascade, ...] = tuple(cascade for cascade in table.cascades if cascade.on_delete is not None)

    def exchanges(self, gone: int, rows: Optional[Rows], before: Optional[Counts], after: Optional[Counts]) -> List[Exchange]:
        """What they have changed where so many rows were deleted, which have these values by their places, if that is known."""
        if before is not None and not before.acts:
            return []
        numbers = self._numbers(gone, before, after)
        known: List[Optional[Dict[int, Any]]] = [None]
        known = known if rows is None else [*rows]
        told: List[Exchange] = []
        for cascade, number in zip(self.all, numbers):
            child = self._child(cascade)
            if number:
                self._refuse_more(cascade, child)
            if number and rows is not None and len(rows) > 1:
                raise Unsaid(f"a foreign key changes rows of table {child.real}, and nobody tells with which others")
            for row in known if gone else ():
                told += self._one(cascade, child, number, row)
        return told

    def reads_unsaid(self, row: Optional[Dict[int, Plain]]) -> Optional[str]:
        """What of it isn't said where they change nothing, if anything."""
        if self.all and any(self._where(cascade, self._child(cascade), row) is None for cascade in self.all):
            return _UNREAD
        return None

    def _numbers(self, gone: int, before: Optional[Counts], after: Optional[Counts]) -> List[int]:
        """How many rows each of them has changed."""
        if before is None or after is None:
            raise Unsaid("nobody tells how many rows foreign keys have changed with those that were deleted")
        if before.each is not None and after.each is not None:
            return [self._number(gone, *counts) for counts in zip(self.all, before.each, after.each)]
        total = (after.total or 0) - (before.total or 0) - gone
        if total and len(self.all) > 1:
            raise Unsaid("several foreign keys change rows with those that were deleted, and nobody tells which")
        return [total] * len(self.all)

    def _number(self, gone: int, cascade: Cascade, before: Tuple[int, int], after: Tuple[int, int]) -> int:
        deleted, updated = after[0] - before[0], after[1] - before[1]
        number = deleted if cascade.on_delete == "cascade" else updated
        if (cascade.schema, cascade.child) == (self._table.schema, self._table.real) and cascade.on_delete == "cascade":
            number -= gone
        same = [other for other in self.all if (other.schema, other.child) == (cascade.schema, cascade.child)]
        if number and len(same) > 1:
            raise Unsaid(f"several foreign keys of table {cascade.child} change its rows, and nobody tells which")
        return number

    def _child(self, cascade: Cascade) -> Table:
        return next(
            table for table in self._names.tables if (table.schema, table.real) == (cascade.schema, cascade.child)
        )

    def _refuse_more(self, cascade: Cascade, child: Table) -> None:
        """Refuses rows whose change changes others in turn, or fires triggers."""
        deletes = cascade.on_delete == "cascade"
        more = [each for each in child.cascades if (each.on_delete if deletes else each.on_update) is not None]
        why = child.unsaid_by("delete" if deletes else "update")
        if more:
            why = f"a foreign key of table {more[0].child} changes rows with those of table {child.real} in turn"
        if why is not None:
            raise Unsaid(f"a foreign key changes rows of table {child.real}: {why}")

    def _columns(self, cascade: Cascade, child: Table) -> Optional[List[Column]]:
        """The recorded columns of a foreign key; none where one isn't recorded."""
        known = {column.real: column for column in child.own_columns}
        return [known[name] for name in cascade.columns] if set(cascade.columns) <= set(known) else None

    def _where(self, cascade: Cascade, child: Table, row: Optional[Dict[int, Plain]]) -> Optional[str]:
        """The conditions that find the rows which refer to a row; None where it can't be said."""
        columns = self._columns(cascade, child)
        if columns is None or row is None:
            return None
        table = self._table
        values = {table.columns[place].real: (table.columns[place].kind, row[place]) for place in table.key_places}
        texts = []
        for column, name in zip(columns, cascade.referenced):
            if name not in values or values[name][0] != column.kind:
                return None
            texts.append(f"{column.name} = {self._spelling.literal(column.kind, plain(column.kind, values[name][1]))}")
        return " AND ".join(texts)

    def _one(self, cascade: Cascade, child: Table, number: int, row: Optional[Dict[int, Plain]]) -> List[Exchange]:
        where = self._where(cascade, child, row)
        columns = self._columns(cascade, child)
        if where is None or columns is None:
            if number and not (columns is None and cascade.on_delete != "cascade"):
                raise Unsaid(f"a foreign key changes rows of table {child.real}, and nobody tells which")
            return []
        if cascade.on_delete == "cascade":
            return [(f"DELETE FROM {child.name} WHERE {where}", [f"DELETE {number}"])]
        if any(child.columns.index(column) in child.key_places for column in columns):
            raise Unsaid(f"a foreign key writes the key of table {child.real}")
        said = ", ".join(f"{column.name} = {self._set(cascade, column)}" for column in columns)
        return [(f"UPDATE {child.name} SET {said} WHERE {where}", [f"UPDATE {number}"])]

    def _set(self, cascade: Cascade, column: Column) -> str:
        """What a foreign key sets a column to."""
        value: Any = None if cascade.on_delete == "set null" else column.default
        if value is MADE:
            raise Unsaid(f"the database makes column {column.real}")
        return self._spelling.literal(column.kind, plain(column.kind, value))


def cascades_of(saying: Any) -> Optional[Cascades]:
    """The foreign keys that change rows with those that a DELETE takes, where there are some."""
    found = Cascades(saying.names, saying.spelling, saying.table)
    return found if found.all else None
