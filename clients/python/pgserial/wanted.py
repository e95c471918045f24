"""The tables that an application names."""

from typing import Any, Iterable, Mapping, Sequence, Union

from .keys import Refused

# The tables that are named: each with all its columns, with those that are named, or with the kinds that are said.
Wanted = Mapping[str, Union[None, Sequence[str], Mapping[str, str]]]


def wanted_tables(tables: Any) -> Wanted:
    """The tables that are named, each with the columns that are named, or None for all."""
    if isinstance(tables, (str, bytes)) or not isinstance(tables, Iterable):
        raise Refused("tables are a list of names, or a mapping of names to lists of columns")
    tables = tables if isinstance(tables, Mapping) else list(tables)
    for name in tables:
        if not isinstance(name, str):
            raise Refused(f"a table's name is a str, and no {type(name).__name__}")
    if not isinstance(tables, Mapping):
        return {name: None for name in tables}
    return {name: _wanted_columns(name, columns) for name, columns in tables.items()}


def _wanted_columns(table: str, columns: Any) -> Union[None, Sequence[str], Mapping[str, str]]:
    """The columns that are named of a table: some, with their kinds perhaps, or None for all."""
    if columns is None or isinstance(columns, Mapping):
        return columns
    if isinstance(columns, (str, bytes)) or not isinstance(columns, Iterable):
        raise Refused(f"the columns of table {table} are a list of names, or a mapping of names to kinds")
    return list(columns)
