"""All tables of a database that can be recorded, where none are named."""

from typing import Any, Callable, Dict, Iterable, List, Optional, Tuple

from .drivers import Driver, Postgres, Sqlite
from .keys import Missing, Refused
from .postgres_catalog import postgres_tables
from .sqlite_catalog import sqlite_tables

_OF_POSTGRES = """SELECT c.oid::pg_catalog.regclass::text FROM pg_catalog.pg_class c
  JOIN pg_catalog.pg_namespace n ON n.oid = c.relnamespace
WHERE c.relkind IN ('r', 'p') AND NOT c.relispartition AND n.nspname !~ '^pg_' AND n.nspname <> 'information_schema'
  AND pg_catalog.pg_table_is_visible(c.oid) ORDER BY 1"""
_OF_SQLITE = "SELECT name FROM sqlite_master WHERE type = 'table' AND name NOT LIKE 'sqlite\\_%' ESCAPE '\\' ORDER BY name"


def every_table(driver: Driver, names: Optional[Iterable[str]] = None) -> Tuple[List[str], Dict[str, str]]:
    """Of some tables, or of all, the names of those that can be recorded; and of the others, with the reasons."""
    if not isinstance(driver, (Postgres, Sqlite)):
        raise Refused("the catalog of this database isn't known: name the tables, with their columns and kinds")
    is_postgres = isinstance(driver, Postgres)
    tables_of: Callable[[Any, Any], Any] = postgres_tables if is_postgres else sqlite_tables
    sayable: List[str] = []
    others: Dict[str, str] = {}
    try:
        if names is None:
            names = [str(row[0]) for row in driver.ask(_OF_POSTGRES if is_postgres else _OF_SQLITE)]
        for name in names:
            try:
                tables_of(driver.ask, {name: None})
                sayable.append(name)
            except Missing:
                raise
            except Refused as refused:
                others[name] = str(refused)
    finally:
        driver.undo()
    return sayable, others
