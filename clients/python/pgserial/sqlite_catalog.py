"""The tables of an SQLite database, as its catalog tells them."""

import re
from typing import Any, Dict, Hashable, Iterable, List, Mapping, Optional, Sequence, Set, Tuple

from .catalog import Cascade, Hazard, Seen, Table, default_of, table_of
from .keys import Candidate, Missing, Refused
from .references import Reference, with_references
from .sql import Token, tokens_of
from .sqlite_kinds import converted_kind, has_converter, kind_of
from .values import Unsaid

_ALL = frozenset(("insert", "update", "delete"))
_TRIGGER = re.compile(r"\b(insert|update|delete)\b", re.IGNORECASE)
_REPLACES = re.compile(r"\bon\s+conflict\s+(replace|ignore)\b", re.IGNORECASE)


def _quoted(name: str) -> str:
    return name.replace("'", "''")


def _collated(sql: str) -> Set[str]:
    """The columns whose texts are compared in another way than byte by byte, of the text that creates a table."""
    try:
        tokens = tokens_of(sql, "qmark")
    except Unsaid:
        raise Refused(f"the text that creates a table can't be read: {sql[:60]}") from None
    names: Set[str] = set()
    depth = 0
    first: Optional[Token] = None
    for before, token in zip([None, *tokens], tokens):
        if depth == 1 and before is not None and before.is_sign("(", ","):
            first = token
        depth += token.is_sign("(") - token.is_sign(")")
        is_collation = before is not None and before.is_word("collate") and str(token.value).lower() != "binary"
        if is_collation and first is not None:
            names.add(str(first.value).lower())
    return names


def _column(row: Sequence[Any], is_utf8: bool, collated: Set[str]) -> Seen:
    _, name, declared, _, default, _, hidden = row
    declared = declared or ""
    kind = converted_kind(declared) if has_converter(declared) else kind_of(declared)
    refusal = None
    if hidden:
        refusal = "is generated"
    elif kind is None:
        refusal = f"is of type {declared}, for which a converter is registered that may make other values of its own"
    elif name.lower() in collated:
        refusal = "has a collation by which other texts are equal"
    return Seen(name, declared or "none", kind, default_of(default, kind), is_utf8, None, refusal)


def _keys(ask: Any, quoted: str, rows: Sequence[Any]) -> List[Candidate]:
    """The keys of a table, the primary one first."""
    primary = [row[1] for row in sorted(rows, key=lambda row: int(row[5])) if row[5]]
    candidates = [Candidate(primary)] if primary else []
    never_null = {row[1] for row in rows if row[3]}
    for _, index, is_unique, _, is_partial in (row[:5] for row in ask(f"PRAGMA index_list('{quoted}')")):
        names = [row[2] for row in ask(f"PRAGMA index_info('{_quoted(index)}')")]
        if is_unique and not is_partial and names and all(name in never_null for name in names) and names != primary:
            candidates.append(Candidate(names))
    return candidates


def _hazards(ask: Any, quoted: str, sql: str) -> Tuple[Hazard, ...]:
    """The triggers of a table, and rows that it replaces by itself."""
    hazards = []
    for catalog in ("sqlite_master", "sqlite_temp_master"):
        found = ask(f"SELECT name, sql FROM {catalog} WHERE type = 'trigger' AND lower(tbl_name) = lower('{quoted}')")
        for name, text in found:
            verbs = _TRIGGER.findall(re.sub(r"(?is)\bbegin\b.*", "", text or ""))
            is_known = len(verbs) == 1 or (len(verbs) > 1 and len({verb.lower() for verb in verbs}) == 1)
            hazards.append(Hazard(frozenset([verbs[0].lower()]) if is_known else _ALL, f"it has trigger {name}, which may write"))
    if _REPLACES.search(sql):
        hazards.append(Hazard(_ALL, "its ON CONFLICT may replace rows, or leave them"))
    return tuple(hazards)


def _table(ask: Any, name: str, wanted: Optional[Sequence[str]], taken: Iterable[str]) -> Table:
    bare = name.rpartition(".")[2]
    quoted = _quoted(bare)
    text = ask(f"SELECT sql FROM sqlite_master WHERE type = 'table' AND lower(name) = lower('{quoted}')")
    if not text:
        raise Missing(f"there is no table {name} yet: wrap a connection when the tables are there")
    sql = text[0][0]
    if re.match(r"\s*create\s+virtual\b", sql, re.IGNORECASE):
        raise Refused(f"table {name} is no plain table")
    is_utf8 = ask("PRAGMA encoding")[0][0] == "UTF-8"
    rows = ask(f"PRAGMA table_xinfo('{quoted}')")
    collated = _collated(sql)
    seen = [_column(row, is_utf8, collated) for row in rows]
    table = table_of(None, bare, seen, _keys(ask, quoted, rows), wanted, taken)
    keys = [row for row in rows if row[5]]
    # A key that is the row's own number has no index: with DESC, or WITHOUT ROWID, it has one.
    has_index = any(row[3] == "pk" for row in ask(f"PRAGMA index_list('{quoted}')"))
    is_row_number = len(keys) == 1 and keys[0][2].upper() == "INTEGER" and table.columns[0].real == keys[0][1]
    return table._replace(makes_key=is_row_number and not has_index, hazards=_hazards(ask, quoted, sql))


# ---- foreign keys


def _action(word: str) -> Optional[str]:
    return None if word.upper() in ("NO ACTION", "RESTRICT") else word.lower()


def _primary_key(ask: Any, table: str) -> Tuple[str, ...]:
    rows = ask(f"PRAGMA table_xinfo('{_quoted(table)}')")
    return tuple(row[1] for row in sorted(rows, key=lambda row: int(row[5])) if row[5])


def _references(ask: Any) -> List[Reference]:
    """The foreign keys that change rows."""
    made: List[Reference] = []
    for (child,) in ask("SELECT name FROM sqlite_master WHERE type = 'table'"):
        parts: Dict[int, List[Sequence[Any]]] = {}
        for row in ask(f"PRAGMA foreign_key_list('{_quoted(child)}')"):
            parts.setdefault(row[0], []).append(row)
        for rows in parts.values():
            rows.sort(key=lambda row: int(row[1]))
            parent, updated, deleted = rows[0][2], _action(rows[0][5]), _action(rows[0][6])
            if updated is not None or deleted is not None:
                named = tuple(row[4] for row in rows)
                referenced = _primary_key(ask, parent) if None in named else named
                cascade = Cascade(None, child, tuple(row[3] for row in rows), referenced, deleted, updated)
                made.append(Reference(child.lower(), parent.lower(), parent, cascade))
    return made


def sqlite_tables(ask: Any, names: Mapping[str, Any]) -> List[Table]:
    """The tables of these names, with those columns that are wanted of each, or all. `ask` gives the rows of a query."""
    tables: Dict[Hashable, Table] = {}
    for name, wanted in names.items():
        table = _table(ask, name, wanted, [table.name for table in tables.values()])
        tables[table.real.lower()] = table
    return with_references(tables, _references(ask))
