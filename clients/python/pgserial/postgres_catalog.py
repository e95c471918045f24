"""The tables of a PostgreSQL database, as its catalog tells them."""

import json
import re
from typing import Any, Dict, Hashable, Iterable, List, Mapping, NamedTuple, Optional, Sequence, Tuple

from . import BIGINT, BYTEA, TEXT, Kind
from .catalog import MADE, Cascade, Hazard, Seen, Table, default_of, table_of
from .keys import Candidate, Missing, Refused
from .kinds import Form, array_of, enum_form, form_of, varchar_of
from .references import Reference, with_references
from .setters import setter_of

_KINDS: Dict[str, Kind] = {"int2": BIGINT, "int4": BIGINT, "int8": BIGINT, "text": TEXT, "varchar": TEXT, "bytea": BYTEA}
_TABLE = """SELECT c.oid::bigint, n.nspname::text, c.relname::text, c.relkind::text, c.relrowsecurity::int,
  EXISTS (SELECT FROM pg_catalog.pg_inherits h WHERE h.inhparent = c.oid)::int,
  (SELECT h.inhparent::pg_catalog.regclass::text FROM pg_catalog.pg_inherits h WHERE h.inhrelid = c.oid AND c.relispartition),
  (SELECT count(*) FROM pg_catalog.pg_partition_tree(c.oid) p JOIN pg_catalog.pg_class f ON f.oid = p.relid
    WHERE f.relkind NOT IN ('r', 'p'))
FROM pg_catalog.pg_class c JOIN pg_catalog.pg_namespace n ON n.oid = c.relnamespace
WHERE c.oid = pg_catalog.to_regclass('{name}')"""
_COLUMNS = """SELECT a.attname::text, pg_catalog.format_type(a.atttypid, a.atttypmod)::text, a.atttypid::bigint, a.atttypmod::int,
  pg_catalog.pg_get_expr(d.adbin, d.adrelid)::text, a.attidentity::text, a.attgenerated::text,
  CASE WHEN l.collname = 'default' THEN b.datcollate ELSE l.collcollate END::text,
  CASE WHEN l.collname = 'default' THEN {provider} ELSE l.collprovider END::text,
  coalesce(l.collisdeterministic, true)::int
FROM pg_catalog.pg_attribute a
  JOIN pg_catalog.pg_database b ON b.datname = pg_catalog.current_database()
  LEFT JOIN pg_catalog.pg_collation l ON l.oid = a.attcollation
  LEFT JOIN pg_catalog.pg_attrdef d ON d.adrelid = a.attrelid AND d.adnum = a.attnum
WHERE a.attrelid = {oid} AND a.attnum > 0 AND NOT a.attisdropped ORDER BY a.attnum"""
_TYPE = """SELECT t.typname::text, n.nspname::text, t.typtype::text, t.typbasetype::bigint, t.typtypmod::int, t.typelem::bigint,
  t.typcategory::text, t.typdefault::text
FROM pg_catalog.pg_type t JOIN pg_catalog.pg_namespace n ON n.oid = t.typnamespace WHERE t.oid = {oid}"""
_KEYS = """SELECT (SELECT to_json(array_agg(a.attname::text ORDER BY u.at))::text
    FROM unnest(i.indkey::int2[]) WITH ORDINALITY u(number, at) JOIN pg_catalog.pg_attribute a
    ON a.attrelid = i.indrelid AND a.attnum = u.number WHERE u.at <= i.indnkeyatts), i.indimmediate::int
FROM pg_catalog.pg_index i
WHERE i.indrelid = {oid} AND i.indisunique AND i.indisvalid AND i.indpred IS NULL AND i.indexprs IS NULL
  AND NOT EXISTS (SELECT FROM unnest(i.indkey::int2[]) WITH ORDINALITY u(number, at) JOIN pg_catalog.pg_attribute a
    ON a.attrelid = i.indrelid AND a.attnum = u.number WHERE u.at <= i.indnkeyatts AND NOT a.attnotnull)
ORDER BY i.indisprimary DESC, i.indnkeyatts, i.indexrelid"""
_TRIGGERS = """SELECT DISTINCT t.tgname::text, t.tgtype::int, f.proname::text, (t.tgattr::text = '' AND t.tgqual IS NULL)::int,
  l.lanname::text, f.prosrc::text
FROM pg_catalog.pg_trigger t JOIN pg_catalog.pg_proc f ON f.oid = t.tgfoid JOIN pg_catalog.pg_language l ON l.oid = f.prolang
WHERE NOT t.tgisinternal AND t.tgenabled <> 'D'
  AND (t.tgrelid = {oid} OR t.tgrelid IN (SELECT p.relid FROM pg_catalog.pg_partition_tree({oid}) p)) ORDER BY 1"""
_RULES = "SELECT r.rulename::text, r.ev_type::text FROM pg_catalog.pg_rewrite r WHERE r.ev_class = {oid} AND r.ev_enabled <> 'D'"
_FOREIGN_KEYS = """SELECT k.conrelid::bigint, n.nspname::text, c.relname::text, k.confrelid::bigint, p.relname::text,
  k.confdeltype::text, k.confupdtype::text, to_json(ARRAY(SELECT a.attname::text FROM unnest(k.conkey) WITH ORDINALITY u(number, at)
    JOIN pg_catalog.pg_attribute a ON a.attrelid = k.conrelid AND a.attnum = u.number ORDER BY u.at))::text,
  to_json(ARRAY(SELECT a.attname::text FROM unnest(k.confkey) WITH ORDINALITY u(number, at)
    JOIN pg_catalog.pg_attribute a ON a.attrelid = k.confrelid AND a.attnum = u.number ORDER BY u.at))::text,
  coalesce(to_jsonb(k) ->> 'confdelsetcols', CASE WHEN EXISTS (SELECT FROM pg_catalog.pg_trigger t
    WHERE t.tgconstraint = k.oid AND t.tgenabled NOT IN ('O', 'A')) THEN 'disabled' ELSE '' END),
  to_json(ARRAY(SELECT k.conrelid::bigint UNION SELECT t.relid::bigint FROM pg_catalog.pg_partition_tree(k.conrelid) t))::text
FROM pg_catalog.pg_constraint k JOIN pg_catalog.pg_class c ON c.oid = k.conrelid
  JOIN pg_catalog.pg_namespace n ON n.oid = c.relnamespace JOIN pg_catalog.pg_class p ON p.oid = k.confrelid
WHERE k.contype = 'f' AND k.conparentid = 0
  AND (k.confdeltype NOT IN ('a', 'r') OR k.confupdtype NOT IN ('a', 'r')) ORDER BY k.conname"""
ATTRIBUTES = """SELECT a.attrelid::bigint, a.attnum::int, a.attname::text FROM pg_catalog.pg_attribute a
WHERE a.attrelid = pg_catalog.to_regclass('{name}') AND a.attnum > 0 AND NOT a.attisdropped"""
# Whether rows of a table may be shown; `unique` counts what else may find a row that is there.
FACTS = """SELECT c.relkind::text, c.relhasrules::int, pg_catalog.row_security_active(c.oid)::int,
  (SELECT count(*) FROM pg_catalog.pg_trigger t WHERE NOT t.tgisinternal AND t.tgenabled <> 'D' AND t.tgtype::int & 1 = 1 {quiet}
    AND (t.tgrelid = c.oid OR t.tgrelid IN (SELECT relid FROM pg_catalog.pg_partition_tree(c.oid)))),
  (SELECT pg_catalog.bool_and(pg_catalog.has_column_privilege(c.oid, a.attnum, 'SELECT'))::int
    FROM pg_catalog.pg_attribute a WHERE a.attrelid = c.oid AND a.attnum > 0 AND NOT a.attisdropped),
  (SELECT count(*) FROM pg_catalog.pg_index i WHERE i.indrelid = c.oid AND (i.indisunique OR i.indisexclusion) AND NOT i.indisprimary)
FROM pg_catalog.pg_class c WHERE c.oid = pg_catalog.to_regclass('{name}')"""
_ACTIONS = {"c": "cascade", "n": "set null", "d": "set default"}
_VERBS = {4: "insert", 8: "delete", 16: "update"}  # by the bits of a trigger's type
_RULED = {"2": "update", "3": "insert", "4": "delete"}
_ALL = frozenset(_VERBS.values())


# ---- types


class _Type(NamedTuple):
    """What a column of some type holds: its kind, where it has one, the length beyond which texts are cut, its own default."""

    kind: Optional[Kind]
    length: Optional[int] = None
    default: Optional[str] = None


class _Types:
    """The types of a database."""

    def __init__(self, ask: Any) -> None:
        self._ask = ask
        self._rows: Dict[int, Sequence[Any]] = {}

    def _row(self, oid: int) -> Sequence[Any]:
        if oid not in self._rows:
            self._rows[oid] = self._ask(_TYPE.format(oid=oid))[0]
        return self._rows[oid]

    def type(self, oid: int, modifier: int) -> _Type:
        """The type of this number."""
        name, schema, sort, base, base_modifier, element, category, default = self._row(int(oid))
        if sort == "d":
            found = self.type(base, base_modifier)
            return found._replace(default=found.default if default is None else default)
        if sort == "e":
            return _Type(enum_form(name))
        if category == "A" and element:
            return _Type(self._array(self.type(element, modifier)))
        if sort != "b" or schema != "pg_catalog":
            return _Type(None)
        kind = _KINDS.get(name) or form_of(name, modifier)
        return _Type(kind, modifier - 4 if name == "varchar" and modifier > 4 else None)

    def _array(self, element: _Type) -> Optional[Form]:
        if element.kind is None:
            return None
        kind = varchar_of(element.length) if element.length is not None else element.kind
        name = kind.type if isinstance(kind, Form) else kind.name
        return array_of(kind, f"{name}[]")


def _column(row: Sequence[Any], types: _Types, shows_floats: bool) -> Seen:
    name, told, oid, modifier, default, identity, generated, collation, provider, deterministic = row
    found = types.type(oid, modifier)
    is_c = found.kind != TEXT or (provider in ("c", "d") and collation in ("C", "POSIX"))
    refusal = None
    if generated:
        refusal = "is generated"
    elif not deterministic:
        refusal = "has a collation by which other texts are equal"
    elif not shows_floats and isinstance(found.kind, Form) and found.kind.type in ("real", "double precision"):
        refusal = f"is of type {told}, and extra_float_digits hides some digits"
    made = MADE if identity else default_of(found.default if default is None else default, found.kind)
    return Seen(name, told, found.kind, made, is_c, found.length, refusal)


# ---- tables


def _found(ask: Any, name: str) -> Any:
    """What the catalog has of a table: of just that name, or as PostgreSQL reads it."""
    if '"' in name or "." in name:
        return ask(_TABLE.format(name=name.replace("'", "''")))
    exact = ask(_TABLE.format(name='"' + name.replace("'", "''") + '"'))
    return exact or (ask(_TABLE.format(name=name)) if re.fullmatch(r"\w+", name) else exact)


def _plain_table(ask: Any, name: str) -> Sequence[Any]:
    """What the catalog has of a table; refuses what is none."""
    found = _found(ask, name)
    if not found:
        raise Missing(f"there is no table {name} yet: wrap a connection when the tables are there")
    _, _, _, kind, has_policies, has_heirs, parent, foreign = found[0]
    if parent is not None:
        raise Refused(f"table {name} is a partition: name its parent {parent}")
    if kind not in ("r", "p"):
        raise Refused(f"table {name} is no plain table")
    if has_policies:
        raise Refused(f"table {name} has row security")
    if kind == "r" and has_heirs:
        raise Refused(f"table {name} has tables that inherit of it")
    if kind == "p" and foreign:
        raise Refused(f"table {name} has a partition on another server")
    row: Sequence[Any] = found[0]
    return row


def _hazards(ask: Any, oid: int, is_partitioned: bool) -> Tuple[Hazard, ...]:
    """The triggers and rules of a table."""
    hazards = []
    for name, bits, function, is_always, language, body in ask(_TRIGGERS.format(oid=oid)):
        verbs = frozenset(verb for bit, verb in _VERBS.items() if bits & bit)
        verbs = _ALL if is_partitioned and verbs else verbs  # an UPDATE may move a row from one partition to another
        why = f"it has trigger {name}, which may write (say reading=[{function!r}] where it neither writes nor changes the row)"
        setter = None if is_partitioned else setter_of(name, bits, verbs, bool(is_always), language, body)
        hazards.append(Hazard(verbs, why, function, setter))
    for name, event in ask(_RULES.format(oid=oid)):
        hazards.append(Hazard(frozenset([_RULED[event]] if event in _RULED else []), f"it has rule {name}, which may write"))
    return tuple(hazards)


def _keys(ask: Any, oid: int) -> List[Candidate]:
    """The keys of a table, the primary one first."""
    return [Candidate(json.loads(names), not immediate) for names, immediate in ask(_KEYS.format(oid=oid))]


def _table(ask: Any, types: _Types, row: Sequence[Any], wanted: Optional[Sequence[str]], taken: Iterable[str]) -> Table:
    oid, schema, real, kind = int(row[0]), row[1], row[2], row[3]
    # Before version 15 a database's own collation is the system's.
    settings = "SELECT (current_setting('server_version_num')::int < 150000)::int, current_setting('extra_float_digits')::int"
    is_older, float_digits = ask(settings)[0]
    rows = ask(_COLUMNS.format(oid=oid, provider="'c'" if is_older else "b.datlocprovider"))
    seen = [_column(column, types, float_digits > 0) for column in rows]
    table = table_of(schema, real, seen, _keys(ask, oid), wanted, taken)
    return table._replace(hazards=_hazards(ask, oid, kind == "p"))


# ---- foreign keys


def _references(ask: Any) -> List[Reference]:
    made = []
    for child, schema, name, parent, parent_name, deleted, updated, columns, referenced, partial, oids in ask(_FOREIGN_KEYS):
        own, others = tuple(json.loads(columns)), tuple(json.loads(referenced))
        cascade = Cascade(schema, name, own, others, _ACTIONS.get(deleted), _ACTIONS.get(updated), tuple(json.loads(oids)))
        made.append(Reference(int(child), int(parent), parent_name, cascade, partial != ""))
    return made


def postgres_tables(ask: Any, names: Mapping[str, Any]) -> List[Table]:
    """The tables of these names, with those columns that are wanted of each, or all. `ask` gives the rows of a query."""
    types = _Types(ask)
    tables: Dict[Hashable, Table] = {}
    for name, wanted in names.items():
        row = _plain_table(ask, name)
        tables[int(row[0])] = _table(ask, types, row, wanted, [table.name for table in tables.values()])
    return with_references(tables, _references(ask))
