"""What of a database may write rows though a text doesn't look so: functions that users have made, operators and views that
call them, tables that have triggers. It is read from the catalog once, as a recording begins."""

from typing import Any, Callable, Dict, FrozenSet, Iterable, List, NamedTuple, Optional, Sequence, Set, Tuple

from .effects import READING
from .keys import Refused
from .sql import Token

Ask = Callable[[str], List[Sequence[Any]]]


class Dangers(NamedTuple):
    """Names of what may write. Of a database whose catalog isn't known there are none."""

    functions: FrozenSet[str] = frozenset()  # that users have made
    attributes: FrozenSet[str] = frozenset()  # those of one row, which a text may call as `t.f`
    operators: Tuple[str, ...] = ()
    read: FrozenSet[str] = frozenset()  # what may write where it is read
    written: FrozenSet[str] = frozenset()  # what may write elsewhere where it is written
    calling: FrozenSet[str] = frozenset()  # tables a default or a constraint of which calls a function
    casts: bool = False  # whether a cast may write, which no text shows
    are_fixed: bool = False  # whether the names of recorded tables mean these alone, whatever the search path
    first: Optional[str] = None  # the schema in which tables are created
    folds: bool = False  # whether names are the same whatever the case of their letters

    def _key(self, token: Token) -> Any:
        return token.value.lower() if self.folds else token.value

    def why(self, tokens: Sequence[Token]) -> Optional[str]:
        """Why a text may write, beside the words that it has."""
        if self.casts:
            return "a cast of the database calls a function"
        for before, token, after in zip((None, *tokens), tokens, (*tokens[1:], None)):
            if token.kind in ("word", "name"):
                name, is_called = self._key(token), after is not None and after.is_sign("(")
                if (is_called and name in self.functions) or (before is not None and before.is_sign(".") and name in self.attributes):
                    return f"it calls {token.value}, which may write (say reading=[{token.value!r}] where it doesn't)"
                if name in self.read:
                    return f"reading {token.value} may write"
        signs = "".join([token.value if token.kind == "sign" else " " for token in tokens])
        found = next((name for name in self.operators if name in signs), None)
        return None if found is None else f"operator {found} calls a function, which may write"

    def is_first(self, table: Any) -> bool:
        """Whether a recorded table is the one that is found, and none is created, where one of its name would be."""
        return table is not None and table.schema == self.first

    def and_functions(self, functions: FrozenSet[str]) -> "Dangers":
        """The same, and these functions."""
        return self._replace(functions=self.functions | functions)

    def why_written(self, name: str) -> Optional[str]:
        """Why writing this may write other tables too."""
        key = name.lower() if self.folds else name
        return f"writing {name} may write other tables" if key in self.written else None


NO_DANGERS = Dangers()

# ---- PostgreSQL

_FUNCTIONS = """SELECT p.oid::bigint, p.proname::text, l.lanname::text,
  (p.provolatile = 'v' OR EXISTS (SELECT FROM pg_catalog.pg_aggregate g JOIN pg_catalog.pg_proc s
    ON s.oid IN (g.aggtransfn, g.aggfinalfn) WHERE g.aggfnoid = p.oid AND s.provolatile = 'v'))::int AS is_volatile,
  (p.pronargs - p.pronargdefaults <= 1 AND p.pronargs >= 1 AND EXISTS (SELECT FROM pg_catalog.pg_type t
    WHERE t.oid = p.proargtypes[0] AND t.typtype IN ('c', 'p')))::int AS is_attribute
FROM pg_catalog.pg_proc p JOIN pg_catalog.pg_namespace n ON n.oid = p.pronamespace JOIN pg_catalog.pg_language l ON l.oid = p.prolang
WHERE n.nspname NOT IN ('pg_catalog', 'information_schema')"""
_OPERATORS = "SELECT o.oid::bigint, o.oprname::text, o.oprcode::bigint AS function FROM pg_catalog.pg_operator o WHERE o.oprcode <> 0"
# Which relations use which functions, operators and relations: views and rules, policies; then defaults and constraints.
_READ_USES = """SELECT u.relation::bigint, u.kind::text, u.used::bigint FROM (
  SELECT r.ev_class AS relation, d.refclassid::pg_catalog.regclass::text AS kind, d.refobjid AS used
  FROM pg_catalog.pg_depend d JOIN pg_catalog.pg_rewrite r ON d.classid = 'pg_catalog.pg_rewrite'::pg_catalog.regclass AND d.objid = r.oid
  UNION SELECT p.polrelid, d.refclassid::pg_catalog.regclass::text, d.refobjid
  FROM pg_catalog.pg_depend d JOIN pg_catalog.pg_policy p ON d.classid = 'pg_catalog.pg_policy'::pg_catalog.regclass AND d.objid = p.oid
) u WHERE u.used >= 16384"""
_WRITE_USES = """SELECT u.relation::bigint, u.kind::text, u.used::bigint FROM (
  SELECT a.adrelid AS relation, d.refclassid::pg_catalog.regclass::text AS kind, d.refobjid AS used
  FROM pg_catalog.pg_depend d JOIN pg_catalog.pg_attrdef a ON d.classid = 'pg_catalog.pg_attrdef'::pg_catalog.regclass AND d.objid = a.oid
  UNION SELECT k.conrelid, d.refclassid::pg_catalog.regclass::text, d.refobjid
  FROM pg_catalog.pg_depend d JOIN pg_catalog.pg_constraint k ON d.classid = 'pg_catalog.pg_constraint'::pg_catalog.regclass AND d.objid = k.oid
  WHERE k.contype = 'c' AND k.conrelid <> 0
  UNION SELECT b.attrelid, d.refclassid::pg_catalog.regclass::text, d.refobjid
  FROM pg_catalog.pg_depend d JOIN pg_catalog.pg_constraint k ON d.classid = 'pg_catalog.pg_constraint'::pg_catalog.regclass AND d.objid = k.oid
  JOIN pg_catalog.pg_attribute b ON b.atttypid = k.contypid WHERE k.contypid <> 0
) u WHERE u.used >= 16384"""
_TRIGGERED = """SELECT t.tgrelid::bigint, t.tgfoid::bigint AS function FROM pg_catalog.pg_trigger t WHERE NOT t.tgisinternal AND t.tgenabled <> 'D'
UNION SELECT r.ev_class::bigint, 0 FROM pg_catalog.pg_rewrite r JOIN pg_catalog.pg_class c ON c.oid = r.ev_class
WHERE c.relnamespace NOT IN ('pg_catalog'::pg_catalog.regnamespace, 'information_schema'::pg_catalog.regnamespace)
UNION SELECT f.oid::bigint, 0 FROM pg_catalog.pg_class f WHERE f.relkind = 'f'"""
_INHERITED = "SELECT i.inhrelid::bigint, i.inhparent::bigint FROM pg_catalog.pg_inherits i"
_NAMES = "SELECT c.oid::bigint, c.relname::text FROM pg_catalog.pg_class c WHERE c.relkind IN ('r', 'p', 'v', 'm', 'f') AND c.oid >= 16384"
_CHANGED = """SELECT count(*) AS changed FROM pg_catalog.pg_settings s WHERE s.name IN ('standard_conforming_strings',
  'session_replication_role', 'extra_float_digits', 'transform_null_equals') AND s.setting IS DISTINCT FROM s.reset_val"""
# What a cast may call: its function, or what a domain checks.
_CASTS = """SELECT c.castfunc::bigint FROM pg_catalog.pg_cast c WHERE c.castfunc >= 16384
UNION SELECT d.refobjid::bigint FROM pg_catalog.pg_depend d JOIN pg_catalog.pg_constraint k
  ON d.classid = 'pg_catalog.pg_constraint'::pg_catalog.regclass AND d.objid = k.oid
WHERE k.contypid <> 0 AND d.refclassid = 'pg_catalog.pg_proc'::pg_catalog.regclass AND d.refobjid >= 16384"""
_OWN_LANGUAGES = ("c", "internal")  # of extensions


class _Postgres:
    """Reads the dangers of a database of PostgreSQL. `trusted` are functions that write nothing, as the user says."""

    def __init__(self, ask: Ask, trusted: FrozenSet[str], recorded: Iterable[str]) -> None:
        self._ask = ask
        self._named: Set[str] = set()
        self._attributes: Set[str] = set()
        self._volatile: Set[int] = set()
        self._from_extensions: Set[int] = set()
        self._names = {int(oid): str(name) for oid, name in ask(_NAMES)}
        self._recorded = {oid for oid, name in self._names.items() if name in set(recorded)}
        self._trusted = {int(row[0]) for row in self._functions(trusted)}
        self._calling: Set[int] = set()
        self._operators = {int(oid): str(name) for oid, name, function in ask(_OPERATORS) if self._is_bad(int(function))}

    def _functions(self, trusted: FrozenSet[str]) -> List[Sequence[Any]]:
        """The functions that are trusted; the others are kept."""
        found = []
        for row in self._ask(_FUNCTIONS):
            oid, name, language, is_volatile, is_attribute = row
            is_extension = language in _OWN_LANGUAGES
            if name.lower() in trusted or (is_extension and name in READING):
                found.append(row)
                continue
            self._named.add(name)
            if is_attribute:
                self._attributes.add(name)
            if is_volatile:
                (self._from_extensions if is_extension else self._volatile).add(int(oid))
        return found

    def _is_bad(self, function: int) -> bool:
        return function in self._volatile

    def _using(self, uses: Iterable[Sequence[Any]], relations: Set[int]) -> Set[int]:
        """The relations that use such functions and operators, or one of these relations."""
        by_relation: Dict[int, Set[int]] = {}
        found = set(relations)
        for relation, kind, used in uses:
            kind = str(kind).rpartition(".")[2]
            if kind == "pg_proc" and int(used) in self._volatile | self._from_extensions or kind == "pg_operator" and int(used) in self._operators:
                found.add(int(relation))
            elif kind == "pg_class":
                by_relation.setdefault(int(relation), set()).add(int(used))
        while True:
            more = {relation for relation, used in by_relation.items() if used & found} - found
            if not more:
                return found
            found |= more

    def _written(self, read: Set[int]) -> Set[int]:
        """The relations whose writes may write others: by a trigger, a rule, a default, a constraint; all views; and what
        recorded tables inherit of, or inherits of them."""
        found = {int(relation) for relation, function in self._ask(_TRIGGERED) if int(function) not in self._trusted}
        found |= read | self._calling
        inherited = [(int(child), int(parent)) for child, parent in self._ask(_INHERITED)]
        up, down = set(found) | self._recorded, set(self._recorded)
        while True:
            above = {parent for child, parent in inherited if child in up} - up
            below = {child for child, parent in inherited if parent in down} - down
            if not above and not below:
                return (up | down) - (self._recorded - found)
            up, down = up | above, down | below

    def dangers(self) -> Dangers:
        """The dangers."""
        read = self._using(self._ask(_READ_USES), set())
        self._calling = self._using(self._ask(_WRITE_USES), set())
        casts = any(self._is_bad(int(row[0])) for row in self._ask(_CASTS))
        return Dangers(
            frozenset(self._named), frozenset(self._attributes), tuple(sorted(set(self._operators.values()))),
            self._named_of(read), self._named_of(self._written(read)), self._named_of(self._calling), casts,
            self._are_fixed(), self._ask("SELECT pg_catalog.current_schema()::text")[0][0],
        )  # fmt: skip

    def _are_fixed(self) -> bool:
        """Whether there is one table of each recorded name, and RESET ALL changes no meaning."""
        names = list(self._names.values())
        changed = self._ask(_CHANGED)[0][0]
        return not changed and all(names.count(name) == 1 for name in {self._names[oid] for oid in self._recorded})

    def _named_of(self, relations: Set[int]) -> FrozenSet[str]:
        return frozenset(self._names[oid] for oid in relations if oid in self._names)


def postgres_dangers(ask: Ask, trusted: FrozenSet[str], recorded: Iterable[str]) -> Dangers:
    """What of a database of PostgreSQL may write. `ask` gives the rows of a query."""
    return _Postgres(ask, trusted, recorded).dangers()


_MAY_IDENTIFY = "SELECT pg_catalog.has_function_privilege('pg_catalog.pg_control_system()', 'execute')::int AS may"
_IDENTIFIED = "SELECT system_identifier::text FROM pg_catalog.pg_control_system()"
_STARTED = "SELECT pg_catalog.pg_postmaster_start_time()::text AS started"
_DATABASE = "SELECT d.oid::bigint FROM pg_catalog.pg_database d WHERE d.datname = pg_catalog.current_database()"
_MEANT = "SELECT pg_catalog.to_regclass('{whole}')::oid::bigint AS whole, pg_catalog.to_regclass('{bare}')::oid::bigint AS bare"
_MEANING = """SELECT count(*) AS other FROM pg_catalog.pg_settings s
WHERE (s.name = 'standard_conforming_strings' AND s.setting <> 'on') OR (s.name = 'transform_null_equals' AND s.setting <> 'off')"""


def _quoted(*names: Optional[str]) -> str:
    return ".".join('"' + name.replace('"', '""') + '"' for name in names if name).replace("'", "''")


def postgres_key(ask: Ask, tables: Sequence[Any]) -> Tuple[Tuple[object, ...], List[str]]:
    """What tells a database of PostgreSQL with these tables from others; and those tables whose names mean others here."""
    if ask(_MEANING)[0][0]:
        raise Refused("standard_conforming_strings is off, or transform_null_equals on: texts mean something else then")
    server = ask(_IDENTIFIED if ask(_MAY_IDENTIFY)[0][0] else _STARTED)[0][0]
    key: List[object] = [server, ask(_DATABASE)[0][0]]
    others = []
    for table in tables:
        whole, bare = ask(_MEANT.format(whole=_quoted(table.schema, table.real), bare=_quoted(table.real)))[0]
        key.append(whole)
        if bare is not None and bare != whole:
            others.append(table.real)
    return tuple(key), others


# ---- SQLite

_MADE = "SELECT type, name, tbl_name, sql FROM {schema} WHERE type IN ('view', 'trigger')"


def sqlite_functions(ask: Ask, trusted: FrozenSet[str]) -> FrozenSet[str]:
    """The functions that a connection has registered, as far as its version of SQLite lists them."""
    return frozenset(str(row[0]).lower() for row in ask("PRAGMA function_list") if not row[1]) - trusted


def sqlite_dangers(ask: Ask, trusted: FrozenSet[str]) -> Dangers:
    """What of a database of SQLite may write. `ask` gives the rows of a query, which calls no function."""
    functions = sqlite_functions(ask, trusted)
    read, written = set(), set()
    for schema in ("sqlite_master", "sqlite_temp_master"):
        for kind, name, table, text in ask(_MADE.format(schema=schema)):
            written.add(str(table if kind == "trigger" else name).lower())
            if kind == "view" and any(function in str(text).lower() for function in functions):
                read.add(str(name).lower())
    return Dangers(functions, read=frozenset(read), written=frozenset(written), folds=True)
