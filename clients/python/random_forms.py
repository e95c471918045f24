"""What an application may say to its database, as the random recordings make it: forms of statements by name, each a text with
gaps for values, and calls of drivers that no text says."""

import contextlib
import datetime
import decimal
import random
import re
from dataclasses import dataclass
from typing import Any, Callable, Dict, List, Optional, Sequence, Tuple

KEYS, FRESH = 6, 12  # keys that rows have as they begin, and those that they may get
TEXTS = ("x", "it's", "100%", "a\nb", "back\\slash", "", "naïve", "tab\tand\rreturn", "%s", "漢", ":k", "?", '"', "-- no", "/* no */", "\\n")


@dataclass(frozen=True)
class Form:
    """A form: its texts, of which one is taken; on which engines; and what kind it is: `read`, `write`, `by rows` (what is said
    by its rows, of which something stays unknown), `error`, `beside`, `left out` or `spoils`."""

    kind: str
    texts: Tuple[str, ...]
    engine: str = ""  # "postgres", "sqlite", or both
    is_core: bool = False  # whether sqlite3 does the same, so that orders can be tried on it

    def is_on(self, engine: str) -> bool:
        return not self.engine or (self.engine == "sqlite") == (engine == "sqlite3")


def _core(kind: str, *texts: str) -> Form:
    return Form(kind, texts, "", True)


def _both(kind: str, *texts: str) -> Form:
    return Form(kind, texts)


def _postgres(kind: str, *texts: str) -> Form:
    return Form(kind, texts, "postgres")


def _sqlite(kind: str, *texts: str) -> Form:
    return Form(kind, texts, "sqlite")


# {k} is a key, {v} a value, {a} an amount of either sign, {s} a text, {n} a small count, {ks} keys, {vs} values.
FORMS: Dict[str, Form] = {
    "read by key": _core("read", "SELECT v FROM t WHERE id = {k}", "SELECT * FROM u WHERE id = {k}"),
    "read all": _core("read", "SELECT id, v, w, name FROM t", "SELECT * FROM u", "SELECT name, id FROM t WHERE 1 = 1"),
    "read a star": _both("read", "SELECT * FROM t", "SELECT t.* FROM t WHERE t.id = {k}", 'SELECT "t".* FROM "t" WHERE "t"."id" < {k}'),
    "read a range": _core("read", "SELECT id, v FROM t WHERE id BETWEEN {k} AND {k}", "SELECT w FROM t WHERE id > {k} AND id <= {k}"),
    "read by value": _core("read", "SELECT id FROM t WHERE v = {v}", "SELECT id, w FROM t WHERE v >= {v} AND w <> {v}", "SELECT id FROM t WHERE {v} = v"),
    "read nulls": _core("read", "SELECT id FROM t WHERE v IS NULL", "SELECT id, v FROM t WHERE v IS NOT NULL AND w < {v}"),
    "read by text": _core("read", "SELECT id FROM t WHERE name = {s}", "SELECT id, name FROM t WHERE name <> {s}"),
    "texts in order": _both("read", "SELECT id FROM t WHERE name > {s}", "SELECT id, name FROM t WHERE name BETWEEN {s} AND {s}"),
    "count": _core("read", "SELECT count(*) FROM t", "SELECT count(*) FROM t WHERE v = {v}", "SELECT COUNT(*) FROM u WHERE id <> {k}"),
    "count a column": _both("left out", "SELECT count(v) FROM t", "SELECT count(DISTINCT v) FROM t", "SELECT count(id) FROM t WHERE v = {v}"),
    "IN": _core("read", "SELECT id, v FROM t WHERE id IN ({ks})", "SELECT v, id FROM t WHERE v IN ({vs})", "SELECT v FROM t WHERE id IN ({k})"),
    "ANY": _postgres("read", "SELECT id, v FROM t WHERE id = ANY ({list})", "SELECT id, v FROM t WHERE id = ANY ({list}::int[])"),
    "LIMIT": _core("read", "SELECT id, v FROM t WHERE id = {k} LIMIT 1", "SELECT v FROM t WHERE id = {k} LIMIT {n}"),
    "LIMIT of many": _both("read", "SELECT id, v FROM t ORDER BY id LIMIT {n}", "SELECT id FROM t ORDER BY v, id LIMIT 99", "SELECT v FROM t LIMIT 0",
        "SELECT id FROM t ORDER BY id LIMIT {n} OFFSET {n}", "SELECT count(*) FROM t LIMIT {n}"),
    "OFFSET": _postgres("read", "SELECT id FROM t ORDER BY id OFFSET {n}", "SELECT id FROM t ORDER BY id FETCH FIRST {n} ROWS ONLY"),
    "ORDER BY": _core("read", "SELECT id, v FROM t ORDER BY v DESC, id", "SELECT id FROM t WHERE v > {v} ORDER BY id", "SELECT v AS it FROM t ORDER BY it, id"),
    "FOR UPDATE": _postgres("read", "SELECT v FROM t WHERE id = {k} FOR UPDATE", "SELECT id FROM t WHERE v = {v} FOR SHARE", "SELECT v FROM t WHERE id = {k} FOR NO KEY UPDATE NOWAIT",
        "SELECT id, v FROM t ORDER BY id FOR UPDATE SKIP LOCKED"),
    "an alias": _core("read", "SELECT a.v, a.id FROM t AS a WHERE a.id = {k}", "SELECT b.v AS it FROM t b WHERE b.v = {v}"),
    "a schema": _postgres("read", "SELECT id, v FROM public.t WHERE id = {k}", 'SELECT id, v FROM "public"."t"', "SELECT id, v FROM o.t WHERE id = {k}", "SELECT t.v FROM o.t"),
    "main": _sqlite("read", "SELECT id, v FROM main.t WHERE id = {k}", "SELECT id, v FROM [t] WHERE [id] = {k}", "SELECT id, v FROM other.t WHERE id = {k}", "SELECT v FROM t WHERE rowid = {k}", "SELECT v FROM T WHERE ID = {k}"),
    "constants": _core("read", "SELECT 1, id, 'x' FROM t", "SELECT 1 FROM t WHERE id = {k}"),
    "twice": _core("read", "SELECT v, v, id FROM t WHERE id = {k}", "SELECT id, id FROM t"),
    "an unrecorded column": _both("read", "SELECT id, extra FROM t WHERE id = {k}", "SELECT id FROM t WHERE extra = {v}", "UPDATE t SET extra = {v} WHERE id = {k}", "UPDATE t SET extra = {v}, v = {v} WHERE id = {k}"),
    "comments": _both("read", "SELECT v /* a ' quote */ FROM t -- and\n WHERE id = {k}", "/* x */ SELECT id FROM t;", "SELECT id FROM t WHERE v = {v} ;"),
    "the column user": _postgres("read", 'SELECT id, "user" FROM u', 'SELECT id FROM u WHERE "user" = {s}', "SELECT id, user FROM u", "SELECT id FROM u WHERE user = {s}", "SELECT current_user, id FROM u"),
    "an aggregate": _both("left out", "SELECT sum(v), max(id) FROM t", "SELECT max(v) FROM t WHERE w > {v}", "SELECT coalesce(v, 0) FROM t WHERE id = {k}", "SELECT v + 1 FROM t WHERE id = {k}"),
    "a join": _both("left out", "SELECT t.v, u.v FROM t JOIN u ON u.id = t.id", "SELECT t.id FROM t, u WHERE t.id = u.id AND u.v = {v}", "SELECT a.v FROM t a LEFT JOIN u b ON a.id = b.id"),
    "a subquery": _both("left out", "SELECT id FROM t WHERE v IN (SELECT v FROM u)", "SELECT id FROM t WHERE EXISTS (SELECT 1 FROM u WHERE u.id = t.id)", "SELECT (SELECT max(v) FROM t), id FROM u"),
    "OR and NOT": _both("left out", "SELECT id FROM t WHERE v = {v} OR id = {k}", "SELECT id FROM t WHERE NOT v = {v}", "SELECT id FROM t WHERE name LIKE 'x%'", "SELECT id FROM t WHERE v NOT IN ({vs})"),
    "DISTINCT": _both("left out", "SELECT DISTINCT v FROM t", "SELECT v, count(*) FROM t GROUP BY v", "SELECT id FROM t UNION SELECT id FROM u", "WITH a AS (SELECT id FROM t) SELECT * FROM a"),
    "a window": _both("left out", "SELECT id, row_number() OVER (ORDER BY id) FROM t", "SELECT CASE WHEN v > 3 THEN 1 ELSE 0 END FROM t"),
    "an unrecorded table": _both("left out", "SELECT * FROM plain", "SELECT t.id FROM t, plain"),
    "no table": _both("beside", "SELECT 1", "SELECT 'x', 2", "SELECT {v} + 1"),
    "set": _core("write", "UPDATE t SET v = {v} WHERE id = {k}", "UPDATE t SET v = {v}, w = {n} WHERE id = {k}", "UPDATE t SET name = {s} WHERE id = {k}", "UPDATE u SET v = {v} WHERE id = {k}"),
    "add": _core("write", "UPDATE t SET v = v + {a} WHERE id = {k}", "UPDATE t SET v = v - {a} WHERE id = {k}", "UPDATE t SET w = {a} + w WHERE id = {k}", "UPDATE u SET v = v + 1"),
    "copy a column": _core("write", "UPDATE t SET v = w WHERE id = {k}", "UPDATE t SET v = w, w = 3 WHERE v = {v}", "UPDATE t SET v = w + {a} WHERE id = {k}"),
    "set by value": _core("write", "UPDATE t SET v = {v} WHERE v = {v}", "UPDATE t SET w = {n} WHERE v > {v}", "UPDATE t SET v = NULL WHERE w = {v} AND id > {k}"),
    "set many": _core("write", "UPDATE t SET w = {n}", "UPDATE t SET v = {v} WHERE id BETWEEN {k} AND {k}", "UPDATE t SET w = w + 1 WHERE id > {k}"),
    "set IN": _both("write", "UPDATE t SET v = {v} WHERE id IN ({ks})", "UPDATE t SET v = {v} WHERE v IN ({vs})"),
    "UPDATE RETURNING": _core("write", "UPDATE t SET v = {v} WHERE id = {k} RETURNING id, v", "UPDATE t SET v = v + 1 WHERE w = {v} RETURNING id, v", "UPDATE t SET w = 3 RETURNING id"),
    "the job queue": _core("write", "UPDATE t SET v = {v} WHERE v = {v} RETURNING id", "UPDATE t SET name = {s} WHERE name = 'x' RETURNING id"),
    "IN RETURNING": _both("write", "UPDATE t SET v = {v} WHERE id IN ({ks}) RETURNING id", "DELETE FROM t WHERE id IN ({ks}) RETURNING id, v"),
    "INSERT": _core("write", "INSERT INTO t (id, v, w, name) VALUES ({f}, {v}, {n}, {s})", "INSERT INTO t (w, v, id) VALUES ({n}, {v}, {f})"),
    "defaults": _both("write", "INSERT INTO t (id) VALUES ({f})", "INSERT INTO t (id, v) VALUES ({f}, NULL)", "INSERT INTO t VALUES ({f}, {v}, {n}, {s}, NULL)"),
    "DEFAULT": _postgres("write", "INSERT INTO t (id, v, w) VALUES ({f}, {v}, DEFAULT)", "UPDATE t SET w = DEFAULT WHERE id = {k}", "INSERT INTO t VALUES ({f}, {v})"),
    "rows": _core("write", "INSERT INTO t (id, v, w) VALUES ({f}, {v}, {n}), ({f}, {v}, {n})"),
    "a made key": _both("write", "INSERT INTO u (v) VALUES ({v}) RETURNING id", "INSERT INTO u (v) VALUES ({v}), ({v}) RETURNING id, v"),
    "lastrowid": _sqlite("write", "INSERT INTO u (v) VALUES ({v})", "INSERT INTO u (id, v) VALUES (NULL, {v})"),
    "INSERT RETURNING": _core("write", "INSERT INTO t (id, v, w) VALUES ({f}, {v}, {n}) RETURNING v, id"),
    "a duplicate": _both("error", "INSERT INTO t (id, v, w) VALUES (1, {v}, 0)", "INSERT INTO t (id, w) VALUES ({f}, 1), (1, 2)"),
    "DELETE": _core("write", "DELETE FROM t WHERE id = {k}", "DELETE FROM u WHERE id = {k}"),
    "delete by value": _core("write", "DELETE FROM t WHERE v = {v}", "DELETE FROM t WHERE id > 4 AND w = {n}", "DELETE FROM t WHERE id IN ({k})"),
    "DELETE RETURNING": _core("write", "DELETE FROM t WHERE id = {k} RETURNING v, id", "DELETE FROM t WHERE v = {v} RETURNING id"),
    "delete IN": _both("write", "DELETE FROM t WHERE id IN ({ks})"),
    "an ignored table": _both("beside", "INSERT INTO log (note) VALUES ({s})", "UPDATE log SET note = {s}", "DELETE FROM log", "SELECT * FROM log"),
    "a fault of the text": _both("error", "SELEC v FROM t", "UPDATE t SET v = WHERE id = {k}", "INSERT INTO t (id VALUES (1)", "DELETE t WHERE id = {k}", "FROM t"),
    "a name that isn't": _both("error", "SELECT nothing FROM t", "UPDATE t SET nothing = 1", "SELECT * FROM nothing", "UPDATE nothing SET v = v * 2", "DELETE FROM t WHERE nothing = 1"),
    "a constraint": _both("error", "UPDATE t SET v = 5000 WHERE id = {k}", "UPDATE t SET w = NULL WHERE id = {k}", "INSERT INTO t (id, w) VALUES ({f}, NULL)", "INSERT INTO t (id, v) VALUES (NULL, 1) RETURNING v"),
    "a fault of the values": _postgres("error", "SELECT 1 / 0", "SELECT v FROM t WHERE id = 'x'", "UPDATE t SET v = v + 9223372036854775807 WHERE id = {k}", "SELECT v / 0 FROM t"),
    "settings": _postgres("beside", "SHOW work_mem", "SET LOCAL work_mem = '5MB'", "SET statement_timeout = 0", "LOCK TABLE plain", "RESET work_mem", "ANALYZE plain"),
    "PRAGMA": _sqlite("beside", "PRAGMA foreign_keys", "PRAGMA user_version", "EXPLAIN QUERY PLAN SELECT * FROM t"),
    "another table is made": _both("beside", "CREATE TABLE IF NOT EXISTS made (id int)"),
    "EXPLAIN": _both("left out", "EXPLAIN SELECT * FROM t", "EXPLAIN DELETE FROM t"),
    "a known function": _postgres("left out", "SELECT f_read(1)", "SELECT id FROM t WHERE v = f_read(2)", "SELECT now(), id FROM t"),
    # what is said by its rows
    "a product": _both("by rows", "UPDATE t SET v = v * 2 WHERE id = {k}", "UPDATE t SET v = CASE WHEN v > 2 THEN 1 ELSE 2 END", "UPDATE t SET v = v % 3"),
    "ON CONFLICT": _both("by rows", "INSERT INTO t (id, v) VALUES ({k}, {v}) ON CONFLICT DO NOTHING", "INSERT INTO t (id, v) VALUES ({k}, 1) ON CONFLICT (id) DO UPDATE SET v = 3",
        "INSERT INTO t (id, v) VALUES ({f}, {v}) ON CONFLICT (id) DO UPDATE SET v = t.v + excluded.v", "INSERT INTO t (id, v) VALUES ({k}, {v}) ON CONFLICT (id) DO UPDATE SET v = excluded.v WHERE t.v < 3",
        "INSERT INTO t (id, v, w) VALUES ({k}, {v}, 1), ({f}, {v}, 2) ON CONFLICT (id) DO UPDATE SET w = excluded.w RETURNING id, v"),
    "INSERT SELECT": _both("by rows", "INSERT INTO t (id, v) SELECT id + 20, v FROM u", "UPDATE t SET v = (SELECT max(v) FROM u) WHERE id = {k}"),
    "the key changes": _both("by rows", "UPDATE t SET id = {f} WHERE id = {k}"),
    "OR changes": _both("by rows", "UPDATE t SET v = {v} WHERE id = {k} OR v = {v}", "DELETE FROM t WHERE NOT v = {v}", "DELETE FROM t WHERE id IN (SELECT id FROM u)"),
    "UPDATE FROM": _both("by rows", "UPDATE t SET v = u.v FROM u WHERE u.id = t.id", "UPDATE t SET w = t.w + 1 FROM u WHERE u.id = t.id AND u.v = {v}"),
    "a serial key": _both("by rows", "INSERT INTO u (v) VALUES ({v})", "INSERT INTO u (v) VALUES ({v}), ({v})", "INSERT INTO u DEFAULT VALUES"),
    "a bulk update": _both("by rows", "UPDATE t SET v = CASE id WHEN 1 THEN {v} WHEN 2 THEN {v} END WHERE id IN (1, 2)", "UPDATE t SET v = CASE WHEN id = {k} THEN {v} ELSE v END WHERE id IN ({ks})"),
    "changes of a list": _both("by rows", "UPDATE t SET v = {v} WHERE v IN ({vs})", "DELETE FROM t WHERE w IN ({vs})", "UPDATE t SET w = 3 WHERE w IN ({vs}) RETURNING id, w"),
    "coalesce": _both("by rows", "UPDATE t SET v = coalesce(v, 0) + {n} WHERE id = {k}", "UPDATE t SET name = coalesce(name, {s}) WHERE id > {k}", "UPDATE t SET v = v + w WHERE id = {k}"),
    "WITH writes": _postgres("by rows", "WITH d AS (DELETE FROM t WHERE w = {n} RETURNING id, v) SELECT * FROM d", "WITH d AS (UPDATE t SET v = v * 2 WHERE id = {k} RETURNING id, v) SELECT * FROM d",
        "WITH c AS (SELECT id FROM u WHERE v = {v}) DELETE FROM t WHERE id IN (SELECT id FROM c)"),
    "the first": _both("by rows", "SELECT id, v FROM t WHERE w = {n} ORDER BY id LIMIT 1", "SELECT v FROM t WHERE v > {n} ORDER BY v, id LIMIT 1", "SELECT * FROM t ORDER BY id DESC LIMIT {n}"),
    "exists": _both("by rows", "SELECT 1 AS a FROM t WHERE v = {v} LIMIT 1", "SELECT (1) AS a FROM t WHERE w > {n} LIMIT 1", "SELECT (1) FROM u WHERE v IS NULL LIMIT 1"),
    # whose rows the application sees whole; of the others it may have seen the same where an order finds other rows
    "a join with keys": _core("by rows", "SELECT t.id, t.v, u.id, u.v FROM t JOIN u ON u.id = t.id", "SELECT t.id, t.w, u.id FROM t LEFT JOIN u ON u.id = t.v",
        "SELECT a.id, a.v, b.id, b.v FROM t a JOIN t b ON a.w = b.w AND a.id < b.id"),
    "a join without keys": _both("by rows", "SELECT t.v, u.v FROM t, u WHERE t.id = u.id AND u.v = {v}", "SELECT t.v, u.v FROM t JOIN u ON u.id = t.id"),
    "a subquery with keys": _core("by rows", "SELECT id, v FROM t WHERE id IN (SELECT id FROM u)", "SELECT id, v, (SELECT max(v) FROM u) FROM t", "WITH c AS (SELECT id FROM u) SELECT id, v FROM t WHERE id IN (SELECT id FROM c)"),
    "conditions of all kinds": _both("by rows", "SELECT id, v FROM t WHERE v = {v} OR w = {n}", "SELECT id, name FROM t WHERE name LIKE '%x%'", "SELECT id, v + 1, w FROM t WHERE v > w", "SELECT DISTINCT id, w FROM t"),
    # tables of other kinds, with a key of two columns, and one whose rows go with theirs
    "kinds are read": _both("read", "SELECT a, b, done, price FROM k WHERE a = {h} AND b = {b}", "SELECT * FROM k", "SELECT a, b, day FROM k WHERE done = {B}", "SELECT a, b, data FROM k WHERE a = {h}",
        "SELECT tag, at FROM k WHERE b = {b}", "SELECT a, b FROM k WHERE price = {p}", "SELECT a, b, price FROM k WHERE price > {p}", "SELECT count(*) FROM k WHERE day >= {d}"),
    "kinds are written": _both("write", "UPDATE k SET done = {B}, price = {p} WHERE a = {h} AND b = {b}", "UPDATE k SET day = {d}, at = {T} WHERE b = {b}", "UPDATE k SET data = {j} WHERE a = {h}",
        "UPDATE k SET tag = {g} WHERE done = {B}", "UPDATE k SET price = price + {p} WHERE a = {h}", "UPDATE k SET price = NULL, data = NULL WHERE a = {h} AND b = {b}",
        "INSERT INTO k (a, b, done, price, day) VALUES ({h}, {b}, {B}, {p}, {d})", "INSERT INTO k (b, a, tag, data, at) VALUES ({b}, {h}, {g}, {j}, {T})"),
    "kinds by rows": _both("by rows", "UPDATE k SET price = price * 2 WHERE done = {B}", "UPDATE k SET done = NOT done WHERE a = {h}", "INSERT INTO k (a, b, price) VALUES ({h}, {b}, {p}) ON CONFLICT (a, b) DO UPDATE SET price = {p}",
        "SELECT a, b, price FROM k WHERE done = {B} OR price IS NULL ORDER BY price LIMIT 2", "SELECT k.a, k.b, k.done, c.id, c.n FROM k JOIN c ON c.a = k.a AND c.b = k.b"),
    "a cascade": _both("write", "DELETE FROM k WHERE a = {h} AND b = {b}", "DELETE FROM k WHERE a = {h}", "DELETE FROM k WHERE done = {B}"),
    "rows that refer": _both("write", "INSERT INTO c (a, b, n) VALUES ({h}, {b}, {n})", "UPDATE c SET n = n + 1 WHERE a = {h}", "DELETE FROM c WHERE n = {n}", "SELECT * FROM c", "SELECT id, n FROM c WHERE b = {b}"),
    # what makes a transcript of no use, where it is done
    "an unrecorded write": _both("spoils", "INSERT INTO plain (v) VALUES ({v})", "UPDATE plain SET v = 2"),
    "REPLACE": _sqlite("by rows", "REPLACE INTO t (id, v) VALUES ({k}, {v})", "INSERT OR IGNORE INTO t (id, v) VALUES ({k}, 1)", "UPDATE OR IGNORE t SET v = 3 WHERE id = {k}"),
    "o.t": _postgres("spoils", "UPDATE o.t SET v = {v} WHERE id = {k}", "DELETE FROM o.t WHERE id = {k}", "INSERT INTO o.t (id, v, w) VALUES ({f}, {v}, {n})", "UPDATE o.t SET v = v + 1"),
    "TRUNCATE": _postgres("spoils", "TRUNCATE t", "DO 'BEGIN DELETE FROM t; END'"),
    "a function writes": _postgres("spoils", "SELECT f_write({k})", 'SELECT "f_write"({k})', "SELECT id FROM t WHERE f_write(id) = 1", "INSERT INTO t (id, v) VALUES ({f}, f_write({k}))",
        "UPDATE t SET v = f_write({k}) WHERE id = {k}", "CALL p_write({k})"),
    # what is ignored writes recorded tables
    "a trigger of an ignored table": _both("spoils", "INSERT INTO noisy (note) VALUES ({s})"),
    "a folded name": _sqlite("spoils", 'INSERT INTO "NOISY" (note) VALUES ({s})', 'INSERT INTO "Noisy" (note) VALUES ({s}), ({s})'),
    "a function into an ignored table": _postgres("spoils", "INSERT INTO log (note) VALUES (f_write({k})::text)", "INSERT INTO log (note) SELECT f_write({k})::text", "UPDATE log SET note = f_write({k})::text"),
    "a view writes": _postgres("spoils", "SELECT * FROM peek", "SELECT count(*) FROM peek WHERE done = 1"),
    "an operator writes": _postgres("spoils", "SELECT 1 ### {k}", "SELECT id FROM t WHERE v ### 1 = 1"),
    "a known name writes": _postgres("spoils", "SELECT lower({k}::bigint)", "SELECT lower(id::bigint) FROM t"),
    "attribute notation": _postgres("spoils", "SELECT t.debit FROM t WHERE id = {k}", "SELECT (t).debit FROM t"),
    "the search path": _postgres("spoils", "SET search_path = o", "SET LOCAL search_path = o, public", "SELECT set_config('search_path', 'o', false)"),
    "a role": _postgres("spoils", "SET ROLE other_role", "RESET ALL", "DISCARD ALL", "SET SESSION AUTHORIZATION other_role"),
    "ATTACH": _sqlite("spoils", "ATTACH ':memory:' AS third", "CREATE TEMP TABLE t (id INTEGER PRIMARY KEY, v BIGINT)", "PRAGMA writable_schema = ON"),
    "another trigger": _sqlite("spoils", "CREATE TRIGGER IF NOT EXISTS late AFTER UPDATE ON t BEGIN DELETE FROM u; END"),
}  # fmt: skip

# ---- values


def value_of(gap: str, chance: random.Random) -> Any:
    """A value for a gap."""
    if gap == "k":
        return chance.randint(1, 3 if chance.random() < 0.6 else KEYS)
    if gap == "f":
        return chance.randint(KEYS, FRESH)
    if gap == "v":
        return None if chance.random() < 0.05 else chance.randint(0, 5 if chance.random() < 0.6 else 9)
    if gap == "a":
        return chance.randint(-5, 5)
    if gap == "n":
        return chance.randint(0, 3)
    if gap in _KINDS:
        return None if chance.random() < 0.04 else chance.choice(_KINDS[gap])
    return chance.choice(("x", "y 'z") if gap == "b" else (1, 2, 3) if gap == "h" else TEXTS)


_ZONE = datetime.timezone(datetime.timedelta(hours=2))
# Values of other kinds than numbers and texts; of each some that are equal, and stand otherwise.
_KINDS: Dict[str, Sequence[Any]] = {
    "B": (True, False), "p": tuple(map(decimal.Decimal, ("0", "1.5", "1.50", "2", "-0.25", "7.99"))),
    "d": (datetime.date(2024, 2, 29), datetime.date(1969, 12, 31), datetime.date(2024, 3, 1)),
    "T": (datetime.datetime(2024, 3, 1, 10, 0, 0, 5, datetime.timezone.utc), datetime.datetime(2024, 3, 1, 12, 0, 0, 5, _ZONE), datetime.datetime(1999, 1, 1, tzinfo=_ZONE)),
    "j": ('{"a": 1, "b": [true, null]}', '{"b":[true,null],"a":1.0}', '"x"', "[1, 2.50]", "{}"),
    "g": ("12345678-9abc-def0-1234-56789abcdef0", "12345678-9ABC-DEF0-1234-56789ABCDEF0", "00000000-0000-0000-0000-000000000001"),
}  # fmt: skip


def literal(value: Any) -> str:
    """A value in a text."""
    if value is None:
        return "NULL"
    if isinstance(value, (int, float, decimal.Decimal)):
        return str(value)  # a truth is true or false
    return "'" + str(value).replace("'", "''") + "'"


class Text:
    """A text with its parameters, in the style of a driver."""

    def __init__(self, template: str, chance: random.Random, engine: str) -> None:
        self.engine, self._chance = engine, chance
        self.named = chance.random() < 0.15
        self.values: List[Any] = []
        self._all_literal = chance.random() < 0.2
        parts = [part for half in template.split("{") for part in half.split("}", 1)]
        self.text = "".join(part if at % 2 == 0 else self._gap(part) for at, part in enumerate(parts))
        # The same for sqlite3, whose parameters have no names then.
        self.portable = re.sub("\0(\\(k[0-9]+\\))?s" if engine != "sqlite3" else ":k[0-9]+(?![\\w'])", "?", self.text)
        if self.values and engine != "sqlite3":
            self.text = self.text.replace("%", "%%").replace("\0", "%")
        if self.named and self.values and self.engine == "sqlite3":
            self.parameters: Any = {f"k{at}": value for at, value in enumerate(self.values)}
        elif self.named and self.values:
            self.parameters = {f"k{at}": value for at, value in enumerate(self.values)}
        else:
            self.parameters = tuple(self.values) if chance.random() < 0.7 else list(self.values)

    def _gap(self, gap: str) -> str:
        if gap in ("ks", "vs"):
            return ", ".join(self._one(value_of(gap[0], self._chance)) for _ in range(self._chance.randint(1, 3)))
        if gap == "list":
            return self._slot([value_of("k", self._chance) for _ in range(self._chance.randint(0, 3))])
        return self._one(value_of(gap, self._chance))

    def _one(self, value: Any) -> str:
        if isinstance(value, decimal.Decimal) and self.engine == "sqlite3":
            value = float(value)  # of which these are exact
        if self._all_literal or self._chance.random() < 0.2:
            return literal(value)
        return self._slot(value)

    def _slot(self, value: Any) -> str:
        self.values.append(value)
        at = len(self.values) - 1
        if self.engine == "sqlite3":
            return f":k{at}" if self.named else "?"
        return f"\0(k{at})s" if self.named else "\0s"


def text_of(form: Form, chance: random.Random, engine: str) -> Text:
    """A text of a form."""
    return Text(chance.choice(form.texts), chance, engine)


# ---- values that a driver turns


class Cents:
    """A number that an adapter turns into ten times as much."""

    def __init__(self, number: int) -> None:
        self.number = number


class Turned(int):
    """A number for which an adapter is registered that turns it."""


def register(engine: str) -> None:
    """Registers adapters for these, for all connections."""
    if engine == "sqlite3":
        import sqlite3

        sqlite3.register_adapter(Cents, lambda cents: cents.number * 10)
        sqlite3.register_adapter(Turned, lambda turned: int.__int__(turned) + 1)
    elif engine == "psycopg2":
        from psycopg2.extensions import AsIs, register_adapter

        register_adapter(Cents, lambda cents: AsIs(str(cents.number * 10)))
        register_adapter(Turned, lambda turned: AsIs(str(int.__int__(turned) + 1)))
    else:
        import psycopg

        for kind in (Cents, Turned):
            psycopg.adapters.register_dumper(kind, _dumper(psycopg, kind))


def _dumper(psycopg: Any, kind: type) -> Any:
    """psycopg's dumper of one of these."""

    class Dumper(psycopg.adapt.Dumper):  # type: ignore
        oid = psycopg.adapters.types["int8"].oid

        def dump(self, value: Any) -> bytes:
            return str(value.number * 10 if kind is Cents else int.__int__(value) + 1).encode()

    return Dumper


def turning(actor: Any, chance: random.Random) -> None:
    """Registers something on the connection or a cursor, by which values come or go otherwise."""
    raw, engine = actor.connection, actor.engine
    if engine == "sqlite3":
        raw.text_factory = chance.choice((bytes, lambda data: data.decode("utf-8").upper(), str))
    elif engine == "psycopg2":
        from psycopg2.extensions import new_type, register_type

        bare = getattr(raw, "wrapped", raw)
        register_type(new_type((20, 23), "TWICE", lambda value, cursor: None if value is None else int(value) * 2), bare)
    else:
        import psycopg

        class Twice(psycopg.adapt.Loader):  # type: ignore
            def load(self, data: Any) -> int:
                return int(bytes(data)) * 2

        if chance.random() < 0.5:
            raw.adapters.register_loader("int8", Twice)
        else:
            raw.adapters.register_dumper(int, _dumper(psycopg, Turned))


ANSWERS = Optional[Tuple[Sequence[Any], int]]
Call = Callable[[Any, random.Random], None]


@contextlib.contextmanager
def quietly(errors: Any) -> Any:
    """What an application does about errors that it expects."""
    with contextlib.suppress(*errors):
        yield
