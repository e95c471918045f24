"""The forms of statements that applications send: each with its dialects, and with what changes what it reads.

`try_forms.py` tries each of them. The tables are made anew before each: see TABLES.
"""

from typing import Any, Callable, Dict, List, NamedTuple, Optional, Sequence, Union

# What is done with a cursor of the driver, in place of a text.
Call = Callable[[Any], Any]
Does = Union[str, Call]

TABLES = (
    "CREATE TABLE t (id {bigint} PRIMARY KEY, v bigint, w bigint, s text{c})",
    "CREATE TABLE u (id {bigint} PRIMARY KEY, t_id bigint, n bigint)",
    "CREATE TABLE p (id {serial}, v bigint DEFAULT 7, s text{c})",
    "CREATE TABLE z (id {bigint} PRIMARY KEY, v bigint)",
    "CREATE TABLE unrecorded (id {bigint} PRIMARY KEY, t_id bigint, n bigint)",
    "CREATE VIEW seen AS SELECT id, v FROM t WHERE w = 1",
)
ROWS = (
    "INSERT INTO t VALUES (1, 10, 1, 'a'), (2, 20, 1, 'b'), (3, 30, 2, 'c'), (4, 40, 2, 'd'), (5, 50, 3, NULL)",
    "INSERT INTO u VALUES (1, 1, 5), (2, 1, 6), (3, 2, 7)",
    "INSERT INTO p (v, s) VALUES (7, 'x'), (8, 'y')",
    "INSERT INTO z VALUES (1, 0)",
    "INSERT INTO unrecorded VALUES (1, 1, 5)",
)
RECORDED = ("t", "u", "p", "z")
TOUCH = "UPDATE t SET v = v + 1 WHERE id = 1"
NEW, OTHER = "INSERT INTO t VALUES (0, 1, 1, 'n')", "INSERT INTO t VALUES (0, 20, 2, 'a')"
MOVED, TEN = "UPDATE t SET w = 1 WHERE id = 4", "UPDATE t SET v = 10 WHERE id = 5"


class Form(NamedTuple):
    """A form: what it is called, what is done in each dialect, how often, and what changes what it reads."""

    group: str
    name: str
    postgres: Optional[Does]
    sqlite: Optional[Does]
    parameters: Any = None
    touch: Optional[str] = None  # None where it reads nothing that another transaction may change meanwhile
    before: Sequence[str] = ()  # what is made before the recording
    tables: Sequence[str] = RECORDED
    many: bool = False  # whether `parameters` are those of executemany
    is_read: bool = False
    is_planted: bool = True  # whether other transactions can be open while it is done


FORMS: List[Form] = []
SAME: str = "the same"


def _form(group: str, text: Does, sqlite: Optional[Does] = SAME, name: str = "", **named: Any) -> None:
    """A form of both dialects, unless `sqlite` is None or another text."""
    postgres: Optional[Does] = text or None
    if isinstance(text, str) and sqlite == SAME:
        sqlite = text
    elif sqlite == SAME:
        sqlite = text
    called = name or (text if isinstance(text, str) and text else str(sqlite))
    FORMS.append(Form(group, called, postgres, sqlite, **named))


def _read(group: str, text: Does, sqlite: Optional[Does] = SAME, touch: Optional[str] = TOUCH, **named: Any) -> None:
    _form(group, text, sqlite, touch=touch, is_read=True, **named)


def _reads() -> None:
    one = "one table"
    _read(one, "SELECT * FROM t WHERE id = 1")
    _read(one, "SELECT v FROM t WHERE id = %s", parameters=(1,))
    _read(one, "SELECT v FROM t WHERE id = %(k)s", "SELECT v FROM t WHERE id = :k", parameters={"k": 1})
    _read(one, 'SELECT x."id", x."v" AS "t_v" FROM "t" AS x')
    _read(one, "SELECT id FROM t WHERE w = 1 AND v < 11")
    _read(one, "SELECT v FROM t WHERE v BETWEEN 5 AND 15")
    _read(one, "SELECT id FROM t WHERE s IS NULL", touch="UPDATE t SET s = 'e' WHERE id = 5")
    _read(one, "SELECT id FROM t WHERE s IS NOT NULL", touch="UPDATE t SET s = NULL WHERE id = 1")
    _read(one, "SELECT id FROM t WHERE v <> 10")
    _read(one, "SELECT id FROM t WHERE s > 'c'", touch="UPDATE t SET s = 'z' WHERE id = 1")
    _read(one, "SELECT id, v FROM t WHERE id IN (1, 2, 9)")
    _read(one, "SELECT id, v FROM t WHERE id = ANY (%s)", None, parameters=([1, 2],))
    _read(one, "SELECT v FROM t WHERE v IN (10, 20)")
    _read(one, "SELECT v, id FROM t WHERE w IN (1, 3)")
    _read(one, "SELECT v FROM t WHERE w IN (1, 3)", name="SELECT v FROM t WHERE w IN (1, 3) -- neither key nor w")
    _read(one, "SELECT id, v FROM t WHERE id IN (1, 2) AND w IN (1, 2)")
    _read(one, "SELECT id, v FROM t ORDER BY v DESC, id")
    _read(one, "SELECT v FROM t WHERE id = 1 FOR UPDATE", None, touch=None)
    _read(one, "SELECT v FROM t WHERE id = 1 FOR SHARE NOWAIT", None, touch=None)
    _read(one, "SELECT id, v FROM t ORDER BY id FOR UPDATE SKIP LOCKED", None, touch=NEW)
    _read(one, "SELECT id, v FROM t WHERE w = 1 ORDER BY id LIMIT 1 FOR UPDATE SKIP LOCKED", None, touch=NEW)
    _read(one, "SELECT v FROM ONLY t WHERE id = 1", None)
    _read(one, "TABLE t", None)
    _read(one, "SELECT t FROM t", None)
    _read(one, "SELECT id, v FROM t TABLESAMPLE SYSTEM (100)", None)

    where = "other conditions"
    _read(where, "SELECT id, v FROM t WHERE id = 1 OR w = 2")
    _read(where, "SELECT v FROM t WHERE id = 1 OR w = 2")
    _read(where, "SELECT id, v FROM t WHERE NOT (v = 20)")
    _read(where, "SELECT id, v FROM t WHERE id NOT IN (2, 3)")
    _read(where, "SELECT id, v FROM t WHERE s LIKE 'a%%'", "SELECT id, v FROM t WHERE s LIKE 'a%'", parameters=())
    _read(where, "SELECT id, v FROM t WHERE s ILIKE 'A'", None)
    _read(where, "SELECT id, v FROM t WHERE v + 1 > 10")
    _read(where, "SELECT id, v FROM t WHERE lower(s) = 'a'")
    _read(where, "SELECT id, v FROM t WHERE coalesce(s, '') <> ''")
    _read(where, "SELECT id, v FROM t WHERE v > w")
    _read(where, "SELECT id, v FROM t WHERE true")
    _read(where, "SELECT id, v FROM t WHERE (id, v) = (1, 10)")
    _read(where, "SELECT id, v FROM t WHERE s IS DISTINCT FROM 'b'", None)
    _read(where, "SELECT id, v FROM t WHERE v > ALL (ARRAY[1, 2])", None)
    _read(where, "SELECT id, v FROM t WHERE CASE WHEN w = 1 THEN v < 15 ELSE v > 45 END")
    _read(where, "SELECT id, v FROM t WHERE s = 'a' COLLATE \"C\"", "SELECT id, v FROM t WHERE s = 'A' COLLATE NOCASE")
    _read(where, "SELECT id, v FROM t WHERE w = 1 AND (v > 15 OR s = 'a')")

    limit = "LIMIT and the first row"
    _read(limit, "SELECT id, v FROM t WHERE w = 1 LIMIT 9")
    _read(limit, "SELECT id, v FROM t ORDER BY v LIMIT 1", name="SELECT id, v FROM t ORDER BY v LIMIT 1 -- .first()")
    _read(limit, "SELECT id, v FROM t WHERE id = 1 LIMIT 1")
    _read(limit, "SELECT id, v FROM t ORDER BY id LIMIT 2 OFFSET 0")
    _read(limit, "SELECT id, v FROM t ORDER BY id LIMIT %s OFFSET %s", parameters=(2, 0))
    _read(limit, "SELECT id, v FROM t ORDER BY id FETCH FIRST 2 ROWS ONLY", None)
    _read(limit, "SELECT v FROM t ORDER BY v LIMIT 1", name="SELECT v FROM t ORDER BY v LIMIT 1 -- without its key")
    _read(limit, "SELECT 1 AS a FROM t WHERE id = 1 LIMIT 1", touch="DELETE FROM t WHERE id = 1")
    _read(limit, "SELECT (1) AS a FROM t WHERE v = 10 LIMIT 1", name="SELECT (1) AS a FROM t WHERE v = 10 LIMIT 1 -- .exists()")
    _read(limit, "SELECT EXISTS (SELECT 1 FROM t WHERE v = 10)")
    _read(limit, "SELECT id, v FROM t ORDER BY random() LIMIT 5", touch="DELETE FROM t WHERE id = 1")

    shown = "what is shown"
    _read(shown, "SELECT DISTINCT id, v FROM t")
    _read(shown, "SELECT DISTINCT v FROM t WHERE w = 1")
    _read(shown, "SELECT DISTINCT ON (w) w, id, v FROM t ORDER BY w, id", None)
    _read(shown, "SELECT id, v + 1 FROM t WHERE id = 1")
    _read(shown, "SELECT v * 2 FROM t WHERE id = 1")
    _read(shown, "SELECT id, CASE WHEN v > 10 THEN 'more' ELSE 'less' END FROM t")
    _read(shown, "SELECT id, v, coalesce(s, '-') FROM t")
    _read(shown, "SELECT id, v, upper(s) || 'x' FROM t")
    _read(shown, "SELECT id::text, v FROM t WHERE id = 1", "SELECT CAST(id AS text), v FROM t WHERE id = 1")
    _read(shown, "SELECT *, v AS again FROM t WHERE id = 1")
    _read(shown, "SELECT row_to_json(t) FROM t", None)
    _read(shown, "SELECT id, v, now() FROM t", "SELECT id, v, datetime() FROM t")
    _read(shown, "SELECT id, v, row_number() OVER (ORDER BY v) FROM t")
    _read(shown, "SELECT id, w, sum(v) OVER (PARTITION BY w) FROM t")

    counts = "aggregates"
    _read(counts, "SELECT count(*) FROM t WHERE v = 10")
    _read(counts, "SELECT count(*) FROM t WHERE v = 10 OR v = 20")
    _read(counts, "SELECT count(id) FROM t WHERE v = 10")
    _read(counts, "SELECT count(DISTINCT v) FROM t", touch="UPDATE t SET v = 20 WHERE id = 1")
    _read(counts, "SELECT sum(v) FROM t")
    _read(counts, "SELECT max(v), min(v) FROM t")
    _read(counts, "SELECT avg(v) FROM t")
    _read(counts, "SELECT w, count(*) FROM t GROUP BY w", touch="DELETE FROM t WHERE id = 1")
    _read(counts, "SELECT w, sum(v) FROM t GROUP BY w HAVING sum(v) > 10")
    _read(counts, "SELECT id, v FROM t GROUP BY id, v")
    _read(counts, "SELECT id, v, count(*) FROM t GROUP BY ROLLUP (id, v)", None)
    _read(counts, "SELECT string_agg(s, ',' ORDER BY id) FROM t", "SELECT group_concat(s) FROM t", touch="UPDATE t SET s = 'q' WHERE id = 1")
    _read(counts, "SELECT count(*) FILTER (WHERE v > 10) FROM t")

    joins = "several tables"
    _read(joins, "SELECT t.id, t.v, u.id, u.n FROM t JOIN u ON u.t_id = t.id")
    _read(joins, "SELECT a.*, b.* FROM t a INNER JOIN u b ON b.t_id = a.id WHERE a.w = 1 ORDER BY b.id LIMIT 2")
    _read(joins, "SELECT t.id, t.v, u.id FROM t LEFT JOIN u ON u.t_id = t.id")
    _read(joins, "SELECT t.id, t.v, u.id FROM u RIGHT JOIN t ON u.t_id = t.id")
    _read(joins, "SELECT t.id, t.v, u.id FROM t FULL JOIN u ON u.t_id = t.id")
    _read(joins, "SELECT t.id, v, n FROM t, u WHERE u.t_id = t.id")
    _read(joins, "SELECT t.v, u.n FROM t JOIN u ON u.t_id = t.id", name="SELECT t.v, u.n FROM t JOIN u ON .. -- without keys")
    _read(joins, "SELECT id, v, n FROM t JOIN u USING (id)")
    _read(joins, "SELECT id, v, n FROM t NATURAL JOIN u")
    _read(joins, "SELECT a.id, a.v, b.id, b.v FROM t a JOIN t b ON a.w = b.w AND a.id < b.id")
    _read(joins, "SELECT t.id, t.v, x.n FROM t CROSS JOIN LATERAL (SELECT n FROM u WHERE u.t_id = t.id ORDER BY n LIMIT 1) x", None)
    _read(joins, "SELECT t.id, t.v, g FROM t CROSS JOIN generate_series(1, 2) AS g", None)
    _read(joins, "SELECT t.id, t.v, x.n FROM t JOIN unrecorded x ON x.t_id = t.id")
    _read(joins, "SELECT DISTINCT t.id, t.v FROM t JOIN u ON u.t_id = t.id")
    _read(joins, "SELECT t.id, t.v, count(u.id) FROM t LEFT JOIN u ON u.t_id = t.id GROUP BY t.id, t.v")
    _read(joins, "SELECT id, v FROM seen", name="SELECT id, v FROM seen -- a view")

    subs = "subqueries and WITH"
    _read(subs, "SELECT id, v FROM t WHERE id IN (SELECT t_id FROM u)")
    _read(subs, "SELECT id, v FROM t WHERE EXISTS (SELECT 1 FROM u WHERE u.t_id = t.id)")
    _read(subs, "SELECT id, v FROM t WHERE NOT EXISTS (SELECT 1 FROM u WHERE u.t_id = t.id)", touch="UPDATE t SET v = v + 1 WHERE id = 4")
    _read(subs, "SELECT id, v, (SELECT sum(n) FROM u WHERE u.t_id = t.id) FROM t")
    _read(subs, "SELECT id, v FROM t WHERE v = (SELECT min(v) FROM t)")
    _read(subs, "SELECT id, v FROM (SELECT id, v FROM t WHERE w = 1) x")
    _read(subs, "WITH c AS (SELECT id, v FROM t WHERE w = 1) SELECT id, v FROM c")
    _read(subs, "WITH c AS (SELECT id, v FROM t) SELECT a.id, b.v FROM c a JOIN c b ON b.id = a.id + 1", touch="UPDATE t SET v = v + 1 WHERE id = 2")
    _read(subs, "WITH c AS (SELECT t_id FROM u) SELECT id, v FROM t WHERE id IN (SELECT t_id FROM c)")
    _read(subs, "WITH RECURSIVE c(id, v) AS (SELECT id, v FROM t WHERE id = 1 UNION ALL SELECT t.id, t.v FROM t JOIN c ON t.id = c.id + 1) SELECT id, v FROM c")
    _read(subs, "SELECT id, v FROM t WHERE w = 1 UNION SELECT id, n FROM u")
    _read(subs, "SELECT id, v FROM t UNION ALL SELECT id, n FROM u")
    _read(subs, "SELECT v FROM t EXCEPT SELECT n FROM u")
    _read(subs, "SELECT v FROM t INTERSECT SELECT v FROM t WHERE w = 1")

    other = "other reads"
    _read(other, "EXPLAIN SELECT * FROM t", "EXPLAIN QUERY PLAN SELECT * FROM t", touch=None)
    _read(other, "VALUES (1, 2)", touch=None)
    _read(other, "SELECT 1", touch=None)
    _read(other, _named_cursor, None, name="a cursor on the server: connection.cursor('name')")
    _read(other, _declared_cursor, None, name="DECLARE c CURSOR FOR SELECT ..; FETCH ALL FROM c")
    _read(other, _copy_to, None, name="COPY t TO STDOUT")


def _named_cursor(cursor: Any) -> Any:
    named = cursor.connection.cursor("seen")
    named.execute("SELECT id, v FROM t WHERE v > 0 ORDER BY id")
    rows = named.fetchmany(2) + list(named)
    named.close()
    return rows


def _declared_cursor(cursor: Any) -> Any:
    cursor.execute("DECLARE c CURSOR FOR SELECT id, v FROM t ORDER BY id")
    cursor.execute("FETCH ALL FROM c")
    rows = cursor.fetchall()
    cursor.execute("CLOSE c")
    return rows


def _copy_to(cursor: Any) -> Any:
    import io

    file = io.StringIO()
    cursor.copy_expert("COPY t TO STDOUT", file)
    return file.getvalue()


def _inserts() -> None:
    one = "INSERT"
    _form(one, "INSERT INTO t VALUES (9, 90, 4, 'i')")
    _form(one, "INSERT INTO t (w, id) VALUES (4, 9)")
    _form(one, "INSERT INTO t (id, v) VALUES (%s, %s)", parameters=(9, 90))
    _form(one, "INSERT INTO t (id, v) VALUES (8, 80), (9, 90)")
    _form(one, "INSERT INTO t (id, v) VALUES (9, 90) RETURNING id")
    _form(one, "INSERT INTO t (id, v) VALUES (9, 90) RETURNING id, v * 2")
    _form(one, "INSERT INTO p (v) VALUES (3)", name="INSERT INTO p (v) VALUES (3) -- its key is a sequence's")
    _form(one, "INSERT INTO p (v) VALUES (3), (4)", name="INSERT INTO p (v) VALUES (3), (4) -- keys of a sequence")
    _form(one, "INSERT INTO p (v) VALUES (3) RETURNING id")
    _form(one, "INSERT INTO p (v, s) VALUES (DEFAULT, 'x')", None)
    _form(one, "INSERT INTO p DEFAULT VALUES")
    _form(one, "INSERT INTO t (id, v) VALUES (9, 1 + 2)")
    _form(one, "INSERT INTO t (id, s) VALUES (9, lower('A'))")
    _form(one, "INSERT INTO t (id, s) VALUES (9, CAST(now() AS text))", "INSERT INTO t (id, s) VALUES (9, datetime())")
    _form(one, "INSERT INTO p (id, v) VALUES (nextval('p_id_seq'), 1)", None)
    _form(one, "INSERT INTO t (id, v) VALUES (9, (SELECT max(n) FROM u))", touch="UPDATE u SET n = 99 WHERE id = 1")
    _form(one, "INSERT INTO t (id, v) SELECT id + 100, n FROM u", touch="UPDATE u SET n = 99 WHERE id = 1")
    _form(one, "INSERT INTO t SELECT id + 100, n, 1, 'x' FROM u", touch="UPDATE u SET n = 99 WHERE id = 1")
    _form(one, "INSERT INTO t (id, v) SELECT 9, 90 WHERE NOT EXISTS (SELECT 1 FROM u WHERE n = 50)", touch="UPDATE u SET n = 50 WHERE id = 1")
    _form(one, "INSERT INTO p (v) SELECT n FROM u WHERE n > 5", touch="UPDATE u SET n = 99 WHERE id = 1")
    _form(one, "WITH c AS (SELECT id, n FROM u) INSERT INTO t (id, v) SELECT id + 100, n FROM c", touch="UPDATE u SET n = 99 WHERE id = 1")
    _form(one, "INSERT INTO t (id, v) SELECT x, x FROM unnest(ARRAY[8, 9]) AS a(x)", None)
    _form(one, "INSERT INTO unrecorded VALUES (9, 9, 9)", name="INSERT INTO another table")
    _form(one, "INSERT INTO t (id, v) VALUES (%s, %s)", name="executemany: INSERT", parameters=[(8, 80), (9, 90)], many=True)
    _form(one, "INSERT INTO p (v) VALUES (%s)", name="executemany: INSERT of keys of a sequence", parameters=[(3,), (4,)], many=True)
    _form(one, _execute_values, None, name="psycopg2.extras.execute_values")
    _form(one, _execute_values_serial, None, name="psycopg2.extras.execute_values -- keys of a sequence")
    _form(one, _execute_batch, None, name="psycopg2.extras.execute_batch: INSERT")
    _form(one, _copy_from, None, name="COPY t FROM STDIN")

    put = "ON CONFLICT"
    _form(put, "INSERT INTO t (id, v) VALUES (1, 11) ON CONFLICT DO NOTHING", touch="DELETE FROM t WHERE id = 1", name="INSERT .. ON CONFLICT DO NOTHING -- left")
    _form(put, "INSERT INTO t (id, v) VALUES (9, 11) ON CONFLICT DO NOTHING", name="INSERT .. ON CONFLICT DO NOTHING -- put")
    _form(put, "INSERT INTO t (id, v) VALUES (1, 11), (9, 90) ON CONFLICT (id) DO NOTHING")
    _form(put, "INSERT INTO t (id, v) VALUES (1, 11) ON CONFLICT (id) DO UPDATE SET v = excluded.v")
    _form(put, "INSERT INTO t (id, v) VALUES (9, 11) ON CONFLICT (id) DO UPDATE SET v = excluded.v", name="INSERT .. ON CONFLICT (id) DO UPDATE -- put")
    _form(put, "INSERT INTO t (id, v) VALUES (%s, %s) ON CONFLICT (id) DO UPDATE SET v = EXCLUDED.v RETURNING id", parameters=(1, 11))
    _form(put, "INSERT INTO t (id, v) VALUES (8, 80), (2, 21), (9, 90), (1, 11) ON CONFLICT (id) DO UPDATE SET v = excluded.v")
    _form(put, "INSERT INTO t (id, v) VALUES (1, 1) ON CONFLICT (id) DO UPDATE SET v = t.v + 1")
    _form(put, "INSERT INTO t AS x (id, v) VALUES (1, 5) ON CONFLICT (id) DO UPDATE SET v = x.v + excluded.v")
    _form(put, "INSERT INTO t (id, v) VALUES (1, 5) ON CONFLICT (id) DO UPDATE SET v = t.v * 2")
    _form(put, "INSERT INTO t (id, v) VALUES (1, 5) ON CONFLICT (id) DO UPDATE SET v = excluded.v WHERE t.v < 5", name="INSERT .. ON CONFLICT (id) DO UPDATE .. WHERE .. -- left")
    _form(put, "INSERT INTO t (id, v) VALUES (1, 5) ON CONFLICT (id) DO UPDATE SET v = excluded.v WHERE t.v < 50")
    _form(put, "INSERT INTO t (id, v) VALUES (1, 5) ON CONFLICT ON CONSTRAINT t_pkey DO UPDATE SET v = 5", None)
    _form(put, "INSERT INTO t (id, v) SELECT t_id, sum(n) FROM u GROUP BY t_id ON CONFLICT (id) DO UPDATE SET v = excluded.v", "INSERT INTO t (id, v) SELECT t_id, sum(n) FROM u WHERE true GROUP BY t_id ON CONFLICT (id) DO UPDATE SET v = excluded.v", touch="UPDATE u SET n = 99 WHERE id = 1")
    _form(put, "INSERT INTO t (id, v) VALUES (%s, %s) ON CONFLICT (id) DO UPDATE SET v = excluded.v", name="executemany: INSERT .. ON CONFLICT DO UPDATE", parameters=[(1, 11), (9, 90)], many=True)
    _form(put, "", "INSERT OR REPLACE INTO t (id, v) VALUES (1, 11)")
    _form(put, "", "REPLACE INTO t (id, v) VALUES (9, 11)")
    _form(put, "", "INSERT OR IGNORE INTO t (id, v) VALUES (1, 11)")
    _form(put, "", "INSERT OR IGNORE INTO t (id, v) VALUES (9, 11)")
    _form(put, "MERGE INTO t USING u ON u.id = t.id WHEN MATCHED THEN UPDATE SET v = u.n WHEN NOT MATCHED THEN INSERT (id, v) VALUES (u.id, u.n)", None, touch="INSERT INTO u VALUES (0, 1, 5)")


def _execute_values(cursor: Any) -> None:
    from psycopg2.extras import execute_values

    execute_values(cursor, "INSERT INTO t (id, v) VALUES %s", [(7, 70), (8, 80), (9, 90)], page_size=2)


def _execute_values_serial(cursor: Any) -> None:
    from psycopg2.extras import execute_values

    execute_values(cursor, "INSERT INTO p (v) VALUES %s", [(3,), (4,), (5,)], page_size=2)


def _execute_batch(cursor: Any) -> None:
    from psycopg2.extras import execute_batch

    execute_batch(cursor, "INSERT INTO t (id, v) VALUES (%s, %s)", [(7, 70), (8, 80), (9, 90)], page_size=2)


def _update_batch(cursor: Any) -> None:
    from psycopg2.extras import execute_batch

    execute_batch(cursor, "UPDATE t SET v = %s WHERE id = %s", [(11, 1), (21, 2), (31, 3)])


def _copy_from(cursor: Any) -> None:
    import io

    cursor.copy_expert("COPY t (id, v) FROM STDIN", io.StringIO("8\t80\n9\t90\n"))


def _changes() -> None:
    change = "UPDATE"
    n = "UPDATE u SET n = n + 1 WHERE id = 1"
    _form(change, "UPDATE t SET v = 5 WHERE id = 1")
    _form(change, "UPDATE t SET v = %s, s = %s WHERE id = %s", parameters=(5, "x", 1))
    _form(change, "UPDATE t SET v = v + 1 WHERE id = 1")
    _form(change, "UPDATE t SET v = v - %s WHERE id = %s", parameters=(3, 1))
    _form(change, "UPDATE t SET v = w", touch=OTHER)
    _form(change, "UPDATE t SET v = 5 WHERE w = 1 AND v < 15", touch=NEW)
    _form(change, "UPDATE t SET v = 5, w = w + 1 WHERE id = 1 AND w = 1", name="UPDATE t SET v = 5, w = w + 1 WHERE id = 1 AND w = 1 -- a version")
    _form(change, "UPDATE ONLY t SET v = 5 WHERE id = 1", None)
    _form(change, "UPDATE t SET v = NULL WHERE id = 1")
    _form(change, "UPDATE t SET v = v * 2 WHERE id = 1", name="UPDATE t SET v = v * 2 WHERE id = 1 -- F() * n")
    _form(change, "UPDATE t SET v = -v WHERE id = 1")
    _form(change, "UPDATE t SET v = v + w WHERE id = 1")
    _form(change, "UPDATE t SET v = coalesce(v, 0) + 1 WHERE id = 1")
    _form(change, "UPDATE t SET v = greatest(v, 15) WHERE id = 1", "UPDATE t SET v = max(v, 15) WHERE id = 1")
    _form(change, "UPDATE t SET s = s || 'x' WHERE id = 1")
    _form(change, "UPDATE t SET s = upper(s) WHERE w = 1", touch=NEW)
    _form(change, "UPDATE t SET s = CAST(now() AS text) WHERE id = 1", "UPDATE t SET s = datetime() WHERE id = 1")
    _form(change, "UPDATE t SET v = CASE WHEN id = 1 THEN 11 WHEN id = 2 THEN 21 END WHERE id IN (1, 2)", name="UPDATE t SET v = CASE WHEN id = 1 THEN .. END WHERE id IN (1, 2) -- bulk_update")
    _form(change, "UPDATE t SET v = CASE WHEN v > 15 THEN 0 ELSE 1 END WHERE w = 1", touch=MOVED)
    _form(change, "UPDATE t SET (v, w) = (1, 2) WHERE id = 1")
    _form(change, "UPDATE t SET (v, w) = (SELECT n, t_id FROM u WHERE id = 1) WHERE id = 1", touch=n)
    _form(change, "UPDATE p SET v = DEFAULT WHERE id = 2", None)
    _form(change, "UPDATE t SET v = (SELECT sum(n) FROM u) WHERE id = 1", touch=n)
    _form(change, "UPDATE t SET v = 5 WHERE id = 1 OR w = 2", touch=OTHER)
    _form(change, "UPDATE t SET v = v + 1 WHERE w = 1 AND (v > 15 OR s = 'a')", touch=MOVED)
    _form(change, "UPDATE t SET v = 5 WHERE NOT (w = 1)", touch=OTHER)
    _form(change, "UPDATE t SET v = 5 WHERE w IN (1, 2)", touch=NEW)
    _form(change, "UPDATE t SET v = 5 WHERE id IN (1, 2)")
    _form(change, "UPDATE t SET v = 5 WHERE id IN (1, 99)", name="UPDATE t SET v = 5 WHERE id IN (1, 99) -- not all there")
    _form(change, "UPDATE t SET v = v + 1 WHERE id = ANY (%s)", None, parameters=([1, 99],))
    _form(change, "UPDATE t SET v = 5 WHERE s LIKE 'a%'", touch=OTHER)
    _form(change, "UPDATE t SET v = 5 WHERE v + 1 = 11", touch=TEN)
    _form(change, "UPDATE t SET v = 5 WHERE lower(s) = 'a'", touch=OTHER)
    _form(change, "UPDATE t SET v = 5 WHERE id IN (SELECT t_id FROM u)", touch="UPDATE u SET t_id = 3 WHERE id = 3")
    _form(change, "UPDATE t SET v = 5 WHERE EXISTS (SELECT 1 FROM u WHERE u.t_id = t.id AND u.n < 7)", touch="UPDATE u SET n = 6 WHERE id = 3")
    _form(change, "UPDATE t SET v = 5 WHERE v = (SELECT min(v) FROM t) AND id = 1", touch=NEW)
    _form(change, "UPDATE t SET v = u.n FROM u WHERE u.t_id = t.id AND u.id > 1", touch="UPDATE u SET n = 99 WHERE id = 3")
    _form(change, "UPDATE t AS a SET v = a.v + u.n FROM u WHERE u.id = a.id", "UPDATE t SET v = t.v + u.n FROM u WHERE u.id = t.id", touch=n)
    _form(change, "UPDATE t SET v = d.v FROM (VALUES (1, 11), (2, 21)) AS d(id, v) WHERE d.id = t.id", "UPDATE t SET v = d.column2 FROM (VALUES (1, 11), (2, 21)) AS d WHERE d.column1 = t.id")
    _form(change, "WITH c AS (SELECT t_id FROM u WHERE n > 6) UPDATE t SET v = 5 WHERE id IN (SELECT t_id FROM c)", touch="UPDATE u SET n = 9 WHERE id = 1")
    _form(change, "UPDATE t SET w = 9 WHERE id = (SELECT id FROM t WHERE w = 1 ORDER BY id LIMIT 1 FOR UPDATE SKIP LOCKED) RETURNING id, v", "UPDATE t SET w = 9 WHERE id = (SELECT id FROM t WHERE w = 1 ORDER BY id LIMIT 1) RETURNING id, v", name="UPDATE t SET .. WHERE id = (SELECT id .. LIMIT 1 FOR UPDATE SKIP LOCKED) RETURNING id, v -- a queue", touch=NEW)
    _form(change, "UPDATE t SET v = 5 WHERE id = 1 RETURNING id, v")
    _form(change, "UPDATE t SET v = 5 WHERE v = 10 RETURNING id", touch=TEN)
    _form(change, "UPDATE t SET v = v * 2 WHERE id = 1 RETURNING v * 3")
    _form(change, "UPDATE t SET v = 5 WHERE id = 1 OR v = 20 RETURNING id, v, w", touch=OTHER)
    _form(change, "UPDATE t SET id = 100 WHERE id = 1", name="UPDATE t SET id = 100 WHERE id = 1 -- its key")
    _form(change, "UPDATE t SET id = id + 100", name="UPDATE t SET id = id + 100 -- its key", touch=NEW)
    _form(change, "UPDATE t SET id = 1, v = 5 WHERE id = 1")
    _form(change, "UPDATE t SET v = 5 WHERE id = 1 OR id = 77 AND s = 'none'", name="UPDATE .. WHERE .. OR .. AND ..")
    _form(change, "UPDATE t SET v = v * 2 WHERE id = %s", name="executemany: UPDATE t SET v = v * 2", parameters=[(1,), (2,)], many=True)
    _form(change, _update_batch, None, name="psycopg2.extras.execute_batch: UPDATE")
    _form(change, _current_of, None, name="UPDATE t SET v = 5 WHERE CURRENT OF c", touch=NEW)

    delete = "DELETE"
    _form(delete, "DELETE FROM t WHERE id = 1")
    _form(delete, "DELETE FROM t", touch=NEW)
    _form(delete, "DELETE FROM t WHERE w = 1 AND v > 10", touch=MOVED)
    _form(delete, "DELETE FROM t WHERE id = 1 OR v = 20", touch=OTHER)
    _form(delete, "DELETE FROM t WHERE NOT (w = 1)", touch=OTHER)
    _form(delete, "DELETE FROM t WHERE id IN (1, 2)")
    _form(delete, "DELETE FROM t WHERE id IN (1, 99)")
    _form(delete, "DELETE FROM t WHERE w IN (1, 2)", touch=NEW)
    _form(delete, "DELETE FROM t WHERE id IN (SELECT t_id FROM u)", touch="UPDATE u SET t_id = 3 WHERE id = 3")
    _form(delete, "DELETE FROM t WHERE NOT EXISTS (SELECT 1 FROM u WHERE u.t_id = t.id)", touch="UPDATE u SET t_id = 3 WHERE id = 3")
    _form(delete, "DELETE FROM t USING u WHERE u.t_id = t.id AND u.n = 5", None, touch="UPDATE u SET n = 5 WHERE id = 3")
    _form(delete, "DELETE FROM t WHERE id = (SELECT min(t_id) FROM u)", touch="UPDATE u SET t_id = 0")
    _form(delete, "WITH c AS (SELECT t_id FROM u WHERE n = 5) DELETE FROM t WHERE id IN (SELECT t_id FROM c)", touch="UPDATE u SET n = 5 WHERE id = 3")
    _form(delete, "DELETE FROM t WHERE w = 1 RETURNING id, v", touch=NEW)
    _form(delete, "DELETE FROM t WHERE w = 1 RETURNING v + 1", touch=NEW)
    _form(delete, "DELETE FROM t WHERE id = 1 OR v = 20 RETURNING *", touch=OTHER)
    _form(delete, "WITH d AS (DELETE FROM t WHERE w = 1 RETURNING id, v) SELECT * FROM d", None, touch=NEW)
    _form(delete, "WITH d AS (UPDATE t SET v = v * 2 WHERE w = 1 RETURNING v) SELECT * FROM d", None, touch=NEW)
    _form(delete, "WITH d AS (DELETE FROM t WHERE w = 1 RETURNING id, v) INSERT INTO u (id, n) SELECT id + 100, v FROM d", None, touch=NEW)
    _form(delete, "TRUNCATE t", None, touch=None)


def _current_of(cursor: Any) -> None:
    cursor.execute("DECLARE c CURSOR FOR SELECT id FROM t ORDER BY id FOR UPDATE")
    cursor.execute("FETCH 1 FROM c")
    cursor.fetchall()
    cursor.execute("UPDATE t SET v = 5 WHERE CURRENT OF c")


def _prepared(cursor: Any) -> None:
    cursor.execute("PREPARE change (bigint) AS UPDATE t SET v = $1 WHERE id = 1")
    cursor.execute("EXECUTE change (5)")
    cursor.execute("DEALLOCATE change")


def _prepared_read(cursor: Any) -> Any:
    cursor.execute("PREPARE look (bigint) AS SELECT id, v FROM t WHERE id = $1")
    cursor.execute("EXECUTE look (1)")
    rows = cursor.fetchall()
    cursor.execute("DEALLOCATE look")
    return rows


def _temporary(cursor: Any) -> None:
    cursor.execute("CREATE TEMP TABLE chosen (id bigint)" + _on_commit(cursor))
    cursor.execute("INSERT INTO chosen SELECT id FROM t WHERE w = 1")
    cursor.execute("UPDATE t SET v = 5 WHERE id IN (SELECT id FROM chosen)")
    cursor.execute("DROP TABLE chosen")


def _script(cursor: Any) -> None:
    cursor.executescript("UPDATE t SET v = 5 WHERE id = 1; UPDATE t SET v = 6 WHERE id = 2")


def _on_commit(cursor: Any) -> str:
    return "" if "sqlite" in type(cursor.wrapped if hasattr(cursor, "wrapped") else cursor).__module__ else " ON COMMIT DROP"


def _savepoint(cursor: Any) -> None:
    cursor.execute("UPDATE t SET v = 5 WHERE id = 1")
    cursor.execute("SAVEPOINT a")
    cursor.execute("UPDATE t SET v = 6 WHERE id = 1 OR id = 2")
    cursor.execute("ROLLBACK TO a")
    cursor.execute("UPDATE t SET v = v * 3 WHERE id = 1")
    cursor.execute("RELEASE a")


def _others() -> None:
    other = "several statements, and other commands"
    _form(other, "UPDATE t SET v = 5 WHERE id = 1; UPDATE t SET v = 6 WHERE id = 2", None)
    _form(other, "UPDATE t SET v = v * 2 WHERE id = 1; SELECT id, v FROM t WHERE id = 2", None)
    _form(other, _prepared, None, name="PREPARE change AS UPDATE ..; EXECUTE change (5)")
    _read(other, _prepared_read, None, name="PREPARE look AS SELECT ..; EXECUTE look (1)")
    _form(other, _temporary, name="CREATE TEMP TABLE chosen ..; INSERT INTO chosen SELECT ..; UPDATE t .. IN (SELECT id FROM chosen)", touch=NEW)
    _form(other, "CREATE TEMP TABLE chosen ON COMMIT DROP AS SELECT id, v FROM t", "CREATE TEMP TABLE chosen AS SELECT id, v FROM t", touch=None)
    _form(other, "CREATE TABLE made AS SELECT id, v FROM t", touch=None)
    _form(other, _savepoint, name="SAVEPOINT a; UPDATE ..; ROLLBACK TO a; UPDATE ..; RELEASE a")
    _form(other, "DO $$BEGIN UPDATE t SET v = 5 WHERE id = 1; END$$", None)
    _form(other, "SELECT writes(1)", None, name="SELECT a function that writes", before=(
        "CREATE OR REPLACE FUNCTION writes(k bigint) RETURNS bigint LANGUAGE sql AS 'UPDATE t SET v = 5 WHERE id = k; SELECT 1::bigint'",))
    _form(other, "LOCK TABLE t IN SHARE ROW EXCLUSIVE MODE", None)
    _form(other, "SHOW search_path", "PRAGMA foreign_keys")
    _form(other, "SET LOCAL statement_timeout = 10000", None)
    _form(other, "ALTER TABLE t ADD COLUMN more bigint", is_planted=False)
    _form(other, "CREATE INDEX more ON t (v)")
    _form(other, "", _script, name="executescript")


def _kind(told: str, declared: str, first: str, second: str, before: Sequence[str] = (), sqlite: Optional[str] = None) -> None:
    """A column of a kind: it is written, and read."""
    made = (*before, f"CREATE TABLE k (id bigint PRIMARY KEY, c {declared})", f"INSERT INTO k VALUES (1, {first})")
    FORMS.append(Form(
        "columns and tables", f"a column of {told}", f"UPDATE k SET c = {second} WHERE id = 1",
        f"UPDATE k SET c = {second} WHERE id = 1" if sqlite else None, before=made, tables=(*RECORDED, "k"),
    ))  # fmt: skip


def _table(told: str, does: Does, *made: str, sqlite: bool = False, tables: Sequence[str] = (), touch: Optional[str] = None) -> None:
    """A table of a shape."""
    FORMS.append(Form(
        "columns and tables", told, does, does if sqlite else None, before=made, tables=(*RECORDED, *(tables or ("k",))), touch=touch,
    ))  # fmt: skip


_CHANGED = (
    "CREATE TABLE k (id bigint PRIMARY KEY, v bigint, changed timestamptz)", "INSERT INTO k VALUES (1, 3)",
    "CREATE OR REPLACE FUNCTION more() RETURNS trigger LANGUAGE plpgsql AS 'BEGIN NEW.changed := now(); RETURN NEW; END'",
    "CREATE TRIGGER more BEFORE INSERT OR UPDATE ON k FOR EACH ROW EXECUTE FUNCTION more()",
)  # fmt: skip


def _kinds() -> None:
    both = "both"
    _kind("boolean", "boolean", "false", "true", sqlite=both)
    _kind("timestamptz", "timestamptz", "'2020-01-01 00:00:00+00'", "now()")
    _kind("timestamp", "timestamp", "'2020-01-01'", "'2021-02-03 04:05:06.789'", sqlite=both)
    _kind("date", "date", "'2020-01-01'", "'2021-02-03'", sqlite=both)
    _kind("time", "time", "'01:02'", "'03:04:05'", sqlite=both)
    _kind("interval", "interval", "'1 day'", "'2 days'")
    _kind("numeric", "numeric(12, 2)", "1.50", "2.5", sqlite=both)
    _kind("real", "real", "1.5", "2.5", sqlite=both)
    _kind("double precision", "double precision", "1.5", "2.5", sqlite=both)
    _kind("uuid", "uuid", "'a0eebc99-9c0b-4ef8-bb6d-6bb9bd380a11'", "'b0eebc99-9c0b-4ef8-bb6d-6bb9bd380a11'")
    _kind("json", "json", "'{\"a\": 1}'", "'[2]'")
    _kind("jsonb", "jsonb", "'{\"a\": 1}'", "'[2]'")
    _kind("bigint[]", "bigint[]", "'{1,2}'", "'{3}'")
    _kind("text[]", "text[]", "'{a,b}'", "'{c}'")
    _kind("an enum", "mood", "'sad'", "'glad'", before=("DROP TYPE IF EXISTS mood CASCADE", "CREATE TYPE mood AS ENUM ('sad', 'glad')"))
    _kind("inet", "inet", "'10.0.0.1'", "'10.0.0.2'")
    _kind("char(n)", "char(4)", "'a'", "'b'", sqlite=both)
    _kind("varchar(n)", "varchar(4)", "'a'", "'b'", sqlite=both)
    _kind("bytea", "bytea", "'\\x00'", "'\\x01'")
    _kind("a domain", "positive", "1", "2", before=("DROP DOMAIN IF EXISTS positive CASCADE", "CREATE DOMAIN positive AS bigint CHECK (VALUE > 0)"))
    _kind("smallint", "smallint", "1", "2", sqlite=both)
    pair = "CREATE TABLE k (a bigint, b bigint, v bigint, PRIMARY KEY (a, b))"
    _table("a key of two columns", "UPDATE k SET v = 5 WHERE a = 1 AND b = 2", pair, "INSERT INTO k VALUES (1, 2, 3)", sqlite=True)
    _table("no primary key, a unique column", "UPDATE k SET v = 5 WHERE a = 1", "CREATE TABLE k (a bigint NOT NULL UNIQUE, v bigint)", "INSERT INTO k VALUES (1, 3)", sqlite=True)
    _table("no key at all", "UPDATE k SET v = 5 WHERE a = 1", "CREATE TABLE k (a bigint, v bigint)", "INSERT INTO k VALUES (1, 3)", sqlite=True)
    many = ", ".join(f"c{number} bigint" for number in range(40))
    _table("more than 32 columns", "UPDATE k SET c1 = 5 WHERE id = 1", f"CREATE TABLE k (id bigint PRIMARY KEY, {many})", "INSERT INTO k (id, c1) VALUES (1, 3)", sqlite=True)
    _table(
        "a trigger", "UPDATE k SET v = 5 WHERE id = 1", "CREATE TABLE k (id bigint PRIMARY KEY, v bigint)", "INSERT INTO k VALUES (1, 3)",
        "CREATE OR REPLACE FUNCTION more() RETURNS trigger LANGUAGE plpgsql AS 'BEGIN NEW.v = NEW.v + 1; RETURN NEW; END'",
        "CREATE TRIGGER more BEFORE UPDATE ON k FOR EACH ROW EXECUTE FUNCTION more()",
    )
    _table(
        "a trigger that tells when a row was changed: UPDATE", "UPDATE k SET v = v + 1 WHERE id = 1", *_CHANGED, touch=None,
    )
    _table("a trigger that tells when a row was changed: INSERT", "INSERT INTO k (id, v) VALUES (2, 5)", *_CHANGED)
    _table(
        "a trigger that writes another table", "UPDATE k SET v = 5 WHERE id = 1", "CREATE TABLE k (id bigint PRIMARY KEY, v bigint)", "INSERT INTO k VALUES (1, 3)",
        "CREATE OR REPLACE FUNCTION more() RETURNS trigger LANGUAGE plpgsql AS 'BEGIN UPDATE t SET v = 7 WHERE id = 1; RETURN NEW; END'",
        "CREATE TRIGGER more AFTER UPDATE ON k FOR EACH ROW EXECUTE FUNCTION more()",
    )
    _table(
        "a foreign key that cascades", "DELETE FROM k WHERE id = 1", "CREATE TABLE k (id bigint PRIMARY KEY, v bigint)",
        "CREATE TABLE child (id bigint PRIMARY KEY, k_id bigint REFERENCES k ON DELETE CASCADE)", "INSERT INTO k VALUES (1, 3)", "INSERT INTO child VALUES (5, 1)",
        sqlite=True, tables=("k", "child"),
    )
    _table(
        "partitions", "UPDATE k SET v = 5 WHERE id = 1", "CREATE TABLE k (id bigint PRIMARY KEY, v bigint) PARTITION BY HASH (id)",
        "CREATE TABLE k0 PARTITION OF k FOR VALUES WITH (MODULUS 2, REMAINDER 0)", "CREATE TABLE k1 PARTITION OF k FOR VALUES WITH (MODULUS 2, REMAINDER 1)",
        "INSERT INTO k VALUES (1, 3), (2, 4)",
    )
    _table(
        "a generated column", "UPDATE k SET v = 5 WHERE id = 1",
        "CREATE TABLE k (id bigint PRIMARY KEY, v bigint, twice bigint GENERATED ALWAYS AS (v * 2) STORED)", "INSERT INTO k (id, v) VALUES (1, 3)", sqlite=True,
    )
    _table("an identity column", "INSERT INTO k (v) VALUES (5)", "CREATE TABLE k (id bigint GENERATED BY DEFAULT AS IDENTITY PRIMARY KEY, v bigint)")
    _table("row security", "UPDATE k SET v = 5 WHERE id = 1", "CREATE TABLE k (id bigint PRIMARY KEY, v bigint)", "INSERT INTO k VALUES (1, 3)", "ALTER TABLE k ENABLE ROW LEVEL SECURITY")
    _table(
        "a rule", "UPDATE k SET v = 5 WHERE id = 1", "CREATE TABLE k (id bigint PRIMARY KEY, v bigint)", "INSERT INTO k VALUES (1, 3)",
        "CREATE RULE more AS ON UPDATE TO k DO ALSO UPDATE t SET v = 7 WHERE id = 1",
    )
    _table("a unique column beside the key: ON CONFLICT DO NOTHING", "INSERT INTO k VALUES (2, 3) ON CONFLICT DO NOTHING", "CREATE TABLE k (id bigint PRIMARY KEY, v bigint UNIQUE)", "INSERT INTO k VALUES (1, 3)", sqlite=True)


def _all() -> None:
    for part in (_reads, _inserts, _changes, _others, _kinds):
        part()


_all()
COUNTS: Dict[str, int] = {group: sum(form.group == group for form in FORMS) for group in dict.fromkeys(form.group for form in FORMS)}
