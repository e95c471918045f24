"""What pictures show, and graphs for graphviz, some of which are compared whole. docs/PROGRAM.md says what there must be."""

import re
import xml.etree.ElementTree as xml
from typing import Any, Callable, Iterator, List, Tuple

from tests.pictures import MOST, ROW, Picture, drawn, lines_of
from tests.program import Case

# What is looked at of a picture: its name, what came, and what was wanted.
Cases = Iterator[Tuple[str, Any, Any]]
TABLE = "CREATE TABLE t (id bigint PRIMARY KEY, v bigint);\n"
# Each of two reads what the other writes.
SKEW = """1 BEGIN;
2 BEGIN;
1 SELECT v FROM t WHERE id = 1;
2 SELECT v FROM t WHERE id = 2;
1 INSERT INTO t VALUES (2, 0);
2 INSERT INTO t VALUES (1, 0);
1 COMMIT;
2 COMMIT;
"""
# The same, which the other session has begun.
TURNED = "".join({"1": "2", "2": "1"}[line[0]] + line[1:] for line in SKEW.splitlines(keepends=True))
# What stands before it where it is behind a checkpoint.
BEFORE = TABLE + "3 BEGIN;\n3 INSERT INTO t VALUES (9, 9);\n3 COMMIT;\nCHECKPOINT;\n-- behind it\n"
SKEW_LETTERS = [(1, "B"), (2, "B"), (1, "r"), (2, "r"), (1, "w"), (2, "w"), (1, "C"), (2, "C", "refused")]


# ---- pictures


def skew(picture: Picture, script: str, first: int, numbers: Tuple[int, int], base: int) -> Cases:
    """What there is of a write skew whose lines begin at one, by transactions of these numbers; and what there must be."""
    one, two = numbers
    since = ", since its last checkpoint" if base else ""
    yield "sessions", picture.sessions(), [1, 2]
    yield "heading", picture.heading, f"Transactions of a script, in the order of its events{since}"
    yield "titles", picture.titles(), lines_of(script, first)
    yield "lines", picture.lines(), list(range(first, first + 8))
    yield "bars", picture.bars(), [("committed", f"transaction {one}: committed"), ("failed", f"transaction {two}: refused (40001)")]
    yield "names", picture.names(), [(f"T{one}", "1st"), (f"T{two}", None)]
    yield "arrows", picture.arrows(), [(one, two, "danger"), (two, one, "danger")]
    yield "labels", picture.labels(), ["t id = 1", "t id = 2"]
    yield "whys", picture.whys, [
        f"line {first + 7}: refused, since T{one} would come before T{two} and T{two} before T{one}, but T{one} committed first"]


def skews() -> Cases:
    """A write skew, the same where the other session begins, and both behind a checkpoint."""
    swapped: List[Tuple[Any, ...]] = [(3 - int(str(session)), *rest) for session, *rest in SKEW_LETTERS]
    for setup, first, numbers, base in (TABLE, 2, (1, 2), 0), (BEFORE, 7, (2, 3), 1):
        for script, letters in (SKEW, SKEW_LETTERS), (TURNED, swapped):
            picture = Picture(drawn(setup + script))
            yield "events", picture.events(), letters
            yield from skew(picture, setup + script, first, numbers, base)


def refused_checkpoint() -> Cases:
    """One that is refused takes nothing away."""
    script = TABLE + "1 BEGIN;\n1 INSERT INTO t VALUES (1, 1);\nCHECKPOINT;\n1 COMMIT;\n"
    picture = Picture(drawn(script))
    yield "events at a refused checkpoint", picture.events(), [(1, "B"), (1, "w"), (1, "C")]
    yield "titles at a refused checkpoint", picture.titles(), lines_of(script, 2)
    yield "heading at a refused checkpoint", picture.heading, "Transactions of a script, in the order of its events"


def many_events() -> Cases:
    """Of more events than are drawn the last ones, and the heading says so."""
    for events in MOST - 1, MOST, MOST + 1, MOST + 7:
        script = "".join([TABLE, *["1 BEGIN;\n", "1 COMMIT;\n"] * MOST][: events + 1])
        picture = Picture(drawn(script))
        left_out = max(events - MOST, 0)
        yield f"titles of {events} events", picture.titles(), lines_of(script, 2 + left_out)
        yield f"whether the heading of {events} events says so", f": the last {MOST} of {events} events" in picture.heading, left_out > 0
        yield f"any number in the heading of {events} events", bool(re.search(r"\d", picture.heading)), left_out > 0


# What is marked or told of its events stands before the last ones: a refusal, a safe snapshot that is exported, and a dump.
EARLY = TABLE + """1 BEGIN;
2 BEGIN;
1 INSERT INTO t VALUES (1, 1);
2 INSERT INTO t VALUES (1, 2);
2 ROLLBACK;
1 COMMIT;
3 BEGIN READ ONLY DEFERRABLE;
3 POLL;
3 EXPORT;
3 DUMP 1 1 gone/out;
3 COMMIT;
""" + "1 BEGIN;\n1 COMMIT;\n" * (MOST // 2)


# The same of a refusal whose two transactions last to the last events: its arrow is there, and neither bold nor told in words.
EARLY_REFUSAL = TABLE + """1 BEGIN;
2 BEGIN;
3 BEGIN;
1 SELECT v FROM t WHERE id = 1;
2 INSERT INTO t VALUES (1, 0);
2 SELECT v FROM t WHERE id = 2;
3 INSERT INTO t VALUES (2, 0);
3 COMMIT;
2 SELECT v FROM t WHERE id = 3;
""" + "4 BEGIN;\n4 COMMIT;\n" * (MOST // 2)


def ordinal(number: int) -> str:
    """A number as a place: 1st, 2nd, .. 11th, .. 21st."""
    return f"{number}{'th' if number // 10 % 10 == 1 else {1: 'st', 2: 'nd', 3: 'rd'}.get(number % 10, 'th')}"


def left_out() -> Cases:
    """Nothing of events that are left out is shown. Of the transactions behind them each has committed: one before them hasn't."""
    picture, late = Picture(drawn(EARLY)), range(4, 4 + MOST // 2)
    yield "sessions", picture.sessions(), [1]
    yield "names", picture.names(), [(f"T{number}", ordinal(number - 1)) for number in late]
    yield "notes and reasons", picture.notes + picture.whys, []
    refused = Picture(drawn(EARLY_REFUSAL))
    yield "arrow and reasons of an early refusal", (refused.arrows(), refused.whys), ([(1, 2, "beside")], [])
    shown = Picture(drawn(EARLY_REFUSAL.partition("4 BEGIN")[0]))
    yield "arrows of a refusal", [arrow[2] for arrow in shown.arrows() if arrow[:2] in ((1, 2), (2, 3))], ["danger", "danger"]
    yield "nodes", [int(number) for number in re.findall(r"^  t(\d+) \[", drawn(EARLY, "--dot"), re.M)], list(late)


# Snapshots are safe before any other transaction, and between two that write; what is dumped there comes behind the second.
DUMPS = TABLE + """1 BEGIN READ ONLY DEFERRABLE;
1 POLL;
2 BEGIN;
2 INSERT INTO t VALUES (1, 0);
2 COMMIT;
3 BEGIN READ ONLY DEFERRABLE;
3 POLL;
2 BEGIN;
2 INSERT INTO t VALUES (2, 0);
2 COMMIT;
1 DUMP 1 1 gone/out;
3 DUMP 1 1 gone/out;
"""


def dumps() -> Cases:
    """A dump holds what had committed before its snapshot. One that is refused, as its snapshot isn't known to be safe, isn't
    marked, nor one before the last checkpoint."""
    held = [note for note in Picture(drawn(DUMPS)).notes if note.startswith("dump")]
    yield "notes", sorted(held), ["dump holds T2", "dump holds none of these transactions"]
    refused = TABLE + "1 BEGIN READ ONLY DEFERRABLE;\n1 DUMP 1 1 gone/out;\n1 COMMIT;\n"
    yield "notes of a refused one", Picture(drawn(refused)).notes, []
    before = TABLE + "1 BEGIN READ ONLY DEFERRABLE;\n1 POLL;\n1 DUMP 1 1 gone/out;\n1 COMMIT;\nCHECKPOINT;\n1 BEGIN;\n1 COMMIT;\n"
    yield "notes of one before a checkpoint", Picture(drawn(before)).notes, []


# All letters, ways to end and marks. Session 4's transaction doesn't end; 5's is rolled back, and has no arrow.
ALL = TABLE + """1 BEGIN;
1 INSERT INTO t VALUES (1, 0);
1 COMMIT;
1 PRUNE;
2 BEGIN READ ONLY DEFERRABLE;
2 POLL;
2 EXPORT;
3 BEGIN READ ONLY;
3 IMPORT 1;
2 DUMP 1 1 gone/out;
4 BEGIN;
4 SELECT * FROM t;
5 BEGIN;
5 UPDATE t SET v = 5 WHERE id = 1;
5 SELEC;
5 ROLLBACK;
6 COMMIT;
4 UPDATE t SET v = 4 WHERE id = 1;
7 BEGIN;
7 UPDATE t SET v = 7 WHERE id = 1;
7 ROLLBACK;
2 COMMIT;
3 COMMIT;
"""


def all_kinds() -> Cases:
    """Each letter, each way to end, each mark."""
    picture = Picture(drawn(ALL))
    yield "sessions", picture.sessions(), [1, 2, 3, 4, 5, 6, 7]
    letters = "1B 1w 1C 1p 2B 2P 2E 3B 3I 4B 4r 5B 5w 5? 5R 6C 4w 7B 7w 7R 2C 3C".split()
    refused = (13, 15, 18)
    yield "events", picture.events(), [
        (int(it[0]), it[1]) + (("refused",) if place in refused else ()) for place, it in enumerate(letters)]
    yield "titles", picture.titles(), lines_of(ALL, 2)
    yield "bars", sorted(picture.bars()), sorted([
        ("committed", "transaction 1: committed"), ("committed", "transaction 2: committed"), ("committed", "transaction 3: committed"),
        ("open", "transaction 4: not ended"), ("undone", "transaction 5: rolled back"), ("failed", "transaction 6: refused (40001)")])
    # An INSERT reads its key, which 4 writes later. Those that read less or wrote nothing, or were rolled back, have none.
    # The reader had ended when the writer began.
    yield "arrows", picture.arrows(), [(1, 4, "apart")]
    yield "ends of arrows", picture.ends(), [((1, 3), (4, 19))]
    yield "spans", picture.spans(), [(1, 1, "BwC"), (2, 2, "BPEC"), (3, 3, "BIC"), (4, 4, "Brw"), (5, 5, "Bw?R"), (6, 7, "BwR")]
    # A tick is one stroke, a cross or an arrow back two, and three dots are three.
    yield "strokes of marks", picture.strokes(), {"committed": 1, "failed": 2, "undone": 2, "open": 3}
    yield "marks", sorted(picture.marks()), [(2, "dump holds T1"), (2, "exports 1"), (2, "safe snapshot"), (3, "imports")]
    yield "whys", picture.whys, ["line 21: refused, since another transaction has written the row"]


# Of sessions whose numbers stand apart that with the greater begins.
FAR = TABLE + """64 BEGIN;
5 BEGIN;
5 INSERT INTO t VALUES (1, 0);
64 SELECT v FROM t WHERE id = 1;
5 COMMIT;
64 COMMIT;
"""
# A session's transaction dumps what was before another wrote, and the session's next one doesn't.
DUMPED_BEFORE = TABLE + """1 BEGIN READ ONLY DEFERRABLE;
1 POLL;
1 DUMP 1 1 gone/out;
1 COMMIT;
2 BEGIN;
2 INSERT INTO t VALUES (1, 0);
2 COMMIT;
1 BEGIN READ ONLY DEFERRABLE;
1 POLL;
1 COMMIT;
"""
# A DELETE reads which rows have a reference, and the INSERT of one the row that it names. So did that row's own INSERT.
REFERENCE = """CREATE TABLE p (id bigint PRIMARY KEY);
CREATE TABLE c (id bigint PRIMARY KEY, p bigint REFERENCES p);
1 BEGIN;
1 INSERT INTO p VALUES (1);
1 COMMIT;
1 BEGIN;
2 BEGIN;
1 DELETE FROM p WHERE id = 1;
2 INSERT INTO c VALUES (5, 1);
"""
# The third transaction has written a row when it is refused, and ends before the fourth begins, which reads that row.
REFUSED_BEFORE = TABLE + """1 BEGIN;
1 INSERT INTO t VALUES (1, 0);
1 INSERT INTO t VALUES (2, 0);
1 COMMIT;
2 BEGIN;
3 BEGIN;
2 UPDATE t SET v = 1 WHERE id = 1;
3 UPDATE t SET v = 1 WHERE id = 2;
3 UPDATE t SET v = 2 WHERE id = 1;
3 ROLLBACK;
4 BEGIN;
4 SELECT v FROM t WHERE id = 2;
"""
OPENED = "-- dump 2\n" + TABLE + "COPY t (id, v) FROM stdin;\n1\t5\n\\.\n-- rows 1\n-- end\n"


def others() -> Cases:
    """Lanes have their sessions' numbers, dumps their own transactions, arrows their references and looks; a dump is opened,
    and no more events are drawn than there is room for."""
    far = Picture(drawn(FAR))
    yield "sessions far apart", far.sessions(), [5, 64]
    yield "spans of sessions far apart", far.spans(), [(1, 64, "BrC"), (2, 5, "BwC")]
    yield "ends of an arrow", far.ends(), [((64, 5), (5, 4))]
    held = [note for note in Picture(drawn(DUMPED_BEFORE)).notes if note.startswith("dump")]
    yield "notes of a dump before another transaction", held, ["dump holds none of these transactions"]
    yield "labels of references", Picture(drawn(REFERENCE)).labels(), ["c p = 1", "p id = 1", "p id = 1"]
    apart = [arrow for arrow in Picture(drawn(REFUSED_BEFORE)).arrows() if arrow[0] == 4]
    yield "arrow to one refused before", apart, [(4, 3, "apart")]
    opened = Picture(drawn("OPEN dump;\n1 BEGIN;\n1 SELECT v FROM t WHERE id = 1;\n", dump=OPENED))
    yield "events on a dump", opened.events(), [(1, "B"), (1, "r")]
    full = Picture(drawn(TABLE + "1 BEGIN;\n1 COMMIT;\n" * 2, "--events", "3"))
    yield "bars of a full history", full.bars(), [("committed", "transaction 1: committed"), ("open", "transaction 2: not ended")]
    late = Picture(drawn(BEFORE + "1 BEGIN;\n1 COMMIT;\n" * (MOST // 2) + "1 BEGIN;\n"))
    yield "heading of many behind a checkpoint", late.heading.partition(", since its last checkpoint")[2], f": the last {MOST} of {MOST + 1} events"


# Names and rows that would end a text, that may not stand in XML, and that are longer than is shown.
KEY = "<a href='x'>&amp;\" ]]> \x01\ufffe " + "l" * 40
COMMENT = "v" * 300
TEXTS = "CREATE TABLE t (id text PRIMARY KEY, v text);\n" + "".join(f"{line};\n" for line in [
    "1 BEGIN", "1 SELECT v FROM t WHERE id = '{key}'", "2 BEGIN", "2 INSERT INTO t VALUES ('{key}', '{comment}')", "2 COMMIT",
    "1 COMMIT"]).format(key=KEY.replace("'", "''"), comment=COMMENT)


def texts() -> Cases:
    """Texts of the script stand in a picture as texts, up to their lengths."""
    svg = drawn(TEXTS)
    picture = Picture(svg)
    allowed = str.maketrans({"\x01": "?", "\ufffe": "?"})
    told = [title.translate(allowed) for title in lines_of(TEXTS, 2)]
    yield "titles", [title[:len(it)] for title, it in zip(picture.titles(), told)], told
    yield "how much a title has more", [len(title) - len(it) for title, it in zip(picture.titles(), told)], [0, 0, 0, 2, 0, 0]
    row = f"t id = {KEY}".translate(allowed)
    yield "row", [label[:ROW] for label in picture.labels()], [row[:ROW]]
    yield "how much a row has more", [len(label) - ROW for label in picture.labels()], [2]


# ---- the graph for graphviz

GRAPH = """digraph transactions {{
  rankdir=LR;
  node [shape=box style=filled];
  t{0} [label="T{0}\\nsession 1, line {2}\\ncommitted, 1st" color="#1a7f37" fillcolor="#dafbe1"];
  t{1} [label="T{1}\\nsession 2, line {3}\\nrefused (40001)" color="#cf222e" fillcolor="#ffebe9" style="filled,dashed"];
  t{0} -> t{1} [label=<t id = 1> color="#cf222e" fontcolor="#cf222e" penwidth=3];
  t{1} -> t{0} [label=<t id = 2> color="#cf222e" fontcolor="#cf222e" penwidth=3];
}}
"""
# One reads what the other writes, which is no danger; a third is rolled back, and a fourth doesn't end.
ONE_WAY = TABLE + """1 BEGIN;
2 BEGIN;
1 SELECT v FROM t WHERE id = 1;
2 INSERT INTO t VALUES (1, 0);
2 COMMIT;
1 COMMIT;
3 BEGIN;
3 ROLLBACK;
4 BEGIN;
"""
ONE_WAY_GRAPH = """digraph transactions {
  rankdir=LR;
  node [shape=box style=filled];
  t1 [label="T1\\nsession 1, line 2\\ncommitted, 1st" color="#1a7f37" fillcolor="#dafbe1"];
  t2 [label="T2\\nsession 2, line 3\\ncommitted, 2nd" color="#1a7f37" fillcolor="#dafbe1"];
  t3 [label="T3\\nsession 3, line 8\\nrolled back" color="#6e7781" fillcolor="#eaeef2" style="filled,dotted"];
  t4 [label="T4\\nsession 4, line 10\\nnot ended" color="#9a6700" fillcolor="#fff8c5"];
  t1 -> t2 [label=<t id = 1>];
}
"""


def graphs() -> Cases:
    """Graphs, whole: a node for each transaction, and an edge from each reader to a writer whom it doesn't see."""
    yield "graph of a write skew", drawn(TABLE + SKEW, "--dot"), GRAPH.format(1, 2, 2, 3)
    yield "graph behind a checkpoint", drawn(BEFORE + SKEW, "--dot"), GRAPH.format(2, 3, 7, 8)
    yield "graph of one arrow", drawn(ONE_WAY, "--dot"), ONE_WAY_GRAPH
    yield "arrows", Picture(drawn(ONE_WAY)).arrows(), [(1, 2, "beside")]
    yield "names", Picture(drawn(ONE_WAY)).names(), [("T1", "1st"), ("T2", "2nd"), ("T3", None), ("T4", None)]
    rows = re.findall(r" \[label=<(.*)>\];", drawn(TEXTS, "--dot"))
    yield "rows as text", [xml.fromstring(f"<row>{row}</row>").text for row in rows], [f"t id = {KEY}"[:ROW] + ".."]


class Pictures(Case):
    """Scripts that are drawn."""

    def look_at(self, cases: Callable[[], Cases]) -> None:
        for what, came, wanted in cases():
            self.same(what, wanted, came)

    def test_write_skews(self) -> None:
        self.look_at(skews)

    def test_a_refused_checkpoint(self) -> None:
        self.look_at(refused_checkpoint)

    def test_the_last_of_many_events(self) -> None:
        self.look_at(many_events)

    def test_events_that_are_left_out(self) -> None:
        self.look_at(left_out)

    def test_what_a_dump_holds(self) -> None:
        self.look_at(dumps)

    def test_each_kind_of_event_and_end(self) -> None:
        self.look_at(all_kinds)

    def test_lanes_dumps_and_arrows(self) -> None:
        self.look_at(others)

    def test_names_and_rows_as_texts(self) -> None:
        self.look_at(texts)

    def test_graphs_for_graphviz(self) -> None:
        self.look_at(graphs)
