"""Scripts and dumps that are too long to be written down, that lack their last newline, or that aren't text; what `explore`
prints beside an enumeration in Python; sessions that wait for one another; and what a terminal is shown."""

import contextlib
import glob
import importlib.machinery
import importlib.util
import os
import pty
import re
import select
import subprocess
import sys
import tempfile
import time
from math import comb
from typing import Any, Callable, Dict, List, Optional, Tuple

from tests.program import TOP, Case, Differs, difference, program, side_by_side

# What is run: words, files by their names (that of no name is standard input), the exit status, and what must be printed,
# told and written to `out`.
Made = Tuple[List[str], Dict[str, bytes], int, bytes, bytes, Optional[bytes]]
cases: List[Made] = []


def case(words, files, status=0, printed=b"", told=b"", out=None):
    cases.append((words.split(), files, status, printed, told, out))


def refused(dump, line, code):
    """A dump is refused so, opened by a script and read by any number of workers."""
    told = b"dump line %d: %s\n" % (line, code)
    case("run script", {"script": b"OPEN dump;\n", "dump": dump}, 1, b"", told)
    for jobs in 1, 2, 8:
        case(f"restore dump --jobs {jobs} --out out", {"dump": dump}, 1, b"", told)


def restored(dump, tables, rows, out):
    """A dump is read by any number of workers, and written so."""
    for jobs in 1, 2, 8:
        case(f"restore dump --jobs {jobs} --out out", {"dump": dump}, 0, b"RESTORE %d tables %d rows\n" % (tables, rows), b"", out)


def script(text, status=0, printed=b"", told=b"", words="", out=None, **files):
    case(f"run script {words}", {"script": text, **files}, status, printed, told, out)


def numbers(keys):
    return b"".join(b"%d\n" % key for key in keys)


def faulty_scripts():
    """Lines without their newline, bytes that are no text, a text that is too long, and one with the zero byte."""
    for text, line in [
        (b"1 BEGIN;\n1 COMMIT;", 2), (b"1 BEGIN;", 1), (b"-- no newline", 1), (b"1 BEGIN READ;\n1 COMMIT;", 1),
        (b"1 BEGIN READ;\n-- no newline", 1), (b"CREATE TABLE t (id bigint PRIMARY KEY);\n\n1 BEGIN;", 3),
        (b"1 BEGIN;\n-- \xff\n", 2), (b"\n1 SELECT '\xc3';\n", 2), (b"OPEN \x80;\n", 1), (b"1 x\n-- \xff\n", 1),
        (b"-- \xff\n1 x\n", 1), (b"1 COMMIT;\n-- \xff", 2), (b"1 BEGIN;\n1 SELECT '\xc3';\n", 2),
    ]:
        script(text, 1, b"", b"script line %d\n" % line)
    table = b"CREATE TABLE t (id text PRIMARY KEY);\n1 BEGIN;\n"
    begun = b"1 BEGIN\n"
    for blanks, reply in (65536 - 13, b"DELETE 0"), (65537 - 13, b"ERROR 54000"):
        script(table + b"1 DELETE FROM t" + b" " * blanks + b";\n", 0, begun + b"1 %s\n" % reply)
    script(table + b"1 INSERT INTO t VALUES ('\0');\n", 0, begun + b"1 ERROR 22021 byte 22\n")
    # A text that is too long fails its transaction, and is an event: a second one finds it failed, a third none.
    long = b"1 DELETE FROM t" + b" " * 65537 + b";\n"
    for words, check in ("", b""), ("--free", b"check yes\n"):
        script(table + long + long + b"1 COMMIT;\n" + long, 0, begun + b"1 ERROR 54000\n1 ERROR 25P02\n1 ROLLBACK\n1 ERROR 25P01\n" + check, words=words)
    script(table + long + b"1 COMMIT;\n", 0, begun + b"1 ERROR 54000\n1 ERROR 54000\n", words="--events 2")
    script(b"", 0)
    case("audit script", {"script": b""}, 0, b"check yes\n")
    script(b"", 0, b"check yes\n", words="--free")


EXAMPLE = b"""-- dump 2
CREATE TABLE p (id bigint PRIMARY KEY, name text NOT NULL);
CREATE TABLE c (id bigint PRIMARY KEY, p bigint REFERENCES p, raw bytea);
COPY p (id, name) FROM stdin;
1\ta
2\tx\\ty
\\.
-- rows 2
COPY c (id, p, raw) FROM stdin;
-5\t2\t\\\\x00ff
7\t\\N\t\\N
\\.
-- rows 2
-- end
"""
FIRST_VERSION = EXAMPLE.replace(b"-- dump 2", b"-- dump 1").replace(b"-- rows 2\n", b"")


def beginnings():
    """Each beginning of the example lacks its newline, or its next line, one past the newlines that it has; and more."""
    for dump in EXAMPLE, FIRST_VERSION:
        for end in range(len(dump)):
            told = b"dump line %d: 22P04\n" % (dump[:end].count(b"\n") + 1)
            case(f"restore dump --jobs {(1, 2, 8)[end % 3]} --out out", {"dump": dump[:end]}, 1, b"", told)
    # A carriage return before one of its newlines is refused there.
    for dump in EXAMPLE, FIRST_VERSION:
        lines = dump.split(b"\n")
        for place in range(len(lines) - 1):
            told = b"dump line %d: 22P04\n" % (place + 1)
            turned = lines[:place] + [lines[place] + b"\r"] + lines[place + 1 :]
            case(f"restore dump --jobs {(1, 2, 8)[place % 3]} --out out", {"dump": b"\n".join(turned)}, 1, b"", told)
    one = b"-- dump %d\nCREATE TABLE p (id bigint PRIMARY KEY);\nCOPY p (id) FROM stdin;\n1\n2\n"
    refused(one % 1 + b"2", 6, b"22P04")
    refused(one % 2 + b"\\.\n-- rows 2", 7, b"22P04")
    refused(b"-- dump 2\n-- end\nx", 3, b"22P04")
    refused(b"-- dump 1\nCREATE TABLE p (id bigint PRIMARY KEY);\nCREATE TABLE c (id text PRIMARY KEY REFERENCES p);", 3, b"22P04")


START = b"-- dump %d\nCREATE TABLE t (id bigint PRIMARY KEY, name text NOT NULL);\nCOPY t (id, name) FROM stdin;\n"


def named(*keys):
    return b"".join(b"%d\tname\n" % key for key in keys)


def two_pieces():
    """A piece has 1000 lines: faults in the last of the first piece, line 1003, and the first of the second."""
    for last, first, line, code in [
        (b"1000", b"x", 1003, b"22P04"), (b"1000\tname", b"x\tname", 1004, b"22P02"), (b"x\tname", b"1\tname", 1003, b"22P02"),
        (b"1\tname", b"x\tname", 1003, b"23505"), (b"1\tname", b"1001", 1003, b"23505"), (b"999\tname", b"999\tname", 1003, b"23505"),
        (b"1000\tname", b"1000\tname", 1004, b"23505"), (b"1000\tname", b"7\tname", 1004, b"23505"),
        (b"1000\t\\N", b"1\tname", 1003, b"23502"), (b"1000\tname", b"1001\t\\N", 1004, b"23502"), (b"\\N\t\\N", b"1", 1003, b"23502"),
        (b"1000\ta\\0", b"1\tname", 1003, b"22021"), (b"9223372036854775808\tname", b"1\tname", 1003, b"22003"),
        (b"1000\tname", b"2000\tname", 2003, b"23505"),
    ]:
        rows = named(*range(1, 1000)) + last + b"\n" + first + b"\n" + named(*range(1002, 2001))
        refused(START % 1 + rows + b"\\.\n-- end\n", line, code)
    tables = b"CREATE TABLE p (id bigint PRIMARY KEY);\nCREATE TABLE c (id bigint PRIMARY KEY, p bigint REFERENCES p);\n"
    pairs = b"".join(b"%d\t%d\n" % (key, key) for key in range(2500))
    copies = b"COPY p (id) FROM stdin;\n" + numbers(range(2500)) + b"\\.\nCOPY c (id, p) FROM stdin;\n%s\\.\n-- end\n"
    both = b"-- dump 1\n" + tables + copies
    whole = (b"-- dump 2\n" + tables + copies % pairs).replace(b"\\.\n", b"\\.\n-- rows 2500\n")
    restored(both % pairs, 2, 5000, whole)
    # Row 2100 of the second table is on line 4 + 2500 + 2 + 2101.
    refused(both % pairs.replace(b"\n2100\t2100\n", b"\n2100\t2500\n"), 4607, b"23503")


def many_rows():
    """Rows in any order, by one worker and by several; and many pieces."""
    up = lambda low, high: range(low, high + 1)
    down = lambda high, low: range(high, low - 1, -1)
    want = START % 2 + named(*up(1, 3000)) + b"\\.\n-- rows 3000\n-- end\n"
    for order in [
        [up(1, 1000), up(1001, 2000), up(2001, 3000)], [down(3000, 2001), down(2000, 1001), down(1000, 1)],
        [up(1, 1000), up(2001, 3000), up(1001, 2000)], [up(2001, 3000), up(1001, 2000), up(1, 1000)],
        [up(1, 999), up(1001, 3000), up(1000, 1000)], [up(1, 1500), down(3000, 2251), up(1501, 2250)],
    ]:
        restored(START % 1 + named(*(key for part in order for key in part)) + b"\\.\n-- end\n", 1, 3000, want)
    table = b"-- dump 2\nCREATE TABLE t (id bigint PRIMARY KEY);\nCOPY t (id) FROM stdin;\n%s\\.\n-- rows %d\n-- end\n"
    scattered = [number * 7919 % 100003 for number in range(100000)]
    restored(table % (numbers(scattered), 100000), 1, 100000, table % (numbers(sorted(scattered)), 100000))
    # Over two times 65,536 lines.
    restored(table % (numbers(range(140000)), 140000), 1, 140000, table % (numbers(range(140000)), 140000))
    # A script opens 2500 rows, counts them and dumps them, a row a piece. With the last one twice it opens none.
    opened = b"OPEN dump;\n1 BEGIN READ ONLY DEFERRABLE;\n1 POLL;\n1 SELECT count(*) FROM t;\n1 SELECT * FROM t WHERE id > 2499;\n1 DUMP 1 1 out;\n"
    rows = table % (numbers(range(1, 2501)), 2500)
    script(opened, 0, b"1 BEGIN\n1 SAFE 0\n1 SELECT 1\n1 | 2500\n1 SELECT 1\n1 | 2500\n1 DUMP\n", dump=rows, out=rows)
    refused(table % (b"2500\n" + numbers(range(1, 2501)), 2501), 2504, b"23505")
    # 500 rows put in far from one another, read in their order, and from and to bounds at the ends of pages.
    lines = [b"CREATE TABLE t (id bigint PRIMARY KEY);\n1 BEGIN;\n"]
    lines += [b"1 INSERT INTO t VALUES (%d);\n" % (place * 7 % 500 * 2) for place in range(500)]
    want = [b"1 BEGIN\n" + b"1 INSERT 0 1\n" * 500]
    for low, high in (-1, 999), (0, 126), (126, 128), (127, 255), (1, 1), (998, 999), (500, 997), (254, 256):
        lines.append(b"1 SELECT * FROM t WHERE id BETWEEN %d AND %d;\n" % (low, high))
        shown = [key for key in range(0, 1000, 2) if low <= key <= high]
        want.append(b"1 SELECT %d\n" % len(shown) + b"".join(b"1 | %d\n" % key for key in shown))
    script(b"".join(lines), 0, b"".join(want))


def long_scripts():
    """More replies than are held back, and an old snapshot beside 200 commits, each with a PRUNE behind it."""
    script(b"11 ROLLBACK;\n" * 5000, 0, b"11 ERROR 25P01\n" * 5000)
    table = b"CREATE TABLE t (id bigint PRIMARY KEY, v bigint);\n"
    rows = {key: 0 for key in range(1000)}
    asked, want = [table + b"1 BEGIN;\n"], [b"1 BEGIN\n"]

    def ask(line, reply):
        asked.append(line + b";\n")
        want.append(reply + b"\n")

    def show(session, shown):
        asked.append(b"%d SELECT * FROM t;\n" % session)
        want.append(b"%d SELECT %d\n" % (session, len(shown)) + b"".join(b"%d | %d\t%d\n" % (session, k, v) for k, v in sorted(shown.items())))

    for key in rows:
        ask(b"1 INSERT INTO t VALUES (%d, 0)" % key, b"1 INSERT 0 1")
    ask(b"1 COMMIT", b"1 COMMIT")
    ask(b"3 BEGIN READ ONLY", b"3 BEGIN")
    show(3, rows)
    now = dict(rows)
    for pair in range(100):
        for line, reply in (b"UPDATE t SET v = 1 WHERE id = %d" % (2 * pair), b"UPDATE 1"), (b"DELETE FROM t WHERE id = %d" % (2 * pair + 1), b"DELETE 1"):
            ask(b"2 BEGIN", b"2 BEGIN")
            ask(b"2 " + line, b"2 " + reply)
            ask(b"2 COMMIT", b"2 COMMIT")
            ask(b"2 PRUNE", b"2 PRUNE")
        now[2 * pair] = 1
        del now[2 * pair + 1]
    show(3, rows)
    ask(b"3 COMMIT", b"3 COMMIT")
    ask(b"3 PRUNE", b"3 PRUNE")
    ask(b"3 BEGIN", b"3 BEGIN")
    show(3, now)
    script(b"".join(asked), 0, b"".join(want))


def commits_of_most_rows():
    """Commits that change most rows of a table, alone and beside a reader, and what each reader sees."""
    keys = range(2000)
    text = [b"CREATE TABLE t (id bigint PRIMARY KEY, v bigint);\n1 BEGIN;\n", *(b"1 INSERT INTO t VALUES (%d, 0);\n" % k for k in keys), b"1 COMMIT;\n"]
    told = [b"1 BEGIN\n", *(b"1 INSERT 0 1\n" for _ in keys), b"1 COMMIT\n"]

    def ask(line, *lines):
        text.append(b"%s;\n" % line)
        told.extend(b"%s\n" % it for it in lines)

    def count(session, value, rows):
        ask(b"%d SELECT count(*) FROM t WHERE v = %d" % (session, value), b"%d SELECT 1" % session, b"%d | %d" % (session, rows))

    def update(condition, rows):
        ask(b"1 BEGIN", b"1 BEGIN")
        ask(b"1 UPDATE t SET v = v + 1" + condition, b"1 UPDATE %d" % rows)
        ask(b"1 COMMIT", b"1 COMMIT")

    update(b"", 2000)
    update(b" WHERE id BETWEEN 100 AND 1899", 1800)
    ask(b"2 BEGIN READ ONLY", b"2 BEGIN")
    count(2, 1, 200)
    count(2, 2, 1800)
    update(b" WHERE v = 2", 1800)
    ask(b"2 SELECT * FROM t WHERE id = 500", b"2 SELECT 1", b"2 | 500\t2")
    ask(b"2 COMMIT", b"2 COMMIT")
    update(b" WHERE id > 10", 1989)
    ask(b"3 BEGIN", b"3 BEGIN")
    for value, rows in (1, 11), (2, 189), (3, 0), (4, 1800):
        count(3, value, rows)
    script(b"".join(text), 0, b"".join(told))


def streams_and_names():
    """Standard input, files whose name is `-`, and a file that had more before."""
    line, reply = b"11 ROLLBACK;\n", b"11 ERROR 25P01\n"
    for words in "run -", "", "run - --events 1":
        case(words, {"": line}, 0, reply)
    case("audit -", {"": line}, 0, b"check yes\n")
    done = b"RESTORE 2 tables 4 rows\n"
    for words in "restore - --out out", "restore --out=- --jobs=8 -", "restore - --jobs 64 --out out":
        case(words, {"": FIRST_VERSION, "out": EXAMPLE + b"more than there will be\n"}, 0, done, b"", EXAMPLE)
    case("restore - --out out", {"-": b"no dump", "": EXAMPLE}, 0, done, b"", EXAMPLE)
    script(b"OPEN -;\n1 BEGIN;\n1 SELECT name FROM p WHERE id = 2;\n", 0, b"1 BEGIN\n1 SELECT 1\n1 | x\\ty\n", **{"-": EXAMPLE})


# Two sessions that write to tables of their own, and one that waits for a safe snapshot and dumps it.
WRITERS = b"""CREATE TABLE a (id bigint PRIMARY KEY);
CREATE TABLE b (id bigint PRIMARY KEY);
1 BEGIN;
2 BEGIN;
1 INSERT INTO a VALUES (1);
2 INSERT INTO b VALUES (1);
1 COMMIT;
2 COMMIT;
3 BEGIN READ ONLY DEFERRABLE;
3 WAIT;
3 DUMP 2 1 out;
3 COMMIT;
"""


def dump_beside_writers(program):
    """How a dump beside two writers, on threads, isn't one of as many rows as its snapshot's number says, or nothing."""
    written = b"".join(b"%d BEGIN\n%d INSERT 0 1\n%d COMMIT\n" % (session, session, session) for session in (1, 2))
    head = b"-- dump 2\n" + b"".join(WRITERS.splitlines(True)[:2])
    with tempfile.TemporaryDirectory() as folder:
        done = subprocess.run([program, "run", "-", "--free"], cwd=folder, input=WRITERS, capture_output=True, timeout=60)
        with open(os.path.join(folder, "out"), "rb") as file:
            dump = file.read()
    rows = [name for name in (b"a", b"b") if b"COPY %s (id) FROM stdin;\n1\n" % name in dump]
    wanted = head + b"".join(b"COPY %s (id) FROM stdin;\n%s\\.\n-- rows %d\n" % (name, b"1\n" * (name in rows), name in rows) for name in (b"a", b"b"))
    printed = written + b"3 BEGIN\n3 SAFE %d\n3 DUMP\n3 COMMIT\ncheck yes\n" % len(rows)
    if (done.returncode, done.stderr, done.stdout, dump) != (0, b"", printed, wanted + b"-- end\n"):
        return f"a dump beside two writers: {done.stdout!r}, {dump!r}"
    return None


MANY = 16


def all_taken(fifo, text):
    """Whether just this text comes out of a pipe within 30 s of its opening."""
    taken, latest = b"", time.monotonic() + 30
    pipe = os.open(fifo, os.O_RDONLY | os.O_NONBLOCK)
    try:
        while len(taken) < len(text) and time.monotonic() < latest:
            # Nothing comes while nobody has opened it to write.
            select.select([pipe], [], [], 0.01)
            with contextlib.suppress(BlockingIOError):
                part = os.read(pipe, 65536)
                taken += part
                if not part:
                    time.sleep(0.01)
    finally:
        os.close(pipe)
    return taken == text


def sessions_that_wait(program):
    """How 16 sessions on threads don't all come to their dumps, or nothing. Each dumps to a pipe of its own, and stays there
    until that is read; the last session's is read first, so it has to get there while all others wait."""
    script = b"".join(b"%d BEGIN READ ONLY DEFERRABLE;\n%d POLL;\n%d DUMP 1 1 out%d;\n%d COMMIT;\n" % ((n,) * 5) for n in range(1, MANY + 1))
    printed = b"".join(b"%d BEGIN\n%d SAFE 0\n%d DUMP\n%d COMMIT\n" % ((n,) * 4) for n in range(1, MANY + 1)) + b"check yes\n"
    with tempfile.TemporaryDirectory() as folder:
        pipes = [os.path.join(folder, f"out{n}") for n in range(1, MANY + 1)]
        for pipe in pipes:
            os.mkfifo(pipe)
        run = subprocess.Popen([program, "run", "-", "--free"], cwd=folder, stdin=subprocess.PIPE, stdout=subprocess.PIPE)
        run.stdin.write(script)
        run.stdin.close()
        late = [pipe for pipe in reversed(pipes) if not all_taken(pipe, b"-- dump 2\n-- end\n")]
        if late:
            run.kill()
            return f"{MANY} sessions that wait for one another: {len(late)} never dump"
        told = run.stdout.read()
        if run.wait() or told != printed:
            return f"{MANY} sessions that wait for one another: {told!r}"
    return None


def left_while_another_waits(program):
    """How a session doesn't wake that waits for one whose lines end with its transaction open, or nothing. The second has
    begun and written when the first begins, and ends long after that sleeps."""
    before, behind = 5000, 20000
    script = b"CREATE TABLE t (id bigint PRIMARY KEY);\n" + b"1 ROLLBACK;\n" * before + b"1 BEGIN READ ONLY DEFERRABLE;\n1 WAIT;\n"
    script += b"2 BEGIN;\n2 INSERT INTO t VALUES (1);\n" + b"2 SELECT * FROM t WHERE id = 1;\n" * behind
    printed = b"1 ERROR 25P01\n" * before + b"1 BEGIN\n1 SAFE 0\n2 BEGIN\n2 INSERT 0 1\n" + b"2 SELECT 1\n2 | 1\n" * behind + b"check yes\n"
    try:
        done = subprocess.run([program, "run", "-", "--free"], input=script, capture_output=True, timeout=60)
    except subprocess.TimeoutExpired:
        return "a session that waits for another, whose lines end, never wakes"
    return None if (done.returncode, done.stdout) == (0, printed) else f"a session that waits for another, whose lines end: {done.stdout[-100:]!r}"


# Sessions that insert the same key, so that which of them comes first is told; and one that reads.
THREE = """CREATE TABLE t (id bigint PRIMARY KEY, v bigint);
1 BEGIN;
1 INSERT INTO t VALUES (1, 0);
1 COMMIT;
CHECKPOINT;
2 BEGIN;
2 UPDATE t SET v = v + 1 WHERE id = 1;
2 COMMIT;
1 BEGIN;
1 SELECT * FROM t;
64 BEGIN;
64 INSERT INTO t VALUES (1, 5);
"""
TWO_TABLES = """CREATE TABLE a (id bigint PRIMARY KEY, v bigint);
CREATE TABLE b (id bigint PRIMARY KEY, v text);
1 BEGIN;
1 INSERT INTO b VALUES (1, 'x | y');
1 SELECT v FROM b;
2 BEGIN;
2 SELECT count(*) FROM b;
2 INSERT INTO a VALUES (1, 1);
2 COMMIT;
1 COMMIT;
"""


def explorer():
    """What enumerates schedules beside the program."""
    loader = importlib.machinery.SourceFileLoader("explore_counts", os.path.join(TOP, "bench/explore_counts"))
    module = importlib.util.module_from_spec(importlib.util.spec_from_loader("explore_counts", loader))
    sys.dont_write_bytecode = True
    loader.exec_module(module)
    return module


def scripts_to_explore() -> List[str]:
    """Those whose schedules aren't too many to be run one by one: bench/explore_counts compares the others."""
    names = sorted(glob.glob(os.path.join(TOP, "bench/explored/*.script")) + glob.glob(os.path.join(TOP, "examples/explored_*.script")))
    scripts = [THREE, TWO_TABLES]
    for name in names:
        with open(name, encoding="utf-8") as file:
            scripts.append(file.read())
    few = []
    for script in scripts:
        number = 1
        lines = [len(lines) for lines in explorer().parts(script)[1].values()]
        for at, own in enumerate(lines):
            number = number * comb(sum(lines[: at + 1]), own)
        few += [script] if number <= 2000 else []
    return few


def exploring(program: str, script: str) -> List[str]:
    """How what `explore` prints isn't what comes of each schedule, run by itself; by one worker or many, of all schedules
    and of some that are drawn."""
    counts, told = explorer(), []
    for words, wanted in counts.expected(program, script, [(1, 0), (300, 9223372036854775807)]):
        for jobs in counts.JOBS:
            found = difference(wanted.split("\n"), counts.explored(program, script, f"{words} --jobs {jobs}").split("\n"))
            if found:
                told.append("explore {} --jobs {} of {!r}: line {}: {} was wanted, {} came".format(words, jobs, script[-60:], *found))
    return told


def many_sessions(number):
    return b"CREATE TABLE t (id bigint PRIMARY KEY);\n" + b"".join(b"%d PRUNE;\n" % session for session in range(1, number + 1))


def unexplored(program):
    """What isn't explored, and why; and scripts of one order."""
    none = b"explore: no session has a line after the setup\n"
    table = b"CREATE TABLE t (id bigint PRIMARY KEY);\n"
    two = table + b"1 BEGIN;\n2 BEGIN;\n"
    too_many = b"explore: %s schedules, more than %d; %s--sample N draws N of them\n"
    past = b"more than 18446744073709551615"
    for text in b"", table, table + b"1 BEGIN;\n1 COMMIT;\nCHECKPOINT;\n":
        case("explore script", {"script": text}, 1, b"", none)
    for text, line in [
        (table + b"1 COMMIT;\nCHECKPOINT;\n1 BEGIN;\n", 2), (table + b"1 BEGIN;\nCHECKPOINT;\n1 COMMIT;\n", 3),
        (table + b"1 BEGIN READ ONLY DEFERRABLE;\n1 WAIT;\n1 COMMIT;\nCHECKPOINT;\n1 BEGIN;\n", 3),
        (two + b"1 WAIT;\n", 4), (two + b"CHECKPOINT;\n1 BEGIN;\n", 4),
        (table + b"CHECKPOINT;\n1 BEGIN;\nCHECKPOINT;\n", 4), (two + b"1 DUMP 1 1 out;\n", 4), (two + b"0 BEGIN;\n", 4),
        (two + b"1 INSERT INTO t VALUES (1);\n2 INSERT INTO t VALUES (1);\n2 ROLLBACK;\n1 COMMIT;\nCHECKPOINT;\n1 BEGIN;\n", 5),
        (table + b"1 BEGIN;\n1 INSERT INTO t VALUES (1);\n1 INSERT INTO t VALUES (1);\n1 ROLLBACK;\nCHECKPOINT;\n1 BEGIN;\n", 4),
    ]:
        case("explore script", {"script": text}, 1, b"", b"script line %d\n" % line)
    case("explore script", {"script": many_sessions(64)}, 1, b"", too_many % (past, 1000000, b""))
    case("explore script --most 9223372036854775807", {"script": many_sessions(21)}, 1, b"", too_many % (past, 2**63 - 1, b""))
    case("explore script", {"script": many_sessions(20)}, 1, b"", too_many % (b"2432902008176640000", 1000000, b"--most 2432902008176640000 runs them, "))
    case("explore script --most 5", {"script": many_sessions(3)}, 1, b"", too_many % (b"6", 5, b"--most 6 runs them, "))
    six = b"schedules 6\noutcome 1: 6 schedules\n1 PRUNE\n2 PRUNE\n3 PRUNE\nrefused: 0 of 6 schedules; by a row 0, by a cause 0\n"
    case("explore script --most 6", {"script": many_sessions(3)}, 0, six)
    pruned = b"".join(b"%d PRUNE\n" % session for session in range(1, 65))
    drawn = b"sample 9 of %s\noutcome 1: 9 schedules\n%srefused: 0 of 9 schedules; by a row 0, by a cause 0\n" % (past, pruned)
    for jobs in 1, 64:
        case(f"explore script --sample 9 --seed 5 --jobs {jobs}", {"script": many_sessions(64)}, 0, drawn)
    case("explore missing", {"script": b""}, 3, b"", b"device: missing\n")
    opened = b"OPEN dump;\n1 BEGIN;\n1 SELECT name FROM p WHERE id = 2;\n"
    case("explore script", {"script": opened}, 3, b"", b"device: dump\n")
    case("explore script", {"script": opened, "dump": EXAMPLE[:-1]}, 1, b"", b"dump line 14: 22P04\n")
    rows = b"p | 1\ta\np | 2\tx\\ty\nc | -5\t2\t\\\\x00ff\nc | 7\t\\N\t\\N\n"
    one = b"schedules 1\noutcome 1: 1 schedules\n1 BEGIN\n1 SELECT 1\n1 | x\\ty\n%srefused: 0 of 1 schedules; by a row 0, by a cause 0\n" % rows
    case("explore script", {"script": opened, "dump": EXAMPLE}, 0, one)
    four = b"schedules 4\noutcome 1: 4 schedules\n1 BEGIN\n1 COMMIT\n1 PRUNE\n2 PRUNE\nrefused: 0 of 4 schedules; by a row 0, by a cause 0\n"
    three = b"schedules 3\noutcome 1: 3 schedules\n1 BEGIN\n1 COMMIT\n2 PRUNE\nrefused: 0 of 3 schedules; by a row 0, by a cause 0\n"
    like_a_setup = b"explore: the first 2 lines of sessions are interleaved with the others too; put `CHECKPOINT;` after them to run them once, before the others\n"
    case("explore script", {"script": table + b"1 BEGIN;\n1 COMMIT;\n2 PRUNE;\n1 PRUNE;\n"}, 0, four, like_a_setup)
    case("explore script", {"script": table + b"1 BEGIN;\n1 COMMIT;\n2 PRUNE;\n"}, 0, three)
    # What looks like a setup goes to the last COMMIT; behind a checkpoint nothing does.
    twice = b"1 BEGIN;\n1 COMMIT;\n1 BEGIN;\n1 COMMIT;\n1 BEGIN;\n2 PRUNE;\n1 COMMIT;\n"
    seven = b"schedules 7\noutcome 1: 7 schedules\n" + b"1 BEGIN\n1 COMMIT\n" * 3 + b"2 PRUNE\nrefused: 0 of 7 schedules; by a row 0, by a cause 0\n"
    case("explore script", {"script": table + twice}, 0, seven, like_a_setup.replace(b"2 lines", b"4 lines"))
    case("explore script", {"script": table + b"CHECKPOINT;\n" + twice}, 0, seven)
    pruned = b"schedules 1\noutcome 1: 1 schedules\n1 PRUNE\nrefused: 0 of 1 schedules; by a row 0, by a cause 0\n"
    case("explore script", {"script": table + twice + b"CHECKPOINT;\n1 PRUNE;\n"}, 0, pruned)
    case("explore script --events 1", {"script": table + b"1 BEGIN;\n1 COMMIT;\nCHECKPOINT;\n1 BEGIN;\n"}, 1, b"", b"script line 3\n")
    with tempfile.TemporaryDirectory() as folder:
        with open(os.path.join(folder, "script"), "wb") as file:
            file.write(two + b"1 COMMIT;\n")
        def run(*words):
            return subprocess.run([program, "explore", "script", *words], cwd=folder, capture_output=True, timeout=60)
        for words in ("--most 0", "--sample 0", "--jobs 0", "--jobs 65", "--most 1 --sample 1", "--seed 1", "--sample 1 --seed -1",
                      "--sample 1 --sample 1", "--most x", "--events 0", "--order"):
            done = run(*words.split())
            if (done.returncode, done.stdout) != (2, b"") or not done.stderr.startswith(b"error: "):
                return [f"explore {words}: {done}"]
        for order in "", "1", "1 1", "1 2", "2 2 1", "1 1 2 2", "1 3 1", "1 1 x", "1  1 2", "65 1 1", "0 1 1", "01 1 2", "+1 1 2", "1 1 02":
            done = run("--order", order)
            if (done.returncode, done.stdout, done.stderr[:7]) != (2, b"", b"error: "):
                return [f"explore --order {order!r}: {done}"]
        # With an order it isn't warned of lines that look like a setup; where there are too many schedules it is.
        with open(os.path.join(folder, "script"), "wb") as file:
            file.write(table + b"1 BEGIN;\n1 COMMIT;\n2 PRUNE;\n1 PRUNE;\n")
        done = run("--most", "3")
        if (done.returncode, done.stdout, done.stderr) != (1, b"", too_many % (b"4", 3, b"--most 4 runs them, ") + like_a_setup):
            return [f"explore --most 3 of what looks like a setup: {done}"]
        for order in "1 1 2 1", "1 2 1 1", "2 1 1 1":
            left = {"1": [b"1 BEGIN;\n", b"1 COMMIT;\n", b"1 PRUNE;\n"], "2": [b"2 PRUNE;\n"]}
            done = run("--order", order)
            if (done.returncode, done.stdout, done.stderr) != (0, table + b"".join(left[session].pop(0) for session in order.split()), b""):
                return [f"explore --order {order!r}: {done}"]
    return ordered_behind_a_setup(program)


def ordered_behind_a_setup(program):
    """How the script of one schedule isn't the setup and the lines behind it in that order, comments apart; or nothing."""
    setup = b"CREATE TABLE t (id bigint PRIMARY KEY);\n2 BEGIN;\n2 INSERT INTO t VALUES (7);\n2 COMMIT;\nCHECKPOINT;\n"
    behind = b"-- behind it\n1 BEGIN;\n\n2 BEGIN;\n1 SELECT * FROM t;\n"
    for order, lines in ("1 1 2", b"1 BEGIN;\n1 SELECT * FROM t;\n2 BEGIN;\n"), ("2 1 1", b"2 BEGIN;\n1 BEGIN;\n1 SELECT * FROM t;\n"):
        done = subprocess.run([program, "explore", "-", "--order", order], input=b"-- first\n" + setup + behind, capture_output=True, timeout=60)
        printed = b"".join(line for line in done.stdout.splitlines(keepends=True) if line != b"\n" and not line.startswith(b"--"))
        if (done.returncode, printed) != (0, setup + lines):
            return [f"explore --order {order!r} behind a setup: {done}"]
    return []


def all_of(shown):
    """What a terminal is shown, in as many parts as it comes in, until nobody has it any more, when reading fails."""
    got = b""
    with contextlib.suppress(OSError):
        while select.select([shown], [], [], 60)[0]:
            got += os.read(shown, 65536)
    return got


def at_a_terminal(program):
    """Whether a terminal is shown the names of codes, and a person who gives no words what is read; or what is wrong."""
    for words, wanted in (["run", "script"], b"1 ERROR 25P01 (no_active_sql_transaction: no transaction is open; send BEGIN, on a line of its own)\r\n1 BEGIN\r\n"), ([], b""):
        shown, terminal = pty.openpty()
        with tempfile.TemporaryDirectory() as folder:
            with open(os.path.join(folder, "script"), "wb") as file:
                file.write(b"1 COMMIT;\n1 BEGIN;\n")
            os.write(shown, b"" if words else b"\x04")
            done = subprocess.run([program] + words, cwd=folder, stdin=terminal, stdout=terminal if words else subprocess.PIPE,
                                  stderr=subprocess.PIPE, timeout=60)
        os.close(terminal)
        got = all_of(shown) if words else b""
        os.close(shown)
        if (done.returncode, got, done.stderr.startswith(b"pgserial reads a script from here")) != (0, wanted, not words):
            return f"at a terminal: {words}: {got!r}, {done.stderr!r}"
    return None


# Three sessions that only read: 34,650 schedules, which all come to the same.
READERS = b"CREATE TABLE t (id bigint PRIMARY KEY);\n" + b"".join(
    b"%d BEGIN;\n%d SELECT * FROM t;\n%d SELECT count(*) FROM t;\n%d COMMIT;\n" % ((n,) * 4) for n in (1, 2, 3))


def on_a_terminal(words, folder, out=None):
    """What a terminal is shown that is standard error, and standard output too where that is no file; and the seconds that
    it takes."""
    began = time.monotonic()
    master, terminal = pty.openpty()
    run = subprocess.Popen(words, cwd=folder, stdin=subprocess.DEVNULL, stdout=out or terminal, stderr=terminal)
    os.close(terminal)
    shown = all_of(master)
    run.kill()
    run.wait()
    os.close(master)
    return shown, time.monotonic() - began


def exploring_on_a_terminal(program):
    """How a terminal isn't shown how many schedules are done, more and more of them and at most ten times a second, where
    that takes a while, and then what is printed, once that is taken away; or how something else than a terminal is shown
    more than what is printed."""
    with tempfile.TemporaryDirectory() as folder:
        with open(os.path.join(folder, "script"), "wb") as file:
            file.write(READERS)
        for words, schedules in ("--jobs 2", 34650), ("--sample 25000 --jobs 3", 25000):
            command = [program, "explore", "script", *words.split()]
            done = subprocess.run(command, cwd=folder, capture_output=True, timeout=60)
            shown, seconds = on_a_terminal(command, folder)
            # Between two escapes a line doesn't go on in a further one where the terminal is narrow.
            line, blank = rb"\r\x1b\[\?7l\d+ of %d schedules\x1b\[\?7h" % schedules, rb"\r\x1b\[\?7l {60}\x1b\[\?7h\r"
            parts = re.fullmatch(rb"((?:%s)+)%s(.*)" % (line, blank), shown, re.DOTALL)
            counts = [int(count) for count in re.findall(rb"l(\d+) of", parts[1])] if parts else []
            rising = 0 < len(counts) <= 10 * seconds and counts == sorted(set(counts)) and counts[-1] <= schedules
            # Nothing is shown of work that takes less than a tenth of a second, as it may on a fast machine.
            fast = seconds < 0.3 and not counts
            printed = parts[2] if parts else shown
            if done.stderr or not (rising or fast) or printed != done.stdout.replace(b"\n", b"\r\n"):
                return f"explore {words} on a terminal: {shown!r}, and elsewhere {done}"
    return None


# Of as many rows a dump is read and written in so many pieces, which takes a while.
ROWS, PIECES = 400000, 400


def restoring_on_a_terminal(program):
    """How a terminal that is standard error alone isn't shown how many pieces are read and written, each more and more of
    them, and left without a line; or nothing."""
    dump = b"-- dump 1\nCREATE TABLE t (id bigint PRIMARY KEY);\nCOPY t (id) FROM stdin;\n" + numbers(range(ROWS)) + b"\\.\n-- end\n"
    with tempfile.TemporaryDirectory() as folder:
        with open(os.path.join(folder, "dump"), "wb") as file:
            file.write(dump)
        command = [program, "restore", "dump", "--out", "out"]
        with open(os.path.join(folder, "printed"), "w+b") as file:
            shown, seconds = on_a_terminal(command, folder, file)
            file.seek(0)
            printed = file.read()
    line, blank = rb"\r\x1b\[\?7l\d+ pieces of up to 1000 rows %s\x1b\[\?7h", rb"\r\x1b\[\?7l {60}\x1b\[\?7h\r"
    stages = b"".join(rb"((?:%s)+%s)?" % (line % done, blank) for done in (b"read", b"written"))
    parts = re.fullmatch(stages, shown)
    counts = [[int(count) for count in re.findall(rb"l(\d+) pieces", part or b"")] for part in parts.groups()] if parts else []
    rising = parts and all(stage == sorted(set(stage)) and all(0 < count <= PIECES for count in stage) for stage in counts)
    # Nothing is shown of a stage that takes less than a tenth of a second, as it may on a fast machine.
    if printed != b"RESTORE 1 tables %d rows\n" % ROWS or not rising or not any(counts) and seconds > 0.4:
        return f"restore on a terminal, in {seconds:.1f} s: {shown!r}, and printed {printed!r}"
    return None


def fault(made: Made) -> Optional[Differs]:
    """How a case ends otherwise than it should, or nothing."""
    words, files, status, printed, told, out = made
    with tempfile.TemporaryDirectory() as folder:
        for name, data in files.items():
            if name:
                with open(os.path.join(folder, name), "wb") as file:
                    file.write(data)
        done = subprocess.run([program(), *words], cwd=folder, input=files.get("", b""), capture_output=True, timeout=60)
        size = sum(map(len, files.values()))
        begins = f"{' '.join(words)} of {max(files.values())[-60:]!r}"
        # Behind its first line standard error has words for a person.
        first = b"".join(done.stderr.splitlines(keepends=True)[:1]) if told.endswith(b"\n") else done.stderr
        if (done.returncode, first) != (status, told):
            return Differs(f"{begins} ends", (status, told), (done.returncode, first), size)
        if done.stdout != printed:
            return Differs(f"{begins} prints", printed, done.stdout, size)
        if out is not None:
            with open(os.path.join(folder, "-" if "--out=-" in words else "out"), "rb") as file:
                written = file.read()
            if written != out:
                return Differs(f"{begins} writes", out, written, size)
    return None


class Generated(Case):
    """Each case is run, as many side by side as there are processors."""

    def run_made(self, make: Callable[[], Any]) -> None:
        """Runs what a function makes."""
        cases.clear()
        make()
        for made, differs in zip(list(cases), side_by_side(fault, cases)):
            with self.subTest(" ".join(made[0])):
                if differs:
                    raise differs

    def right(self, what: str, said: Optional[str]) -> None:
        """One case, of which this is said that is wrong, or nothing."""
        with self.subTest(what):
            if said:
                self.fail(said)

    def test_faulty_scripts(self) -> None:
        self.run_made(faulty_scripts)

    def test_beginnings_of_dumps(self) -> None:
        self.run_made(beginnings)

    def test_faults_at_the_edge_of_two_pieces(self) -> None:
        self.run_made(two_pieces)

    def test_many_rows(self) -> None:
        self.run_made(many_rows)

    def test_long_scripts(self) -> None:
        self.run_made(long_scripts)

    def test_commits_of_most_rows(self) -> None:
        self.run_made(commits_of_most_rows)

    def test_streams_and_names(self) -> None:
        self.run_made(streams_and_names)

    def test_what_is_not_explored(self) -> None:
        said: List[str] = []
        self.run_made(lambda: said.extend(unexplored(program())))
        self.right("command lines of explore", "\n".join(said))

    def test_explore_beside_an_enumeration(self) -> None:
        for script in scripts_to_explore():
            self.right(script[-60:], "\n".join(exploring(program(), script)))

    def test_dumps_beside_writers(self) -> None:
        for _ in range(20):
            self.right("a dump beside two writers", dump_beside_writers(program()))

    def test_sessions_that_wait(self) -> None:
        self.right("sessions that wait", sessions_that_wait(program()))
        for _ in range(3):
            self.right("a session that waits for another", left_while_another_waits(program()))

    def test_a_terminal_is_shown_names_and_what_is_read(self) -> None:
        self.right("at a terminal", at_a_terminal(program()))

    def test_a_terminal_is_shown_how_far_explore_is(self) -> None:
        self.right("explore", exploring_on_a_terminal(program()))

    def test_a_terminal_is_shown_how_far_restore_is(self) -> None:
        self.right("restore", restoring_on_a_terminal(program()))
