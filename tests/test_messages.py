"""What the program says to a person: names of codes on a terminal, why a script is refused, and what a restore that fails leaves."""

import os
import pty
import resource
import select
import signal
import subprocess
import time
from typing import List, Tuple

from tests.program import DEVICE, PATIENCE, REFUSED, Case, Differs, program, run, timed

# A script whose rows look like refusals, and what a terminal is shown of each line: a row stays as it is, and each refusal has
# the name of its code.
LIKE_REFUSALS = [
    ("CREATE TABLE t (id bigint PRIMARY KEY, v text);", []),
    ("1 BEGIN;", ["1 BEGIN"]),
    ("1 INSERT INTO t VALUES (40001, 'ERROR 40001');", ["1 INSERT 0 1"]),
    ("1 SELECT * FROM t;", ["1 SELECT 1", "1 | 40001\tERROR 40001"]),
    ("1 SELECT id FROM t;", ["1 SELECT 1", "1 | 40001"]),
    ("1 INSERT INTO t VALUES (40001, '');", ["1 ERROR 23505 column 1 (unique_violation: "]),
    ("1 SELECT * FROM t;", ["1 ERROR 25P02 (in_failed_sql_transaction: "]),
    ("1 ROLLBACK;", ["1 ROLLBACK"]),
    ("1 COMMIT;", ["1 ERROR 25P01 (no_active_sql_transaction: "]),
    ("2 SELECT * FROM t;", ["2 ERROR 25P01 (no_active_sql_transaction: "]),
]

# Setups that are refused: the lines, the number of the one that is refused, and its code with its name.
TABLES = "CREATE TABLE p (id bigint PRIMARY KEY);\nCREATE TABLE c (id bigint PRIMARY KEY, p bigint REFERENCES p);\n"
SETUPS = [
    (TABLES + "1 COMMIT;\nCHECKPOINT;\n2 BEGIN;\n", 3, "25P01 (no_active_sql_transaction)"),
    (TABLES + "1 BEGIN;\n1 BEGIN;\nCHECKPOINT;\n2 BEGIN;\n", 4, "25001 (active_sql_transaction)"),
    (TABLES + "1 BEGIN;\n1 INSERT INTO c VALUES (1, 2);\nCHECKPOINT;\n2 BEGIN;\n", 4, "23503 (foreign_key_violation)"),
    (TABLES + "1 BEGIN;\n1 INSERT INTO p VALUES (1);\n1 INSERT INTO p VALUES (1);\nCHECKPOINT;\n2 BEGIN;\n", 5, "23505 (unique_violation)"),
    (TABLES + "1 BEGIN;\n1 SELECT * FROM q;\nCHECKPOINT;\n2 BEGIN;\n", 4, "42P01 (undefined_table)"),
    (TABLES + "1 BEGIN READ ONLY;\n1 DELETE FROM c;\nCHECKPOINT;\n2 BEGIN;\n", 4, "25006 (read_only_sql_transaction)"),
    (TABLES + "1 BEGIN;\nCHECKPOINT;\n2 BEGIN;\n", 4, "55000 (object_not_in_prerequisite_state)"),
]

# Lines with WAIT: whether sessions run freely, the line, and what is said of it.
WAITS = [
    (False, "1 WAIT;", "`WAIT`: WAIT works only with `run --free`"),
    (True, "1 WAIT now;", "`WAIT`: expected `;` right after this word"),
    (True, "1 WAIT ;", "`WAIT`: expected `;` right after this word"),
]

# Characters that control a terminal or turn a text's direction, beside some that don't; and how they are shown there.
CONTROLLING = "\x1b[31m\x07\x7f\u009b\u202a\u202e\u2066\u2069 \u00e9\u2029\u2065\u65e5"
BY_NUMBERS = "\\x1b[31m\\x07\\x7f\\x9b\\u202a\\u202e\\u2066\\u2069 \u00e9\u2029\u2065\u65e5"

# Rows of a table whose UPDATE takes a while.
ROWS = 200000
# The bytes that a file may have where a restore is to fail.
FULL = 4096


def small_files() -> None:
    """No file of this process may have more than a few bytes."""
    signal.signal(signal.SIGXFSZ, signal.SIG_IGN)
    resource.setrlimit(resource.RLIMIT_FSIZE, (FULL, FULL))


def dump_of(rows: int) -> str:
    """A dump of a table with these rows."""
    lines = "".join(f"{n}\t0\n" for n in range(rows))
    return f"-- dump 1\nCREATE TABLE t (id bigint PRIMARY KEY, v bigint);\nCOPY t (id, v) FROM stdin;\n{lines}\\.\n-- end\n"


class AtATerminal(Case):
    """A script that is run with a terminal as its standard output."""

    def shown(self, script: str) -> List[Tuple[float, str]]:
        """Each piece that is shown, with the seconds since the start; the last is empty and comes at the end."""
        self.write("script", script)
        master, terminal = pty.openpty()
        began, pieces = time.monotonic(), []
        child = subprocess.Popen([program(), "run", "script"], cwd=self.folder, stdin=subprocess.DEVNULL, stdout=terminal, stderr=terminal)
        os.close(terminal)
        while select.select([master], [], [], PATIENCE)[0]:
            try:
                piece = os.read(master, 65536)
            except OSError:  # the program has ended
                break
            pieces.append((time.monotonic() - began, piece.decode().replace("\r\n", "\n")))
        child.wait(PATIENCE)
        os.close(master)
        return [*pieces, (time.monotonic() - began, "")]

    def test_each_refusal_has_its_name_and_no_row_has(self) -> None:
        shown = "".join(piece for _, piece in self.shown("".join(f"{line}\n" for line, _ in LIKE_REFUSALS))).splitlines()
        for line, wanted in LIKE_REFUSALS:
            came, shown = shown[: len(wanted)], shown[len(wanted) :]
            for want, got in zip(wanted, came):
                self.same(line, want, got[: len(want)] if want.endswith(": ") else got)
        self.same("what follows", [], shown)

    def test_data_that_would_control_the_terminal(self) -> None:
        """It is shown by numbers there, and goes through a pipe as it is."""
        lines = "CREATE TABLE t (id bigint PRIMARY KEY, v text);\n1 BEGIN;\n1 INSERT INTO t VALUES (1, '{}');\n1 SELECT v FROM t;\n"
        script = lines.format(CONTROLLING)
        shown = "".join(piece for _, piece in self.shown(script))
        self.same("at a terminal", f"1 BEGIN\n1 INSERT 0 1\n1 SELECT 1\n1 | {BY_NUMBERS}\n", shown)
        piped = run("run", self.write("script", script)).stdout.decode()
        self.same("through a pipe", f"1 BEGIN\n1 INSERT 0 1\n1 SELECT 1\n1 | {CONTROLLING}\n", piped)

    @timed
    def test_a_reply_is_shown_before_the_next_line_is_done(self) -> None:
        self.write("dump", dump_of(ROWS))
        pieces = self.shown("OPEN dump;\n1 BEGIN;\n1 UPDATE t SET v = v + 1;\n1 ROLLBACK;\n")
        begun = next((seconds for seconds, piece in pieces if "1 BEGIN" in piece), pieces[-1][0])
        updated = next((seconds for seconds, piece in pieces if "1 UPDATE" in piece), pieces[-1][0])
        if updated - begun < 0.01:
            raise Differs("1 BEGIN beside an UPDATE of many rows", "shown before the UPDATE is done", f"{pieces}"[:300])


class Refused(Case):
    """What standard error says of a script."""

    def test_setups_of_explore(self) -> None:
        for script, line, code in SETUPS:
            done = run("explore", self.write("script", script))
            self.same(script, (REFUSED, f"script line {line}\nthe setup failed: ERROR {code}\n"), (done.returncode, done.stderr.decode()), len(script))

    def test_waits(self) -> None:
        for is_free, line, wanted in WAITS:
            done = run("run", self.write("script", f"{line}\n"), *["--free"] * is_free)
            came = done.stderr.decode().splitlines()
            self.same(f"{line} {'with' if is_free else 'without'} --free", (REFUSED, "script line 1", wanted), (done.returncode, came[0], came[1][: len(wanted)]))


class Restored(Case):
    """What a restore that fails leaves of the file that was there."""

    def test_a_file_through_a_link(self) -> None:
        self.write("dump", dump_of(2000))
        self.write("old", "what was there\n")
        for name, target in ("link", "old"), ("far", "link"):
            os.symlink(target, os.path.join(self.folder, name))
        for name in ("old", "link", "far"):
            done = run("restore", "dump", "--out", name, folder=self.folder, preexec_fn=small_files)
            self.same(f"--out {name}", (DEVICE, f"device: {name}"), (done.returncode, done.stderr.decode().partition("\n")[0]))
            with open(os.path.join(self.folder, "old"), encoding="utf-8") as file:
                self.same(f"the file behind {name}", "what was there\n", file.read())
        self.same("what lies in the folder", ["dump", "far", "link", "old"], sorted(os.listdir(self.folder)))
