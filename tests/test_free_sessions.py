"""Random scripts on threads, for a time: that of $PGSERIAL_SECONDS, or else 20 seconds.

Sessions move amounts between accounts, so their sum stays; each SELECT of a transaction that was committed, each dump, and each
run's check are looked at. The look itself is tried on a dump of which a row was changed. $SEED begins with another script than
usual."""
import os
import random
import subprocess
import tempfile
import time
import unittest
from pathlib import Path

from tests.program import Differs, program

ACCOUNTS, AMOUNT = 12, 100
HEAD = "-- dump 2\nCREATE TABLE a (id bigint PRIMARY KEY, v bigint);\nCOPY a (id, v) FROM stdin;\n"
TAIL = f"\\.\n-- rows {ACCOUNTS}\n-- end\n"
BASE = HEAD + "".join(f"{n}\t{AMOUNT}\n" for n in range(1, ACCOUNTS + 1)) + TAIL


class Wrong(Exception):
    """Something isn't as it should be."""


def require(holds, what):
    if not holds:
        raise Wrong(what)


def rows_of_dump(text):
    """The rows of a dump, which must be whole."""
    require(text.startswith(HEAD) and text.endswith(TAIL), "a dump isn't whole")
    return [tuple(map(int, row.split("\t"))) for row in text[len(HEAD):-len(TAIL)].splitlines()]


def look_at(rows, what):
    """All accounts are there once, in their order, and have what all had together."""
    require([row[0] for row in rows] == list(range(1, ACCOUNTS + 1)), f"{what} has other accounts")
    require(sum(row[1] for row in rows) == ACCOUNTS * AMOUNT, f"{what} has another sum")


def transfer(chance):
    from_, to = chance.sample(range(1, ACCOUNTS + 1), 2)
    amount = chance.randint(1, 50)
    lines = [f"UPDATE a SET v = v - {amount} WHERE id = {from_}", f"UPDATE a SET v = v + {amount} WHERE id = {to}"]
    if chance.random() < 0.3:
        lines.insert(chance.choice([0, 2]), "SELECT * FROM a")
    return ["BEGIN"] + lines + [chance.choices(["COMMIT", "ROLLBACK"], [9, 1])[0]]


def report(chance):
    return [chance.choice(["BEGIN", "BEGIN READ ONLY"]), "SELECT * FROM a", "COMMIT"]


def backup(chance, paths):
    dump = f"DUMP {chance.randint(1, 4)} {chance.choice([1, 3, 1000])} {chance.choice(paths)}"
    return ["BEGIN READ ONLY DEFERRABLE", "WAIT", "SELECT * FROM a", dump, "COMMIT"]


def commands_of(chance, paths):
    """The commands of a session. Some end with their transaction open."""
    commands = []
    for _ in range(chance.randint(1, 25)):
        commands += chance.choices([transfer(chance), report(chance), backup(chance, paths), ["PRUNE"]], [12, 3, 2, 1])[0]
    return commands + (transfer(chance)[:chance.randint(1, 3)] if chance.random() < 0.3 else [])


def replies_of(session, commands, lines):
    """Each command with its reply and rows, taken from the lines printed."""
    for command in commands:
        require(lines, "a reply is missing")
        number, reply = lines.pop(0).split(" ", 1)
        require(number == str(session), "a reply is another session's")
        count = int(reply.split()[1]) if reply.startswith("SELECT ") else 0
        yield command, reply, [tuple(map(int, lines.pop(0).split(" | ")[1].split("\t"))) for _ in range(count)]


def look_at_session(session, commands, lines, counts):
    """What a session's transactions have read where they were committed."""
    read = []
    for command, reply, rows in replies_of(session, commands, lines):
        if command.startswith("BEGIN"):
            read = []
        elif command.startswith("SELECT") and rows:
            read.append(rows)
        elif command == "COMMIT" and reply == "COMMIT":
            counts["commits"] += 1
            for rows in read:
                look_at(rows, "a committed SELECT")
        elif command.startswith("DUMP"):
            require(reply == "DUMP" or reply.startswith("ERROR 25P0"), f"a dump was answered {reply}")
            counts["dumps"] += reply == "DUMP"
        counts["refusals"] += reply.startswith("ERROR")


def run(program, folder, chance, counts):
    """A script of random sessions, and a look at all that it has left."""
    paths = [f"{folder}/out{n}" for n in range(3)]
    sessions = [commands_of(chance, paths) for _ in range(chance.randint(2, 24))]
    lines = [f"{session} {command};\n" for session, commands in enumerate(sessions, 1) for command in commands]
    Path(folder, "script").write_text(f"OPEN {folder}/base;\n{''.join(lines)}")
    done = subprocess.run([program, "run", f"{folder}/script", "--free"], capture_output=True, text=True, timeout=300)
    require(done.returncode == 0 and not done.stderr, f"it ended with {done.returncode}: {done.stderr}")
    printed = done.stdout.splitlines()
    for session, commands in enumerate(sessions, 1):
        look_at_session(session, commands, printed, counts)
    require(printed == ["check yes"], "the check isn't yes")
    for path in filter(os.path.exists, paths):
        look_at(rows_of_dump(Path(path).read_text()), "a dump")
        os.remove(path)
    require(not list(Path(folder).glob(".pgserial-*")), "a new file stays behind")
    counts["scripts"] += 1


class FreeSessions(unittest.TestCase):
    """Sessions of random scripts on threads of their own."""

    def test_a_changed_dump_is_seen(self):
        look_at(rows_of_dump(BASE), "the first dump")
        for bad in [BASE.replace("\t100\n", "\t101\n", 1), BASE.replace("7\t100\n", ""), BASE[:-3]]:
            with self.assertRaises(Wrong):
                look_at(rows_of_dump(bad), "a changed dump")

    def test_accounts_keep_their_sum(self):
        seed, end = int(os.environ.get("SEED", "1")), time.monotonic() + float(os.environ.get("PGSERIAL_SECONDS", "20"))
        counts = dict(scripts=0, commits=0, dumps=0, refusals=0)
        with tempfile.TemporaryDirectory() as folder:
            Path(folder, "base").write_text(BASE)
            while time.monotonic() < end:
                try:
                    run(program(), folder, random.Random(seed), counts)
                except (Wrong, subprocess.TimeoutExpired) as fault:
                    raise Differs(f"SEED={seed} ./pgserial test free_sessions", "accounts that keep their sum", f"{fault}") from None
                seed += 1
        self.assertGreater(min(counts["commits"], counts["dumps"]), 0)
