#!/usr/bin/env python3
"""Runs a script's sessions on PostgreSQL, each by a thread on a connection of its own, and writes the transcript that
`pgserial check` reads.

    record.py SCRIPT [--dsn DSN] [--level LEVEL] > TRANSCRIPT

SCRIPT is a script of pgserial; its tables are dropped and created anew. LEVEL is the isolation level of all
transactions: "SERIALIZABLE" where it isn't given, "REPEATABLE READ" or "READ COMMITTED". A command that isn't answered
after 0.2 s stays pending: later commands of its session wait for it, and those of other sessions go on. Needs psycopg2.

A script that can't be run is refused before anything is done: `script line N`, status 1.
"""

import argparse
import contextlib
import queue
import re
import sys
import threading
import time
from typing import NamedTuple, Tuple

import psycopg2
from pgserial.recording import Recorder

PATIENCE = 0.2  # seconds
LAST_PATIENCE = 5  # seconds, for what is pending behind the last line
LEVELS = ("SERIALIZABLE", "REPEATABLE READ", "READ COMMITTED")
LEFT_OUT = ("POLL", "WAIT", "PRUNE", "DUMP")
FORMS = re.compile(r"BEGIN( READ ONLY( DEFERRABLE)?)?|EXPORT|IMPORT [0-9]{1,20}|COMMIT|ROLLBACK")
WORDS = re.compile(r"\s*(BEGIN|START|COMMIT|END|ROLLBACK|ABORT|SAVEPOINT|RELEASE|EXPORT|IMPORT)\b", re.ASCII | re.IGNORECASE)


class Faulty(ValueError):
    """A script that can't be run, and its line."""


class Script(NamedTuple):
    """The lines that create tables, and the commands with their sessions."""

    tables: Tuple[str, ...]
    commands: Tuple[Tuple[int, str], ...]


def command_of(line):
    """The session and the command of a line."""
    found = re.fullmatch(r"([1-9]|[1-5][0-9]|6[0-4]) (.*);", line)
    if not found:
        raise ValueError("a session's line is its number, a space, a command and `;`")
    command = found[2]
    if WORDS.match(command) and not FORMS.fullmatch(command):
        raise ValueError(f"{command} isn't in its form")
    return int(found[1]), command


def script_of(text):
    """A script, of its text. Lines end in newlines, whatever else stands in them."""
    tables, commands = [], []
    *lines, last = text.split("\n")
    try:
        for number, line in enumerate(lines, 1):
            if line[:1].isdigit():
                commands.append(command_of(line))
            elif line.startswith("OPEN "):
                raise ValueError("no dump is opened")
            elif line and not line.startswith("--") and line != "CHECKPOINT;":
                if commands or not re.match(r"create\s+table\s+\w", line, re.ASCII | re.IGNORECASE):
                    raise ValueError("a table is created, and before the first line of a session")
                tables.append(line)
    except ValueError as fault:
        raise Faulty(f"script line {number}: {fault}") from None
    if last:
        raise Faulty(f"script line {len(lines) + 1}: it isn't ended by a newline")
    return Script(tuple(tables), tuple(commands))


class Session(threading.Thread):
    """A session: it does one command after another on its connection."""

    def __init__(self, connection, level, snapshots):
        super().__init__(daemon=True)
        self.connection, self.level, self.snapshots = connection, level, snapshots
        self.commands = queue.Queue()
        self.fault = None  # what has ended it, where that is no answer of the database
        self.start()

    def ask(self, command):
        """Has a command done behind those that are pending; the event of its end."""
        done = threading.Event()
        self.commands.put((command, done))
        return done

    def run(self):
        while True:
            command, done = self.commands.get()
            try:
                if self.fault is None:
                    with contextlib.suppress(psycopg2.Error, ValueError):
                        self.do(command)
            except Exception as fault:
                self.fault = fault
            finally:
                done.set()

    def do(self, command):
        """Does a command as PostgreSQL has it."""
        with self.connection.cursor() as cursor:
            if command.startswith("BEGIN"):
                cursor.execute(f"BEGIN ISOLATION LEVEL {self.level}" + command[len("BEGIN"):])
            elif command == "EXPORT":
                cursor.execute("SELECT pg_export_snapshot()")
                self.snapshots.append(cursor.fetchone()[0])
            elif command.startswith("IMPORT "):
                number = int(command[len("IMPORT "):])
                name = self.snapshots[number - 1] if 0 < number <= len(self.snapshots) else "none"
                cursor.execute(f"SET TRANSACTION SNAPSHOT '{name}'")
            else:
                cursor.execute(command)


def connected(dsn):
    """A connection whose transactions begin and end by commands."""
    connection = psycopg2.connect(dsn)
    connection.autocommit = True
    return connection


def create(dsn, lines):
    """Creates tables anew, and gives their names."""
    connection = connected(dsn)
    names = [re.match(r"create\s+table\s+(\w+)", line, re.IGNORECASE)[1].lower() for line in lines]
    with connection.cursor() as cursor:
        for name, line in zip(names, lines):
            cursor.execute(f"DROP TABLE IF EXISTS {name} CASCADE")
            cursor.execute(line)
    connection.close()
    return names


def record(script, dsn, level, path):
    """Runs a script, and writes the transcript; what has ended sessions, in words."""
    recorder = Recorder(path, create(dsn, script.tables))
    snapshots = []
    sessions = {
        number: Session(recorder.wrap(connected(dsn)), level, snapshots)
        for number in range(1, max((number for number, _ in script.commands), default=0) + 1)
    }
    pending = []
    for number, command in script.commands:
        if not command.startswith(LEFT_OUT):
            pending.append(sessions[number].ask(command))
            pending[-1].wait(PATIENCE)
    limit = time.monotonic() + LAST_PATIENCE
    for done in pending:
        done.wait(max(0, limit - time.monotonic()))
    recorder.close()  # connections that go roll back what is open
    return [f"session {number}: {each.fault!r}" for number, each in sessions.items() if each.fault is not None]


def main():
    words = argparse.ArgumentParser(description=__doc__, formatter_class=argparse.RawDescriptionHelpFormatter)
    words.add_argument("script")
    words.add_argument("--dsn", default="")
    words.add_argument("--level", default="SERIALIZABLE", choices=LEVELS)
    given = words.parse_args()
    try:
        with open(given.script, encoding="utf-8", newline="") as file:
            script = script_of(file.read())
    except (Faulty, OSError, UnicodeDecodeError) as fault:
        print(fault, file=sys.stderr)
        return 1
    faults = record(script, given.dsn, given.level, "/dev/stdout")
    print("".join(fault + "\n" for fault in faults), end="", file=sys.stderr)
    return 1 if faults else 0


if __name__ == "__main__":
    sys.exit(main())
