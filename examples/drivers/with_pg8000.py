"""pg8000, a driver that the recorder doesn't know: its tables are said, with the kinds of their columns, the key first.

    python3 examples/drivers/with_pg8000.py "host=/tmp dbname=test user=tester" [LEVEL]

The table `accounts` is made anew. At READ COMMITTED one withdrawal is lost, and the verdict is no."""

import os
import sys
import threading
from typing import Any, Dict

import pg8000

from pgserial.recording import Recorder


def words_of(dsn: str) -> Dict[str, Any]:
    """What pg8000 takes for a text as libpq has it."""
    words: Dict[str, Any] = dict(word.split("=", 1) for word in dsn.split())
    words["database"] = words.pop("dbname")
    if words["host"].startswith("/"):
        words["unix_sock"] = os.path.join(words.pop("host"), ".s.PGSQL.5432")
    return words


def withdraw(connection: Any, meeting: threading.Barrier) -> None:
    """Takes 1 from the account. Where the database refuses, that is all."""
    cursor = connection.cursor()
    try:
        cursor.execute("SELECT balance FROM accounts WHERE id = %s", (1,))
        (balance,) = cursor.fetchone()
        meeting.wait(10)
        cursor.execute("UPDATE accounts SET balance = %s WHERE id = %s", (balance - 1, 1))
        connection.commit()
    except pg8000.ProgrammingError as refused:
        print("refused:", refused)
        connection.rollback()


def main() -> None:
    """Two at once."""
    level = sys.argv[2] if len(sys.argv) > 2 else "READ COMMITTED"
    setup = pg8000.connect(**words_of(sys.argv[1]))
    cursor = setup.cursor()
    cursor.execute("DROP TABLE IF EXISTS accounts")
    cursor.execute("CREATE TABLE accounts (id int PRIMARY KEY, balance int)")
    cursor.execute("INSERT INTO accounts VALUES (1, 10)")
    setup.commit()
    setup.close()
    recorder = Recorder("pg8000.transcript", tables={"accounts": {"id": "bigint", "balance": "bigint"}})
    connections = []
    for _ in range(2):
        raw = pg8000.connect(**words_of(sys.argv[1]))
        raw.cursor().execute(f"SET SESSION CHARACTERISTICS AS TRANSACTION ISOLATION LEVEL {level}")
        raw.commit()
        connections.append(recorder.wrap(raw))
    meeting = threading.Barrier(2)
    threads = [threading.Thread(target=withdraw, args=(connection, meeting)) for connection in connections]
    for thread in threads:
        thread.start()
    for thread in threads:
        thread.join()
    for connection in connections:
        connection.close()
    print(recorder.verdict())


if __name__ == "__main__":
    main()
