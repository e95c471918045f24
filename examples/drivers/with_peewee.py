"""peewee, recorded: two withdraw at once.

    python3 examples/drivers/with_peewee.py "host=/tmp dbname=test user=tester" [LEVEL]

The table `accounts` is made anew. At READ COMMITTED one withdrawal is lost, and the verdict is no."""

import sys
import threading
from typing import Any

import peewee
import psycopg2.extensions

from pgserial.recording import Recorder

RECORDER = Recorder("peewee.transcript", tables=["accounts"])


class Recorded(peewee.PostgresqlDatabase):
    """A database whose connections are recorded once the tables are there."""

    is_recorded = False

    def _connect(self) -> Any:
        connection = super()._connect()
        return RECORDER.wrap(connection) if self.is_recorded else connection


DATABASE = Recorded(None)


class Account(peewee.Model):
    """An account."""

    balance = peewee.IntegerField()

    class Meta:
        """Where it is."""

        database, table_name = DATABASE, "accounts"


def withdraw(meeting: threading.Barrier) -> None:
    """Takes 1 from the account. Where the database refuses, that is all."""
    try:
        with DATABASE.connection_context(), DATABASE.atomic():
            (account,) = Account.select().where(Account.id == 1)
            meeting.wait(10)
            account.balance -= 1
            account.save()
    except peewee.OperationalError as refused:
        print("refused:", str(refused).splitlines()[0])


def main() -> None:
    """Two at once."""
    level = sys.argv[2] if len(sys.argv) > 2 else "READ COMMITTED"
    words = dict(word.split("=", 1) for word in sys.argv[1].split())
    number = getattr(psycopg2.extensions, "ISOLATION_LEVEL_" + level.replace(" ", "_"))
    DATABASE.init(words.pop("dbname"), isolation_level=number, **words)
    with DATABASE.connection_context():
        DATABASE.drop_tables([Account])
        DATABASE.create_tables([Account])
        Account.create(id=1, balance=10)
    DATABASE.is_recorded = True
    meeting = threading.Barrier(2)
    threads = [threading.Thread(target=withdraw, args=(meeting,)) for _ in range(2)]
    for thread in threads:
        thread.start()
    for thread in threads:
        thread.join()
    print(RECORDER.verdict())


if __name__ == "__main__":
    main()
