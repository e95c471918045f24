#!/usr/bin/env python3
"""TPC-B and TPC-C, in small, on PostgreSQL: recorded, and judged.

    python3 clients/python/recorded_tpc.py --dsn "dbname=postgres" [--benchmark b|c] [--level SERIALIZABLE] [--transactions 40]

It makes the benchmark's tables in a schema of its own and drops that again. The transactions are those of the benchmarks, without
their think times; TPC-C's are New-Order, Payment, Order-Status, Delivery and Stock-Level, on one warehouse.
"""

import argparse
import contextlib
import datetime
import importlib
import random
import sys
import threading
from decimal import Decimal
from typing import Any, Callable, Dict, Iterator, List, Tuple

from pgserial.recording import Recorder, Verdict

LEVELS = ("READ COMMITTED", "REPEATABLE READ", "SERIALIZABLE")
DISTRICTS, CUSTOMERS, ITEMS = 2, 3, 6

TPC_B = {
    "branches": "bid int PRIMARY KEY, bbalance int, filler char(88)",
    "tellers": "tid int PRIMARY KEY, bid int, tbalance int, filler char(84)",
    "accounts": "aid int PRIMARY KEY, bid int, abalance int, filler char(84)",
    "history": "tid int, bid int, aid int, delta int, mtime timestamp, filler char(22)",
}
TPC_C = {
    "warehouse": "w_id int PRIMARY KEY, w_name varchar(10), w_street_1 varchar(20), w_street_2 varchar(20), w_city varchar(20), w_state char(2),"
    " w_zip char(9), w_tax numeric(4,4), w_ytd numeric(12,2)",
    "district": "d_w_id int, d_id int, d_name varchar(10), d_street_1 varchar(20), d_street_2 varchar(20), d_city varchar(20), d_state char(2),"
    " d_zip char(9), d_tax numeric(4,4), d_ytd numeric(12,2), d_next_o_id int, PRIMARY KEY (d_w_id, d_id)",
    "customer": "c_w_id int, c_d_id int, c_id int, c_first varchar(16), c_middle char(2), c_last varchar(16), c_street_1 varchar(20), c_street_2 varchar(20),"
    " c_city varchar(20), c_state char(2), c_zip char(9), c_phone char(16), c_since timestamp, c_credit char(2), c_credit_lim numeric(12,2),"
    " c_discount numeric(4,4), c_balance numeric(12,2), c_ytd_payment numeric(12,2), c_payment_cnt numeric(4,0), c_delivery_cnt numeric(4,0),"
    " c_data varchar(500), PRIMARY KEY (c_w_id, c_d_id, c_id)",
    "history": "h_c_id int, h_c_d_id int, h_c_w_id int, h_d_id int, h_w_id int, h_date timestamp, h_amount numeric(6,2), h_data varchar(24)",
    "new_order": "no_w_id int, no_d_id int, no_o_id int, PRIMARY KEY (no_w_id, no_d_id, no_o_id)",
    "orders": "o_w_id int, o_d_id int, o_id int, o_c_id int, o_entry_d timestamp, o_carrier_id int, o_ol_cnt int, o_all_local numeric(1,0),"
    " PRIMARY KEY (o_w_id, o_d_id, o_id)",
    "order_line": "ol_w_id int, ol_d_id int, ol_o_id int, ol_number int, ol_i_id int, ol_supply_w_id int, ol_delivery_d timestamp, ol_quantity numeric(2,0),"
    " ol_amount numeric(6,2), ol_dist_info char(24), PRIMARY KEY (ol_w_id, ol_d_id, ol_o_id, ol_number)",
    "item": "i_id int PRIMARY KEY, i_im_id int, i_name varchar(24), i_price numeric(5,2), i_data varchar(50)",
    "stock": "s_w_id int, s_i_id int, s_quantity numeric(4,0), " + ", ".join(f"s_dist_{number:02} char(24)" for number in range(1, 11)) + ", s_ytd numeric(8,0),"
    " s_order_cnt numeric(4,0), s_remote_cnt numeric(4,0), s_data varchar(50), PRIMARY KEY (s_w_id, s_i_id)",
}  # fmt: skip


class Retry(Exception):
    """A transaction that the database has refused, and that is tried again."""


class Client:
    """One terminal: its connection, and its own chances."""

    def __init__(self, connection: Any, seed: int, now: Callable[[], datetime.datetime]) -> None:
        self.connection, self.chance, self.now = connection, random.Random(seed), now

    def ask(self, text: str, *parameters: Any) -> List[Tuple[Any, ...]]:
        """Executes a statement; its rows, where it shows some."""
        cursor = self.connection.cursor()
        cursor.execute(text, parameters)
        return list(cursor.fetchall()) if cursor.description is not None else []

    # TPC-B

    def transfer(self) -> None:
        """The one transaction of TPC-B."""
        account, teller, delta = self.chance.randint(1, 5), self.chance.randint(1, 2), self.chance.randint(-999, 999)
        self.ask("UPDATE accounts SET abalance = abalance + %s WHERE aid = %s", delta, account)
        self.ask("SELECT abalance FROM accounts WHERE aid = %s", account)
        self.ask("UPDATE tellers SET tbalance = tbalance + %s WHERE tid = %s", delta, teller)
        self.ask("UPDATE branches SET bbalance = bbalance + %s WHERE bid = 1", delta)
        self.ask("INSERT INTO history (tid, bid, aid, delta, mtime) VALUES (%s, 1, %s, %s, %s)", teller, account, delta, self.now())

    # TPC-C

    def new_order(self) -> None:
        """A customer orders some items."""
        district, customer = self.chance.randint(1, DISTRICTS), self.chance.randint(1, CUSTOMERS)
        lines = [(item, self.chance.randint(1, 10)) for item in self.chance.sample(range(1, ITEMS + 1), self.chance.randint(1, 4))]
        tax = self.ask("SELECT w_tax FROM warehouse WHERE w_id = 1")[0][0]
        discount = self.ask("SELECT c_discount, c_last, c_credit FROM customer WHERE c_w_id = 1 AND c_d_id = %s AND c_id = %s", district, customer)[0][0]
        order, more = self.ask("SELECT d_next_o_id, d_tax FROM district WHERE d_w_id = 1 AND d_id = %s", district)[0]
        self.ask("UPDATE district SET d_next_o_id = %s WHERE d_w_id = 1 AND d_id = %s", order + 1, district)
        self.ask("INSERT INTO orders VALUES (1, %s, %s, %s, %s, NULL, %s, 1)", district, order, customer, self.now(), len(lines))
        self.ask("INSERT INTO new_order VALUES (1, %s, %s)", district, order)
        for number, (item, quantity) in enumerate(lines, 1):
            price = self.ask("SELECT i_price, i_name, i_data FROM item WHERE i_id = %s", item)[0][0]
            stock = self.ask(f"SELECT s_quantity, s_data, s_dist_{district:02} FROM stock WHERE s_w_id = 1 AND s_i_id = %s", item)[0]
            left = stock[0] - quantity if stock[0] >= quantity + 10 else stock[0] - quantity + 91
            self.ask("UPDATE stock SET s_quantity = %s, s_ytd = s_ytd + %s, s_order_cnt = s_order_cnt + 1 WHERE s_i_id = %s AND s_w_id = 1", left, quantity, item)
            amount = (price * quantity * (1 + tax + more) * (1 - discount)).quantize(Decimal("0.01"))
            self.ask("INSERT INTO order_line VALUES (1, %s, %s, %s, %s, 1, NULL, %s, %s, %s)", district, order, number, item, quantity, amount, stock[2])

    def payment(self) -> None:
        """A customer pays; half of them are found by their name."""
        district, amount = self.chance.randint(1, DISTRICTS), Decimal(self.chance.randint(100, 500000)) / 100
        self.ask("UPDATE warehouse SET w_ytd = w_ytd + %s WHERE w_id = 1", amount)
        name = self.ask("SELECT w_name, w_street_1, w_city, w_state, w_zip FROM warehouse WHERE w_id = 1")[0][0]
        self.ask("UPDATE district SET d_ytd = d_ytd + %s WHERE d_w_id = 1 AND d_id = %s", amount, district)
        other = self.ask("SELECT d_name, d_street_1, d_city, d_state, d_zip FROM district WHERE d_w_id = 1 AND d_id = %s", district)[0][0]
        customer = self.customer(district)
        credit = self.ask("SELECT c_credit, c_balance, c_data FROM customer WHERE c_w_id = 1 AND c_d_id = %s AND c_id = %s", district, customer)[0]
        self.ask(
            "UPDATE customer SET c_balance = c_balance - %s, c_ytd_payment = c_ytd_payment + %s, c_payment_cnt = c_payment_cnt + 1"
            " WHERE c_w_id = 1 AND c_d_id = %s AND c_id = %s", amount, amount, district, customer,
        )  # fmt: skip
        if credit[0] == "BC":
            data = f"{customer} {district} {amount}|{credit[2]}"[:500]
            self.ask("UPDATE customer SET c_data = %s WHERE c_w_id = 1 AND c_d_id = %s AND c_id = %s", data, district, customer)
        self.ask("INSERT INTO history VALUES (%s, %s, 1, %s, 1, %s, %s, %s)", customer, district, district, self.now(), amount, f"{name}    {other}")

    def customer(self, district: int) -> int:
        """A customer, by number or by name."""
        number = self.chance.randint(1, CUSTOMERS)
        if self.chance.random() < 0.5:
            return number
        found = self.ask("SELECT c_id FROM customer WHERE c_w_id = 1 AND c_d_id = %s AND c_last = %s ORDER BY c_first", district, f"BAR{number}")
        return int(found[len(found) // 2][0])

    def order_status(self) -> None:
        """A customer asks for the last order."""
        district = self.chance.randint(1, DISTRICTS)
        customer = self.customer(district)
        self.ask("SELECT c_balance, c_first, c_middle, c_last FROM customer WHERE c_w_id = 1 AND c_d_id = %s AND c_id = %s", district, customer)
        orders = self.ask("SELECT o_id, o_entry_d, o_carrier_id FROM orders WHERE o_w_id = 1 AND o_d_id = %s AND o_c_id = %s ORDER BY o_id DESC", district, customer)
        if orders:
            self.ask("SELECT ol_i_id, ol_quantity, ol_amount, ol_delivery_d FROM order_line WHERE ol_w_id = 1 AND ol_d_id = %s AND ol_o_id = %s", district, orders[0][0])

    def delivery(self) -> None:
        """The oldest order of each district is delivered."""
        carrier = self.chance.randint(1, 10)
        for district in range(1, DISTRICTS + 1):
            waiting = self.ask("SELECT no_o_id FROM new_order WHERE no_w_id = 1 AND no_d_id = %s ORDER BY no_o_id", district)
            if not waiting:
                continue
            order = waiting[0][0]
            self.ask("DELETE FROM new_order WHERE no_w_id = 1 AND no_d_id = %s AND no_o_id = %s", district, order)
            customer = self.ask("SELECT o_c_id FROM orders WHERE o_w_id = 1 AND o_d_id = %s AND o_id = %s", district, order)[0][0]
            self.ask("UPDATE orders SET o_carrier_id = %s WHERE o_w_id = 1 AND o_d_id = %s AND o_id = %s", carrier, district, order)
            self.ask("UPDATE order_line SET ol_delivery_d = %s WHERE ol_w_id = 1 AND ol_d_id = %s AND ol_o_id = %s", self.now(), district, order)
            amounts = self.ask("SELECT ol_amount FROM order_line WHERE ol_w_id = 1 AND ol_d_id = %s AND ol_o_id = %s", district, order)
            total = sum((amount for (amount,) in amounts), Decimal(0))
            self.ask("UPDATE customer SET c_balance = c_balance + %s, c_delivery_cnt = c_delivery_cnt + 1 WHERE c_w_id = 1 AND c_d_id = %s AND c_id = %s", total, district, customer)

    def stock_level(self) -> None:
        """How many items of the last orders are short."""
        district = self.chance.randint(1, DISTRICTS)
        order = self.ask("SELECT d_next_o_id FROM district WHERE d_w_id = 1 AND d_id = %s", district)[0][0]
        lines = self.ask("SELECT ol_i_id FROM order_line WHERE ol_w_id = 1 AND ol_d_id = %s AND ol_o_id BETWEEN %s AND %s", district, order - 20, order - 1)
        for item in sorted({item for (item,) in lines}):
            self.ask("SELECT s_i_id FROM stock WHERE s_w_id = 1 AND s_i_id = %s AND s_quantity < %s", item, 15)

    def one(self, benchmark: str) -> None:
        """One transaction, as often as the benchmark has it."""
        if benchmark == "b":
            self.transfer()
            return
        kinds = [self.new_order] * 45 + [self.payment] * 43 + [self.order_status] * 4 + [self.delivery] * 4 + [self.stock_level] * 4
        self.chance.choice(kinds)()


def fill(client: Client, benchmark: str) -> None:
    """The tables, and their first rows."""
    for name, columns in (TPC_B if benchmark == "b" else TPC_C).items():
        client.ask(f"CREATE TABLE {name} ({columns})")
    if benchmark == "b":
        client.ask("INSERT INTO branches VALUES (1, 0)")
        client.ask("INSERT INTO tellers VALUES (1, 1, 0), (2, 1, 0)")
        client.ask("INSERT INTO accounts SELECT aid, 1, 0 FROM generate_series(1, 5) aid")
        return
    client.ask("INSERT INTO warehouse VALUES (1, 'one', 'a', 'b', 'c', 'DE', '12345', 0.1, 300000)")
    client.ask(f"INSERT INTO district SELECT 1, d, 'd' || d, 'a', 'b', 'c', 'DE', '12345', 0.05, 30000, 1 FROM generate_series(1, {DISTRICTS}) d")
    client.ask(
        "INSERT INTO customer SELECT 1, d, c, 'first' || c, 'OE', 'BAR' || c, 'a', 'b', 'c', 'DE', '12345', '1', '2024-01-01', CASE c WHEN 1 THEN 'BC' ELSE 'GC' END,"
        f" 50000, 0.1, -10, 10, 1, 0, 'data' FROM generate_series(1, {DISTRICTS}) d, generate_series(1, {CUSTOMERS}) c"
    )  # fmt: skip
    client.ask(f"INSERT INTO item SELECT i, i, 'item' || i, 1.25 * i, 'data' FROM generate_series(1, {ITEMS}) i")
    places = ", ".join(f"'dist {number}'" for number in range(1, 11))
    client.ask(f"INSERT INTO stock SELECT 1, i, 20 + i, {places}, 0, 0, 0, 'data' FROM generate_series(1, {ITEMS}) i")


def work(client: Client, benchmark: str, count: int, refused: Any) -> None:
    """So many transactions, each tried again where the database refuses it."""
    for _ in range(count):
        while True:
            state = client.chance.getstate()
            try:
                client.one(benchmark)
                client.connection.commit()
                break
            except refused:
                client.connection.rollback()
                client.chance.setstate(state)


@contextlib.contextmanager
def database(connects: Callable[[], Any], schema: str, benchmark: str) -> Iterator[None]:
    """A schema with the tables of a benchmark, until the end."""
    connection = connects()
    client = Client(connection, 0, datetime.datetime.now)
    client.ask(f"DROP SCHEMA IF EXISTS {schema} CASCADE")
    client.ask(f"CREATE SCHEMA {schema}")
    fill(client, benchmark)
    connection.commit()
    try:
        yield
    finally:
        connection.rollback()
        client.ask(f"DROP SCHEMA {schema} CASCADE")
        connection.commit()
        connection.close()


def recorded(driver: Any, dsn: str, benchmark: str, level: str, count: int, path: str, clients: int = 3) -> Tuple[Recorder, Verdict]:
    """What is recorded of so many transactions of each client, at a level, and the verdict."""
    schema = "recorded_tpc"

    def connects() -> Any:
        connection = driver.connect(dsn)
        settings = f"SET SESSION CHARACTERISTICS AS TRANSACTION ISOLATION LEVEL {level}"
        for text in (f"SET search_path = {schema}", settings, "SET lock_timeout = '20s'"):
            connection.cursor().execute(text)
        connection.commit()
        return connection

    with database(connects, schema, benchmark):
        recorder = Recorder(path, list(TPC_B if benchmark == "b" else TPC_C))
        refused = (driver.errors.SerializationFailure, driver.errors.DeadlockDetected, driver.errors.UniqueViolation)
        opened = [recorder.wrap(connects()) for _ in range(clients)]
        threads = [
            threading.Thread(target=work, args=(Client(connection, seed, datetime.datetime.now), benchmark, count, refused))
            for seed, connection in enumerate(opened, 1)
        ]  # fmt: skip
        for thread in threads:
            thread.start()
        for thread in threads:
            thread.join()
        for connection in opened:
            connection.close()
        return recorder, recorder.verdict()


def main() -> int:
    words = argparse.ArgumentParser(description=__doc__, formatter_class=argparse.RawDescriptionHelpFormatter)
    words.add_argument("--dsn", required=True, help="where PostgreSQL is, as libpq has it")
    words.add_argument("--driver", default="psycopg2", choices=("psycopg2", "psycopg"))
    words.add_argument("--benchmark", default="c", choices=("b", "c"))
    words.add_argument("--level", default="READ COMMITTED", choices=LEVELS)
    words.add_argument("--transactions", type=int, default=40, help="of each of three clients")
    words.add_argument("--out", default="recording.transcript", help="where the recording is written")
    given = words.parse_args()
    driver = importlib.import_module(given.driver)
    recorder, told = recorded(driver, given.dsn, given.benchmark, given.level, given.transactions, given.out)
    left: Dict[str, int] = dict(recorder.left_out)
    print(told.words, *[f"left out {count}: {why}" for why, count in left.items()], sep="\n")
    return {"yes": 0, "unknown": 4, "no": 5}.get(told.answer, 1)


if __name__ == "__main__":
    sys.exit(main())
