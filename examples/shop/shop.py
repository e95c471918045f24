"""A small shop on PostgreSQL. A coupon makes an order cheaper, and may be used once."""

import contextlib
import os
from typing import Any, Callable

import psycopg2
import psycopg2.errors

TABLES = """
DROP TABLE IF EXISTS uses, orders;
CREATE TABLE uses (customer text PRIMARY KEY, coupon int NOT NULL);
CREATE TABLE orders (customer text PRIMARY KEY, price int NOT NULL);
"""


def connect() -> Any:
    """A connection; $SHOP_LEVEL is its isolation level."""
    connection = psycopg2.connect(os.environ["SHOP_DSN"])
    connection.set_session(isolation_level=os.environ.get("SHOP_LEVEL", "READ COMMITTED"))
    return connection


def checkout(customer: str, coupon: int, pay: Callable[[int], None]) -> int:
    """Orders, and tells the price. It is done again where the database refuses it for the sake of others."""
    while True:
        try:
            with contextlib.closing(connect()) as connection, connection, connection.cursor() as cursor:
                return ordered(cursor, customer, coupon, pay)
        except psycopg2.errors.SerializationFailure:
            pass


def ordered(cursor: Any, customer: str, coupon: int, pay: Callable[[int], None]) -> int:
    """The transaction of an order."""
    cursor.execute("SELECT count(*) FROM uses WHERE coupon = %s", (coupon,))
    price = 90 if cursor.fetchone()[0] == 0 else 100
    pay(price)
    if price == 90:
        cursor.execute("INSERT INTO uses (customer, coupon) VALUES (%s, %s)", (customer, coupon))
    cursor.execute("INSERT INTO orders (customer, price) VALUES (%s, %s)", (customer, price))
    return price
