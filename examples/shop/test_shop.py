"""The shop's tests: python3 -m pytest examples/shop"""

import contextlib
import threading
import time

import pytest
import shop


@pytest.fixture(autouse=True)
def tables() -> None:
    """Empty tables."""
    with contextlib.closing(shop.connect()) as connection, connection, connection.cursor() as cursor:
        cursor.execute(shop.TABLES)


def slowly(price: int) -> None:
    """Pays."""
    time.sleep(0.2)


def test_a_coupon_is_used_once() -> None:
    assert [shop.checkout(customer, 7, slowly) for customer in ("ada", "bob")] == [90, 100]


def test_two_customers_at_once() -> None:
    threads = [threading.Thread(target=shop.checkout, args=(customer, 7, slowly)) for customer in ("ada", "bob")]
    for thread in threads:
        thread.start()
    for thread in threads:
        thread.join()
    with contextlib.closing(shop.connect()) as connection, connection.cursor() as cursor:
        cursor.execute("SELECT customer FROM orders")
        assert sorted(cursor.fetchall()) == [("ada",), ("bob",)]
