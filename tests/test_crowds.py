"""Loads of applications whose transactions matter to one another only now and then: bench/crowded makes them, with replies that
an order explains. `check` finds one within few steps a transaction, and a reader of this file runs it: each transaction gets
the replies that were recorded, and none comes before another that had ended when it began."""
import importlib.machinery
import importlib.util
import os
import random
import re
import resource
import subprocess
import unittest
from tempfile import TemporaryDirectory
from types import ModuleType
from typing import Any, List, NamedTuple

from tests.program import TOP, program


def loads() -> ModuleType:
    """bench/crowded, as a module."""
    path = os.path.join(TOP, "bench", "crowded")
    loader = importlib.machinery.SourceFileLoader("crowded", path)
    spec = importlib.util.spec_from_loader("crowded", loader)
    assert spec is not None
    module = importlib.util.module_from_spec(spec)
    loader.exec_module(module)
    return module


crowded = loads()

# A load, how many transactions and sessions, and within how many steps an order is found.
CROWDS = [("shelves", 500, 8, 40_000), ("queue", 341, 8, 20_000), ("queue", 200, 16, 20_000),
          ("jobs", 400, 8, 30_000), ("bookings", 400, 8, 30_000), ("bookings", 300, 12, 30_000)]


# Processor seconds in which a hundred thousand steps have long been taken, whatever is looked at in them.
SECONDS = 10


class Crowd(NamedTuple):
    """A recorded load: the tables that it begins with, its lines, and its transactions in the order of their BEGINs."""

    tables: Any
    lines: List[str]
    done: List[Any]


def recorded(name: str, count: int, sessions: int, seed: int) -> Crowd:
    """What is recorded of a load."""
    chance = random.Random(seed)
    load = crowded.LOADS[name](chance)
    lines, done = crowded.recorded(load, crowded.planned(chance, count, sessions))
    return Crowd(crowded.empty(load), lines, done)


def spent() -> float:
    """The processor seconds that programs which have ended took."""
    usage = resource.getrusage(resource.RUSAGE_CHILDREN)
    return usage.ru_utime + usage.ru_stime


def checked(lines: List[str], steps: int) -> List[str]:
    """What `check` prints of a transcript."""
    with TemporaryDirectory() as folder:
        path = os.path.join(folder, "transcript")
        with open(path, "w", encoding="utf-8") as file:
            file.write("\n".join(lines) + "\n")
        process = subprocess.run([program(), "check", path, "--steps", str(steps)], stdout=subprocess.PIPE, text=True, check=False)
    return process.stdout.splitlines()


def ran_as_recorded(crowd: Crowd, order: List[int]) -> bool:
    """Whether each transaction of an order, run where those before it have left the tables, gets its recorded replies."""
    for number in order:
        for statement, reply in crowd.done[number - 1].answered:
            if sorted(statement.ask(crowd.tables)) != sorted(reply):
                return False
    return True


def goes_by_time(crowd: Crowd, order: List[int]) -> bool:
    """Whether none stands behind one that began after it had ended."""
    latest = float("-inf")
    for number in order:
        if crowd.done[number - 1].end < latest:
            return False
        latest = max(latest, crowd.done[number - 1].begin)
    return True


class Crowds(unittest.TestCase):
    """Loads are explained, within few steps."""

    def test_an_order_is_found_within_few_steps(self) -> None:
        for name, count, sessions, steps in CROWDS:
            with self.subTest(load=name, sessions=sessions):
                crowd = recorded(name, count, sessions, 1)
                printed = checked(crowd.lines, steps)
                self.assertEqual(printed[-1], "check yes")
                order = [int(number) for number in printed[-3].split()[1:]]
                self.assertEqual(sorted(order), list(range(1, len(crowd.done) + 1)))
                self.assertTrue(goes_by_time(crowd, order))
                self.assertTrue(ran_as_recorded(crowd, order))

    def test_a_reply_that_no_order_gives_is_refused(self) -> None:
        for name, count, sessions, steps in CROWDS:
            with self.subTest(load=name, sessions=sessions):
                lines = recorded(name, count // 8, sessions, 1).lines
                place = max(at for at, line in enumerate(lines) if re.fullmatch(r"  \d+ (DELETE|UPDATE) \d+", line))
                wrong = [*lines[:place], re.sub(r"\d+$", "123456", lines[place]), *lines[place + 1:]]
                self.assertIn(checked(wrong, steps)[-1], ("check no", "check unknown"))

    def test_a_lost_addition_is_refused_where_all_orders_are_few(self) -> None:
        for sessions in (3, 8):
            with self.subTest(sessions=sessions):
                self.assertEqual(checked(crowded.crowd(sessions, True), 20_000)[-1], "check no")
                self.assertEqual(checked(crowded.crowd(sessions, False), 20_000)[-1], "check yes")

    def test_steps_bound_the_time(self) -> None:
        before = spent()
        self.assertIn(checked(crowded.crowd(64, True), 100_000)[-1], ("check no", "check unknown"))
        self.assertLess(spent() - before, SECONDS)
