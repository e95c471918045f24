"""Tests of what README.md begins with: the lines that it says for each framework are cut out of it, and run in a fresh virtual
environment, on three applications (a lost update, a write skew, neither) at three levels. Verdicts and named lines are those of
the definitions. Into the environment pip installs the package; frameworks and drivers are those that Debian has, since nothing
is fetched. Of these there was neither SQLAlchemy 2 nor Django 4.

    PGSERIAL=path/to/pgserial PGSERIAL_DSN=".." python3 clients/python/test_frameworks.py

$PGSERIAL_DSN names a database of PostgreSQL, in which the table `accounts` is made anew, and others for Django's tests.
"""

import json
import os
import re
import shutil
import subprocess
import sys
import tempfile
import textwrap
import unittest
from typing import Any, Dict, List, Tuple

from test_recording import DSN, HERE, Room, module

LEVELS = ("READ COMMITTED", "REPEATABLE READ", "SERIALIZABLE")
# At which levels PostgreSQL lets each through, by what it promises.
LETS = {"withdraw": LEVELS[:1], "close": LEVELS[:2], "deposit": ()}
NAMES = {"withdraw": "lost update", "close": "write skew"}


def below(heading: str) -> str:
    """What README.md has below a heading."""
    with open(os.path.join(HERE, "README.md"), encoding="utf-8") as file:
        text = file.read()
    found = re.search(rf"^## {re.escape(heading)}\n(.*?)(?=^#)", re.sub(r"^# ", "## ", text, flags=re.MULTILINE) + "\n## ", re.MULTILINE | re.DOTALL)
    assert found, f"README.md has no heading {heading}"
    return found[1]


def blocks(heading: str) -> List[str]:
    """The blocks of code there."""
    return [textwrap.dedent(block) for block in re.findall(r"```\w*\n(.*?)```", below(heading), re.DOTALL)]


def inline(heading: str, beginning: str) -> str:
    """The code there, amid its sentences, that begins so."""
    return next(code for code in re.findall(r"(?<!`)`([^`\n]+)`", below(heading)) if code.startswith(beginning))


def fresh_python(folder: str) -> str:
    """The Python of a virtual environment that is made in a folder, into which pip installs the package."""
    room, sources = os.path.join(folder, "room"), os.path.join(folder, "sources")
    if subprocess.run([sys.executable, "-m", "venv", "--system-site-packages", room], capture_output=True, check=False).returncode:
        raise unittest.SkipTest("Python's venv with pip isn't there (Debian: python3-venv)")
    shutil.copytree(os.path.join(HERE, "pgserial"), os.path.join(sources, "pgserial"), ignore=shutil.ignore_patterns("__pycache__"))
    for name in ("pyproject.toml", "README.md"):
        shutil.copy(os.path.join(HERE, name), sources)
    python = os.path.join(room, "bin/python")
    words = ["--disable-pip-version-check", "--no-cache-dir", "-q", "install", "--no-index", "--no-deps", "--no-build-isolation", sources]
    done = subprocess.run([python, "-m", "pip", *words], capture_output=True, text=True, check=False)
    if "No module named 'wheel'" in done.stderr or "invalid command 'bdist_wheel'" in done.stderr:
        raise unittest.SkipTest("Python's wheel isn't there (Debian: python3-wheel)")
    assert done.returncode == 0, done.stderr
    return python


# ---- the applications: two at once, each of which waits for the other between its read and its write

COMMON = """
import threading

class Meeting:
    # A thread waits for the other once, and not when it runs its transaction again.
    def __init__(self):
        self.barrier, self.met = threading.Barrier(2), threading.local()

    def wait(self):
        if not getattr(self.met, "yes", False):
            self.met.yes = True
            self.barrier.wait(10)

def both(work, refused):
    meeting = Meeting()

    def run(key):
        while True:
            try:
                return work(key, meeting.wait)
            except refused:
                pass

    threads = [threading.Thread(target=run, args=(key,)) for key in (1, 2)]
    [thread.start() for thread in threads]
    [thread.join() for thread in threads]
"""
BARE = """
import os, psycopg2
from common import both
REFUSED = psycopg2.errors.SerializationFailure, psycopg2.errors.DeadlockDetected

def connected():
    connection = psycopg2.connect(os.environ["DSN"])
    connection.set_session(isolation_level=os.environ["LEVEL"])
    return connection

class Shop:
    def __init__(self, connect=connected):
        self.connect = connect

    def withdraw(self, key, wait):
        with self.connect() as connection, connection.cursor() as cursor:
            cursor.execute("SELECT balance FROM accounts WHERE id = 1")  # withdraw reads
            balance = cursor.fetchone()[0]
            wait()
            cursor.execute("UPDATE accounts SET balance = %s WHERE id = 1", (balance - 1,))  # withdraw writes

    def close(self, key, wait):
        with self.connect() as connection, connection.cursor() as cursor:
            cursor.execute("SELECT id FROM accounts WHERE balance > 0")  # close reads
            is_last = len(cursor.fetchall()) < 2
            wait()
            if not is_last:
                cursor.execute("UPDATE accounts SET balance = 0 WHERE id = %s", (key,))  # close writes

    def deposit(self, key, wait):
        wait()
        with self.connect() as connection, connection.cursor() as cursor:
            cursor.execute("UPDATE accounts SET balance = balance + 1 WHERE id = 1")
"""
MADE = """
import os, sys
sys.path.insert(0, os.path.dirname(os.path.abspath(__file__)))
import psycopg2
def made():
    connection = psycopg2.connect(os.environ["DSN"])
    cursor = connection.cursor()
    cursor.execute("DROP TABLE IF EXISTS accounts")
    cursor.execute("CREATE TABLE accounts (id int PRIMARY KEY, balance int NOT NULL)")
    cursor.execute("INSERT INTO accounts VALUES (1, 10), (2, 10)")
    connection.commit()
    connection.close()
"""
RUN_BARE = """
import json, os, psycopg2
from made import made
from shop import REFUSED, Shop, connected
from common import both
from pgserial.recording import Recorder

told = {}
for name, level in ALL:
    os.environ["LEVEL"] = level
    made()
    names = {"Recorder": Recorder, "tables": ["accounts"], "psycopg2": psycopg2, "connect": connected}
    exec(FIRST, names)
    recorder = names["recorder"]
    both(getattr(Shop(lambda: recorder.wrap(connected())), name), REFUSED)
    told[f"{name} {level}"] = [recorder.verdict().answer, str(recorder.verdict())]
print(json.dumps(told))
"""
RUN_POOL = """
import contextlib, json, os, psycopg2.extensions, psycopg2.pool
from made import made
from shop import REFUSED, Shop
from common import both
from pgserial.recording import Recorder

@contextlib.contextmanager
def lent(pool):
    connection = pool.getconn()
    try:
        with connection:
            yield connection
    finally:
        pool.putconn(connection)

told = {}
for name, level in ALL:
    made()
    recorder = Recorder("pool.transcript", tables=["accounts"])
    options = "-c default_transaction_isolation=" + level.replace(" ", "\\\\ ")
    pool = eval(f"psycopg2.pool.ThreadedConnectionPool(2, 4, os.environ['DSN'], options=options, {FIRST})")
    both(getattr(Shop(lambda: lent(pool)), name), REFUSED)
    pool.closeall()
    told[f"{name} {level}"] = [recorder.verdict().answer, str(recorder.verdict())]
print(json.dumps(told))
"""
SQLALCHEMY = """
from sqlalchemy import Column, Integer, exc, select, update
from sqlalchemy.orm import Session, declarative_base

REFUSED = exc.DBAPIError

class Account(declarative_base()):
    __tablename__ = "accounts"
    id = Column(Integer, primary_key=True)
    balance = Column(Integer, nullable=False)

class Shop:
    def __init__(self, engine):
        self.engine = engine

    def withdraw(self, key, wait):
        with Session(self.engine) as session:
            account = session.get(Account, 1)  # withdraw reads
            wait()
            account.balance -= 1
            session.commit()  # withdraw writes

    def close(self, key, wait):
        with Session(self.engine) as session:
            is_last = len(session.execute(select(Account.id).where(Account.balance > 0)).all()) < 2  # close reads
            wait()
            if not is_last:
                session.execute(update(Account).where(Account.id == key).values(balance=0))  # close writes
            session.commit()

    def deposit(self, key, wait):
        wait()
        with Session(self.engine) as session:
            session.execute(update(Account).where(Account.id == 1).values(balance=Account.balance + 1))
            session.commit()
"""
RUN_SQLALCHEMY = """
import functools, json, os
from sqlalchemy import create_engine
from made import made
from shop import REFUSED, Shop
from common import both
from pgserial.recording import Recorder

told = {}
for name, level in ALL:
    os.environ["LEVEL"] = level
    made()
    create = functools.partial(create_engine, isolation_level=os.environ["LEVEL"])
    names = {"Recorder": Recorder, "create_engine": create, "url": os.environ["URL"]}
    exec(FIRST, names)
    both(getattr(Shop(names["engine"]), name), REFUSED)
    names["engine"].dispose()
    told[f"{name} {level}"] = [names["recorder"].verdict().answer, str(names["recorder"].verdict())]
print(json.dumps(told))
"""
ASYNC_SQLALCHEMY = """
from sqlalchemy import select, update
from sqlalchemy.ext.asyncio import AsyncSession
from models import Account

class Shop:
    def __init__(self, engine):
        self.engine = engine

    async def withdraw(self, key, wait):
        async with AsyncSession(self.engine) as session:
            account = await session.get(Account, 1)  # withdraw reads
            await wait()
            account.balance -= 1
            await session.commit()  # withdraw writes

    async def close(self, key, wait):
        async with AsyncSession(self.engine) as session:
            is_last = len((await session.execute(select(Account.id).where(Account.balance > 0))).all()) < 2  # close reads
            await wait()
            if not is_last:
                await session.execute(update(Account).where(Account.id == key).values(balance=0))  # close writes
            await session.commit()

    async def deposit(self, key, wait):
        await wait()
        async with AsyncSession(self.engine) as session:
            await session.execute(update(Account).where(Account.id == 1).values(balance=Account.balance + 1))
            await session.commit()
"""
ASYNC_COMMON = """
import asyncio

async def both(work, refused):
    met = asyncio.Event()
    reached = []

    async def run(key):
        async def wait():
            if key not in reached:
                reached.append(key)
                if len(reached) == 2:
                    met.set()
            await met.wait()

        while True:
            try:
                return await work(key, wait)
            except refused:
                pass

    await asyncio.gather(run(1), run(2))
"""
RUN_ASYNC_SQLALCHEMY = """
import asyncio, functools, json, os
from sqlalchemy import exc, text
from sqlalchemy.ext.asyncio import create_async_engine
from made import made
from shop import Shop
from async_common import both
from pgserial.recording import Recorder

async def run(name):
    create = functools.partial(create_async_engine, isolation_level=os.environ["LEVEL"])
    names = {"Recorder": Recorder, "create_engine": create, "url": os.environ["URL"]}
    exec(FIRST, names)
    async with names["engine"].connect() as connection:
        await connection.execute(text("SELECT 1"))
    await both(getattr(Shop(names["engine"]), name), exc.DBAPIError)
    await names["engine"].dispose()
    return [names["recorder"].verdict().answer, str(names["recorder"].verdict())]

told = {}
for name, level in ALL:
    os.environ["LEVEL"] = level
    made()
    told[f"{name} {level}"] = asyncio.run(run(name))
print(json.dumps(told))
"""
ASYNCIO = """
class Shop:
    def __init__(self, pool):
        self.pool = pool

    async def withdraw(self, key, wait):
        async with self.pool.connection() as connection:
            cursor = await connection.execute("SELECT balance FROM accounts WHERE id = 1")  # withdraw reads
            balance = (await cursor.fetchone())[0]
            await wait()
            await connection.execute("UPDATE accounts SET balance = %s WHERE id = 1", (balance - 1,))  # withdraw writes

    async def close(self, key, wait):
        async with self.pool.connection() as connection:
            cursor = await connection.execute("SELECT id FROM accounts WHERE balance > 0")  # close reads
            is_last = len(await cursor.fetchall()) < 2
            await wait()
            if not is_last:
                await connection.execute("UPDATE accounts SET balance = 0 WHERE id = %s", (key,))  # close writes

    async def deposit(self, key, wait):
        await wait()
        async with self.pool.connection() as connection:
            await connection.execute("UPDATE accounts SET balance = balance + 1 WHERE id = 1")
"""
RUN_ASYNCIO = """
import asyncio, json, os, psycopg
from psycopg_pool import AsyncConnectionPool
from made import made
from shop import Shop
from async_common import both
from pgserial.recording import Recorder

async def run(name):
    level = os.environ["LEVEL"].replace(" ", "\\\\\\\\ ")
    dsn = os.environ["DSN"] + f" options='-c default_transaction_isolation={level}'"
    recorder = Recorder("asyncio.transcript", tables=["accounts"])
    names = {"recorder": recorder, "psycopg": psycopg, "dsn": dsn, "AsyncConnectionPool": AsyncConnectionPool}
    body = "async def lines():\\n" + "".join(f"    {line}\\n" for line in FIRST.splitlines()) + "    return connection, pool\\n"
    exec(body, names)
    connection, pool = await names["lines"]()
    await connection.close()
    async with pool:
        await both(getattr(Shop(pool), name), (psycopg.errors.SerializationFailure, psycopg.errors.DeadlockDetected))
    return [recorder.verdict().answer, str(recorder.verdict())]

told = {}
for name, level in ALL:
    os.environ["LEVEL"] = level
    made()
    told[f"{name} {level}"] = asyncio.run(run(name))
print(json.dumps(told))
"""
TESTS = """
import pytest
from common import both
from made import made
from shop import REFUSED, Shop

@pytest.fixture(autouse=True)
def accounts():
    made()

@pytest.mark.parametrize("name", ["withdraw", "close", "deposit"])
def test(name):
    both(getattr(Shop(), name), REFUSED)
"""
SETTINGS = """
import os
from pathlib import Path
from psycopg2 import extensions

BASE_DIR = Path(__file__).resolve().parent
SECRET_KEY, USE_TZ = "x", True
INSTALLED_APPS = ["shop"]
DEFAULT_AUTO_FIELD = "django.db.models.BigAutoField"
server = dict(word.split("=", 1) for word in os.environ["DSN"].split())
level = getattr(extensions, "ISOLATION_LEVEL_" + os.environ["LEVEL"].replace(" ", "_"))
DATABASES = {"default": {"ENGINE": "django.db.backends.postgresql", "NAME": server["dbname"], "USER": server["user"], "HOST": server["host"],
    "OPTIONS": {"isolation_level": level}, "TEST": {"NAME": f"tested_{os.getpid()}"}}}
"""
MODELS = """
from django.db import models

class Account(models.Model):
    balance = models.IntegerField()
"""
VIEWS = """
from django.db import transaction
from django.db.models import F
from .models import Account

@transaction.atomic
def withdraw(key, wait):
    account = Account.objects.get(pk=1)  # withdraw reads
    wait()
    account.balance -= 1
    account.save()  # withdraw writes

@transaction.atomic
def close(key, wait):
    is_last = len(Account.objects.filter(balance__gt=0).values_list("pk")) < 2  # close reads
    wait()
    if not is_last:
        Account.objects.filter(pk=key).update(balance=0)  # close writes

@transaction.atomic
def deposit(key, wait):
    wait()
    Account.objects.filter(pk=1).update(balance=F("balance") + 1)
"""
DJANGO_TESTS = """
from django.db import OperationalError, connections
from common import both
from shop import views
from shop.models import Account

class Tests(TestCase):
    def run_both(self, work):
        for key in (1, 2):
            Account.objects.create(pk=key, balance=10)

        def closing(key, wait):
            try:
                work(key, wait)
            finally:
                connections.close_all()

        self.prepared = closing

    def setUp(self):
        self.run_both(getattr(views, self._testMethodName[len("test_"):]))

    def test_withdraw(self):
        both(self.prepared, OperationalError)

    test_close = test_deposit = test_withdraw
"""


@unittest.skipUnless(DSN, "PostgreSQL isn't there (Debian: postgresql)")
@unittest.skipUnless(module("psycopg2"), "psycopg2 isn't there (Debian: python3-psycopg2)")
class Readme(Room):
    """Each framework's lines, on the applications at the levels."""

    @classmethod
    def setUpClass(cls) -> None:
        folder = tempfile.TemporaryDirectory()
        cls.addClassCleanup(folder.cleanup)
        cls.home = folder.name
        cls.python = fresh_python(folder.name)

    def write(self, **files: str) -> None:
        for name, text in files.items():
            path = os.path.join(self.folder, name.replace("__", "/") + ".py")
            os.makedirs(os.path.dirname(path), exist_ok=True)
            with open(path, "w", encoding="utf-8") as file:
                file.write(text)

    def run_python(self, *words: str, **environment: str) -> Any:
        changed = {
            **os.environ, "DSN": DSN, "TMPDIR": self.folder, "PYTHONWARNINGS": "ignore", "COLUMNS": "300",
            "PYTEST_DISABLE_PLUGIN_AUTOLOAD": "1", **environment,
        }  # fmt: skip
        changed.pop("PYTHONPATH", None)
        command = [self.python, "-B", *words]
        return subprocess.run(command, cwd=self.folder, env=changed, capture_output=True, text=True, timeout=60, check=False)

    def judged(self, file: str, level: str, name: str, answer: str, words: str) -> None:
        """Compares a verdict with what the level lets through, and the named lines with the application's."""
        with open(os.path.join(self.folder, file), encoding="utf-8") as source:
            lines = source.read().split("\n")
        place = {what: next((f"{file}:{at}" for at, line in enumerate(lines, 1) if line.endswith(f"# {name} {what}")), "") for what in ("reads", "writes")}
        with self.subTest(file=file, level=level, name=name):
            self.assertEqual(answer, "no" if level in LETS[name] else "yes", words)
            if answer == "no":
                self.assertIn(NAMES[name], words)
                for what in ("reads", "writes"):
                    self.assertRegex(words, rf"[( ]{re.escape(place[what])}\)", what)
                self.assertRegex(words, rf"\b{name}\b.*{re.escape(place['reads'])}")

    def each_level(self, run: str, first: str, **environment: str) -> None:
        """Runs a script for each application and level, with what it first executes, and looks at what it was told."""
        every = [(name, level) for name in LETS for level in LEVELS]
        self.write(made=MADE, run=f"FIRST, ALL = {first!r}, {every!r}\n{run}")
        done = self.run_python("run.py", **environment)
        self.assertEqual(done.returncode, 0, done.stderr)
        told: Dict[str, Tuple[str, str]] = json.loads(done.stdout.split("\n")[-2])
        self.assertEqual(set(told), {f"{name} {level}" for name, level in every})
        for name, level in every:
            self.judged("shop.py", level, name, *told[f"{name} {level}"])

    def url(self, driver: str) -> str:
        words = dict(word.split("=", 1) for word in DSN.split())
        return f"postgresql+{driver}://{words['user']}@/{words['dbname']}?host={words['host']}"

    def test_the_package_is_that_of_the_environment(self) -> None:
        for name in ("pgserial", "pgserial.django.postgresql", "pgserial.pytest_plugin"):
            done = self.run_python("-c", f"import importlib.util; print(importlib.util.find_spec({name!r}).origin)")
            self.assertTrue(done.stdout.startswith(os.path.join(self.home, "room") + "/lib"), done.stdout + done.stderr)

    def test_bare_drivers(self) -> None:
        first = blocks("Bare drivers")[0].split("connection =")[0]
        self.write(common=COMMON, shop=BARE)
        self.each_level(RUN_BARE, first)

    def test_pools_of_psycopg2(self) -> None:
        self.write(common=COMMON, shop=BARE)
        self.each_level(RUN_POOL, inline("asyncio", "connection_factory="))

    @unittest.skipUnless(module("sqlalchemy"), "sqlalchemy isn't there (Debian: python3-sqlalchemy)")
    def test_sqlalchemy(self) -> None:
        self.write(common=COMMON, shop=SQLALCHEMY)
        self.each_level(RUN_SQLALCHEMY, blocks("SQLAlchemy")[0], URL=self.url("psycopg2"))

    @unittest.skipUnless(module("sqlalchemy"), "sqlalchemy isn't there (Debian: python3-sqlalchemy)")
    @unittest.skipUnless(module("asyncpg"), "asyncpg isn't there (Debian: python3-asyncpg)")
    def test_sqlalchemy_with_asyncpg(self) -> None:
        models = SQLALCHEMY[: SQLALCHEMY.index("class Shop")]
        self.write(async_common=ASYNC_COMMON, models=models, shop=ASYNC_SQLALCHEMY)
        self.each_level(RUN_ASYNC_SQLALCHEMY, blocks("SQLAlchemy")[0], URL=self.url("asyncpg"))

    @unittest.skipUnless(module("psycopg"), "psycopg isn't there (Debian: python3-psycopg)")
    @unittest.skipUnless(module("psycopg_pool"), "psycopg_pool isn't there (Debian: python3-psycopg-pool)")
    def test_asyncio(self) -> None:
        self.write(async_common=ASYNC_COMMON, shop=ASYNCIO)
        self.each_level(RUN_ASYNCIO, blocks("asyncio")[0])

    def judged_tests(self, *command: str) -> None:
        """Runs pytest at each level, and looks at what it tells of each application."""
        for level in LEVELS:
            done = self.run_python("-m", *command, "-p", "no:cacheprovider", LEVEL=level)
            sections = re.split(r"^_+ test\[(\w+)\] _+$", done.stdout, flags=re.MULTILINE)
            failed = dict(zip(sections[1::2], sections[2::2]))
            for name in LETS:
                self.judged("shop.py", level, name, "no" if name in failed else "yes", failed.get(name, done.stdout))
            counts = {"yes": sum(level not in lets for lets in LETS.values()), "no": sum(level in lets for lets in LETS.values())}
            self.assertIn(", ".join(f"{count} {answer}" for answer, count in counts.items() if count) + "\n", done.stdout)

    @unittest.skipUnless(module("pytest"), "pytest isn't there (Debian: python3-pytest)")
    def test_pytest(self) -> None:
        commands = [line.split("#")[0].split() for line in blocks("pytest")[0].strip().split("\n")]
        self.assertEqual([command[0] for command in commands], ["pytest", "pytest"])
        self.write(common=COMMON, made=MADE, shop=BARE, test_shop=TESTS)
        for command in commands:
            self.judged_tests(*command)

    @unittest.skipUnless(module("pytest"), "pytest isn't there (Debian: python3-pytest)")
    def test_a_mark_of_pytest(self) -> None:
        marked = TESTS.replace("@pytest.mark.parametrize", inline("pytest", "@pytest.mark.") + "\n@pytest.mark.parametrize")
        self.write(common=COMMON, made=MADE, shop=BARE, test_shop=marked)
        self.judged_tests(*blocks("pytest")[0].split("--serializable")[0].split())

    def write_django(self, settings: str) -> None:
        """Writes a project of Django, with the tests that README.md says."""
        tests = blocks("Django")[1]
        manage = "import os, sys\nfrom django.core.management import execute_from_command_line\nos.environ['DJANGO_SETTINGS_MODULE'] = 'settings'\nexecute_from_command_line(sys.argv)\n"
        self.write(common=COMMON, manage=manage, settings=settings, shop____init____="", shop__models=MODELS, shop__views=VIEWS, shop__tests=tests + DJANGO_TESTS)
        os.rename(os.path.join(self.folder, "shop//init//.py"), os.path.join(self.folder, "shop/__init__.py"))

    def judged_cases(self, level: str, lets: Dict[str, Tuple[str, ...]]) -> None:
        """Runs the tests of a project, and looks at what is told of each application."""
        done = self.run_python("manage.py", "test", "--noinput", "shop", LEVEL=level)
        self.assertIn("Ran 3 tests", done.stderr, done.stderr)
        sections = re.split(r"^(?:FAIL|ERROR): test_(\w+) ", done.stderr, flags=re.MULTILINE)
        failed = dict(zip(sections[1::2], sections[2::2]))
        for name in lets:
            self.judged("shop/views.py", level, name, "no" if name in failed else "yes", failed.get(name, done.stderr))

    @unittest.skipUnless(module("django"), "django isn't there (Debian: python3-django)")
    def test_django(self) -> None:
        self.write_django(SETTINGS + blocks("Django")[0])
        for level in LEVELS:
            self.judged_cases(level, LETS)

    @unittest.skipUnless(module("django"), "django isn't there (Debian: python3-django)")
    def test_django_on_sqlite(self) -> None:
        """SQLite has one level, at which nothing comes through."""
        engine = blocks("Django")[0].replace("pgserial.django.postgresql", inline("Django", "pgserial.django.sqlite3"))
        database = 'DATABASES = {"default": {"NAME": BASE_DIR / "db", "TEST": {"NAME": BASE_DIR / "tested"}, "OPTIONS": {"timeout": 10}}}\n'
        self.write_django(SETTINGS[: SETTINGS.index("server =")] + database + engine)
        self.judged_cases("SERIALIZABLE", LETS)


class Shop(Room):
    """The shop with a fault that its tests don't find, by the commands of README.md."""

    @unittest.skipUnless(DSN, "PostgreSQL isn't there (Debian: postgresql)")
    @unittest.skipUnless(module("psycopg2"), "psycopg2 isn't there (Debian: python3-psycopg2)")
    @unittest.skipUnless(module("pytest"), "pytest isn't there (Debian: python3-pytest)")
    def test_the_tutorial(self) -> None:
        first, recorded, told, mended = blocks("A shop with a fault that its tests don't find")
        commands = [first.strip().split("\n")[1], recorded.strip(), mended.strip()]
        done = [self.run_shell(command) for command in commands]
        self.assertEqual([each.returncode for each in done], [0, 1, 0], done[1].stdout)
        self.assertIn("2 passed", done[0].stdout)
        self.assertRegex(done[1].stdout, r"FAILED .*test_two_customers_at_once")
        self.assertIn("1 failed, 1 passed", done[1].stdout)
        self.assertIn("2 yes\n", done[2].stdout)
        self.assertEqual(self.facts(done[1].stdout), self.facts(told))
        self.assertEqual(len(self.facts(told)), 3)

    def facts(self, text: str) -> List[str]:
        """The places and the anomaly that reasons name, whichever of the two threads was first."""
        return sorted(set(re.findall(r"[\w/]+/shop\.py:\d+|cycle: .*", re.sub(r"cycle \d \d \d", "cycle", text))))

    def run_shell(self, command: str) -> Any:
        top = os.path.dirname(os.path.dirname(HERE))
        command = command.replace("python3 -m pytest", f"{sys.executable} -B -m pytest -p no:cacheprovider --rootdir={top}")
        changed = {**os.environ, "SHOP_DSN": DSN, "PYTHONPATH": HERE, "TMPDIR": self.folder, "PYTEST_DISABLE_PLUGIN_AUTOLOAD": "1"}
        return subprocess.run(command, shell=True, cwd=top, env=changed, capture_output=True, text=True, timeout=60, check=False)

    @unittest.skipUnless(DSN, "PostgreSQL isn't there (Debian: postgresql)")
    def test_other_drivers(self) -> None:
        for name, package in (("peewee", "peewee"), ("pg8000", "pg8000")):
            for level, answer in (("READ COMMITTED", "no"), ("SERIALIZABLE", "yes")):
                with self.subTest(name, level=level):
                    if module(package) is None or module("psycopg2") is None:
                        self.skipTest(f"{package} or psycopg2 isn't there (Debian: python3-{package}, python3-psycopg2)")
                    path = os.path.join(os.path.dirname(os.path.dirname(HERE)), "examples/drivers", f"with_{name}.py")
                    changed = {**os.environ, "PYTHONPATH": HERE}
                    done = subprocess.run([sys.executable, "-B", path, DSN, level], cwd=self.folder, env=changed, capture_output=True, text=True, timeout=60, check=False)
                    self.assertRegex(done.stdout, f"serializable: {answer}", done.stderr)
                    self.assertEqual("lost update" in done.stdout, answer == "no")
                    self.assertEqual("withdraw" in done.stdout, answer == "no")
                    self.assertEqual("refused" in done.stdout, answer == "yes")


if __name__ == "__main__":
    unittest.main()
