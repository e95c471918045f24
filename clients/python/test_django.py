"""Tests of Django's engines that are recorded: test cases, migrations, the command that judges, and the plugin of pytest.

    PGSERIAL=path/to/pgserial python3 clients/python/test_django.py

Each makes a project in a folder of its own, on SQLite; on PostgreSQL where $PGSERIAL_DSN names a database of it.
"""

import os
import re
import subprocess
import sys
import textwrap
import unittest
from typing import Any, Dict

from test_recording import DSN, HERE, Room, module

FILES = {
    "settings.py": """
        import os
        from pathlib import Path

        BASE_DIR = Path(__file__).resolve().parent
        SECRET_KEY, USE_TZ = "x", True
        INSTALLED_APPS = ["django.contrib.auth", "django.contrib.contenttypes", "pgserial.django", "shop"]
        DEFAULT_AUTO_FIELD = "django.db.models.BigAutoField"
        ENGINE = os.environ.get("ENGINE", "pgserial.django")
        DATABASES = {"default": {"ENGINE": ENGINE + ".sqlite3", "NAME": BASE_DIR / "db", "TEST": {"NAME": BASE_DIR / "tested"}, "OPTIONS": {}}}
        if os.environ.get("SERVER"):
            server = dict(word.split("=", 1) for word in os.environ["SERVER"].split())
            DATABASES["default"].update(ENGINE=ENGINE + ".postgresql", NAME=server["dbname"], USER=server["user"], HOST=server["host"], TEST={"NAME": f"tested_{os.getpid()}"})
        if os.environ.get("RECORDING"):
            DATABASES["default"]["OPTIONS"]["recording"] = BASE_DIR / os.environ["RECORDING"]
        if os.environ.get("TABLES"):
            DATABASES["default"]["OPTIONS"]["recorded_tables"] = os.environ["TABLES"].split(",")
        """,
    "manage.py": """
        import os, sys
        from django.core.management import execute_from_command_line

        os.environ.setdefault("DJANGO_SETTINGS_MODULE", "settings")
        execute_from_command_line(sys.argv)
        """,
    "shop/__init__.py": "",
    "shop/migrations/__init__.py": "",
    "shop/migrations/0001_initial.py": """
        from django.db import migrations, models

        class Migration(migrations.Migration):
            initial = True
            operations = [
                migrations.CreateModel("Account", [("id", models.BigAutoField(auto_created=True, primary_key=True, serialize=False, verbose_name="ID")), ("owner", models.CharField(max_length=30)), ("balance", models.IntegerField())]),
            ]
        """,
    "shop/models.py": """
        from django.db import models

        class Account(models.Model):
            owner = models.CharField(max_length=30)
            balance = models.IntegerField()
        """,
    "shop/views.py": """
        from django.db import transaction
        from .models import Account

        @transaction.atomic
        def withdraw(key, amount, wait=lambda: None):
            account = Account.objects.get(pk=key)
            wait()
            account.balance -= amount
            account.save()
        """,
}
TESTS = """
    import threading
    from django.db import connections
    from django.test import TestCase, TransactionTestCase
    from pgserial.django.test import SerializableTestCase
    from shop.models import Account
    from shop.views import withdraw

    class {name}({base}):
        def setUp(self):
            Account.objects.create(id=1, owner="ada 100% 'x'", balance=100)

        def test_one(self):
            withdraw(1, 10)
            self.assertEqual([(a.owner, a.balance) for a in Account.objects.all()], [("ada 100% 'x'", 90)])

        def test_two(self):
            barrier = threading.Barrier(2)

            def run():
                try:
                    withdraw(1, 10, lambda: barrier.wait(5))
                finally:
                    connections.close_all()

            threads = [threading.Thread(target=run) for _ in range({threads})]
            [thread.start() for thread in threads]
            [thread.join() for thread in threads]
    """


def tests(name: str, base: str, threads: int = 2) -> str:
    """Test cases of a base."""
    return TESTS.format(name=name, base=base, threads=threads)


@unittest.skipUnless(module("django"), "django isn't there (Debian: python3-django)")
class Django(Room):
    def write(self, files: Dict[str, str]) -> None:
        for name, text in files.items():
            path = os.path.join(self.folder, name)
            os.makedirs(os.path.dirname(path), exist_ok=True)
            with open(path, "w", encoding="utf-8") as file:
                file.write(textwrap.dedent(text))

    def run_python(self, *words: str, **environment: str) -> Any:
        """What a command says in the project's folder, and its status."""
        changed = {**os.environ, "PYTHONPATH": HERE, "TMPDIR": self.folder, "PYTHONWARNINGS": "ignore", "COLUMNS": "300", **environment}
        return subprocess.run([sys.executable, "-B", *words], cwd=self.folder, env=changed, capture_output=True, text=True, timeout=60, check=False)

    def setUp(self) -> None:
        super().setUp()
        self.write(FILES)

    def test_a_migration_is_made_of_the_model(self) -> None:
        self.assertIn("No changes detected", self.run_python("manage.py", "makemigrations", "--check", "--dry-run").stdout)

    def test_cases_on_sqlite(self) -> None:
        self.write({"shop/tests.py": tests("Cases", "SerializableTestCase", 0)})
        for tables in ("", "shop_account"):
            done = self.run_python("manage.py", "test", "shop", TABLES=tables)
            self.assertRegex(done.stderr, r"test_two[\s\S]*nothing was recorded")  # it has no threads
            self.assertRegex(done.stderr, r"Ran 2 tests[\s\S]*FAILED \(failures=1\)")

    @unittest.skipUnless(DSN and module("psycopg2"), "PostgreSQL or psycopg2 isn't there (Debian: postgresql, python3-psycopg2)")
    def test_cases_on_postgres(self) -> None:
        self.write({"shop/tests.py": tests("Cases", "SerializableTestCase")})
        done = self.run_python("manage.py", "test", "--noinput", "shop", SERVER=DSN)
        self.assertRegex(done.stderr, r"FAIL: test_two[\s\S]*Ran 2 tests[\s\S]*FAILED \(failures=1\)")
        self.assertRegex(done.stderr, r"read shop_account id = 1 balance as 100 \(.*shop/views.py:7\), before \d.* wrote it \(.*shop/views.py:10\)")
        self.assertIn("lost update", done.stderr)
        with open(re.findall(r"The recording is (/\S+)", done.stderr)[0], encoding="utf-8") as file:
            self.assertRegex(file.read(), r"CREATE TABLE auth_user [\s\S]*CREATE TABLE django_content_type ")

    def test_a_case_that_rolls_back_is_told(self) -> None:
        self.write({"shop/tests.py": tests("Cases", "TestCase").replace("def test_two", "def no_test")})
        self.assertEqual(self.run_python("manage.py", "test", "shop").returncode, 0)
        if module("pytest_django"):
            done = self.run_python("-m", "pytest", "-p", "pgserial.pytest_plugin", "--serializable=", "shop/tests.py", DJANGO_SETTINGS_MODULE="settings")
            self.assertIn("1 recorded nothing", done.stdout)

    def test_a_recording_begins_behind_the_migrations(self) -> None:
        script = "from shop.models import Account; from shop.views import withdraw; Account.objects.create(id={0}, balance=100); withdraw({0}, 10)"
        second = """
            from django.db import migrations, models

            class Migration(migrations.Migration):
                dependencies = [("shop", "0001_initial")]
                operations = [migrations.AddField("Account", "note", models.CharField(max_length=9, default=""))]
            """
        for number in (1, 2):
            if number == 2:
                model = FILES["shop/models.py"].rstrip() + "\n            note = models.CharField(max_length=9, default='')\n"
                self.write({"shop/migrations/0002_note.py": second, "shop/models.py": model})
            code = f"from django.core.management import call_command; call_command('migrate', verbosity=0); {script.format(number)}"
            done = self.run_python("manage.py", "shell", "-c", code, RECORDING="shop.transcript")
            self.assertEqual(done.returncode, 0, done.stderr)
            judged = self.run_python("manage.py", "judge", RECORDING="shop.transcript")
            self.assertEqual(judged.returncode, 0, judged.stdout + judged.stderr)
            self.assertRegex(judged.stdout, r"serializable: yes, for \d+ transactions")
            with open(os.path.join(self.folder, "shop.transcript"), encoding="utf-8") as file:
                text = file.read()
            self.assertEqual("note" in text, number == 2)
            self.assertRegex(text, rf"> 1 UPDATE shop_account SET .*balance = 90.* WHERE id = {number};")
            self.assertNotRegex(text, "not said, .*SELECT .*shop_account")
        self.assertEqual(self.run_python("manage.py", "judge", "missing").returncode, 1)
        self.assertIn("name a file", self.run_python("manage.py", "judge").stderr)

    def test_judge_ends_with_the_verdicts_status(self) -> None:
        begins = ["> CREATE TABLE t (id bigint PRIMARY KEY, v bigint);", "> 1 BEGIN;", "  1 BEGIN", "> 1 SELECT * FROM t;", "  1 SELECT {}", "{}> 1 COMMIT;", "  1 COMMIT", ""]
        for rows, row, status, told in (("0", "", 0, "yes"), ("1", "  1 | 1\t1\n", 5, "no")):
            with open(os.path.join(self.folder, "x"), "w", encoding="utf-8") as file:
                file.write("\n".join(begins).format(rows, row))
            done = self.run_python("manage.py", "judge", "x")
            self.assertEqual((done.returncode, f"serializable: {told}" in done.stdout), (status, True), done.stdout)

    @unittest.skipUnless(module("pytest_django"), "pytest_django isn't there (Debian: python3-pytest-django)")
    def test_pytest_records_cases_of_all_engines(self) -> None:
        self.write({"test_shop.py": tests("Plain", "TransactionTestCase") + tests("Own", "SerializableTestCase")})
        for engine in ("django.db.backends", "pgserial.django"):
            server = DSN if module("psycopg2") else ""
            done = self.run_python("-m", "pytest", "-p", "pgserial.pytest_plugin", "--serializable=", DJANGO_SETTINGS_MODULE="settings", ENGINE=engine, SERVER=server)
            if not server:
                # SQLite lets one of two that have read write, and the other end.
                self.assertRegex(done.stdout, r"(?m)^2 yes$")
            else:
                self.assertRegex(done.stdout, "shop/views.py:7")
                self.assertIn("1 yes, 1 no\n", done.stdout)
                self.assertRegex(done.stdout, "2 failed, 2 passed" if engine == "pgserial.django" else r"FAILED test_shop.py::Plain::test_two")


if __name__ == "__main__":
    unittest.main()
