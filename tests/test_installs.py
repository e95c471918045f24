"""What `./pgserial install` puts below a prefix, of the program, and that `uninstall` takes just that away."""

import contextlib
import io
import os
import subprocess
import sys
import tempfile
import unittest
from unittest import mock

from tests.program import program
from tools import install, package

COMMANDS = ["run", "audit", "restore", "shell", "explore", "check", "draw"]


class Installs(unittest.TestCase):
    def setUp(self):
        folder = tempfile.TemporaryDirectory()
        self.addCleanup(folder.cleanup)
        self.folder, self.prefix = folder.name, os.path.join(folder.name, "a prefix")

    def install(self, is_proved):
        with mock.patch.object(install, "find_program", lambda unproved: (program(), is_proved)), contextlib.redirect_stdout(io.StringIO()):
            install.install(self.prefix, not is_proved)

    def uninstall(self):
        with contextlib.redirect_stdout(io.StringIO()):
            install.uninstall(self.prefix)

    def names(self):
        """The files below the prefix."""
        return sorted(os.path.relpath(os.path.join(at, name), self.prefix) for at, _, names in os.walk(self.prefix) for name in names)

    def ask(self, *words, **how):
        return subprocess.run(words, stdout=subprocess.PIPE, stderr=subprocess.PIPE, text=True, **how)

    def read(self, name):
        with open(os.path.join(self.prefix, name), encoding="utf-8") as file:
            return file.read()

    def test_a_proved_program_is_itself(self):
        self.install(True)
        done = self.ask(os.path.join(self.prefix, "bin/pgserial"), "--version")
        self.assertEqual((done.returncode, done.stdout, done.stderr), (0, "pgserial 0.1.0\n", ""))
        self.assertNotIn("lib/pgserial/pgserial", self.names())

    def test_an_unproved_one_tells_so(self):
        self.install(False)
        program = os.path.join(self.prefix, "bin/pgserial")
        done = self.ask(program, "--version")
        self.assertEqual((done.stdout, done.stderr), ("pgserial 0.1.0 (unproved)\n", "pgserial: unproved (installed without its proof)\n"))
        done = self.ask(program, "run", "-", input="1 COMMIT;\n")
        self.assertEqual((done.stdout, done.stderr), ("1 ERROR 25P01\n", "pgserial: unproved (installed without its proof)\n"))
        self.assertIn("pgserial 0.1.0 (unproved)", self.read("share/man/man1/pgserial.1"))

    def test_what_was_installed_is_removed_and_nothing_else(self):
        kept = os.path.join(self.prefix, "share/man/man1/other.1")
        os.makedirs(os.path.dirname(kept))
        with open(kept, "w", encoding="utf-8"):
            pass
        self.install(False)
        self.assertEqual(sorted(set(self.read("share/pgserial/installed").splitlines())),
                         sorted([it for it in self.names() if it != "share/man/man1/other.1"] +
                                [it for it in self.read("share/pgserial/installed").splitlines() if it.endswith("/")]))
        self.install(True)
        self.assertNotIn("lib/pgserial/pgserial", self.names())
        self.uninstall()
        self.assertEqual(self.names(), ["share/man/man1/other.1"])
        self.assertEqual(sorted(os.listdir(self.prefix)), ["share"])
        with self.assertRaisesRegex(SystemExit, "nothing is installed"):
            self.uninstall()

    def test_what_python_has_compiled_of_it_is_removed_too(self):
        self.install(True)
        packages = os.path.join(self.prefix, install.packages(self.prefix))
        kept = os.path.join(packages, "__pycache__/other.cpython-38.pyc")
        os.makedirs(os.path.dirname(kept))
        with open(kept, "w", encoding="utf-8"):
            pass
        self.ask(sys.executable, "-c", "import pgserial.recording, pgserial.__main__", env={"PYTHONPATH": packages, "PATH": "/usr/bin:/bin"})
        self.assertIn("recording", " ".join(os.listdir(os.path.join(packages, "pgserial/__pycache__"))))
        self.uninstall()
        self.assertEqual(self.names(), [os.path.relpath(kept, self.prefix)])

    def test_a_prefix_without_a_name_is_none(self):
        for way in ("install", "uninstall"):
            done = self.ask(sys.executable, "-B", install.__file__, way, "--prefix", "", cwd=self.folder)
            self.assertEqual((done.returncode, done.stdout, done.stderr.splitlines()[-1]), (2, "", f"pgserial {way}: error: --prefix DIR: DIR is empty"))
            self.assertEqual(os.listdir(self.folder), [])

    def test_a_prefix_that_is_no_folder_is_named(self):
        with open(self.prefix, "w", encoding="utf-8"):
            pass
        with mock.patch.object(install, "find_program", lambda unproved: (program(), True)), mock.patch("sys.argv", ["", "install", "--prefix", self.prefix]):
            with self.assertRaises(SystemExit) as ended:
                install.main()
        self.assertEqual(ended.exception.code, f"pgserial: {self.prefix}/share: Not a directory")

    def test_a_folder_for_packages_that_cannot_be_made_is_named(self):
        path = os.path.join(os.path.realpath(__file__), "dist")
        with mock.patch("sys.argv", ["", "--out", path]), mock.patch.object(package.shutil, "which", lambda tool: tool):
            with self.assertRaises(SystemExit) as ended:
                package.main()
        self.assertEqual(ended.exception.code, f"pgserial: {path}: Not a directory")

    def test_what_others_have_put_there_stays(self):
        os.makedirs(os.path.join(self.prefix, "bin"))
        with open(os.path.join(self.prefix, "bin/pgserial"), "w", encoding="utf-8") as file:
            file.write("other")
        with self.assertRaisesRegex(SystemExit, "remove it first"):
            self.install(True)
        self.assertEqual((self.names(), self.read("bin/pgserial")), (["bin/pgserial"], "other"))

    def test_the_client_is_found(self):
        self.install(True)
        packages = os.path.join(self.prefix, install.packages(self.prefix))
        program = "import pgserial\nwith pgserial.Server() as db: db.connect()\nprint(pgserial.__file__)"
        done = self.ask(sys.executable, "-B", "-c", program, env={"PYTHONPATH": packages, "PATH": os.path.join(self.prefix, "bin") + ":/usr/bin:/bin"})
        self.assertEqual((done.stderr, done.stdout), ("", os.path.join(packages, "pgserial/__init__.py") + "\n"))

    def test_the_page_has_each_command_and_option(self):
        self.install(True)
        page = self.read("share/man/man1/pgserial.1").replace("\\-", "-")
        for name in COMMANDS:
            self.assertIn(f".SS {name}\n", page)
            for line in self.ask(program(), name, "--help").stdout.splitlines():
                if line.lstrip().startswith("--"):
                    self.assertIn(f".B {line.split('  ')[3].strip()}\n", page)
        self.assertIn(".B --why\n", page)

    def test_bash_completes_commands_options_and_files(self):
        self.install(True)
        script = os.path.join(self.prefix, "share/bash-completion/completions/pgserial")
        asked = '. "$0"; COMP_WORDS=("$@") COMP_CWORD=$(($# - 1)); _pgserial; printf "%s\\n" "${COMPREPLY[@]}"'
        for typed, wanted in (
            ("pgserial re", "restore"), ("pgserial run --w", "--why"), ("pgserial draw --", "--out --dot --events --help"), ("pgserial run e", ""),
        ):
            self.assertEqual(self.ask("bash", "-c", asked, script, *typed.split()).stdout.split(), wanted.split())

    def test_zsh_gets_commands_and_options(self):
        self.install(True)
        text = self.read("share/zsh/site-functions/_pgserial")
        for name in COMMANDS:
            self.assertIn(f"    '{name}:", text)
            self.assertIn(f"    {name}) _arguments ", text)
        self.assertIn("'(--out)--out[Output file]:FILE:_files'", text)
