"""The examples, each a test of its name: what they print, why their transactions were refused, the transcripts there, and the
picture of the README. The sessions of those whose names begin with free_ run on threads; those whose names begin with
explored_ are run in every interleaving; of those whose names begin with why_ it is said why transactions were refused."""

import glob
import os
import re
import subprocess
import sys
from typing import Any, Callable, List

from tests import program
from tests.program import TOP, Case, Differs

FOLDER = os.path.join(TOP, "examples")
CLIENT = os.path.join(TOP, "clients/python")


def text_of(path: str) -> str:
    with open(path, encoding="utf-8", newline="") as file:
        return file.read()


def look_at(case: str, words: List[str], out: str, status: int = 0) -> None:
    """What the program prints must be a file's text, and it must end so."""
    done = program.run(*words)
    differs = program.difference(text_of(out).split("\n"), done.stdout.decode().split("\n"))
    if differs:
        raise Differs(f"{case}: line {differs[0]}", *differs[1:])
    if done.returncode != status:
        raise Differs(f"{case}: how it ends", status, done.returncode)


class Examples(Case):
    """What the examples print."""

    def test_picture_of_the_readme(self) -> None:
        done = program.run("draw", os.path.join(FOLDER, "write_skew.script"), "--out", "picture", folder=self.folder)
        self.assertEqual((done.returncode, done.stderr), (0, b""))
        self.same("docs/write_skew.svg", text_of(os.path.join(TOP, "docs/write_skew.svg")), text_of(os.path.join(self.folder, "picture")))

    def test_an_application_of_the_client_in_python(self) -> None:
        words = [sys.executable, "-B", os.path.join(CLIENT, "write_skew.py")]
        done = subprocess.run(words, env={**os.environ, "PGSERIAL": program.program()}, capture_output=True, text=True, timeout=300)
        self.assertEqual(done.returncode, 0, done.stderr)


def words_of(name: str, script: str) -> List[str]:
    """The command line of an example."""
    if name.startswith("explored_"):
        return ["explore", script]
    return ["run", script] + (["--free"] if name.startswith("free_") else ["--why"] if name.startswith("why_") else [])


def test_of(look: Callable[..., None], *given: Any) -> Any:
    def test(_: Case) -> None:
        look(*given)

    return test


def add_tests() -> None:
    """Adds a test for each example."""
    for path in sorted(glob.glob(os.path.join(FOLDER, "*.script")) + glob.glob(os.path.join(FOLDER, "transcripts/*.transcript"))):
        base, _, kind = path.rpartition(".")
        name = os.path.basename(base)
        # Transcripts of transactions that no order explains, and of some that one does.
        words = words_of(name, path) if kind == "script" else ["check", path]
        status = program.NO if kind == "transcript" and not name.endswith("_serial") else 0
        setattr(Examples, "test_" + re.sub(r"\W", "_", f"{kind}_{name}"), test_of(look_at, os.path.relpath(path, TOP), words, f"{base}.out", status))
        if os.path.exists(f"{base}.why"):
            setattr(Examples, f"test_why_{name}", test_of(look_at, f"{os.path.relpath(path, TOP)} --why", ["run", path, "--why"], f"{base}.why"))


add_tests()
