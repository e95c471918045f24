"""What a type checker says of the package for Python."""

import os
import shutil
import subprocess
import tempfile
import unittest

from tests.program import TOP

NO_MYPY = "mypy isn't there (Debian: mypy)"


@unittest.skipUnless(shutil.which("mypy"), NO_MYPY)
class Types(unittest.TestCase):
    """By the settings of its pyproject.toml, which are those of --strict."""

    @classmethod
    def setUpClass(cls) -> None:
        folder = tempfile.TemporaryDirectory()
        cls.addClassCleanup(folder.cleanup)
        cls.cache = folder.name

    def told(self, *words: str) -> str:
        command = ["mypy", "--strict", "--no-error-summary", "--cache-dir", self.cache, *words]
        return subprocess.run(command, cwd=os.path.join(TOP, "clients/python"), stdout=subprocess.PIPE, stderr=subprocess.STDOUT, text=True).stdout

    def test_nothing_is_wrong_with_the_package(self) -> None:
        self.assertEqual(self.told("pgserial"), "")

    def test_a_wrong_use_is_seen(self) -> None:
        told = self.told("-c", "from pgserial.library import Library\nLibrary().run(3)\nLibrary().open().ask('').nothing\n")
        self.assertIn('has incompatible type "int"', told)
        self.assertIn('"str" has no attribute "nothing"', told)


if __name__ == "__main__":
    unittest.main()
