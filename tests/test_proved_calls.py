"""How the proved calls of libpgserial are made and kept, in a small repository with a toolchain that notes what it is asked for and
proves nothing."""

import os
import shutil
import subprocess
import tempfile
import unittest
from typing import List
from unittest import mock

from tools import library, quick

SOURCES = os.path.join(quick.HERE, "sources")
# Notes what it is asked for. `ci` leaves the library of each crate below, as the gate does, and `lib` the archive.
RT = """#!/bin/sh
kit=$(dirname "$0")/..
echo "rt $1" >> "$kit/asked"
[ ! -e "$kit/meanwhile" ] || sh "$kit/meanwhile"
case $1 in
  ci) find . -type f | LC_ALL=C sort > "$kit/files" && cp crates.txt "$kit/" && mkdir -p crates/low/out/rlib/low.rlib ;;
  lib) echo "by rt lib" > out/liblibrary_c.a ;;
esac
"""
# Makes the archive, where the library below is there.
RATTLE = """#!/bin/sh
kit=$(dirname "$0")/..
echo "rattle $*" >> "$kit/asked"
for word; do
  case $last in
    --extern) [ "${word%%=*}" != low ] || [ -d "${word#*=}" ] || exit 1 ;;
    -o) echo "by rattle" > "$word" ;;
  esac
  last=$word
done
"""
CRATES = "# Crates\nlow may_wait=2: hex\nother: low\nlibrary_c staticlib: low hex\npgserial: other\n"


def write(path: str, text: str, mode: int = 0o644) -> None:
    os.makedirs(os.path.dirname(path), exist_ok=True)
    with open(path, "w", encoding="utf-8") as file:
        file.write(text)
    os.chmod(path, mode)


def read(path: str) -> str:
    with open(path, encoding="utf-8") as file:
        return file.read()


class ProvedCalls(unittest.TestCase):
    def setUp(self) -> None:
        folder = tempfile.mkdtemp()
        self.addCleanup(shutil.rmtree, folder)
        self.kit, self.top = f"{folder}/kit", f"{folder}/repository"
        write(f"{self.kit}/bin/rt", RT, 0o755)
        write(f"{self.kit}/bin/rattle", RATTLE, 0o755)
        write(f"{self.kit}/KIT-ID", "a kit\n")
        write(f"{self.top}/crates.txt", CRATES)
        write(f"{self.top}/HANDLES", "Handles allowed: none.\n")
        for name in ("low", "other", "library_c", "pgserial"):
            write(f"{self.top}/crates/{name}/src/lib.rt", f"{name}\n")
            write(f"{self.top}/crates/{name}/specs/Lib.antt", "spec\n")
            write(f"{self.top}/crates/{name}/out/old", "of an earlier proof\n")
        for patch in (mock.patch.object(library, "TOP", self.top), mock.patch.object(quick, "TOP", self.top),
                      mock.patch.dict(os.environ, PATH=f"{self.kit}/bin:{os.environ['PATH']}"), mock.patch("sys.stderr")):
            patch.start()
            self.addCleanup(patch.stop)

    def prove_program(self, how: str) -> None:
        """Notes the program as one that was proved so."""
        write(f"{self.top}/crates/pgserial/out/pgserial", "a program\n", 0o755)
        noted = 'top=$1; . "$0"; note_proved "$(begin_proof)" "$2"'
        subprocess.run(["bash", "-c", noted, SOURCES, self.top, how], check=True)

    def asked(self) -> List[str]:
        """What the toolchain was asked for since this was looked at last."""
        path = f"{self.kit}/asked"
        if not os.path.exists(path):
            return []
        lines = read(path).splitlines()
        os.remove(path)
        return lines

    def calls(self) -> str:
        """The proved calls, as the toolchain has made them."""
        return read(library.proved_calls()).strip()

    def told(self) -> List[str]:
        return [str(line) for line in quick.ask_sources(f"told_proved; {library.OF_CALLS} told_proved")]

    def test_after_rt_ci_they_are_proved_over_what_it_has_kept(self) -> None:
        self.prove_program("rt ci: each crate")
        self.assertEqual(self.calls(), "by rattle")
        first, second = self.asked()
        self.assertEqual(first, "rt ci")
        self.assertIn(" --crate-name library_c src/lib.rt --crate-type staticlib ", second)
        self.assertIn(f" --extern hex={self.kit}/rlibs/hex.rlib ", second)
        self.assertEqual(self.told(), ["rt ci: each crate", "rt ci and rattle build: library_c and each crate below it"])
        self.assertEqual((self.calls(), self.asked()), ("by rattle", []))

    def test_rt_ci_is_given_the_crates_below_and_nothing_of_an_earlier_proof(self) -> None:
        self.prove_program("rt ci: each crate")
        library.proved_calls()
        self.assertEqual(read(f"{self.kit}/crates.txt"), "low may_wait=2: hex\nlibrary_c staticlib: low hex\n")
        self.assertEqual(read(f"{self.kit}/files").split(), ["./HANDLES", "./crates.txt", "./crates/library_c/specs/Lib.antt",
                         "./crates/library_c/src/lib.rt", "./crates/low/specs/Lib.antt", "./crates/low/src/lib.rt"])

    def test_after_pgserial_build_they_are_proved_over_what_that_has_kept(self) -> None:
        self.prove_program("rt lib and rt run: each crate of the program")
        self.assertEqual((self.calls(), self.asked()), ("by rt lib", ["rt lib"]))

    def test_without_a_proved_program_they_are_proved_with_all_below(self) -> None:
        self.assertEqual((self.calls(), self.asked()), ("by rt lib", ["rt lib"]))
        self.assertEqual((self.calls(), self.asked()), ("by rt lib", []))

    def test_a_change_of_what_a_proof_reads_has_them_proved_anew(self) -> None:
        library.proved_calls()
        self.asked()
        for path in ("crates/low/specs/Lib.antt", "HANDLES", "crates/library_c/out/liblibrary_c.a"):
            with self.subTest(path):
                write(f"{self.top}/{path}", "changed\n")
                self.assertEqual((self.calls(), self.asked()), ("by rt lib", ["rt lib"]))

    def test_what_is_written_meanwhile_does_not_count(self) -> None:
        write(f"{self.kit}/meanwhile", f"echo changed > {self.top}/crates/low/specs/Lib.antt\n")
        with self.assertRaisesRegex(SystemExit, "files have changed while the calls were proved"):
            library.proved_calls()
        os.remove(f"{self.kit}/meanwhile")
        self.asked()
        self.assertEqual((self.calls(), self.asked()), ("by rt lib", ["rt lib"]))

    def test_calls_that_are_not_proved_are_none(self) -> None:
        write(f"{self.kit}/bin/rt", "#!/bin/sh\necho no proof; exit 1\n", 0o755)
        with self.assertRaisesRegex(SystemExit, "rt lib ends with 1:\nno proof"):
            library.proved_calls()
        self.assertFalse(os.path.exists(f"{self.top}/{library.PROVED}.sum"))


if __name__ == "__main__":
    unittest.main()
