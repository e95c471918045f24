"""What the preflight sees in a small repository: each fault that the gate refuses before it proves anything."""

import contextlib
import importlib.machinery
import importlib.util
import io
import os
import pathlib
import subprocess
import sys
import tempfile
import unittest
from typing import Any, Callable, Iterator, List
from unittest import mock

from tests import preflight
from tests.program import TOOLS, TOP

TREE = {
    "crates.txt": "low:  # a library\napp: low io\n",
    "crates/low/src/lib.rt": "//! A library.\n\n#![tactic(auto)]\n\nmod other;\npub mod part;\n",
    "crates/low/src/part.rt": "//! A part.\n\npub mod inner;\n\npub fn one() -> u32 {\n    1\n}\n",
    "crates/low/src/part/inner.rt": "//! An inner part.\n",
    "crates/low/src/other.rt": "//! Another part.\n",
    "crates/low/specs/Lib.antt": "pub mod Words\n",
    "crates/low/specs/Words.antt": "",
    "crates/low/proofs/Lib.antt": "pub mod Lemmas\n",
    "crates/low/proofs/Lemmas.antt": "",
    "crates/low/proofs/part/one/Answers.antt": "",
    "crates/low/proofs/part/+one/fn/scope+FnOnce/call_once/Answers.antt": "",
    "crates/low/must-fail/two.edit": "file: src/part.rt\nold:     1\nnew:     2\nfile: src/other.rt\nold: Another\nnew: other\n",
    "crates/app/src/main.rt": "//! A program.\n",
    "docs/notes.rt.txt": "",
}


class Room(unittest.TestCase):
    """A repository as it should be, in which something is then changed."""

    def setUp(self) -> None:
        folder = tempfile.TemporaryDirectory()
        self.addCleanup(folder.cleanup)
        self.top = folder.name
        for path, text in TREE.items():
            self.write(path, text)

    def write(self, path: str, text: str = "") -> None:
        os.makedirs(os.path.dirname(os.path.join(self.top, path)), exist_ok=True)
        with open(os.path.join(self.top, path), "w", encoding="utf-8") as file:
            file.write(text)

    def seen(self, look: Callable[[str], Iterator[str]]) -> List[str]:
        return list(look(self.top))


class Tree(Room):
    """What stands in the tree."""

    def test_nothing_is_wrong_with_it(self) -> None:
        for look in (preflight.look_at_tree, preflight.look_at_lists, preflight.look_at_proofs, preflight.look_at_edits):
            with self.subTest(look.__name__):
                self.assertEqual(self.seen(look), [])

    def test_a_link_is_refused(self) -> None:
        os.symlink("lib.rt", os.path.join(self.top, "crates/low/src/link.txt"))
        self.assertEqual(self.seen(preflight.look_at_tree), ["crates/low/src/link.txt is a link: put the file or folder itself there"])

    def test_files_that_no_check_reads_are_refused(self) -> None:
        for path in ("docs/x.rt", "crates/low/notes/x.rt", "crates/gone/src/lib.rt", ".hidden/x.antt", "crates/low/src/x.antt"):
            self.write(path)
            with self.subTest(path):
                self.assertEqual([told.split(": ")[:2] for told in self.seen(preflight.look_at_tree)], [[path, "no check reads it"]])
            os.remove(os.path.join(self.top, path))

    def test_a_second_list_of_crates_is_refused(self) -> None:
        self.write("crates/low/src/BUILD.bazel")
        self.assertIn("crates/low/src/BUILD.bazel: crates.txt at the top", self.seen(preflight.look_at_tree)[0])

    def test_what_no_list_names_is_refused(self) -> None:
        for path, told in (
            ("crates/low/src/lost.rt", "no `mod` names it"), ("crates/low/src/other/lost.rt", "no `mod` names it"),
            ("crates/low/specs/Lost.antt", "Lib.antt has no line for it"), ("crates/low/proofs/Lost.antt", "Lib.antt has no line for it"),
        ):
            self.write(path)
            with self.subTest(path):
                self.assertEqual(self.seen(preflight.look_at_lists), [f"{path}: {told}"])
            os.remove(os.path.join(self.top, path))
        self.write("crates.txt", "low:\napp: low io\nnone: low\n")
        self.assertEqual(self.seen(preflight.look_at_lists), ["crates.txt lists none, and crates/none isn't there"])

    def test_the_proof_of_a_function_that_is_gone_is_refused(self) -> None:
        self.write("crates/low/proofs/part/two/Invariants.antt")
        self.assertEqual(self.seen(preflight.look_at_proofs), ["crates/low/proofs/part/two: low has no function two"])

    def test_wrong_bodies_that_cannot_be_applied_are_refused(self) -> None:
        self.write("crates/low/must-fail/three.edit", "file: src/part.rt\nold:     7\nnew:     3\n")
        self.write("crates/low/wrong-bodies/four.edit", "file: src/gone.rt\nold:     7\nnew:     3\n")
        self.assertEqual(self.seen(preflight.look_at_edits), [
            "crates/low/must-fail/three.edit: `7` stands 0 times in src/part.rt", "crates/low/wrong-bodies/four.edit: src/gone.rt isn't there"])


class Machine(Room):
    """The disk and the memory."""

    def look(self, **least: int) -> List[str]:
        with contextlib.redirect_stdout(io.StringIO()) as self.said:
            return list(preflight.look_at_machine(self.top, **least))

    def test_enough_is_told(self) -> None:
        self.assertEqual(self.look(least_disk=0, least_memory=0), [])
        self.assertRegex(self.said.getvalue(), r"\Apreflight: \d+ GB of disk free in .*, \d+ GB of memory\n\Z")

    def test_too_little_is_a_fault(self) -> None:
        self.write("crates/low/out/incremental/kept")
        self.write("crates/low/out/rlib/proved")
        for name in ("old", "new"):
            self.write(f"out/programs/{name}/pgserial")
        os.utime(os.path.join(self.top, "out/programs/old"), (1, 1))
        much = 1 << 60
        self.assertRegex("\n".join(self.look(least_disk=much, least_memory=much)), r"GB free, and the gate takes .*\n.*\n.* GB of memory are free, and a proof takes ")
        for path, is_there in (("crates/low/out/incremental", False), ("crates/low/out/rlib/proved", True), ("out/programs/old", False), ("out/programs/new/pgserial", True)):
            with self.subTest(path):
                self.assertEqual(os.path.exists(os.path.join(self.top, path)), is_there)

    def test_what_a_killed_compilation_left_is_removed(self) -> None:
        self.write("out/work/tools/bin/clang")
        self.look(least_disk=0, least_memory=0)
        self.assertFalse(os.path.exists(os.path.join(self.top, "out/work")))

    def test_not_while_somebody_compiles(self) -> None:
        self.write("out/work/tools/bin/clang")
        self.write("out/lock")
        words = "import fcntl, sys\nfile = open(sys.argv[1], 'r+')\nfcntl.lockf(file, fcntl.LOCK_EX)\nprint(flush=True)\nsys.stdin.read()"
        with subprocess.Popen([sys.executable, "-c", words, os.path.join(self.top, "out/lock")], stdin=subprocess.PIPE, stdout=subprocess.PIPE) as holder:
            assert holder.stdout
            holder.stdout.readline()
            self.look(least_disk=0, least_memory=0)
            self.assertTrue(os.path.exists(os.path.join(self.top, "out/work")))
            holder.communicate()


@unittest.skipUnless(preflight.kit(), "rt isn't on the PATH")
class ByTheToolchain(Room):
    """The layout and the names, as the toolchain sees them."""

    def test_the_layout(self) -> None:
        self.assertEqual(self.seen(preflight.look_at_layout), [])
        self.write("crates/low/src/part.rt", "//! A part.\n\npub mod inner;\npub fn one() -> u32 { 1 }\n")
        self.assertRegex("".join(self.seen(preflight.look_at_layout)), r"not laid out \(rt fmt in the crate's folder does it\): .*crates/low/src/part\.rt")

    def test_names(self) -> None:
        self.assertEqual(self.seen(preflight.look_at_names), [])
        self.write("crates/low/src/other.rt", "//! Another part.\n\nghost use Rattle.low.specs.Words.{thing as length};\n")
        self.assertRegex("".join(self.seen(preflight.look_at_names)), "low/src/other.rt")


class Whole(unittest.TestCase):
    """All looks together."""

    def test_faults_are_counted_and_told(self) -> None:
        def wrong() -> Iterator[str]:
            yield "something"

        for looks, status, last in (((wrong,), 1, "preflight: 1 faults"), ((), 0, "preflight: as it should be")):
            with mock.patch.object(preflight, "LOOKS", looks), contextlib.redirect_stdout(io.StringIO()) as said:
                self.assertEqual(preflight.main(), status)
            self.assertIn(last, said.getvalue())

    def test_this_repository_has_its_tree_in_order(self) -> None:
        looks: Any = (preflight.look_at_tree, preflight.look_at_lists, preflight.look_at_proofs, preflight.look_at_edits)
        for look in looks:
            with self.subTest(look.__name__):
                self.assertEqual(list(look(TOP)), [])


# A promise whose contract names two definitions, one by a file's short name; one of them names a third, and a record and a comment stand beside.
WORDS = """-- Words.
use Rattle.std.specs.Prelude.{Bool, true}
use Rattle.low.specs.Sums as sums

-- a comment of more than
-- one line
pub record Pair : Type 0 where
  pub first : Bool  -- its first
  pub second : Bool

module _ {A : Type 0} where
  abbrev pub is_one : Pair -> Bool
  is_one p = p.first

  unfoldable pub unread : Bool
  unread = true
"""
SUMS = "abbrev pub sum : Bool\nsum = part\n\nabbrev pub part : Bool\npart = true\n\nabbrev pub other : Bool\nother = true\n"
SOURCE = """ghost use Rattle.low.specs.Words.{is_one};
ghost use Rattle.low.specs.Sums as sums;

/// One.
pub fn one() -> u32
    ensures first { is_one result }
    ensures second { sums.sum }
{
    1
}
"""


class Definitions(Room):
    """What tools/definitions finds of the definitions that a promise reaches."""

    def setUp(self) -> None:
        super().setUp()
        for path, text in {"docs/PROMISES.md": "| One | [`one`](../crates/low/src/one.rt) |\n", "crates/low/src/one.rt": SOURCE,
                           "crates/low/specs/Words.antt": WORDS, "crates/low/specs/Sums.antt": SUMS}.items():
            self.write(path, text)
        loader = importlib.machinery.SourceFileLoader("definitions", os.path.join(TOOLS, "definitions"))
        spec = importlib.util.spec_from_loader("definitions", loader)
        assert spec is not None
        self.definitions = importlib.util.module_from_spec(spec)
        with mock.patch.object(sys, "dont_write_bytecode", True):
            loader.exec_module(self.definitions)
        top = pathlib.Path(self.top)
        for name, value in {"TOP": top, "PROMISES": top / "docs/PROMISES.md", "PAGE": top / "docs/READING.md"}.items():
            setattr(self.definitions, name, value)

    def run_with(self, *words: str) -> Any:
        out = io.StringIO()
        with mock.patch.object(sys, "argv", ["definitions", *words]), contextlib.redirect_stdout(out):
            return self.definitions.main(), out.getvalue()

    def test_the_page_has_what_a_contract_names_and_what_that_names(self) -> None:
        self.assertEqual(self.run_with(), (0, ""))
        page = preflight.read(os.path.join(self.top, "docs/READING.md"))
        self.assertIn("| [`one`](../crates/low/src/one.rt) | 4 | 9 |\n", page)
        self.assertIn("| [low/Words](../crates/low/specs/Words.antt) | 5 | 2 | `unread` |\n", page)
        self.assertIn("| [low/Sums](../crates/low/specs/Sums.antt) | 4 | 2 | `other` |\n", page)
        self.assertEqual(self.run_with("--check"), (0, ""))

    def test_a_page_that_says_otherwise_is_a_fault(self) -> None:
        self.run_with()
        self.write("crates/low/specs/Sums.antt", SUMS.replace("part = true", "part = other"))
        self.assertEqual(self.run_with("--check"), (1, "definitions: docs/READING.md isn't what tools/definitions writes: run it\n"))

    def test_a_promise_of_a_function_that_is_gone_is_a_fault(self) -> None:
        self.run_with()
        self.write("crates/low/src/one.rt", SOURCE.replace("fn one", "fn two"))
        self.assertEqual(self.run_with("--check")[1].splitlines()[0], "definitions: docs/PROMISES.md: no contract of `one` in crates/low/src/one.rt")
