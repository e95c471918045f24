"""What `./pgserial package` makes of the program of these sources, installed where there is no toolchain: with an empty PATH, HOME
and PYTHONPATH; and, over an older one, in a root that has neither the toolchain nor the repository, where examples in C, Rust and
Python run, and an uninstall leaves nothing. A second run makes the same bytes."""

import contextlib
import dataclasses
import io
import os
import re
import shutil
import subprocess
import sys
import tarfile
import tempfile
import unittest
import zipfile
from typing import Iterator, List, Tuple
from unittest import mock

from tests import roots
from tests.program import TOP, program
from tools import install, library, package, quick

NO_COMPILER = "a C compiler isn't there (Debian: gcc)"
NO_PIP = "Python's venv with pip isn't there (Debian: python3-venv)"
NO_DPKG = "dpkg-deb isn't there (Debian: dpkg)"
SCRIPT = "1 BEGIN;\n1 COMMIT;\n"
# What an application does in Python: in process, by a child process, and a recording that is judged.
APPLICATION = """
import os, sqlite3, sys
import pgserial
from pgserial.recording import Recorder

for in_process in (True, False):
    with pgserial.Server(schema="CREATE TABLE t (id bigint PRIMARY KEY);", in_process=in_process) as server:
        with server.connect() as connection:
            connection.execute("INSERT INTO t VALUES (1)")
        print(server.serial_order())
file = sys.argv[1]
before = sqlite3.connect(file)
before.execute("CREATE TABLE t (id integer PRIMARY KEY, v integer)")
before.close()
recorder = Recorder(file + ".transcript", tables=["t"])
connection = recorder.wrap(sqlite3.connect(file))
connection.execute("INSERT INTO t VALUES (1, 2)")
connection.commit()
connection.close()
print(recorder.verdict().answer)
print(pgserial.__version__)
"""


OLD_FILE, OLD_MODULE = "share/doc/pgserial/old.txt", "old.py"
# What is printed of Python's modules: the version, and whether the older one's module is there.
VERSION = "import importlib.util, pgserial; print(pgserial.__version__, importlib.util.find_spec('pgserial.old') is not None)"
# What a root is told, for each package. `run` does the README's example and `examples` those in C and Rust, below a prefix.
HEAD = f"""
cd {roots.GIVEN}
export PIP_DISABLE_PIP_VERSION_CHECK=1 PIP_ROOT_USER_ACTION=ignore
run() {{ pgserial run $1/share/doc/pgserial/examples/write_skew.script --why; }}
examples() {{
  shown=$1/share/doc/pgserial/examples
  cc -o /tmp/example $shown/example.c $(pkg-config --cflags --libs pgserial)
  /tmp/example < $shown/write_skew.script
  ! command -v cargo > /dev/null || cargo run --offline --locked --quiet --manifest-path $1/share/pgserial/rust/Cargo.toml --example script < $shown/write_skew.script
}}
no() {{ if "$@" > /dev/null 2>&1; then echo "against what is wanted: $*" >&2; exit 1; fi; }}
no command -v rt
no ls {TOP}/README.md
"""
# How each kind of package is installed and taken away, as `./pgserial package --help` says it.
WAYS = re.findall(r"^    (\S.*?)  +(\S.*)$", str(package.__doc__), re.M)
(PIP, UNPIP), (DPKG, PURGE), (TAR, UNTAR) = WAYS
WHEEL = f"""
python3 -m venv /tmp/room
PATH=/tmp/room/bin:$PATH
(cd older; {PIP} --quiet)
python -c "$VERSION"
{{install}}
python -c "$VERSION"
{{run}}
python application.py /tmp/application.db
{UNPIP} --yes --quiet
find /tmp/room -ipath '*pgserial*'
"""
DEBIAN = f"""
(cd older; {DPKG}) > /dev/null
ls /usr/{OLD_FILE}
{DPKG} > /dev/null
dpkg-query --show pgserial
no ls /usr/{OLD_FILE}
run /usr
examples /usr
! command -v man > /dev/null || man --where pgserial libpgserial
{PURGE} > /dev/null
no ls /usr/bin/pgserial
"""
ARCHIVE = f"""
(cd older; {TAR})
ls /usr/local/{OLD_FILE}
(cd older; {UNTAR})
{TAR}
no ls /usr/local/{OLD_FILE}
ldconfig
run /usr/local
examples /usr/local
{UNTAR}
"""
# What the system notes of packages, libraries and man pages.
NOTED = ("/var/lib/dpkg/", "/var/cache/", "/var/log/", "/etc/ld.so.cache", "/run/")


def nothing(folder: str) -> "dict[str, str]":
    """The environment of a machine that has nothing: its PATH has the system's tools for what is started by name."""
    return {"PATH": "/nonexistent", "HOME": folder, "LC_ALL": "C.UTF-8"}


def read_text(path: str) -> str:
    with open(os.path.join(TOP, path), encoding="utf-8") as file:
        return file.read()


def block_behind(text: str, words: str) -> "List[str]":
    """The lines of the first block of code behind some words of a page."""
    return text[text.index(words):].split("```")[1].split("\n")[1:-1]


@contextlib.contextmanager
def older() -> "Iterator[None]":
    """Packages are made with a file that later ones don't have."""
    program_files, client_files = package.program_files, package.client_files

    def with_one_more(build: package.Build, prefix: str) -> package.Files:
        return {**program_files(build, prefix), OLD_FILE: package.File(b"old\n")}

    def with_a_module() -> "Iterator[Tuple[str, bytes]]":
        yield from client_files()
        yield OLD_MODULE, b""

    with mock.patch.object(package, "program_files", with_one_more), mock.patch.object(package, "client_files", with_a_module):
        yield


@contextlib.contextmanager
def elsewhere(folder: str) -> "Iterator[None]":
    """Packages are made of files that are in another folder."""
    shutil.copytree(os.path.join(TOP, "clients"), folder, ignore=shutil.ignore_patterns("__pycache__", "target", "test_*.py"))
    with mock.patch.multiple(package, PYTHON=f"{folder}/python/pgserial", RUST=f"{folder}/rust"), mock.patch.object(library, "C", f"{folder}/c"):
        yield


def are_proved() -> bool:
    """Whether the program that is tested is the proved one of these sources, and the calls of the library are proved, too."""
    told = quick.ask_sources(f"ask_kit; if is_proved; then echo program; fi; {library.OF_CALLS} if is_proved; then echo calls; fi")
    return os.path.realpath(program()) == os.path.join(TOP, "crates/pgserial/out/pgserial") and told == ["program", "calls"]


@unittest.skipUnless(shutil.which("cc") and shutil.which("readelf"), NO_COMPILER)
class Made(unittest.TestCase):
    """The packages of the program that is tested, and older ones. Where that is the proved one, and so are the calls of the library, they
    are of a proved build; else they are unproved."""

    folder, outs, names, is_proved = "", ["", ""], [""], False

    @classmethod
    def setUpClass(cls) -> None:
        if Made.folder:
            return
        folder = tempfile.TemporaryDirectory()
        unittest.addModuleCleanup(folder.cleanup)
        outs = [os.path.join(folder.name, name) for name in ("first", "second")]
        Made.is_proved = are_proved()
        with mock.patch.object(install, "find_program", lambda unproved: (program(), Made.is_proved)), contextlib.redirect_stderr(io.StringIO()):
            Made.names = package.package(outs[0], True)
            with elsewhere(os.path.join(folder.name, "elsewhere")):
                package.package(outs[1], True)
            old, made = os.path.join(outs[0], "older"), os.path.join(folder.name, "library")
            os.mkdir(old)
            os.mkdir(made)
            build = dataclasses.replace(package.built(made, True), version="0.0.9")
        with older():
            package.wheel(build, old)
            package.archive(build, old)
            if shutil.which("dpkg-deb"):
                package.debian(build, old)
        Made.folder, Made.outs = folder.name, outs

    def path(self, ending: str) -> str:
        """The package whose name ends so."""
        return os.path.join(self.outs[0], next(name for name in self.names if name.endswith(ending)))

    def version(self, number: str, local: str = "+") -> str:
        """A version as packages have it: behind `local` it says that nothing was proved."""
        return number if self.is_proved else f"{number}{local}unproved"

    def scratch(self, name: str) -> str:
        path = os.path.join(self.folder, name)
        os.makedirs(path, exist_ok=True)
        return path


class Packages(Made):
    """Where the PATH, HOME and PYTHONPATH are empty."""

    def test_two_runs_make_the_same_bytes(self) -> None:
        """Of files in two folders, into two folders."""
        sums = [package.read(os.path.join(out, "SHA256SUMS")) for out in self.outs]
        self.assertEqual(*sums)
        self.assertEqual(len(sums[0].splitlines()), len(self.names))

    def test_names_and_texts_say_whether_it_was_proved(self) -> None:
        silent = [name for name in self.names if "unproved" not in name]
        self.assertEqual(silent, self.names if self.is_proved else ["BUILD.txt"])
        text = package.read(self.path("BUILD.txt")).decode()
        self.assertEqual("compiled without proof: nothing is claimed" in text, not self.is_proved)
        self.assertEqual(len(re.findall(r"(?m)^proved by .+$", text)), 2 if self.is_proved else 0)
        self.assertRegex(text, r"(?m)^sources: [0-9a-f]{32}$")
        self.assertRegex(text, r"(?m)^toolchain: rattle-kit-")

    def test_the_wheels_tag_is_of_the_c_library_that_it_needs(self) -> None:
        with zipfile.ZipFile(self.path(".whl")) as wheel:
            data = [wheel.read(name) for name in wheel.namelist() if "/bundled/" in name and not name.endswith(".txt")]
        self.assertEqual(len(data), 2)
        needed = set()
        for place, each in enumerate(data):
            path = os.path.join(self.scratch("tag"), str(place))
            with open(path, "wb") as file:
                file.write(each)
            shown = subprocess.run(["objdump", "-T", path], stdout=subprocess.PIPE, stderr=subprocess.DEVNULL, text=True, check=True).stdout
            needed |= {tuple(map(int, found)) for found in re.findall(r"GLIBC_(\d+)\.(\d+)", shown)}
        self.assertIn("manylinux_{}_{}_x86_64".format(*max(needed)), self.path(".whl"))

    def test_the_wheel_in_a_fresh_environment(self) -> None:
        room = os.path.join(self.scratch("venv"), "room")
        if subprocess.run([sys.executable, "-m", "venv", room], capture_output=True).returncode:
            self.skipTest(NO_PIP)
        pip = [os.path.join(room, "bin/python"), "-m", "pip", "--disable-pip-version-check", "--no-cache-dir"]
        before = self.below(room)
        subprocess.run([*pip, "install", "--no-index", "--no-deps", "--no-compile", "-q", self.path(".whl")], check=True, env=nothing(self.folder))
        done = subprocess.run([os.path.join(room, "bin/python"), "-B", "-c", APPLICATION, os.path.join(self.folder, "of_wheel.db")],
                              capture_output=True, text=True, env=nothing(self.folder))
        self.assertEqual((done.returncode, done.stdout.splitlines()), (0, ["[1]", "[1]", "yes", self.version("0.1.0")]), done.stderr)
        for words in ([os.path.join(room, "bin/pgserial")], [os.path.join(room, "bin/python"), "-B", "-m", "pgserial"]):
            done = subprocess.run([*words, "run", "-"], input=SCRIPT, capture_output=True, text=True, env=nothing(self.folder))
            self.assertEqual((done.returncode, done.stdout), (0, "1 BEGIN\n1 COMMIT\n"), done.stderr)
        subprocess.run([*pip, "uninstall", "-y", "-q", "pgserial"], check=True, env=nothing(self.folder))
        self.assertEqual(self.below(room), before)

    def below(self, folder: str) -> "list[str]":
        """The files below a folder, but for what Python compiles."""
        return sorted(os.path.join(at, name) for at, _, names in os.walk(folder) for name in names if "__pycache__" not in at)

    def unpacked(self) -> str:
        """The folder of the archive, unpacked where its name says."""
        with tarfile.open(self.path(".tar.gz")) as archive:
            archive.extractall(self.scratch("archive"))
        return os.path.join(self.scratch("archive"), os.listdir(self.scratch("archive"))[0])

    def test_the_archives_program_says_where_it_is_unproved(self) -> None:
        done = subprocess.run([os.path.join(self.unpacked(), "bin/pgserial"), "--version"], capture_output=True, text=True)
        self.assertEqual((done.returncode, done.stdout), (0, f"pgserial 0.1.0{'' if self.is_proved else ' (unproved)'}\n"), done.stderr)
        self.assertEqual("unproved" in done.stderr, not self.is_proved)

    def test_the_archives_library_for_c(self) -> None:
        folder, made = self.unpacked(), os.path.join(self.scratch("c"), "example")
        if not shutil.which("pkg-config"):
            self.skipTest("pkg-config isn't there (Debian: pkgconf)")
        asked = {**os.environ, "PKG_CONFIG_PATH": os.path.join(folder, "lib/pkgconfig")}
        flags = subprocess.run(["pkg-config", "--cflags", "--libs", "pgserial"], stdout=subprocess.PIPE, text=True, check=True, env=asked).stdout.split()
        subprocess.run(["cc", *library.STRICT, "-o", made, os.path.join(TOP, "clients/c/example.c"), *flags], check=True)
        with open(os.path.join(TOP, "examples/write_skew.script"), "rb") as script:
            done = subprocess.run([made], stdin=script, capture_output=True, env={"LD_LIBRARY_PATH": os.path.join(folder, "lib")})
        self.assertEqual((done.returncode, done.stderr), (0, b""))
        self.assertIn(b"40001", done.stdout)
        shown = subprocess.run(["readelf", "-d", made], stdout=subprocess.PIPE, text=True, check=True).stdout
        self.assertIn(f"[libpgserial.so.{library.abi()}]", shown)

    @unittest.skipUnless(shutil.which("dpkg-deb"), NO_DPKG)
    def test_the_debian_package(self) -> None:
        root = self.scratch("debian")
        subprocess.run(["dpkg-deb", "--extract", self.path(".deb"), root], check=True)
        names = {os.path.relpath(name, root) for name in self.below(root)}
        libdir = "usr/lib/x86_64-linux-gnu"
        wanted = {"usr/bin/pgserial", "usr/share/man/man1/pgserial.1.gz", "usr/include/pgserial.h", f"{libdir}/libpgserial.so",
                  f"{libdir}/libpgserial.so.{library.abi()}", f"{libdir}/libpgserial.a", f"{libdir}/pkgconfig/pgserial.pc",
                  "usr/share/bash-completion/completions/pgserial", "usr/share/zsh/vendor-completions/_pgserial",
                  "usr/share/man/man3/libpgserial.3.gz", "usr/share/pgserial/rust/Cargo.toml", "usr/share/pgserial/rust/src/calls.rs",
                  "usr/share/doc/pgserial/examples/example.c"}
        self.assertEqual(wanted - names, set())
        control = subprocess.run(["dpkg-deb", "--field", self.path(".deb")], stdout=subprocess.PIPE, text=True, check=True).stdout
        self.assertIn(f"Version: {self.version('0.1.0', '~')}\n", control)
        self.assertRegex(control, r"Depends: libc6 \(>= 2\.\d+\)")

    def test_the_version_is_the_programs(self) -> None:
        done = subprocess.run([program(), "--version"], stdout=subprocess.PIPE, text=True, check=True)
        with open(os.path.join(TOP, "clients/python/pgserial/version.py"), encoding="utf-8") as file:
            self.assertIn(f'VERSION = "{done.stdout.split()[1]}"', file.read())


class InARoot(Made):
    """Each package over an older one, where neither the toolchain nor the repository is there."""

    @classmethod
    def setUpClass(cls) -> None:
        super().setUpClass()
        with open(os.path.join(Made.outs[0], "application.py"), "w", encoding="utf-8") as file:
            file.write(APPLICATION)
        shutil.copy(os.path.join(TOP, "examples/write_skew.script"), Made.outs[0])

    def in_root(self, command: str) -> roots.Ran:
        """What a command comes to there, which must end well."""
        cargo, more = shutil.which("cargo"), {"VERSION": VERSION}
        if cargo:
            home = os.path.expanduser("~")
            more.update(RUSTUP_HOME=os.environ.get("RUSTUP_HOME", f"{home}/.rustup"), CARGO_HOME="/tmp/cargo", CARGO_TARGET_DIR="/tmp/target")
        done = roots.run(HEAD + command, self.outs[0], [os.path.dirname(cargo)] if cargo else [], more)
        if done is None:
            self.skipTest(roots.LACKING)
        self.assertEqual(done.status, 0, done.told + done.printed)
        return done

    def leaves_nothing(self, done: roots.Ran) -> None:
        """Of what was installed nothing stays."""
        self.assertEqual([name for name in done.left if not name.startswith(NOTED)], [])

    def the_readmes_example(self, done: roots.Ran) -> None:
        """What the README shows of `--why` was printed, and all that is kept as its output."""
        self.assertIn("\n".join(block_behind(read_text("README.md"), "says why:")), done.printed)
        self.assertIn(read_text("examples/write_skew.out").splitlines()[-1], done.printed)

    def the_examples(self, done: roots.Ran) -> None:
        """The examples in C and Rust have printed the script's replies and its order."""
        wanted = read_text("examples/write_skew.out") + "txn 1 key 1 1 1\ntxn 2 key 2 1 2\ncheck yes\n"
        self.assertEqual(done.printed.count(wanted), 2 if shutil.which("cargo") else 1, done.printed)

    def test_the_wheel(self) -> None:
        tried = roots.run("python3 -c 'import venv, ensurepip'", self.outs[0])
        if tried is None or tried.status:
            self.skipTest(NO_PIP if tried else roots.LACKING)
        asked, ran = block_behind(read_text("README.md"), "## Install")
        done = self.in_root(WHEEL.format(install=asked + " --quiet", run=ran.replace("SCRIPT", "write_skew.script --why")))
        self.the_readmes_example(done)
        lines = done.printed.splitlines()
        self.assertEqual(lines[:2], [f"{self.version('0.0.9')} True", f"{self.version('0.1.0')} False"])
        self.assertEqual(lines[-4:], ["[1]", "[1]", "yes", self.version("0.1.0")])
        self.leaves_nothing(done)

    @unittest.skipUnless(shutil.which("dpkg-deb"), NO_DPKG)
    def test_the_debian_package(self) -> None:
        done = self.in_root(DEBIAN)
        self.assertIn(f"pgserial\t{self.version('0.1.0', '~')}\n", done.printed)
        self.the_readmes_example(done)
        self.the_examples(done)
        if shutil.which("man"):
            self.assertIn("/usr/share/man/man1/pgserial.1.gz\n/usr/share/man/man3/libpgserial.3.gz\n", done.printed)
        self.leaves_nothing(done)

    def test_the_archive(self) -> None:
        done = self.in_root(ARCHIVE)
        self.the_readmes_example(done)
        self.the_examples(done)
        self.leaves_nothing(done)

    def test_what_stays_is_seen(self) -> None:
        """A file that is left makes these tests fail."""
        done = self.in_root("touch /usr/local/lib/left")
        self.assertEqual([name for name in done.left if not name.startswith(NOTED)], ["/usr/local/lib/left"])
