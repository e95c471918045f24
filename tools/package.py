#!/usr/bin/env python3
"""Makes files by which others install pgserial, without the toolchain: a wheel for Python, a Debian package, and an archive.

The wheel has the package for Python with the program and libpgserial in it. The Debian package and the archive have the program
with its man page and completions, libpgserial with its header, a file for pkg-config, its man page, the package for Rust and
examples. Beside them stand BUILD.txt, which says of which sources and toolchain they are and whether these were proved, and
SHA256SUMS. The same sources give the same bytes.

    pip install pgserial-*.whl                                       pip uninstall pgserial
    dpkg --install pgserial_*.deb                                    dpkg --purge pgserial
    tar -xzf pgserial-*.tar.gz -C /usr/local --strip-components=1    tar -tzf pgserial-*.tar.gz | sed 's,[^/]*/,/usr/local/,' | xargs rm
"""

import argparse
import base64
import dataclasses
import gzip
import hashlib
import io
import os
import re
import shutil
import subprocess
import sys
import tarfile
import tempfile
import zipfile
from typing import Dict, Iterator, List, Tuple

HERE = os.path.dirname(os.path.abspath(__file__))
TOP = os.path.dirname(HERE)
sys.path.insert(0, TOP)

from tools import install, library, manual, quick  # noqa: E402

PYTHON = os.path.join(TOP, "clients/python/pgserial")
RUST = os.path.join(TOP, "clients/rust")
EXAMPLES = ("clients/c/example.c", "examples/write_skew.script", "examples/write_skew.out")
# The files of a wheel are of no later day than a zip file can say.
WHEN = (1980, 1, 1, 0, 0, 0)
EXECUTABLE, PLAIN = 0o755, 0o644
SUMMARY = "A serializable in-memory database with a proved core, and a checker of other databases' transactions"
PKG_CONFIG = """\
prefix={prefix}
libdir=${{prefix}}/{libdir}
includedir=${{prefix}}/include

Name: pgserial
Description: {summary}
Version: {version}
Libs: -L${{libdir}} -lpgserial
Cflags: -I${{includedir}}
"""
CONTROL = """\
Package: pgserial
Version: {version}
Section: database
Priority: optional
Architecture: amd64
Maintainer: pgserial <pgserial@localhost>
Depends: libc6 (>= {glibc})
Installed-Size: {size}
Description: {summary}
 The program pgserial, with libpgserial for C and its header. {proof}
"""


@dataclasses.dataclass(frozen=True)
class File:
    """A file of a package: its bytes and mode, or where it is a link to."""

    data: bytes = b""
    mode: int = PLAIN
    link: str = ""


Files = Dict[str, File]


@dataclasses.dataclass(frozen=True)
class Build:
    """What is packaged: the program, the library's folder, and what is known of both."""

    program: bytes
    library: str
    version: str
    is_proved: bool
    sources: str
    toolchain: str
    proofs: Tuple[str, ...]
    helps: Tuple[install.Help, Dict[str, install.Help]]

    @property
    def abi(self) -> int:
        return library.abi()

    def named(self, local: str) -> str:
        """The version, which says where nothing was proved; `local` begins the part that says so."""
        return self.version if self.is_proved else f"{self.version}{local}unproved"

    def proof(self) -> str:
        """What is claimed of it."""
        if self.is_proved:
            return "Program and library were proved of these sources."
        return "It was compiled without proof: nothing is claimed of it."

    def text(self) -> str:
        """Of which sources, toolchain and proof it is."""
        lines = [f"pgserial {self.named('+')}", f"sources: {self.sources}", f"toolchain: {self.toolchain}", *(f"proved by {it}" for it in self.proofs)]
        return "\n".join([*lines, self.proof(), ""])


# ---- what is packaged


def glibc(data: List[bytes]) -> Tuple[int, int]:
    """The oldest version of the C library that has all that programs or libraries need of it, as readelf shows it."""
    needed = [(2, 0)]
    for each in data:
        with tempfile.NamedTemporaryFile() as file:
            file.write(each)
            file.flush()
            shown = library.run(["readelf", "--version-info", "--wide", file.name]).decode()
        needed += [(int(major), int(minor)) for major, minor in re.findall(r"\bName: GLIBC_(\d+)\.(\d+)", shown)]
    return max(needed)


def read(path: str) -> bytes:
    with open(path, "rb") as file:
        return file.read()


def sources_sum() -> str:
    """The sum of all that a proof reads."""
    return str(quick.ask_sources('sum_of "${proof_parts[@]}"')[0])


def toolchain() -> str:
    """The toolchain's own line."""
    return str(quick.ask_sources('ask_kit; echo "$kit"')[0])


def proofs() -> Tuple[str, ...]:
    """What has proved the program and the library, and what of each."""
    return tuple(quick.ask_sources(f"told_proved; {library.OF_CALLS} told_proved"))


def build_library(folder: str, is_proved: bool) -> None:
    """Makes libpgserial in a folder, of calls that were proved or, where the program wasn't, compiled without proof."""
    library.build(folder, library.proved_calls() if is_proved else library.compiled_calls())


def built(folder: str, unproved: bool) -> Build:
    """What is to be packaged, whose library is made in a folder."""
    program, is_proved = install.find_program(unproved)
    if unproved and is_proved:
        print("pgserial: the program is proved, so what is packaged is", file=sys.stderr)
    build_library(folder, is_proved)
    version = subprocess.run([program, "--version"], stdout=subprocess.PIPE, text=True, check=True).stdout.split()[1]
    return Build(read(program), folder, version, is_proved, sources_sum(), toolchain(), proofs() if is_proved else (), install.helps_of(program))


# ---- files of each package


def client_files() -> Iterator[Tuple[str, bytes]]:
    """The files of the package for Python, by their names in it."""
    for folder, folders, names in os.walk(PYTHON):
        folders[:] = sorted(it for it in folders if it != "__pycache__")
        for name in sorted(it for it in names if it.endswith((".py", ".typed"))):
            path = os.path.join(folder, name)
            yield os.path.relpath(path, PYTHON), read(path)


def rust_files() -> Iterator[Tuple[str, bytes]]:
    """The files of the package for Rust, by their names in it."""
    for folder, folders, names in os.walk(RUST):
        folders[:] = sorted(it for it in folders if it != "target")
        for name in sorted(it for it in names if it.endswith((".rs", ".toml", ".lock"))):
            path = os.path.join(folder, name)
            yield os.path.relpath(path, RUST), read(path)


def program_files(build: Build, prefix: str) -> Files:
    """The program below a prefix, with its man page and completions. One that isn't proved says so as it starts."""
    whole, commands = build.helps
    files = {"bin/pgserial": File(build.program, EXECUTABLE)}
    if not build.is_proved:
        files = {"lib/pgserial/pgserial": File(build.program, EXECUTABLE)}
        files["bin/pgserial"] = File(install.TELLING.format(program=f"{prefix}/lib/pgserial/pgserial").encode(), EXECUTABLE)
    page = install.man_page(whole, commands, f"pgserial {build.named(' ')}").encode()
    files["share/man/man1/pgserial.1.gz"] = File(gzip.compress(page, mtime=0))
    files["share/bash-completion/completions/pgserial"] = File(install.bash_completion(commands).encode())
    files["share/zsh/site-functions/_pgserial"] = File(install.zsh_completion(commands).encode())
    files["share/doc/pgserial/BUILD.txt"] = File(build.text().encode())
    return files


def library_files(build: Build, prefix: str, libdir: str) -> Files:
    """The library below a prefix, as C programs find it, with the package for Rust and examples."""
    shared = f"libpgserial.so.{build.abi}"
    header = read(os.path.join(build.library, "pgserial.h"))
    page = manual.page(header.decode(), f"pgserial {build.named(' ')}")
    config = PKG_CONFIG.format(prefix=prefix, libdir=libdir, summary=SUMMARY, version=build.version)
    examples = {f"share/doc/pgserial/examples/{os.path.basename(name)}": File(read(os.path.join(TOP, name))) for name in EXAMPLES}
    return {
        **examples,
        **{f"share/pgserial/rust/{name}": File(data) for name, data in rust_files()},
        f"{libdir}/{shared}": File(read(os.path.join(build.library, shared)), PLAIN),
        f"{libdir}/libpgserial.so": File(link=shared),
        f"{libdir}/libpgserial.a": File(read(os.path.join(build.library, "libpgserial.a"))),
        f"{libdir}/pkgconfig/pgserial.pc": File(config.encode()),
        "include/pgserial.h": File(header),
        "share/man/man3/libpgserial.3.gz": File(gzip.compress(page.encode(), mtime=0)),
    }


# ---- packages


def wheel(build: Build, out: str) -> str:
    """Makes the wheel: its name."""
    version = build.named("+")
    shared = read(os.path.join(build.library, f"libpgserial.so.{build.abi}"))
    tag = "py3-none-manylinux_{}_{}_x86_64".format(*glibc([build.program, shared]))
    files = {f"pgserial/{name}": File(data) for name, data in client_files()}
    files["pgserial/bundled/pgserial"] = File(build.program, EXECUTABLE)
    files[f"pgserial/bundled/libpgserial.so.{build.abi}"] = File(shared)
    files["pgserial/bundled/BUILD.txt"] = File(build.text().encode())
    files["pgserial/version.py"] = File(f'"""The version, which says where nothing was proved."""\n\nVERSION = "{version}"\n'.encode())
    info = f"pgserial-{version}.dist-info"
    readme = read(os.path.join(TOP, "clients/python/README.md")).decode()
    head = ["Metadata-Version: 2.1", "Name: pgserial", f"Version: {version}", f"Summary: {SUMMARY}", "Requires-Python: >=3.8", "Description-Content-Type: text/markdown"]
    files[f"{info}/METADATA"] = File(("\n".join(head) + "\n\n" + readme).encode())
    files[f"{info}/WHEEL"] = File(f"Wheel-Version: 1.0\nGenerator: pgserial\nRoot-Is-Purelib: false\nTag: {tag}\n".encode())
    files[f"{info}/entry_points.txt"] = File(read(os.path.join(TOP, "clients/python/entry_points.txt")))
    files[f"{info}/RECORD"] = File(record(files, info).encode())
    name = f"pgserial-{version}-{tag}.whl"
    write_zip(os.path.join(out, name), files)
    return name


def record(files: Files, info: str) -> str:
    """The list of a wheel's files with their sums (PEP 427)."""
    lines = []
    for name, file in sorted(files.items()):
        digest = base64.urlsafe_b64encode(hashlib.sha256(file.data).digest()).decode().rstrip("=")
        lines.append(f"{name},sha256={digest},{len(file.data)}")
    return "\n".join([*lines, f"{info}/RECORD,,", ""])


def write_zip(path: str, files: Files) -> None:
    with zipfile.ZipFile(path, "w", zipfile.ZIP_DEFLATED) as archive:
        for name, file in sorted(files.items()):
            entry = zipfile.ZipInfo(name, WHEN)
            entry.compress_type, entry.create_system = zipfile.ZIP_DEFLATED, 3
            entry.external_attr = (0o100000 | file.mode) << 16
            archive.writestr(entry, file.data)


def archive(build: Build, out: str) -> str:
    """Makes the archive, whose files may lie below any prefix: its name."""
    name = f"pgserial-{build.named('+')}-x86_64-linux"
    files = {**program_files(build, "/usr/local"), **library_files(build, "${pcfiledir}/../..", "lib")}
    if not build.is_proved:
        files["bin/pgserial"] = File(UNPROVED_BESIDE.encode(), EXECUTABLE)
    data = io.BytesIO()
    with tarfile.open(fileobj=data, mode="w", format=tarfile.GNU_FORMAT) as tar:
        for path, file in sorted(files.items()):
            entry = tarfile.TarInfo(f"{name}/{path}")
            entry.mode, entry.size = file.mode, len(file.data)
            if file.link:
                entry.type, entry.linkname = tarfile.SYMTYPE, file.link
            tar.addfile(entry, io.BytesIO(file.data))
    with open(os.path.join(out, f"{name}.tar.gz"), "wb") as made:
        made.write(gzip.compress(data.getvalue(), mtime=0))
    return f"{name}.tar.gz"


# What runs an unproved program that lies beside it, wherever that is.
UNPROVED_BESIDE = install.TELLING.replace("program={program}", 'program=$(dirname "$(readlink -f "$0")")/../lib/pgserial/pgserial').format()


def debian(build: Build, out: str) -> str:
    """Makes the Debian package: its name."""
    version, libdir = build.named("~"), "lib/x86_64-linux-gnu"
    files = {**program_files(build, "/usr"), **library_files(build, "/usr", libdir)}
    files["share/zsh/vendor-completions/_pgserial"] = files.pop("share/zsh/site-functions/_pgserial")
    shared = files[f"{libdir}/libpgserial.so.{build.abi}"].data
    name = f"pgserial_{version}_amd64.deb"
    with tempfile.TemporaryDirectory() as root:
        os.chmod(root, 0o755)
        for path, file in files.items():
            write_file(os.path.join(root, "usr", path), file)
        size = sum(len(file.data) for file in files.values()) // 1024 + 1
        needed = "{}.{}".format(*glibc([build.program, shared]))
        control = CONTROL.format(version=version, glibc=needed, size=size, summary=SUMMARY, proof=build.proof())
        write_file(os.path.join(root, "DEBIAN/control"), File(control.encode()))
        write_file(os.path.join(root, "DEBIAN/triggers"), File(b"activate-noawait ldconfig\n"))
        environment = {**os.environ, "SOURCE_DATE_EPOCH": "315532800"}
        library.run(["dpkg-deb", "--root-owner-group", "-Zxz", "--build", root, os.path.join(out, name)], env=environment)
    return name


def write_file(path: str, file: File) -> None:
    os.makedirs(os.path.dirname(path), mode=0o755, exist_ok=True)
    if file.link:
        os.symlink(file.link, path)
        return
    with open(path, "wb") as made:
        made.write(file.data)
    os.chmod(path, file.mode)


# ---- the command


def package(out: str, unproved: bool) -> List[str]:
    """Makes all packages in a folder: their names."""
    os.makedirs(out, exist_ok=True)
    with tempfile.TemporaryDirectory() as folder:
        build = built(folder, unproved)
        names = [wheel(build, out), archive(build, out)]
        if shutil.which("dpkg-deb"):
            names.append(debian(build, out))
        else:
            print("pgserial: no Debian package is made: there is no dpkg-deb (Debian: dpkg)", file=sys.stderr)
    with open(os.path.join(out, "BUILD.txt"), "w", encoding="utf-8") as file:
        file.write(build.text())
    names = sorted([*names, "BUILD.txt"])
    with open(os.path.join(out, "SHA256SUMS"), "w", encoding="utf-8") as file:
        for name in names:
            file.write(f"{hashlib.sha256(read(os.path.join(out, name))).hexdigest()}  {name}\n")
    return names


def main() -> int:
    parser = argparse.ArgumentParser(prog="pgserial package", description=__doc__, formatter_class=argparse.RawDescriptionHelpFormatter)
    parser.add_argument("--out", metavar="FOLDER", default="dist", help="where the packages are written [default: dist]")
    parser.add_argument("--unproved", action="store_true", help="package a program that is compiled without proof, where no proved one of these sources is there; each package's name says so")
    asked = parser.parse_args()
    for tool, debian_package in ("cc", "gcc"), ("readelf", "binutils"):
        if not shutil.which(tool):
            sys.exit(f"pgserial: {tool} is needed (Debian: {debian_package})")
    try:
        names = package(asked.out, asked.unproved)
    except OSError as error:
        sys.exit(f"pgserial: {install.reason(error)}")
    for name in names:
        print(os.path.join(asked.out, name))
    return 0


if __name__ == "__main__":
    sys.exit(main())
