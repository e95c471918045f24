"""What takes seconds to see before the gate, or a push: how much disk and memory there is, what `rt ci` refuses in the tree before it
proves anything, the documents, and which tests there are.

`python3 tests/preflight.py NAMES CRATE..` looks at the names of crates by the toolchain's own `rt`, for the rest of this file.
"""

import concurrent.futures
import fcntl
import importlib.machinery
import importlib.util
import os
import re
import shutil
import subprocess
import sys
import time
from typing import Any, Callable, Dict, Iterator, List, Set, Tuple

sys.path[0] = os.path.dirname(os.path.dirname(os.path.abspath(__file__)))

from tests import checks  # noqa: E402
from tests.program import TOOLS, TOP, jobs  # noqa: E402

GB = 1 << 30
# What `rt ci` writes, and what it leaves free where it keeps what has passed; and what one crate's proof takes.
LEAST_DISK, LEAST_MEMORY = 8 * GB, 5 * GB
PARTS = {"src": ".rt", "specs": ".antt", "proofs": ".antt"}
Faults = Iterator[str]


def kit() -> str:
    """The toolchain's folder, or nothing where it isn't there."""
    path = shutil.which("rt")
    return os.path.dirname(os.path.dirname(os.path.realpath(path))) if path else ""


def read(path: str) -> str:
    with open(path, encoding="utf-8") as file:
        return file.read()


# ---- the machine


def free_disk(folder: str) -> int:
    disk = os.statvfs(folder)
    return disk.f_bavail * disk.f_frsize


def free_memory() -> int:
    return int(re.findall(r"^MemAvailable: *(\d+)", read("/proc/meminfo"), re.M)[0]) << 10


def is_compiling(top: str) -> bool:
    """Whether a compilation has the lock of the folder where programs are kept."""
    try:
        with open(os.path.join(top, "out/lock"), "r+", encoding="utf-8") as lock:
            fcntl.lockf(lock, fcntl.LOCK_EX | fcntl.LOCK_NB)
    except BlockingIOError:
        return True
    except OSError:
        pass
    return False


def leftovers(top: str) -> List[str]:
    """What may be removed where the disk is short: programs of other sources, and what `rt check` has kept of these crates."""
    programs = os.path.join(top, "out/programs")
    found = [os.path.join(programs, name) for name in os.listdir(programs)] if os.path.isdir(programs) else []
    found = sorted(found, key=os.path.getmtime)[:-1]
    crates = os.path.join(top, "crates")
    return found + [path for path in (os.path.join(crates, name, "out/incremental") for name in os.listdir(crates)) if os.path.isdir(path)]


def look_at_machine(top: str = TOP, least_disk: int = LEAST_DISK, least_memory: int = LEAST_MEMORY) -> Faults:
    """Says how much disk and memory there is; removes what it may where the disk is short."""
    if not is_compiling(top):
        # Links that a compilation which was killed has left there are refused.
        shutil.rmtree(os.path.join(top, "out/work"), ignore_errors=True)
    folder = os.environ.get("TMPDIR", "/tmp")
    for path in leftovers(top):
        if min(free_disk(top), free_disk(folder)) >= least_disk:
            break
        print(f"preflight: the disk is short: {os.path.relpath(path, top)} is removed")
        shutil.rmtree(path, ignore_errors=True)
    disks = {path: free_disk(path) for path in (top, folder)}
    memory = free_memory()
    print("preflight: " + ", ".join(f"{size / GB:.0f} GB of disk free in {path}" for path, size in disks.items()) + f", {memory / GB:.0f} GB of memory")
    for path, size in disks.items():
        if size < least_disk:
            yield f"{path} has {size / GB:.1f} GB free, and the gate takes {least_disk / GB:.0f}: remove copies of the repository, or their crates/*/out"
    if memory < least_memory:
        yield f"{memory / GB:.1f} GB of memory are free, and a proof takes {least_memory / GB:.0f}: end what else runs"


# ---- the tree


def crates_of(top: str) -> List[str]:
    """The crates that crates.txt lists."""
    lines = [line.partition("#")[0].partition(":")[0].split() for line in read(os.path.join(top, "crates.txt")).splitlines()]
    return [words[0] for words in lines if words]


def look_at_tree(top: str = TOP) -> Faults:
    """Links, files that no check reads, and lists of crates where none may be."""
    places = {kind: tuple(os.path.join(top, "crates", crate, part) + os.sep for crate in crates_of(top) for part, own in PARTS.items() if own == kind)
              for kind in PARTS.values()}
    for folder, folders, names in os.walk(top):
        folders[:] = [name for name in folders if name != ".git" and not (name == "out" and os.path.dirname(folder).endswith("crates"))]
        if folder == top and is_compiling(top) and "out" in folders:
            folders.remove("out")
        for name in names + folders:
            path = os.path.join(folder, name)
            shown, kind = os.path.relpath(path, top), os.path.splitext(name)[1]
            if os.path.islink(path):
                yield f"{shown} is a link: put the file or folder itself there"
            elif kind in places and not path.startswith(places[kind]):
                yield f"{shown}: no check reads it: a .rt file goes in src/, an .antt file in specs/ or proofs/, of a crate of crates.txt"
            elif name in ("BUILD.bazel", "crates.txt") and folder != top:
                yield f"{shown}: crates.txt at the top lists the crates, and nothing else does"


def modules_of(path: str) -> Set[str]:
    """The modules that a file of Rattle names."""
    return set(re.findall(r"^(?:pub(?:\(\w+\))? )?mod (\w+)", read(path), re.M))


def sources_named(folder: str, file: str) -> Iterator[str]:
    """The files that a source names as modules, and those that these name."""
    stem = os.path.splitext(os.path.basename(file))[0]
    below = folder if stem in ("lib", "main", "mod") else os.path.join(folder, stem)
    yield file
    for name in modules_of(file):
        for path in (os.path.join(below, f"{name}.rt"), os.path.join(below, name, "mod.rt")):
            if os.path.exists(path):
                yield from sources_named(os.path.dirname(path), path)


def look_at_lists(top: str = TOP) -> Faults:
    """Sources that no `mod` names, and definitions and lemmas that no Lib.antt does."""
    for crate in crates_of(top):
        folder = os.path.join(top, "crates", crate)
        if not os.path.isdir(folder):
            yield f"crates.txt lists {crate}, and crates/{crate} isn't there"
            continue
        source = os.path.join(folder, "src")
        named = {path for root in ("lib.rt", "main.rt") if os.path.exists(os.path.join(source, root)) for path in sources_named(source, os.path.join(source, root))}
        there = {os.path.join(at, name) for at, _, names in os.walk(source) for name in names if name.endswith(".rt")}
        yield from (f"{os.path.relpath(path, top)}: no `mod` names it" for path in sorted(there - named))
        for part in ("specs", "proofs"):
            library = os.path.join(folder, part, "Lib.antt")
            listed = modules_of(library) if os.path.exists(library) else set()
            own = {name[: -len(".antt")] for name in os.listdir(os.path.dirname(library)) if name.endswith(".antt")} if os.path.isdir(os.path.dirname(library)) else set()
            yield from (f"crates/{crate}/{part}/{name}.antt: Lib.antt has no line for it" for name in sorted(own - listed - {"Lib"}))


def look_at_proofs(top: str = TOP) -> Faults:
    """Proofs of functions that aren't there: folders of Answers and Invariants. Those of closures, below `fn` or of an `FnOnce`, and of
    calls within a function aren't looked at."""
    for crate in crates_of(top):
        folder = os.path.join(top, "crates", crate)
        text = "".join(read(os.path.join(at, name)) for at, _, names in os.walk(os.path.join(folder, "src")) for name in names if name.endswith(".rt"))
        functions = set(re.findall(r"\bfn (\w+)", text))
        for at, _, names in os.walk(os.path.join(folder, "proofs")):
            name = os.path.basename(at).lstrip("+").partition("+")[0]
            if {"Answers.antt", "Invariants.antt"} & set(names) and name not in functions and "fn" not in os.path.relpath(at, folder).split(os.sep) and "+FnOnce" not in at:
                yield f"{os.path.relpath(at, top)}: {crate} has no function {name}"


def wrong_of_edit(crate: str, text: str) -> Faults:
    """How an edit of a crate can't be applied: each part begins with the file whose lines it changes."""
    head, *parts = re.split(r"^file: (.*)\n", text, flags=re.M)
    if not parts or "old: " in head:
        yield "it names no file"
    for file, changes in zip(parts[::2], parts[1::2]):
        path = os.path.join(crate, file)
        if not os.path.isfile(path):
            yield f"{file} isn't there"
            continue
        there = read(path)
        yield from (f"`{old.strip()}` stands {there.count(old)} times in {file}" for old in re.findall(r"^old: (.*)$", changes, re.M) if there.count(old) != 1)


def look_at_edits(top: str = TOP) -> Faults:
    """Wrong bodies whose text no longer stands in the file just once."""
    crates = os.path.join(top, "crates")
    for crate in sorted(os.listdir(crates)):
        for part in ("must-fail", "wrong-bodies"):
            folder = os.path.join(crates, crate, part)
            for name in sorted(os.listdir(folder)) if os.path.isdir(folder) else ():
                yield from (f"crates/{crate}/{part}/{name}: {told}" for told in wrong_of_edit(os.path.join(crates, crate), read(os.path.join(folder, name))))


# ---- by the toolchain


def look_at_layout(top: str = TOP) -> Faults:
    """Files that `rt fmt` would lay out otherwise."""
    rattle = os.path.join(kit(), "bin/rattle")
    if not kit():
        return
    crates = [os.path.join(top, "crates", crate, part) for crate in crates_of(top) for part in PARTS]
    files = [os.path.join(at, name) for crate in crates for at, _, names in os.walk(crate) for name in names if name.endswith((".rt", ".antt"))]
    done = subprocess.run([rattle, "fmt", "--check", *files], stdout=subprocess.PIPE, stderr=subprocess.STDOUT, text=True)
    if done.returncode:
        told = [line.replace(f"{top}/", "") for line in done.stdout.splitlines() if line.strip()]
        yield "not laid out (rt fmt in the crate's folder does it): " + "; ".join(told[:10])


def by_rt(names: List[str]) -> int:
    """Looks at the names of these crates as `rt ci` does: the status."""
    sys.path.insert(0, os.path.join(kit(), "bin"))
    loader = importlib.machinery.SourceFileLoader("rt_command", os.path.join(kit(), "bin/rt"))
    module: Any = importlib.util.module_from_spec(importlib.util.spec_from_loader("rt_command", loader))  # type: ignore[arg-type]
    loader.exec_module(module)
    library = importlib.import_module("rtlib")
    for crate in module.crates_of(os.getcwd()):
        if crate.name in names:
            library.stop_on_links(crate.folder)
            library.stop_on_text(crate, "verdict")
            module.stop_on_words(crate)
    return 0


def look_at_names(top: str = TOP) -> Faults:
    """Names that `rt ci` refuses."""
    if not kit():
        return
    crates, number = crates_of(top), jobs()

    def ask(names: List[str]) -> "subprocess.CompletedProcess[str]":
        words = [sys.executable, "-B", os.path.abspath(__file__), "NAMES", *names]
        return subprocess.run(words, cwd=top, stdout=subprocess.PIPE, stderr=subprocess.STDOUT, text=True)

    with concurrent.futures.ThreadPoolExecutor(number) as pool:
        for done in pool.map(ask, [crates[at::number] for at in range(number)]):
            if "AttributeError" in done.stdout or "ModuleNotFoundError" in done.stdout:
                print("preflight: names aren't looked at: this toolchain's rt does it otherwise")
                return
            if done.returncode:
                yield done.stdout.strip().replace(f"{top}/", "")


# ---- the rest


def look_at_documents() -> Faults:
    """What tools/words, tools/mutant-list and tools/definitions find."""
    for words in (["words"], ["mutant-list", "--check"], ["definitions", "--check"]):
        done = subprocess.run([os.path.join(TOOLS, words[0]), *words[1:]], stdout=subprocess.PIPE, stderr=subprocess.STDOUT, text=True)
        told = [line for line in done.stdout.splitlines() if line.startswith(f"{words[0]}: ")]
        yield from told if told or not done.returncode else [done.stdout]


def look_at_tests() -> Faults:
    """Checks of tests/cases.txt that aren't there any more."""
    yield from (f"tests/cases.txt has {name}, and no such check is there" for name in checks.lost(checks.found()))


LOOKS: Tuple[Callable[[], Faults], ...] = (
    look_at_machine, look_at_tree, look_at_lists, look_at_proofs, look_at_edits, look_at_layout, look_at_names, look_at_documents, look_at_tests)


def main() -> int:
    """Looks at all: 1 where something is wrong."""
    begun, found = time.monotonic(), 0
    took: Dict[str, float] = {}
    for look in LOOKS:
        before = time.monotonic()
        for told in look():
            found += 1
            print(f"preflight: {told}", flush=True)
        took[look.__name__] = time.monotonic() - before
    if not kit():
        print("preflight: the layout and names aren't looked at: rt isn't on the PATH")
    print(f"preflight: {found} faults, in {time.monotonic() - begun:.0f} s" if found else f"preflight: as it should be, in {time.monotonic() - begun:.0f} s")
    return 1 if found else 0


if __name__ == "__main__":
    sys.dont_write_bytecode = True
    sys.exit(by_rt(sys.argv[2:]))
