#!/usr/bin/env python3
"""mutants.py [HASH]: tries a few wrong bodies, others at each commit. The prover must refuse each; 1 where it lets one through.

They are those of one crate, drawn by the commit's hash among all that have some and whose libraries `rt ci` has left: up to five, and
fewer of a crate whose proof is long. docs/MUTANTS.md says what each stands for. Where no crate has its libraries, since the disk was
short, or where there is no room for a copy of them, nothing is tried, and that is said; so it is where they can't be tried to the end
in the time that there is for a check.
"""

import hashlib
import os
import re
import signal
import subprocess
import sys
import tempfile
from typing import Dict, List, Tuple

TOP = os.path.dirname(os.path.dirname(os.path.abspath(__file__)))
# Of a crate with many those that break what isolation rests on: first updater wins, dangerous structures, dooms, locks, the
# serial order, safe and exported snapshots, views, and what is forgotten; or what a transaction did, and its conflicts; or how
# schedules are numbered, drawn and counted.
NAMED = {
    "transactions": """
        aborted_writer_still_conflicts committer_is_never_the_first drops_versions_that_a_safe_reader_reads
        first_is_doomed_for_the_middle forgets_as_if_none_were_open identifier_of_a_failed_exporter_lives importer_stays_safe
        keys_in_commit_order locks_dropped_at_the_readers_commit pivot_commits_last safe_as_soon_as_the_others_ended
        view_of_another_snapshot""",
    "explore": """
        counted_as_permutations draws_lie_closer earlier_stretch_is_run_twice every_draw_is_the_first fewest_first
        first_is_the_last last_session_leads later_runs_count_once ranks_from_zero row_is_told_as_cause""",
    "retrace": """
        committer_is_its_own_pivot conflict_is_left_out doomed_goes_on doomed_keeps_its_rows failed_statement_goes_on
        greatest_is_told moment_that_does_not_cover nine_keys_are_few read_only_commit_installs reader_is_the_writer
        references_come_first refused_statement_is_done""",
}
MOST = 5  # wrong bodies
ROOM = 4_000_000_000  # bytes for a copy of the libraries
SECONDS = 840  # for all of them
# Processor seconds of a crate's proof for which one wrong body fewer is tried: each takes a part of that.
EACH = 400


def crates_of(top: str) -> Dict[str, List[str]]:
    """The crates of crates.txt, and the crates below each."""
    found = {}
    with open(os.path.join(top, "crates.txt"), encoding="utf-8") as file:
        for line in file:
            head, _, below = line.partition("#")[0].partition(":")
            if head.split():
                found[head.split()[0]] = below.split()
    return {name: [it for it in below if it in found] for name, below in found.items()}


def has_libraries(top: str, crate: str, crates: Dict[str, List[str]]) -> bool:
    """Whether a crate, and each below it, has its library."""
    return all(os.path.isdir(os.path.join(top, "crates", each, "out/rlib")) for each in [crate, *crates[crate]])


def wrong_bodies(top: str, crate: str) -> List[str]:
    """A crate's wrong bodies that are drawn from: those named above, or else all."""
    folder = os.path.join(top, "crates", crate, "wrong-bodies")
    there = sorted(name[: -len(".edit")] for name in os.listdir(folder) if name.endswith(".edit")) if os.path.isdir(folder) else []
    return [name for name in NAMED[crate].split() if name in there] if crate in NAMED else there


def costs(top: str) -> Dict[str, int]:
    """The processor seconds of each crate's proof."""
    with open(os.path.join(top, "tools/seconds"), encoding="utf-8") as file:
        return {name: int(seconds) for name, seconds in re.findall(r"^(\w+) (\d+)$", file.read(), re.M)}


def drawn(top: str, text: str) -> Tuple[str, List[str]]:
    """The crate that a commit's hash draws, and its wrong bodies; nothing where no crate has its libraries."""
    crates, cost = crates_of(top), costs(top)
    able = [crate for crate in sorted(crates) if wrong_bodies(top, crate) and has_libraries(top, crate, crates)]
    if not able:
        return "", []
    draw = int(hashlib.sha256(text.encode()).hexdigest()[:8], 16)
    crate = able[draw % len(able)]
    edits = wrong_bodies(top, crate)
    number = min(len(edits), max(1, MOST - cost.get(crate, 60) // EACH))
    first = draw // len(able)
    return crate, [edits[(first + turn) % len(edits)] for turn in range(number)]


def main(words: List[str]) -> int:
    text = words[0] if words else subprocess.run(["git", "rev-parse", "HEAD"], cwd=TOP, stdout=subprocess.PIPE, text=True).stdout.strip()
    crate, edits = drawn(TOP, text)
    if not crate:
        print("mutants: none is tried, without a crate that has its libraries")
        return 0
    disk = os.statvfs(tempfile.gettempdir())
    if disk.f_bavail * disk.f_frsize < ROOM:
        print(f"mutants: none of {crate} is tried, without room for a copy of what is below it")
        return 0
    tried = subprocess.Popen([os.path.join(TOP, "wrong-bodies"), crate, "--only", *edits], start_new_session=True)
    try:
        return tried.wait(SECONDS)
    except subprocess.TimeoutExpired:
        print(f"mutants: those of {crate} aren't tried to the end, without more than {SECONDS} seconds")
        return 0
    finally:
        if tried.poll() is None:
            os.killpg(tried.pid, signal.SIGKILL)


if __name__ == "__main__":
    sys.exit(main(sys.argv[1:]))
