"""A machine without the toolchain and the repository: this one's files, below an overlay that takes what is written, in a mount
namespace of its own. Nothing of it stays but what a command prints, and the names of the files that it has left."""

import os
import shutil
import subprocess
import tempfile
from typing import Dict, Iterable, List, NamedTuple, Optional

from tests.program import TOP

LACKING = "no root can be made of an overlay: only the machine's root may mount one (Debian: util-linux)"
GIVEN = "/mnt/given"  # where the files stand that are given to the root
PATH = "/usr/local/sbin:/usr/local/bin:/usr/sbin:/usr/bin:/sbin:/bin"
PATIENCE = 400  # seconds
# Makes the root below $room, runs the command in it, and writes the names of what was written there to $room.left.
MAKING = r"""
set -eu
mount --make-rprivate /
mount -t tmpfs none "$room"
mkdir "$room/upper" "$room/work" "$room/root"
root=$room/root
mount -t overlay overlay -o "lowerdir=/,upperdir=$room/upper,workdir=$room/work" "$root"
while IFS= read -r hidden; do
  if [ -d "$root$hidden" ]; then mount -t tmpfs none "$root$hidden"; else rm -f "$root$hidden"; fi
done <<< "$hidden"
mount -t tmpfs none "$root/tmp"
mkdir -p "$root$to"
mount --bind "$given" "$root$to"
mount --rbind /dev "$root/dev"
mount -t proc none "$root/proc" 2> /dev/null || mount --rbind /proc "$root/proc"
status=0
env -i "${words[@]}" chroot "$root" /bin/bash -euc "$command" || status=$?
cd "$room/upper"
find . -type f -o -type l > "$left"
exit $status
"""


class Ran(NamedTuple):
    """What a command in a root came to: its status, what it printed, and the files that it has left, by their paths."""

    status: int
    printed: str
    told: str
    left: List[str]


def hidden() -> List[str]:
    """The repository and what there is of the toolchain: its folder, and the files by which the PATH finds it."""
    found = [TOP]
    for folder in dict.fromkeys(os.environ.get("PATH", "").split(":")):
        for name in ("rt", "rattle"):
            path = os.path.join(folder, name)
            if os.path.exists(path):
                found += [path, os.path.dirname(os.path.dirname(os.path.realpath(path)))]
    return list(dict.fromkeys(it for it in found if it not in ("/", "/usr", "/usr/local")))


def namespace() -> Optional[List[str]]:
    """The words that give a command mounts of its own; nothing where they can't."""
    words = ["unshare", "--mount"] if os.geteuid() == 0 else ["unshare", "--mount", "--map-root-user"]
    with tempfile.TemporaryDirectory() as folder:
        tried = f'mount --make-rprivate / && mount -t tmpfs none "$0" && mkdir "$0"/{{u,w,r}} && mount -t overlay overlay -o "lowerdir=/,upperdir=$0/u,workdir=$0/w" "$0/r" && chroot "$0/r" true'
        try:
            subprocess.run([*words, "bash", "-c", tried, folder], check=True, capture_output=True, timeout=60)
        except (OSError, subprocess.SubprocessError):
            return None
    return words


def run(command: str, given: str, also: Iterable[str] = (), more: Optional[Dict[str, str]] = None) -> Optional[Ran]:
    """Runs a command of bash in such a root, which finds the files of a folder at GIVEN; nothing where no root can be made. More
    folders can stand on its PATH, and more variables in its environment."""
    words = namespace() if shutil.which("unshare") else None
    if words is None:
        return None
    environment = {"PATH": ":".join([PATH, *also]), "HOME": "/nonexistent", "LC_ALL": "C.UTF-8", **(more or {})}
    named = " ".join(f'"{name}={value}"' for name, value in environment.items())
    with tempfile.TemporaryDirectory() as folder:
        room, left = os.path.join(folder, "room"), os.path.join(folder, "left")
        os.mkdir(room)
        asked = {**os.environ, "room": room, "left": left, "given": given, "to": GIVEN, "hidden": "\n".join(hidden()), "command": command}
        done = subprocess.run([*words, "bash", "-c", f"words=({named})\n{MAKING}"], env=asked, capture_output=True, text=True, timeout=PATIENCE)
        names: List[str] = []
        if os.path.exists(left):
            with open(left, encoding="utf-8") as file:
                names = sorted(line[1:] for line in file.read().splitlines())
    return Ran(done.returncode, done.stdout, done.stderr, names)
