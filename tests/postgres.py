"""A server of PostgreSQL for tests: of a folder of its own, on a socket there and on no port."""

import atexit
import glob
import os
import shutil
import subprocess
import tempfile
from typing import Any, List, Optional

LACKING = "PostgreSQL isn't there (Debian: postgresql)"
# More connections at once than all checks have.
CONNECTIONS = 400


def programs() -> Optional[str]:
    """The folder of PostgreSQL's programs, the newest ones, or nothing."""
    found = sorted(glob.glob("/usr/lib/postgresql/*/bin/initdb"), key=lambda path: [int(part) for part in path.split("/") if part.isdigit()])
    if found:
        return os.path.dirname(found[-1])
    path = shutil.which("initdb")
    return os.path.dirname(os.path.realpath(path)) if path else None


class Server:
    """A server that runs while it is entered."""

    def __init__(self, where: str, folder: str) -> None:
        self.programs, self.folder, self.data = where, folder, os.path.join(folder, "data")
        # PostgreSQL doesn't run as root.
        self.user = ["setpriv", "--reuid=nobody", "--regid=nogroup", "--clear-groups"] if os.geteuid() == 0 else []

    def does(self, program: str, *words: str, **how: Any) -> str:
        """What one of PostgreSQL's programs prints."""
        words = (*self.user, os.path.join(self.programs, program), *words)
        done = subprocess.run(words, cwd=self.folder, check=True, stdout=subprocess.PIPE, stderr=subprocess.PIPE, text=True, timeout=120, **how)
        return str(done.stdout)

    def __enter__(self) -> "Server":
        if self.user:
            shutil.chown(self.folder, "nobody", "nogroup")
        self.does("initdb", "-D", self.data, "-U", "tester", "--auth=trust", "--encoding=UTF8", "--locale=C", "--no-sync")
        options = f"-c listen_addresses= -c unix_socket_directories={self.folder} -c fsync=off -c max_connections={CONNECTIONS}"
        # Its output isn't taken: the server would hold the pipe.
        words = [*self.user, os.path.join(self.programs, "pg_ctl"), "-D", self.data, "-w", "-l", os.path.join(self.folder, "log"), "-o", options, "start"]
        subprocess.run(words, cwd=self.folder, check=True, stdout=subprocess.DEVNULL, timeout=120)
        return self

    def __exit__(self, *_: Any) -> None:
        self.does("pg_ctl", "-D", self.data, "-m", "immediate", "stop")

    def psql(self, *words: str, database: str = "postgres") -> str:
        """What psql prints."""
        return self.does("psql", "-X", "-q", "-h", self.folder, "-U", "tester", "-d", database, "-v", "ON_ERROR_STOP=1", *words)

    def database(self, name: str) -> str:
        """How a new database of this name is reached."""
        self.psql("-c", f'CREATE DATABASE "{name}"')
        return f"host={self.folder} user=tester dbname={name}"


def started() -> Optional[Server]:
    """A server that runs until this process ends, or nothing where there is no PostgreSQL."""
    where = programs()
    if where is None:
        return None
    folder = tempfile.TemporaryDirectory(prefix="pg")
    atexit.register(folder.cleanup)
    os.chmod(folder.name, 0o755)
    inner = os.path.join(folder.name, "s")
    os.mkdir(inner, 0o755)
    server = Server(where, inner)
    server.__enter__()
    atexit.register(server.__exit__)
    return server


_OWN: List[Server] = []


def reached() -> Optional[str]:
    """How a database is reached that is there for these tests alone: that of $PGSERIAL_DSN, or else one of a server that is
    started; nothing where there is no PostgreSQL."""
    dsn = os.environ.get("PGSERIAL_DSN")
    if not dsn:
        server = started()
        if server is None:
            return None
        _OWN.append(server)
        dsn = os.environ["PGSERIAL_DSN"] = server.database("tests")
    return dsn
