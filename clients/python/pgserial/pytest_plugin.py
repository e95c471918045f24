"""A plugin of pytest: what each test does on its database is recorded, and a test fails where no serial order explains it.

    pytest -p pgserial.pytest_plugin --serializable            # all tests, all tables
    pytest -p pgserial.pytest_plugin --serializable=accounts   # all tests, these tables

`@pytest.mark.serializable("accounts")` records one test, and the fixture `serializable` has `wrap` and `named`."""

import contextlib
import hashlib
import os
import re
import tempfile
from typing import Any, ContextManager, Dict, Iterator, List, Optional, Tuple

import pytest

from .drivers import Driver
from .following import NOBODY, Follower
from .hooks import Hooks
from .places import Places
from .recording import Recorder

_PROPERTY = "serializable"
_TABLES = "the names of tables, with commas between them; all tables, where none are named"
_MARKER = "serializable(*tables): record what the test does on its database, and fail it where no serial order explains that"


class SharedDatabase(Exception):
    """Two workers of pytest-xdist use one database, so that each recording would be a part."""


class Serializable:
    """The fixture: follows connections of drivers that aren't known, and names transactions."""

    def __init__(self, plugin: "Plugin") -> None:
        self._plugin = plugin

    def wrap(self, connection: Any, paramstyle: Optional[str] = None) -> Any:
        """A connection, recorded."""
        return self._plugin.follower.follow(connection, paramstyle)

    def named(self, name: str) -> ContextManager[None]:
        """With this, the transactions that begin within are told by a name."""
        return self._plugin.places.named(name)


class Plugin:
    """The plugin of one process."""

    def __init__(self, config: Any) -> None:
        given = config.getoption("--serializable")
        self._tables = None if not given else [name.strip() for name in given.split(",")]
        self._is_for_all = given is not None
        self.places = Places(config.rootpath)
        self.follower = Follower(claims=_claims(config))
        self._hooks = Hooks(self.follower)
        self._folder = tempfile.mkdtemp(prefix="pgserial-")
        self._recorder: Optional[Recorder] = None
        self._count = 0

    # what is recorded

    def _wanted(self, item: Any) -> Tuple[bool, Any]:
        """Whether a test is recorded, and its tables. A case that judges itself isn't recorded twice."""
        if getattr(getattr(item, "cls", None), "judges_itself", False):
            return False, None
        mark = item.get_closest_marker("serializable")
        if mark is None:
            return self._is_for_all or "serializable" in getattr(item, "fixturenames", ()), self._tables
        tables: Any = mark.kwargs.get("tables", mark.args or self._tables)
        return True, list(tables) if isinstance(tables, tuple) else tables

    def _is_asked(self, item: Any) -> bool:
        """Whether the test itself asks for a verdict, so that it fails where there is none."""
        return item.get_closest_marker("serializable") is not None

    def _begin(self, item: Any, tables: Any) -> Recorder:
        self._count += 1
        name = re.sub(r"\W+", "_", item.name)[:60]
        recorder = Recorder(os.path.join(self._folder, f"{self._count}_{name}.transcript"), tables)
        recorder.places, recorder.is_quiet = self.places, True
        return recorder

    def _judged(self, item: Any, recorder: Recorder) -> Optional[str]:
        """Why a test fails by its recording; None where it doesn't."""
        told = recorder.verdict()
        words = str(told)
        answer = "nothing" if told.answer == "unknown" and told.committed == 0 else told.answer
        item.user_properties.append((_PROPERTY, answer))
        if answer == "no":
            return f"not serializable. The recording is {recorder.path}\n{words}"
        os.unlink(recorder.path)
        return words if answer != "yes" and self._is_asked(item) else None

    # pytest's hooks

    @pytest.hookimpl(hookwrapper=True, tryfirst=True)
    def pytest_runtest_call(self, item: Any) -> Iterator[None]:
        """Records a test."""
        self._hooks.install()
        is_wanted, tables = self._wanted(item)
        if not is_wanted:
            yield
            return
        self._recorder = self._begin(item, tables)
        with self.follower.recording(self._recorder):
            yield

    def pytest_collection_finish(self) -> None:
        """The application's modules are imported: what they connect by is hooked."""
        self._hooks.install()

    def pytest_unconfigure(self) -> None:
        """Takes the hooks away."""
        self._hooks.remove()
        with contextlib.suppress(OSError):
            os.rmdir(self._folder)  # where no recording was kept

    def configure(self) -> None:
        """Hooks the drivers, before the application imports them."""
        for name in ("sqlite3", "psycopg2", "psycopg"):
            with contextlib.suppress(ImportError):
                __import__(name)
        self._hooks.install()


class Judge:
    """Judges a test behind its call, before pytest takes it for passed."""

    def __init__(self, plugin: Plugin) -> None:
        self._plugin = plugin

    @pytest.hookimpl(trylast=True)
    def pytest_runtest_call(self, item: Any) -> None:
        """Fails a test whose recording no order explains."""
        plugin = self._plugin
        recorder, plugin._recorder = plugin._recorder, None
        if recorder is None:
            return
        plugin.follower.end()
        why = plugin._judged(item, recorder)
        if why is not None:
            pytest.fail(why, pytrace=False)


def _claims(config: Any) -> Any:
    """What refuses a database that another worker of pytest-xdist uses."""
    worker = os.environ.get("PYTEST_XDIST_WORKER")
    if worker is None:
        return None
    folder = os.path.join(tempfile.gettempdir(), f"pgserial-{os.environ.get('PYTEST_XDIST_TESTRUNUID', 'run')}")
    os.makedirs(folder, exist_ok=True)

    def claim(driver: Driver) -> None:
        identity = driver.identity()
        if identity is None:
            return
        path = os.path.join(folder, hashlib.sha256(identity.encode()).hexdigest())
        with open(path, "a+", encoding="ascii") as file:
            _locked(file)
            file.seek(0)
            owner = file.read()
            if owner and owner != worker:
                raise SharedDatabase(
                    f"workers {owner} and {worker} of pytest-xdist share {identity}, so that each would record a part: give "
                    f"each worker a database of its own, or leave out --serializable or -n"
                )
            if not owner:
                file.write(str(worker))

    return claim


def _locked(file: Any) -> None:
    """Waits until no other process has this file locked."""
    try:
        import fcntl
    except ImportError:
        return
    fcntl.flock(file, fcntl.LOCK_EX)


def pytest_addoption(parser: Any) -> None:
    """--serializable, with tables or without."""
    group = parser.getgroup("serializable", "recording what tests do on databases (pgserial)")
    group.addoption("--serializable", nargs="?", const="", default=None, metavar="TABLES", help=f"record each test; {_TABLES}")


def pytest_configure(config: Any) -> None:
    """Begins to follow connections."""
    config.addinivalue_line("markers", _MARKER)
    given = config.getoption("--serializable")
    if given and os.path.exists(given.partition("::")[0]):
        raise pytest.UsageError(f"--serializable takes {given} for a table: say `--serializable= {given}`, or put it behind")
    plugin = Plugin(config)
    config.pluginmanager.register(plugin, "pgserial_recording")
    config.pluginmanager.register(Judge(plugin), "pgserial_judge")
    plugin.configure()


@pytest.fixture
def serializable(request: Any) -> Serializable:
    """Records the test: `wrap` takes connections of drivers that aren't known, `named` names transactions."""
    return Serializable(request.config.pluginmanager.get_plugin("pgserial_recording"))


def pytest_terminal_summary(terminalreporter: Any) -> None:
    """How many tests there were of each verdict."""
    counts: Dict[str, List[str]] = {}
    for reports in terminalreporter.stats.values():
        for report in reports:
            if getattr(report, "when", None) == "call":
                for name, answer in getattr(report, "user_properties", ()):
                    if name == _PROPERTY:
                        counts.setdefault(answer, []).append(report.nodeid)
    if not counts:
        return
    told = ", ".join(f"{len(counts[answer])} {_WORDS[answer]}" for answer in _WORDS if answer in counts)
    terminalreporter.write_sep("=", "serializable")
    terminalreporter.write_line(told)
    for answer in ("unknown", "refused", "nothing"):
        for node in counts.get(answer, ()):
            terminalreporter.write_line(f"{_WORDS[answer]}: {node}")


_WORDS = {"yes": "yes", "no": "no", "unknown": "unknown", "refused": "without a verdict", "nothing": "recorded nothing"}
