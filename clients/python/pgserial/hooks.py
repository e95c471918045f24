"""Where a process connects to databases: the drivers' own `connect`, SQLAlchemy's pools, Django's connections. While these are
hooked, each connection that is made is followed."""

import functools
import sys
from typing import Any, Callable, List, Optional, Set

from .following import Follower
from .keys import Refused
from .proxies import Proxy
from .sqlalchemy import pool_listener

# What has a hook of its own, or works on the driver's own connection.
_OTHERS = ("django", "sqlalchemy", "aiosqlite", "pgserial")


class Hooks:
    """The hooks of one follower; `install` may be called again when more modules have been imported."""

    def __init__(self, follower: Follower) -> None:
        self._follower = follower
        self._undo: List[Callable[[], object]] = []
        self._hooked: Set[str] = set()

    def install(self) -> None:
        """Hooks what is imported by now."""
        hooks = {
            "sqlite3": self._function, "psycopg2": self._function, "psycopg": self._psycopg,
            "sqlalchemy.pool": self._pools, "django.db": self._django,
        }  # fmt: skip
        for name, hook in hooks.items():
            module = sys.modules.get(name)
            if module is not None and name not in self._hooked:
                self._hooked.add(name)
                hook(module)

    def remove(self) -> None:
        """Takes all hooks away."""
        while self._undo:
            self._undo.pop()()
        self._hooked.clear()

    def _set(self, holder: Any, name: str, value: Any) -> None:
        before = holder.__dict__[name]
        setattr(holder, name, value)
        self._undo.append(lambda: setattr(holder, name, before))

    def followed(self, raw: Any, caller: str, paramstyle: Optional[str] = None) -> Any:
        """A connection that a driver has made, followed; one that can't be ends the recording."""
        if caller.partition(".")[0] in _OTHERS:
            return raw
        try:
            return self._follower.follow(raw, paramstyle)
        except Refused as refused:
            self._follower.recorder.stop(f"a connection that isn't recorded: {refused}")
            return raw

    def _function(self, module: Any) -> None:
        """A module's function `connect`."""
        original = module.connect

        @functools.wraps(original)
        def connect(*words: Any, **named: Any) -> Any:
            return self.followed(original(*words, **named), _caller())

        self._set(module, "connect", connect)

    def _psycopg(self, module: Any) -> None:
        original = module.Connection.__dict__["connect"].__func__

        @functools.wraps(original)
        def connect(kind: Any, *words: Any, **named: Any) -> Any:
            return self.followed(original(kind, *words, **named), _caller())

        self._set(module.Connection, "connect", classmethod(connect))
        self._set(module, "connect", module.Connection.connect)
        awaited = module.AsyncConnection.__dict__["connect"].__func__

        @functools.wraps(awaited)
        async def connect_async(kind: Any, *words: Any, **named: Any) -> Any:
            caller = _caller()
            return self.followed(await awaited(kind, *words, **named), caller)

        self._set(module.AsyncConnection, "connect", classmethod(connect_async))

    def _pools(self, module: Any) -> None:
        event: Any = sys.modules["sqlalchemy.event"]
        listener = pool_listener(self._follower)
        event.listen(module.Pool, "checkout", listener)
        self._undo.append(lambda: event.remove(module.Pool, "checkout", listener))

    def _django(self, module: Any) -> None:
        from django.conf import settings

        if not settings.configured:
            self._hooked.discard("django.db")
            return
        signals: Any = sys.modules["django.db.backends.signals"]
        from .django import follow_by, paramstyle_of

        for alias in module.connections:
            follow_by(self._follower, alias)

        def created(connection: Any, **_: Any) -> None:
            raw = connection.connection
            if not self._follower.follows(raw):
                raw = raw.wrapped if isinstance(raw, Proxy) else raw
                connection.connection = self.followed(raw, "", paramstyle_of(connection))

        signals.connection_created.connect(created, weak=False)
        self._undo.append(lambda: bool(signals.connection_created.disconnect(created)))
        for connection in module.connections.all():
            if connection.connection is not None:
                created(connection)
        self._before_flush()

    def _before_flush(self) -> None:
        """A test's recording ends before the tables are emptied behind it."""
        from django.test import TransactionTestCase

        flush = TransactionTestCase._fixture_teardown

        def teardown(case: Any) -> None:
            self._follower.end()
            flush(case)

        self._set(TransactionTestCase, "_fixture_teardown", teardown)


def _caller() -> str:
    """The module that has called what calls this."""
    name: str = sys._getframe(2).f_globals.get("__name__", "")
    return name
