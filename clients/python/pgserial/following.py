"""Connections that a framework makes, keeps and closes: each is recorded while a recording is under way, from its first
statement outside a transaction on. What a recorder has ended leaves its connections as the driver's own."""

import contextlib
import threading
import weakref
from typing import Any, Callable, Iterator, List, Optional

from .aio import AsyncConnection, Awaited
from .connections import Connection
from .drivers import Driver, driver_of
from .keys import Missing, Refused
from .proxies import Proxy
from .session import Session

_UNDER_WAY = "a transaction was under way as the recording began, and what it does isn't recorded"


class _Nobody:
    """The recorder of what isn't recorded."""

    is_over = True
    verifies_end = False
    places = None

    def only_reads(self, function: str, driver: Driver) -> bool:
        """Nothing is told of any function."""
        return False

    def functions_changed(self, driver: Driver) -> None:
        """Functions are no matter."""

    def stop(self, why: str) -> None:
        """There is nothing to end."""

    def close(self) -> None:
        """There is nothing to close."""

    def drop(self, session: Session) -> None:
        """Nothing is kept of it."""

    give_back = leaves = drop


NOBODY: Any = _Nobody()


class _Following:
    """Of a connection, that it is recorded by whichever recording is under way."""

    _kept: Session
    _follower: "Follower"
    _driver: Driver
    _own = frozenset(("wrapped", "_session", "_mutex", "_kept", "_follower", "_driver"))

    def __init__(self, wrapped: Any, follower: "Follower", driver: Driver) -> None:
        self._follower, self._driver = follower, driver
        self._kept = Session(NOBODY, driver, 0)
        super().__init__(wrapped, self._kept)  # type: ignore[call-arg]

    @property
    def _session(self) -> Any:
        """The session that what comes next belongs to."""
        kept = self._kept
        recorder = kept.recorder
        return kept if recorder is self._follower.recorder else self._follower.attached(self)

    @_session.setter
    def _session(self, session: Session) -> None:
        self._kept = session

    def _own_driver(self) -> Driver:
        return self._driver


class Followed(_Following, Connection):  # type: ignore[misc]
    """A connection that is followed."""


class FollowedAsync(_Following, AsyncConnection):  # type: ignore[misc]
    """An asynchronous connection that is followed."""


class Follower:
    """Follows connections. `recorder` is that of the recording which is under way, NOBODY between two of them."""

    def __init__(self, recorder: Any = NOBODY, claims: Optional[Callable[[Driver], None]] = None) -> None:
        self.recorder = recorder
        self._claims = claims  # refuses a connection that mustn't be used at all
        self._live: "weakref.WeakSet[Any]" = weakref.WeakSet()
        self._lock = threading.RLock()
        self._is_reading = False  # whether the tables are read just now, for the transcript's beginning

    def follows(self, connection: Any) -> bool:
        """Whether a connection is one of these."""
        return type(connection) in (Followed, FollowedAsync) and connection._follower is self

    def follow(self, raw: Any, paramstyle: Optional[str] = None) -> Any:
        """A connection that is followed from now on."""
        if isinstance(raw, Proxy):
            return raw
        driver = driver_of(raw, paramstyle)
        if self._claims is not None:
            self._claims(driver)
        followed: Any = (FollowedAsync if isinstance(driver, Awaited) else Followed)(raw, self, driver)
        with self._lock:
            self._live.add(followed)
        return followed

    @contextlib.contextmanager
    def recording(self, recorder: Any) -> Iterator[Any]:
        """While this goes on, what the connections do is recorded."""
        with self._lock:
            if not self.recorder.is_over:  # NOBODY is
                raise Refused("a recording is under way")
            self.recorder = recorder
        try:
            yield recorder
        finally:
            self.end()

    def end(self) -> None:
        """Ends the recording that is under way, if there is one."""
        with self._lock:
            recorder, self.recorder = self.recorder, NOBODY
        recorder.close()

    def attached(self, followed: Any) -> Any:
        """The session of a connection for the recording that is under way."""
        driver = followed._own_driver()
        with self._lock:
            while self._is_reading:  # another task of this thread
                driver.pause()
            recorder = self.recorder
            if followed._kept.recorder is recorder:  # another task or thread has attached it
                return followed._kept
            if recorder is NOBODY or recorder.is_over or driver.is_dead():
                return self._unrecorded(followed)
            if driver.is_open():
                if recorder.is_open:
                    recorder.stop(_UNDER_WAY)
                return self._unrecorded(followed)
            if not recorder.is_open and not self._opened(recorder, followed, driver):
                return self._unrecorded(followed)
            if not self._admitted(recorder, driver):
                return self._unrecorded(followed)
            followed._kept = recorder.session(driver)
            weakref.finalize(followed, recorder.drop, followed._kept).atexit = False
            return followed._kept

    def _unrecorded(self, followed: Any) -> Any:
        if followed._kept.recorder is not NOBODY:
            followed._kept = Session(NOBODY, followed._own_driver(), 0)
        return followed._kept

    def _admitted(self, recorder: Any, driver: Driver) -> bool:
        """Whether a connection may be recorded with the others."""
        self._is_reading = True
        try:
            recorder.admit(driver)
            return True
        except Refused as refused:
            recorder.stop(str(refused))
            return False
        finally:
            self._is_reading = False

    def _opened(self, recorder: Any, followed: Any, driver: Driver) -> bool:
        """Reads the tables as the recording begins. It begins when they are there, and no transaction is under way."""
        if any(other is not followed and other._own_driver().is_open() for other in self._alive()):
            recorder.unopened = "a transaction that began before was under way all the time"
            return False
        self._is_reading = True
        try:
            recorder.open(driver)
        except Missing as missing:
            recorder.unopened = str(missing)
            return False
        finally:
            self._is_reading = False
        recorder.unopened = None
        return True

    def _alive(self) -> List[Any]:
        return [followed for followed in list(self._live) if not followed._own_driver().is_dead()]
