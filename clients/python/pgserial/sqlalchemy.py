"""Engines of SQLAlchemy 1.4 and 2 whose connections are recorded.

    engine = recorder.engine(create_engine(..))  # or create_async_engine(..)

A connection is taken when it is checked out of the pool, behind all that the dialect does as it connects. So stock dialects
and drivers do as ever, which look at the types of their own connections."""

from typing import Any

from .following import Follower
from .keys import Refused
from .proxies import Proxy


def follow_engine(follower: Follower, engine: Any) -> Any:
    """The engine, whose connections are followed from when they are next checked out."""
    import sqlalchemy

    pool = getattr(engine, "sync_engine", engine).pool
    if hasattr(pool, "checkedout") and pool.checkedout() > 0:
        raise Refused("connections of the engine are in use, and what they do wouldn't be recorded: take it before that")
    sqlalchemy.event.listen(pool, "checkout", pool_listener(follower))
    return engine


def pool_listener(follower: Follower) -> Any:
    """What puts a followed connection in the place of one that is checked out."""

    def checkout(connection: Any, record: Any, fairy: Any) -> None:
        if isinstance(connection, Proxy):
            return
        followed = follower.follow(connection)
        for holder in (record, fairy):
            setattr(holder, "dbapi_connection" if hasattr(holder, "dbapi_connection") else "connection", followed)

    return checkout
