"""Pools of the drivers' own, whose connections are recorded."""

import inspect
from typing import Any


def connecting(recorder: Any, connects: Any) -> Any:
    """A class of psycopg's whose `connect` gives recorded connections; or a function in the place of any other."""
    connect = getattr(connects, "connect", None) if isinstance(connects, type) else None
    if connect is None:
        return lambda *words, **named: recorder.wrap(connects(*words, **named))
    made = _awaited(recorder, connect) if inspect.iscoroutinefunction(connect) else _called(recorder, connect)
    return type(f"Recorded{connects.__name__}", (connects,), {"connect": classmethod(made)})


def _awaited(recorder: Any, connect: Any) -> Any:
    async def connected(_: Any, *words: Any, **named: Any) -> Any:
        return recorder.wrap(await connect(*words, **named))

    return connected


def _called(recorder: Any, connect: Any) -> Any:
    def connected(_: Any, *words: Any, **named: Any) -> Any:
        return recorder.wrap(connect(*words, **named))

    return connected
