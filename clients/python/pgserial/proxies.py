"""What stands for a driver's own object, and what its calls are given."""

from typing import Any, Dict, List, Optional, Tuple


def text_of(operation: Any, raw: Any) -> Optional[str]:
    """The text of what is executed: a text, bytes, or what psycopg composes; None where it is none of these."""
    if isinstance(operation, str):
        return str.__str__(operation)
    if isinstance(operation, bytes):
        return operation.decode("utf-8", "surrogateescape")
    try:
        return str(operation.as_string(raw))
    except Exception:  # whatever it is, the driver meets it too
        return None


def parameters_of(words: Tuple[Any, ...], named: Dict[str, Any]) -> Any:
    """The parameters of a call that executes: what stands behind the text."""
    return words[0] if words else next((named[name] for name in ("params", "vars", "parameters") if name in named), None)


class Proxy:
    """What passes everything that it hasn't itself to the driver's own object, `wrapped`."""

    wrapped: Any
    _own = frozenset(("wrapped",))
    _special: Dict[str, str] = {}  # what only some drivers have, and what is taken for it

    def __init__(self, wrapped: Any) -> None:
        object.__setattr__(self, "wrapped", wrapped)

    def __getattr__(self, name: str) -> Any:
        value = getattr(object.__getattribute__(self, "wrapped"), name)
        special = type(self)._special.get(name)
        return value if special is None else object.__getattribute__(self, special)

    def __setattr__(self, name: str, value: object) -> None:
        if name in self._own:
            object.__setattr__(self, name, value)
        else:
            setattr(self.wrapped, name, value)

    def __delattr__(self, name: str) -> None:
        delattr(self.wrapped, name)

    def __dir__(self) -> List[str]:
        return dir(self.wrapped)

    def __repr__(self) -> str:
        return f"<recorded {self.wrapped!r}>"

    # So that `isinstance` speaks of the driver's class.
    __class__ = property(lambda self: type(object.__getattribute__(self, "wrapped")))  # type: ignore
