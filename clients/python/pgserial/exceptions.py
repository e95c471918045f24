"""The exceptions of PEP 249, and below them one for each code of the server, named as psycopg names it."""

from typing import Dict, Optional, Type


class Warning(Exception):
    """As PEP 249 wants it. Nothing raises it."""


class Error(Exception):
    """Whatever goes wrong here. Where the server refused something, `sqlstate` is its code, and `place` tells where: a byte
    of the statement, a column or a table counted from 1, the transactions of a dangerous structure; or it says so in words."""

    sqlstate: Optional[str] = None
    place: str = ""


class InterfaceError(Error):
    """Something that is closed was used, or the program isn't there."""


class DatabaseError(Error):
    """The server refused something, or it would."""


class DataError(DatabaseError):
    """A value that can't be."""


class OperationalError(DatabaseError):
    """Something that may go well when it is tried again, or with more room."""


class IntegrityError(DatabaseError):
    """What a table's definition forbids."""


class InternalError(DatabaseError):
    """A transaction that isn't in the state for it."""


class ProgrammingError(DatabaseError):
    """A statement, or a use of this module, that is wrong."""


class NotSupportedError(DatabaseError):
    """As PEP 249 wants it. Nothing raises it."""


BY_SQLSTATE: Dict[str, Type[DatabaseError]] = {}


def _named(name: str, base: Type[DatabaseError], sqlstate: str, means: str) -> Type[DatabaseError]:
    """The exception for a code of the server, of the name that psycopg gives it."""
    kind = type(name, (base,), {"__doc__": means, "__module__": "pgserial", "sqlstate": sqlstate})
    BY_SQLSTATE[sqlstate] = kind
    return kind


NumericValueOutOfRange = _named("NumericValueOutOfRange", DataError, "22003", "a bigint or a sum beyond 64 bits")
CharacterNotInRepertoire = _named("CharacterNotInRepertoire", DataError, "22021", "a text with a zero byte")
InvalidTextRepresentation = _named("InvalidTextRepresentation", DataError, "22P02", "a bigint or a bytea of wrong form")
BadCopyFileFormat = _named("BadCopyFileFormat", DataError, "22P04", "a dump of wrong form")
NotNullViolation = _named("NotNullViolation", IntegrityError, "23502", "a null where none may be")
ForeignKeyViolation = _named("ForeignKeyViolation", IntegrityError, "23503", "a reference without its row")
UniqueViolation = _named("UniqueViolation", IntegrityError, "23505", "a key that is there")
ActiveSqlTransaction = _named("ActiveSqlTransaction", InternalError, "25001", "not once it has begun, or has read")
ReadOnlySqlTransaction = _named("ReadOnlySqlTransaction", InternalError, "25006", "a write in a read-only transaction")
NoActiveSqlTransaction = _named("NoActiveSqlTransaction", InternalError, "25P01", "not without a transaction")
InFailedSqlTransaction = _named("InFailedSqlTransaction", InternalError, "25P02", "a statement was refused: roll back")
SerializationFailure = _named("SerializationFailure", OperationalError, "40001", "others ran meanwhile: run it again")
SyntaxError = _named("SyntaxError", ProgrammingError, "42601", "no statement, or a bad table definition")
UndefinedColumn = _named("UndefinedColumn", ProgrammingError, "42703", "a name that is no column")
DatatypeMismatch = _named("DatatypeMismatch", ProgrammingError, "42804", "a value of another kind than its column")
UndefinedTable = _named("UndefinedTable", ProgrammingError, "42P01", "a name that is no table")
DuplicateTable = _named("DuplicateTable", ProgrammingError, "42P07", "a table's name that is there")
OutOfMemory = _named("OutOfMemory", OperationalError, "53200", "memory was refused, and nothing has changed")
ProgramLimitExceeded = _named("ProgramLimitExceeded", OperationalError, "54000", "a limit, or no room for more events")
ObjectNotInPrerequisiteState = _named("ObjectNotInPrerequisiteState", OperationalError, "55000", "not now, or not in this mode")
IoError = _named("IoError", OperationalError, "58030", "a file couldn't be read or written")


def refusal(text: str) -> DatabaseError:
    """The exception for `ERROR CODE`, behind which a place or words may stand."""
    _, code, *rest = text.split(" ", 2)
    place = "".join(rest)
    kind = BY_SQLSTATE.get(code, DatabaseError)
    error = kind(f"{code} {place}".rstrip() + f": {kind.__doc__ or kind.__name__}")
    error.sqlstate, error.place = code, place
    return error
