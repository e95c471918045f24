"""What a text does that isn't one of the statements of a transcript: whether it begins or ends a transaction, speaks of no
rows, only reads, or may write."""

from typing import Any, FrozenSet, List, NamedTuple, Optional

from .shapes import called_unknown
from .sql import BEFORE_PARENTHESES, Name, Token


class Control(NamedTuple):
    """What begins or ends a transaction or a part of one, or speaks of its snapshot."""

    does: str  # begin, commit, rollback, savepoint, release, undo, export, import
    name: object = None


def _named_control(words: List[Any], first: str) -> Optional[Control]:
    """SAVEPOINT, RELEASE and ROLLBACK TO, of the words behind the first."""
    names = [word for word in words if word != "savepoint"]
    if first == "rollback" and names[:1] == ["to"]:
        return Control("undo", names[1]) if len(names) == 2 else None
    if first in ("savepoint", "release"):
        return Control(first, names[0]) if len(names) == 1 else None
    return None


def _mode_of(values: List[Any]) -> str:
    """A BEGIN as a transcript has it."""
    said = " ".join(str(value) for value in values)
    if "read only" not in said:
        return "BEGIN"
    return "BEGIN READ ONLY DEFERRABLE" if "deferrable" in said and "not deferrable" not in said else "BEGIN READ ONLY"


def control_of(tokens: List[Token]) -> Optional[Control]:
    """What a text does to its transaction; None where it is anything else."""
    values = [token.value for token in tokens if not token.is_sign(";")]
    first = values[0] if tokens and tokens[0].kind == "word" else None
    if any(token.is_sign(";") for token in tokens[:-1]) or first is None:
        return None
    rest = [value for value in values[1:] if value not in ("work", "transaction")]
    if first == "begin" or values[:2] == ["start", "transaction"]:
        return Control("begin", _mode_of(values))
    if first in ("commit", "end") and not rest:
        return Control("commit")
    if first in ("rollback", "abort") and not rest:
        return Control("rollback")
    if values[:-1] == ["set", "transaction", "snapshot"]:
        return Control("import", values[-1])
    if values == ["select", "pg_export_snapshot", "(", ")"]:
        return Control("export")
    return _named_control(rest, first)


# Functions that write nothing.
READING = frozenset(
    "count sum avg min max coalesce nullif greatest least lower upper length char_length octet_length substr substring trim "
    "ltrim rtrim btrim replace concat concat_ws abs round floor ceil ceiling mod power sqrt sign random now current_timestamp "
    "clock_timestamp statement_timestamp transaction_timestamp date datetime time strftime date_trunc date_part extract age "
    "to_char to_date to_timestamp to_number array_agg string_agg group_concat total json_agg jsonb_agg json_build_object "
    "jsonb_build_object row_number rank dense_rank lag lead first_value last_value ntile bool_and bool_or every stddev "
    "variance generate_series unnest array_length cardinality position strpos left right lpad rpad repeat reverse md5 sha256 "
    "encode decode hex unhex quote ifnull iif instr typeof printf format last_insert_rowid changes total_changes version "
    "sqlite_version nextval currval lastval setval gen_random_uuid uuid_generate_v4 pg_sleep pg_backend_pid "
    "pg_advisory_lock pg_advisory_xact_lock pg_try_advisory_lock pg_try_advisory_xact_lock pg_advisory_unlock "
    "pg_advisory_unlock_all pg_advisory_lock_shared pg_advisory_xact_lock_shared txid_current txid_current_if_assigned "
    "pg_current_xact_id pg_current_snapshot pg_is_in_recovery current_setting current_schema current_schemas current_database "
    "pg_get_serial_sequence set_config pg_relation_size pg_table_size pg_total_relation_size pg_size_pretty to_regclass "
    "pg_table_is_visible format_type pg_get_expr pg_get_constraintdef pg_get_indexdef obj_description col_description "
    "row_to_json to_json to_jsonb json_object_agg jsonb_object_agg json_array_elements jsonb_array_elements has_table_privilege pg_stat_get_activity pg_blocking_pids pg_locks pg_typeof session_user current_user".split()
)
_READS = frozenset("select values table with explain fetch move close declare".split())
_BESIDE = frozenset("set show reset discard listen unlisten notify analyze vacuum lock checkpoint deallocate pragma".split())
_WRITES = frozenset("insert update delete merge replace into call truncate execute".split())
_MEANINGS = frozenset(
    "standard_conforming_strings session_replication_role writable_schema extra_float_digits transform_null_equals".split()
)
_PATHS = frozenset("search_path role session_authorization".split())  # settings by which names may mean other tables


def is_beside(tokens: List[Token], are_fixed: bool = False) -> bool:
    """Whether a text speaks of no rows: SET, SHOW and their kin. What changes the meaning of names isn't of these, unless the
    names of the recorded tables are fixed, whatever the search path."""
    if not tokens:
        return True
    if any(token.is_sign(";") for token in tokens[:-1]):
        return False
    if _changes_names(tokens, are_fixed) and not tokens[0].is_word("show"):
        return False
    words = {token.value for token in tokens if token.kind == "word"}
    if tokens[0].is_word("create") and not words & {"select", "with", "temp", "temporary"}:
        return bool(words & {"table", "index", "sequence"}) and not words & {"trigger", "function", "rule", "procedure"}
    return tokens[0].kind == "word" and tokens[0].value in _BESIDE


def _changes_names(tokens: List[Token], are_fixed: bool) -> bool:
    """Whether a text may change what names and texts mean."""
    values = [str(token.value).lower() for token in tokens if token.kind in ("word", "name", "string")]
    if not _MEANINGS.isdisjoint(values):
        return True
    if not are_fixed and not _PATHS.isdisjoint(values):
        return True
    if not are_fixed and values[:1] in (["set"], ["reset"], ["discard"]):
        return not {"schema", "authorization", "all"}.isdisjoint(values[1:4])
    settings = [after for token, _, after in zip(tokens, tokens[1:], tokens[2:]) if token.is_word("set_config")]
    return any(token.kind != "string" for token in settings)


def _writing_word(tokens: List[Token]) -> Optional[str]:
    """A word by which a query would write. UPDATE behind FOR, or FOR NO KEY, locks."""
    for place, token in enumerate(tokens):
        if token.kind != "word" or token.value not in _WRITES:
            continue
        is_call = place + 1 < len(tokens) and tokens[place + 1].is_sign("(")
        if token.value == "replace" and is_call:
            continue
        if not (token.value == "update" and place and tokens[place - 1].is_word("for", "key")):
            return str(token.value)
    return None


def unknown_function(tokens: List[Token], reading: FrozenSet[str], written: Name) -> Optional[str]:
    """Why a plain INSERT, UPDATE or DELETE of this table may write others: it calls a function of which nobody knows."""
    for before, token, after in zip(tokens, tokens[1:], tokens[2:]):
        if not after.is_sign("(") or token.kind not in ("word", "name"):
            continue
        is_list = token.value == written.text or before.is_word("as") or token.is_word("set", "conflict", "default", "returning")
        if not is_list and token.value not in reading and token.value not in BEFORE_PARENTHESES:
            return f"it calls {token.value}, which may write (say reading=[{token.value!r}] where it doesn't)"
    return None


def parts_of(tokens: List[Token]) -> List[List[Token]]:
    """The statements of a text, of which each but the last is ended by a semicolon."""
    parts: List[List[Token]] = [[]]
    for token in tokens:
        if token.is_sign(";"):
            parts.append([])
        else:
            parts[-1].append(token)
    return [part for part in parts if part]


def why_it_may_write(tokens: List[Token], reading: FrozenSet[str], are_fixed: bool = False) -> Optional[str]:
    """Why a text that can't be said may write; None where it only reads."""
    parts = parts_of(tokens)
    if len(parts) == 1:
        return _why_one_may_write(parts[0], reading, are_fixed)
    for part in parts:
        if control_of(part) is not None:
            return "it is several statements, and one begins or ends a transaction"
        why = None if is_beside(part, are_fixed) else _why_one_may_write(part, reading, are_fixed)
        if why is not None:
            return f"it is several statements; {why}"
    return None


def _why_one_may_write(tokens: List[Token], reading: FrozenSet[str], are_fixed: bool) -> Optional[str]:
    """The same of one statement."""
    first = next((token for token in tokens if not token.is_sign("(")), tokens[0])
    if first.kind != "word" or first.value not in _READS:
        return f"{str(first.value).upper()} may write"
    is_explained = first.value == "explain" and not any(token.is_word("analyze") for token in tokens)
    word = None if is_explained else _writing_word(tokens[1:])
    if word is not None:
        return f"{word.upper()} writes"
    if _changes_names(tokens, are_fixed):
        return "it may change what names mean"
    function = called_unknown(tokens, reading)
    return (
        None if function is None else f"it calls {function}, which may write (say reading=[{function!r}] where it doesn't)"
    )


def written_table(tokens: List[Token]) -> Optional[Name]:
    """The table that a plain INSERT, UPDATE or DELETE writes; None of any other text."""
    place = {"insert": 2, "update": 1, "delete": 2}.get(tokens[0].value if tokens[0].kind == "word" else "")
    if place is None or _writing_word(tokens[place:]) not in (None, "update"):
        return None
    if any(token.is_sign(";") for token in tokens[:-1]):
        return None
    names = [token for token in tokens[place : place + 3] if token.kind in ("word", "name")]
    if len(tokens) > place + 2 and tokens[place + 1].is_sign("."):
        return Name(tokens[place + 2].value, tokens[place + 2].kind == "name")
    return Name(names[0].value, names[0].kind == "name") if names and names[0].start == tokens[place].start else None
