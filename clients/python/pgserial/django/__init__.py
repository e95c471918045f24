"""Django's databases, recorded.

    DATABASES = {"default": {"ENGINE": "pgserial.django.postgresql", ..}}  # or pgserial.django.sqlite3; else as it was

`SerializableTestCase` records and judges each test. OPTIONS may have `recorded_tables`, by default those of all managed models,
and `recording`, the file of a recording of all that the process does from its migrations on. Connections that other threads
make are recorded too."""

from typing import Any, Dict, Iterable, List, Optional

from ..following import NOBODY, Follower
from ..recording import Recorder

RECORDING, TABLES = "recording", "recorded_tables"  # in OPTIONS
_followers: Dict[str, Follower] = {}


def follower_of(alias: str) -> Follower:
    """What follows the connections of a database."""
    return _followers.setdefault(alias, Follower())


def follow_by(follower: Follower, alias: str) -> None:
    """From now on a database's connections are followed by this."""
    _followers[alias] = follower


def paramstyle_of(database: Any) -> Optional[str]:
    """How the parameters stand that Django's cursors are given: those of SQLite turn them into the driver's own."""
    return "format" if database.vendor == "sqlite" else None


def managed_tables(alias: str) -> Iterable[str]:
    """The tables of the managed models that are in a database."""
    from django.apps import apps
    from django.db import router

    found: List[str] = []
    for model in apps.get_models(include_auto_created=True):
        is_managed = model._meta.managed and not model._meta.proxy and not model._meta.swapped
        if is_managed and router.allow_migrate_model(alias, model):
            found.append(model._meta.db_table)
    return dict.fromkeys(found)


def recorder_of(alias: str, path: Any, tables: Any = None) -> Recorder:
    """A recorder of a database's tables, as they are named here, or in its OPTIONS."""
    from django.conf import settings

    options = settings.DATABASES[alias].get("OPTIONS", {})
    named = tables or options.get(TABLES) or (lambda: managed_tables(alias))
    return Recorder(path, named, project=getattr(settings, "BASE_DIR", None))


def begin(alias: str, options: Dict[str, Any]) -> None:
    """Begins the recording that OPTIONS name, where it isn't under way."""
    follower = follower_of(alias)
    if RECORDING in options and follower.recorder is NOBODY and alias not in _migrating:
        follower.recorder = recorder_of(alias, options[RECORDING])


_migrating: Dict[str, bool] = {}


def before_migrations(using: str, **_: Any) -> None:
    """Migrations change tables: what was recorded before them goes."""
    _migrating[using] = True
    follower_of(using).end()


def after_migrations(using: str, **_: Any) -> None:
    """The recording begins behind them."""
    from django.conf import settings

    _migrating.pop(using, None)
    begin(using, settings.DATABASES.get(using, {}).get("OPTIONS", {}))
