"""Django's backend of SQLite, recorded."""

from django.db.backends.sqlite3 import base

from ..backend import Recorded


class DatabaseWrapper(Recorded, base.DatabaseWrapper):
    """The backend."""
