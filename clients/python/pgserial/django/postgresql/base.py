"""Django's backend of PostgreSQL, recorded."""

from django.db.backends.postgresql import base

from ..backend import Recorded


class DatabaseWrapper(Recorded, base.DatabaseWrapper):
    """The backend."""
