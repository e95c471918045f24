"""What Django's backends have in common here."""

from typing import Any, Dict

from . import RECORDING, TABLES, after_migrations, before_migrations, begin, follower_of, paramstyle_of


class Recorded:
    """A backend whose connections are followed."""

    alias: str
    settings_dict: Dict[str, Any]

    def get_connection_params(self) -> Dict[str, Any]:
        """What the driver is given."""
        given: Dict[str, Any] = super().get_connection_params()  # type: ignore[misc]
        return {name: value for name, value in given.items() if name not in (RECORDING, TABLES)}

    def get_new_connection(self, conn_params: Dict[str, Any]) -> Any:
        """A connection, which is followed."""
        from django.db.models.signals import post_migrate, pre_migrate

        pre_migrate.connect(before_migrations, dispatch_uid="pgserial")
        post_migrate.connect(after_migrations, dispatch_uid="pgserial")
        raw = super().get_new_connection(conn_params)  # type: ignore[misc]
        begin(self.alias, self.settings_dict["OPTIONS"])
        return follower_of(self.alias).follow(raw, paramstyle_of(self))
