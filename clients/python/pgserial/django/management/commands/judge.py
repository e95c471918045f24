"""manage.py judge [FILE]: the verdict of a recording."""

import sys
from typing import Any

from django.conf import settings
from django.core.management.base import BaseCommand, CommandError

from ....exceptions import InterfaceError
from ....recording import verdict
from ... import RECORDING


class Command(BaseCommand):
    """The command."""

    help = "Says whether a serial order explains a recording; its status is 0 for yes, 4 for unknown, 5 for no."

    def add_arguments(self, parser: Any) -> None:
        """The file, and the words of `pgserial check`."""
        parser.add_argument("file", nargs="?", help="the recording; by default that of the database's OPTIONS")
        parser.add_argument("--database", default="default", help="the database whose recording it is")
        parser.add_argument("--no-time", action="store_true", help="whoever committed first may come second")

    def handle(self, *_: Any, **options: Any) -> None:
        """Prints the verdict."""
        path = options["file"] or settings.DATABASES[options["database"]].get("OPTIONS", {}).get(RECORDING)
        if path is None:
            raise CommandError(f"name a file, or have {RECORDING!r} in the database's OPTIONS")
        try:
            told = verdict(path, None, ["--no-time"] if options["no_time"] else [])
        except (OSError, InterfaceError) as error:
            raise CommandError(str(error)) from None
        self.stdout.write(str(told))
        if told.answer != "yes":
            sys.exit({"unknown": 4, "no": 5}.get(told.answer, 1))
