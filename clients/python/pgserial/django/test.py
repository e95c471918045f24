"""Test cases that are recorded, each test by itself."""

import os
import re
import tempfile
from typing import Any

from django.test import TransactionTestCase

from . import follower_of, recorder_of


class SerializableTestCase(TransactionTestCase):
    """Records what each test does on a database, from behind its setUp, and fails it where no serial order explains that.

    Threads of a test close their connections as they end: `django.db.connections.close_all()`."""

    judges_itself = True
    recorded_database = "default"
    recorded_tables: Any = None  # by default those of the database's OPTIONS

    def _callTestMethod(self, method: Any) -> None:
        folder = tempfile.mkdtemp(prefix="pgserial-")
        path = os.path.join(folder, re.sub(r"\W+", "_", self.id())[-100:] + ".transcript")
        recorder = recorder_of(self.recorded_database, path, self.recorded_tables)
        recorder.is_quiet = True
        with follower_of(self.recorded_database).recording(recorder):
            super()._callTestMethod(method)
        told = recorder.verdict()
        if told.answer == "no":
            self.fail(f"not serializable. The recording is {path}\n{told}")
        os.unlink(path)
        os.rmdir(folder)
        if told.answer != "yes":
            self.fail(str(told))
