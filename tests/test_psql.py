"""psql loads what the program dumps, and PostgreSQL then has the same rows."""

import os
import subprocess
import unittest
from typing import Dict, List, Optional

from tests import postgres, program

# Texts with each byte that COPY escapes and a statement may have, what begins like null and like the end of the data, bytes, numbers
# at their limits.
ESCAPED = "\b \t \v \f \r \\"
SCRIPT = r"""CREATE TABLE kinds (id bigint PRIMARY KEY, word text, raw bytea, number bigint NOT NULL);
CREATE TABLE names (name text PRIMARY KEY, kind bigint NOT NULL REFERENCES kinds);
CREATE TABLE marks (raw bytea PRIMARY KEY, name text REFERENCES names);
CREATE TABLE nothing (id bigint PRIMARY KEY);
1 BEGIN;
1 INSERT INTO kinds VALUES (-9223372036854775808, NULL, NULL, 0);
1 INSERT INTO kinds VALUES (1, '', '\x', -1);
1 INSERT INTO kinds VALUES (2, '\N', '\x00ff5c0a', 9223372036854775807);
1 INSERT INTO kinds VALUES (3, '\.', '\x5c2e', 3);
1 INSERT INTO kinds VALUES (4, 'it''s a\b \t of ä and 漢', '\x09', 4);
1 INSERT INTO kinds VALUES (9223372036854775807, 'tab	here', '\x0d', 5);
1 INSERT INTO kinds VALUES (5, 'ESCAPED', NULL, 6);
1 INSERT INTO names VALUES ('', 1);
1 INSERT INTO names VALUES ('\N', 2);
1 INSERT INTO names VALUES ('Zoë', 2);
1 INSERT INTO marks VALUES ('\x', NULL);
1 INSERT INTO marks VALUES ('\x5c4e', '\N');
1 COMMIT;
2 BEGIN READ ONLY DEFERRABLE;
2 POLL;
2 DUMP 2 1 dump;
2 COMMIT;
""".replace("ESCAPED", ESCAPED)


def tables_of(dump: str) -> Dict[str, List[str]]:
    """The row lines of each table of a dump, by its name."""
    tables: Dict[str, List[str]] = {}
    rows: Optional[List[str]] = None
    for line in dump.split("\n"):
        if rows is None and line.startswith("COPY "):
            rows = tables.setdefault(line.split()[1], [])
        elif rows is not None and line == "\\.":
            rows = None
        elif rows is not None:
            rows.append(line)
    return tables


def psql(dsn: str, *words: str) -> str:
    """What psql prints of a database."""
    command = [os.path.join(str(postgres.programs()), "psql"), "-X", "-q", "-d", dsn, "-v", "ON_ERROR_STOP=1", *words]
    return subprocess.run(command, check=True, stdout=subprocess.PIPE, stderr=subprocess.PIPE, text=True, timeout=120).stdout


@unittest.skipUnless(postgres.programs(), postgres.LACKING)
class Loaded(program.Case):
    """A dump with each kind of value, as psql loads it."""

    def test_postgresql_has_the_rows_of_the_dump(self) -> None:
        program.run("run", "-", folder=self.folder, given=SCRIPT.encode(), check=True)
        path = os.path.join(self.folder, "dump")
        with open(path, encoding="utf-8", newline="") as file:
            tables = tables_of(file.read())
        self.same("rows of the dump", {"kinds": 7, "names": 3, "marks": 2, "nothing": 0}, {name: len(rows) for name, rows in tables.items()})
        dsn = str(postgres.reached())
        psql(dsn, "-f", path)
        for name, rows in tables.items():
            self.same(name, rows, psql(dsn, "-c", f"COPY (SELECT * FROM {name} ORDER BY 1) TO STDOUT").split("\n")[:-1])
        asked = "SELECT count(*) FROM pg_constraint WHERE contype IN ('p', 'f') AND connamespace = 'public'::regnamespace"
        self.same("keys and references", "6", psql(dsn, "-At", "-c", asked).strip())
