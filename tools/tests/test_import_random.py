"""Random real logs of SQLite through `import`, whose comparison with the database's final table must find no difference."""
import random
import shutil
import sqlite3
import unittest

import support
from qfix_db.folder import Folder
from real_logs import RealLog


def make(seed, place):
    """The database before, the trace, and the database after."""
    made = RealLog(seed)
    base = sqlite3.connect(place / "before.db")
    base.execute(made.create())
    base.executemany("INSERT INTO stock (id, a, b, d, city, note, day) VALUES (?, ?, ?, ?, ?, ?, ?)", made.rows())
    base.commit()
    base.close()
    shutil.copyfile(place / "before.db", place / "after.db")
    after = sqlite3.connect(place / "after.db", isolation_level=None)
    with open(place / "trace.sql", "w", encoding="utf-8") as trace:
        after.set_trace_callback(lambda sql: trace.write(sql + ";\n"))
        for sql in made.statements():
            after.execute(sql).fetchall()
    after.close()


def words(place):
    """The words that import the case of a folder."""
    made = ["import", "sqlite", place / "trace.sql", "--before", place / "before.db", "--after", place / "after.db", "--table", "stock"]
    return [*made, "--type", "day=date", "--out", place / "out"]


def complained(said):
    """The lines that say why an import was not taken."""
    return "".join(it for it in said.splitlines(True) if "refused," in it or "replay" in it or "take" in it)


class RandomLogs(support.Case):
    def test_import_and_compare(self):
        differ, taken = [], 0
        for seed in range(1, support.LOGS + 1):
            place = self.place / str(seed)
            place.mkdir()
            make(seed, place)
            status, said, fault = support.tool(*words(place))
            if status == 0:
                taken += 1
            else:
                differ.append(f"random real log {seed}: {fault.strip()}{complained(said)}")
            shutil.rmtree(place)
        self.assertEqual(differ, [])
        support.note(f"{taken} random real logs of SQLite: imported, 0 differ")

    def test_other_constants_go_back(self):
        """Any other constants, put back into the real statements and run in a fresh database, make the table that qfix's replay makes."""
        tried = 0
        for seed in range(1, max(support.LOGS // 4, 1) + 1):
            place, chance = self.place / str(seed), random.Random(seed)
            place.mkdir()
            make(seed, place)
            self.works(*words(place))
            folder = Folder(place / "out")
            log, kinds = folder.log(), {name: it["type"] for name, it in folder.map().params.items() if it["from"] is not None}
            statements = [it.kind for it in log.statements]
            if "delete" in statements and "insert" in statements[statements.index("delete") :]:
                # (the numbers that SQLite counts up depend on the rows that are there)
                continue
            tried += 1
            news = {}
            for param in log.params:
                if param.name in kinds and chance.random() < 0.7:
                    step = 25 if kinds[param.name].startswith("decimal") else 1
                    news[param.number] = param.value + step * chance.randint(-12, 12)
            (folder.path / "repaired.sql").write_bytes(log.with_constants(news))
            self.works("apply", folder.path, "--before", place / "before.db", "--out", place / "again.db")
            self.fix(place)
            shutil.rmtree(place)
        support.note(f"{tried} random real logs with other constants: run again, 0 differ")

    def fix(self, place):
        """The changes of rows, run on the database as it is, make the repaired one; where a row comes back, all columns are wanted."""
        status, said, fault = support.tool("apply", place / "out", "--fix", place / "fix.sql", "--now", place / "after.db")
        if status == 2 and "import with --all-columns" in fault:
            return
        self.assertEqual(status, 0, said + fault)
        base = sqlite3.connect(place / "after.db", isolation_level=None)
        base.executescript((place / "fix.sql").read_text())
        base.close()
        self.works("compare", place / "out", place / "after.db", "--log", "repaired.sql")


if __name__ == "__main__":
    unittest.main()
