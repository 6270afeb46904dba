"""The whole way on SQLite, from a database that the test makes to the repaired one; and each form that is refused or left out."""
import json
import shutil
import sqlite3
import unittest

import support
from qfix_db.columns import one_text
from qfix_db.compare import rows_of_sqlite

CREATE = """CREATE TABLE "Employee" (id INTEGER PRIMARY KEY, dept TEXT NOT NULL, salary INT, rate DECIMAL(6,2) DEFAULT 1.50, seen DATE, note TEXT,
  updated_at DATETIME DEFAULT CURRENT_TIMESTAMP); CREATE TABLE other (x INT);
INSERT INTO "Employee" (dept, salary, rate, seen, note) VALUES ('ENG', 38000, 1.5, '2024-01-05', NULL), ('OPS', 45000, 2, '2024-02-05', 'x'),
  ('ENG', 61000, 2.25, NULL, 'y'), ('HR', NULL, 3, '2024-03-01', 'it''s'), ('ENG', 64000, 1.75, '2024-01-09', 'z');"""
WRONG = [
    """UPDATE main."Employee" AS e SET salary = salary + 2500, updated_at = datetime('now') WHERE e.dept IN ('ENG','OPS') AND (salary < 65000) /* c */ RETURNING id""",
    "INSERT INTO other VALUES (3)",
    "BEGIN",
    "UPDATE employee SET rate = rate + 0.25 WHERE id = 2",
    "ROLLBACK",
    "BEGIN",
    "UPDATE employee SET rate = rate + 0.75 WHERE id = 2",
    "SAVEPOINT s",
    "DELETE FROM employee",
    "ROLLBACK TO s",
    "RELEASE s",
    "COMMIT",
    "INSERT INTO employee (dept, salary, note) VALUES ('FIN', -70000, 'é''s')",
    "UPDATE [Employee] SET note = NULL, rate = (rate - (0.5 - 0.25)) WHERE note IS NOT NULL AND NOT (rate > 2.25 OR seen IS NULL)",
    "DELETE FROM employee WHERE seen IS NOT NULL AND salary BETWEEN -1 AND 41000",
]


def run(path, statements, trace=None):
    base = sqlite3.connect(path, isolation_level=None)
    try:
        lines = []
        base.set_trace_callback(lambda sql: lines.append(sql + ";\n"))
        for sql in statements:
            base.execute(sql).fetchall()
        if trace:
            trace.write_text("".join(lines), encoding="utf-8")
    finally:
        base.close()


class Sqlite(support.Case):
    def database(self, create=CREATE, statements=WRONG, name="one"):
        """A folder with the database before, after and the trace."""
        place = self.place / name
        place.mkdir()
        base = sqlite3.connect(place / "before.db")
        base.executescript(create)
        base.close()
        shutil.copyfile(place / "before.db", place / "after.db")
        run(place / "after.db", statements, place / "trace.sql")
        return place

    def words(self, place, *more, table="Employee"):
        return [
            "import",
            "sqlite",
            place / "trace.sql",
            "--before",
            place / "before.db",
            "--after",
            place / "after.db",
            "--table",
            table,
            "--out",
            place / "out",
            *more,
        ]

    def test_the_whole_way(self):
        place = self.database()
        said = self.works(*self.words(place))
        for line in (
            "line 4: left out, it was rolled back",
            "line 9: left out, it was rolled back: DELETE FROM employee",
            "line 1: RETURNING dropped",
            "1 statements that are not about Employee left out",
            "the column updated_at is left out: CURRENT_TIMESTAMP; the function datetime",
            "5 statements, 5 rows, 22 constants; 0 statements refused",
            "0 rows differ",
        ):
            self.assertIn(line, said)
        out = place / "out"
        made = json.loads((out / "map.json").read_text())
        sql = made["statements"][0]["sql"].encode()
        constant = made["params"][3]
        self.assertEqual((sql[constant["from"] : constant["to"]], constant["old"], constant["param"]), (b"65000", 65000, "p4"))
        self.assertEqual((made["rows"]["r2"], made["rows"]["i1"]), ("2", "6"))
        self.assertIn("5 rows, 0 differ", self.works("compare", out, place / "after.db"))
        self.assertIn("made by import", self.works("where", out, "--made"))
        self.works("complain", out, "id=5", "salary=64000")
        self.works("complain", out, "id=2", "rate=2.76")
        self.works("domains", out, "--param", "p4=62000..66000", "--param", "p5=70..80")
        said = self.works("solve", out)
        self.assertIn("p4: 65000 -> 64000", said)
        self.assertIn("p5: 0.75 -> 0.76", said)
        said = self.works(
            "apply", out, "--before", place / "before.db", "--out", place / "fixed.db", "--fix", place / "fix.sql", "--now", place / "after.db"
        )
        self.assertIn("0 differ from qfix's replay", said)
        fixed = dict((it["id"], it) for _, it in rows_of_sqlite(place / "fixed.db", "Employee"))
        self.assertEqual(fixed["5"]["salary"], "64000")
        # The changes by key, run on the database as it is, make the same table.
        base = sqlite3.connect(place / "after.db", isolation_level=None)
        base.executescript((place / "fix.sql").read_text())
        base.close()
        self.assertEqual(
            [{**it, "updated_at": ""} for _, it in rows_of_sqlite(place / "after.db", "Employee")],
            [{**it, "updated_at": ""} for _, it in rows_of_sqlite(place / "fixed.db", "Employee")],
        )
        self.works("report", out)
        self.assertIn("main.&quot;Employee&quot;", (out / "report.html").read_text())

    def test_decimals_go_back_as_they_came(self):
        create = "CREATE TABLE t (id INTEGER PRIMARY KEY, price DECIMAL(8,2)); INSERT INTO t (price) VALUES (10), (20.5);"
        place = self.database(create, ["UPDATE t SET price = price + 15.5 WHERE price >= '20'"])
        self.works(*self.words(place, table="t"))
        self.works("complain", place / "out", "id=2", "price=35.11")
        self.works("domains", place / "out", "--param", "p1=1400..1600")
        said = self.works("solve", place / "out")
        self.assertIn("p1: 15.50 -> 14.61", said)
        self.assertIn("+ UPDATE t SET price = price + 14.61 WHERE price >= '20'", said)
        self.works("apply", place / "out", "--before", place / "before.db")

    def test_a_changed_log_is_compared_again(self):
        place = self.database()
        self.works(*self.words(place))
        out = place / "out"
        self.works("complain", out, "id=5", "salary=64000")
        self.works("domains", out, "--param", "p4=64000..66000")
        log = (out / "log.sql").read_text()
        (out / "log.sql").write_text(log.replace("65000", "64500"))
        self.fails("solve", out, says="was changed since it was compared", folder=out)
        self.works("compare", out, place / "after.db", status=0)
        (out / "log.sql").write_text(log.replace("65000", "60000"))
        self.works("compare", out, place / "after.db", status=1)
        self.fails("solve", out, says="is not the table that the database has", folder=out)
        (out / "log.sql").write_text(log)
        self.works("compare", out, place / "after.db")
        self.works("solve", out)

    def test_forms_that_are_refused(self):
        """Each statement by itself, over a table with a column `b` that may be NULL; the reason that is told."""
        create = "CREATE TABLE t (id INTEGER PRIMARY KEY, a INT NOT NULL, b INT, s TEXT NOT NULL); INSERT INTO t (a, b, s) VALUES (1, NULL, 'x'), (5, 2, 'y');"
        rows = [
            ("UPDATE t SET a = a / 2", "the operator /"),
            ("UPDATE t SET a = a % 2 WHERE a > 0", "the operator %"),
            ("UPDATE t SET a = a * a", "a product of two columns"),
            ("UPDATE t SET a = 2 * 3", "a product of two numbers"),
            ("UPDATE t SET a = 2 * (a + 1)", "brackets after *"),
            ("UPDATE t SET a = (a + 1) * 2", "brackets before *"),
            ("UPDATE t SET a = a * 1.5", "the factor 1.5, which is no whole number"),
            ("UPDATE t SET a = a + 1.5", "1.5 is no whole number"),
            ("UPDATE t SET a = abs(a)", "the function abs"),
            ("UPDATE t SET a = CASE WHEN a > 1 THEN 1 ELSE 0 END", "CASE"),
            ("UPDATE t SET a = (SELECT 1)", "a SELECT within a statement"),
            ("UPDATE t SET s = s || 'x'", "the operator ||"),
            ("UPDATE t SET b = b + 1, a = 2", "reads a column that may be NULL, and more is set"),
            ("UPDATE t SET a = a + b WHERE b IS NOT NULL", "reads a column that may be NULL"),
            ("UPDATE t SET a = 1 WHERE abs(a) > 1", "the function abs"),
            ("UPDATE t SET a = 1 WHERE s LIKE 'x%'", "LIKE in a condition"),
            ("UPDATE t SET a = 1 WHERE s NOT LIKE 'x%'", "NOT LIKE"),
            ("UPDATE t SET a = 1 WHERE s < 'y'", "texts compared by <"),
            ("UPDATE t SET a = 1 WHERE s BETWEEN 'x' AND 'y'", "texts compared by BETWEEN"),
            ("UPDATE t SET a = 1 WHERE s = 5", "the number 5 at a column of type text"),
            ("UPDATE t SET a = 1 WHERE s = a", "columns of different types that meet"),
            ("UPDATE t SET a = 1 WHERE a = NULL", "a comparison with NULL"),
            ("UPDATE t SET a = 1 WHERE a IN (1, NULL)", "a comparison with NULL"),
            ("UPDATE t SET a = 1 WHERE a IN (SELECT 1)", "refused, SELECT"),
            ("UPDATE t SET a = 1 WHERE EXISTS (SELECT 1)", "the function EXISTS"),
            ("UPDATE t SET a = 1 WHERE a IS 5", "IS 5"),
            ("UPDATE t SET a = 1 WHERE a + 1 < '3'", "compared with a sum"),
            ("UPDATE t SET a = 1 WHERE a NOT BETWEEN 0 AND b", "NOT BETWEEN with a bound that may be NULL"),
            ("UPDATE t SET a = 1 WHERE a > 1.5", "1.5 is no whole number"),
            ("UPDATE t SET a = 1 WHERE a > 'x'", "is no value of the type int"),
            ("UPDATE t SET a = 1 FROM (SELECT 1) WHERE a = 1", "FROM after the statement"),
            ("UPDATE OR IGNORE t SET a = 1", "UPDATE OR"),
            ("INSERT OR REPLACE INTO t (id, a, s) VALUES (1, 1, 'x')", "INSERT OR"),
            ("REPLACE INTO t (id, a, s) VALUES (1, 1, 'x')", "REPLACE is no UPDATE"),
            ("INSERT INTO t (id, a, s) VALUES (1, 1, 'x') ON CONFLICT DO NOTHING", "ON after the statement"),
            ("INSERT INTO t (a, s) SELECT a, s FROM t", "INSERT with SELECT"),
            ("INSERT INTO t (a, s) VALUES (1 + 1, 'x')", "an item that is no constant"),
            ("WITH x AS (SELECT 1) UPDATE t SET a = 1", "WITH is no UPDATE"),
            ("ALTER TABLE t ADD COLUMN z INT", "ALTER is no UPDATE"),
            ("WITH x AS (SELECT 5 AS y) DELETE FROM t WHERE a = 5", "WITH is no UPDATE"),
            ("UPDATE t SET a = 1, a = 2", "SET names a column twice"),
        ]
        for number, (sql, reason) in enumerate(rows):
            with self.subTest(sql):
                place = self.database(create, ["UPDATE t SET a = a + 1 WHERE a > 0 AND b IS NULL AND s <> 'q'", sql], f"refused{number}")
                found, said, fault = support.tool(*self.words(place, table="t"))
                self.assertEqual(found, 1, said + fault)
                self.assertIn(reason, said)
                self.assertIn("line 2: refused, ", said)
                self.assertFalse((place / "out").exists())

    def test_columns_that_only_take_what_qfix_lacks_are_left_out(self):
        create = "CREATE TABLE t (id INTEGER PRIMARY KEY, a INT NOT NULL, h INT, k BLOB); INSERT INTO t (a, h, k) VALUES (1, 2, x'00');"
        place = self.database(
            create,
            ["UPDATE t SET h = a / 2, a = a + 1", "UPDATE t SET h = abs(h)", "UPDATE t SET k = x'01' WHERE a = 2", "INSERT INTO t (a) VALUES (4)"],
        )
        said = self.works(*self.words(place, table="t"))
        self.assertIn("the column h is left out: the function abs; the operator /", said)
        self.assertIn("the column k is left out: type BLOB", said)
        self.assertIn("line 2: left out, it sets no column that is kept", said)
        self.assertIn("columns id, a", self.works("compare", place / "out", place / "after.db"))

    def test_columns_from_which_others_are_computed(self):
        create = "CREATE TABLE t (id INTEGER PRIMARY KEY, a INT NOT NULL, b INT, k BLOB, h); INSERT INTO t (a, b, k) VALUES (1, 2, x'00');"
        place = self.database(create, ["UPDATE t SET b = a + 1, h = k"])
        said = self.works(*self.words(place, table="t"))
        self.assertIn("the column h is left out: type none", said)
        self.assertIn("columns id, a, b", self.works("compare", place / "out", place / "after.db"))
        place = self.database(create, ["UPDATE t SET a = id / 2", "UPDATE t SET b = a + 1"], "other")
        self.assertIn("the column b is left out: it is computed from a", self.works(*self.words(place, table="t")))

    def test_statements_that_only_read(self):
        place = self.database(
            statements=[
                "WITH x AS (SELECT * FROM employee) SELECT * FROM x",
                "EXPLAIN SELECT * FROM employee",
                "CREATE VIEW v AS SELECT id FROM employee",
                "SELECT count(*) FROM employee",
                "PRAGMA foreign_keys",
                "UPDATE employee SET salary = 5",
            ]
        )
        self.assertIn("1 statements, 5 rows", self.works(*self.words(place)))

    def test_times_in_sqlite_are_texts(self):
        create = "CREATE TABLE t (id INTEGER PRIMARY KEY, seen TEXT NOT NULL); INSERT INTO t (seen) VALUES ('2024-02-28 10:00:00'), ('2024-03-01 00:00:00');"
        place = self.database(create, ["DELETE FROM t WHERE seen < '2024-02-28 11:00:00'"])
        self.works(*self.words(place, "--type", "seen=time", table="t"))
        self.assertIn("seen < 1709118000", (place / "out" / "log.sql").read_text())
        place = self.database(create, ["DELETE FROM t WHERE seen < '2024-02-28T11:00'"], "otherwise")
        self.assertIn("which SQLite compares as a text", self.works(*self.words(place, "--type", "seen=time", table="t"), status=1))

    def test_what_no_log_tells(self):
        place = self.database(CREATE + 'CREATE TRIGGER g AFTER UPDATE ON "Employee" BEGIN UPDATE other SET x = 1; END;')
        self.fails(*self.words(place), says="has triggers (g)")
        self.fails(*self.words(place, table="none"), says="has no table none")
        place = self.database(
            "CREATE TABLE t (id INTEGER PRIMARY KEY, s TEXT COLLATE NOCASE); INSERT INTO t (s) VALUES ('Oslo'), ('OSLO');",
            ["UPDATE t SET s = 'x' WHERE s = 'oslo'"],
            "case",
        )
        self.fails(*self.words(place, table="t"), says="may be one text in the database")

    def test_a_difference_writes_nothing(self):
        place = self.database()
        run(place / "after.db", ["UPDATE employee SET salary = 1 WHERE id = 2"])
        said = self.works(*self.words(place), status=1)
        self.assertIn("r2 (id 2): salary is 47500 by replay, 1 in the database", said)
        self.assertFalse((place / "out").exists())
        self.works(*self.words(place, "--anyway"), status=1)
        self.works("complain", place / "out", "id=2", "salary=2")
        self.fails("solve", place / "out", says="is not the table that the database has", folder=place / "out")
        self.fails(*self.words(place), says="already; --replace takes their place", folder=place)
        self.works(*self.words(place, "--replace", "--anyway"), status=1)

    def test_words_that_are_refused(self):
        place = self.database()
        for words, says in [
            (["--type", "salary=money"], "--type salary=money"),
            (["--key", "x"], "no column x"),
            (["--next", "id=x"], "--next id=x"),
            (["--type", "salary=date"], "salary"),
        ]:
            self.fails(*self.words(place, *words), says=says, folder=place)
        place = self.database("CREATE TABLE t (a INT); INSERT INTO t VALUES (1);", ["UPDATE t SET a = 2"], "nokey")
        self.fails(*self.words(place, table="t"), says="has no primary key", folder=place)
        (place / "trace.sql").write_text("UPDATE t SET a = 'x")
        self.fails(*self.words(place, "--key", "a", table="t"), says="line 1: a text that never ends", folder=place)

    def test_names_and_days(self):
        create = 'CREATE TABLE "our orders" ("in" INTEGER PRIMARY KEY, "größe" INT, "from" DATE); INSERT INTO "our orders" ("größe", "from") VALUES (4, \'2024-02-28\'), (9, \'2024-03-01\');'
        place = self.database(create, ['UPDATE "our orders" SET "größe" = "größe" + 1 WHERE "from" >= \'2024-02-29\' OR "in" = 1'])
        said = self.works(*self.words(place, "--type", "from=date", table="our orders"))
        self.assertIn("0 rows differ", said)
        out = place / "out"
        self.assertIn("from_2 >= 19782", (out / "log.sql").read_text())
        self.works("complain", out, "in=2", "größe=9")
        self.works("domains", out, "--param", "p2", "--reach", 5)
        self.assertIn("p2: 2024-02-29 -> 2024-03-02", self.works("solve", out))
        self.works("apply", out, "--before", place / "before.db", "--fix", place / "fix.sql")
        self.assertIn('UPDATE "our orders" SET "größe" = 9 WHERE "in" = 2;', (place / "fix.sql").read_text())
        self.assertIn("\"from\" >= '2024-03-02'", (out / "real.sql").read_text())


class Texts(unittest.TestCase):
    def test_texts_that_may_be_one(self):
        for one, other in [("Oslo", "OSLO"), ("x", "x "), ("e", "é"), ("Straße", "STRASSE"), ("Ærø", "aero")]:
            self.assertIsNotNone(one_text([one, other]))
        self.assertIsNone(one_text(["Oslo", "Bergen", "it's", ""]))


if __name__ == "__main__":
    unittest.main()
