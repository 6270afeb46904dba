"""`import postgres`: by a real server where one can be started, and by texts of logs that servers wrote."""
import csv
import io
import json
import unittest

import servers
import support
from qfix_db.logs import postgres_csvlog
from qfix_db.transactions import Done
from real_logs import RealLog

# The two queries of docs/OPERATING.md.
COLUMNS = """SELECT column_name AS "column", CASE data_type WHEN 'USER-DEFINED' THEN udt_name ELSE data_type END AS type, numeric_scale AS places,
 column_default AS "default", collation_name AS collation, CASE WHEN is_identity = 'YES' THEN 'identity' WHEN is_generated = 'ALWAYS' THEN 'generated' END AS extra
 FROM information_schema.columns WHERE table_schema = 'public' AND table_name = '{0}'
 UNION ALL SELECT trigger_name, 'trigger', NULL, NULL, NULL, NULL FROM information_schema.triggers WHERE event_object_table = '{0}'"""


class Server(support.Case):
    server = None

    @classmethod
    def setUpClass(cls):
        if support.PROGRAM:
            cls.server, cls.why = servers.postgres()

    @classmethod
    def tearDownClass(cls):
        if cls.server:
            cls.server.stop()

    def setUp(self):
        super().setUp()
        if not self.server:
            support.skipped(f"import from a PostgreSQL server: {self.why}")

    def case(self, name, create, statements, table="stock"):
        """Makes a table and runs statements; answers the words that import it."""
        server, place = self.server, self.place / name
        place.mkdir()
        server.psql(f"DROP TABLE IF EXISTS {table}; {create}")
        server.csv(f"SELECT * FROM {table}", place / "before.csv")
        server.csv(COLUMNS.format(table), place / "columns.csv")
        start = server.now()
        server.psql("\n".join(it + ";" for it in statements))
        (place / "log.csv").write_text(server.since(start, name))
        server.csv(f"SELECT * FROM {table}", place / "after.csv")
        words = [
            "import",
            "postgres",
            place / "log.csv",
            "--before",
            place / "before.csv",
            "--after",
            place / "after.csv",
            "--columns",
            place / "columns.csv",
        ]
        return place, [*words, "--table", table, "--key", "id", "--out", place / "out"]

    def test_random_logs(self):
        differ = []
        count = min(support.LOGS, 40)
        for seed in range(1, count + 1):
            made = RealLog(seed, "postgres")
            rows = made.rows()
            values = ", ".join(
                "("
                + ", ".join("NULL" if it is None else str(it) if not isinstance(it, str) else "'" + it.replace("'", "''") + "'" for it in row)
                + ")"
                for row in rows
            )
            create = f"{made.create()}; INSERT INTO stock (id, a, b, d, city, note, day) VALUES {values}; ALTER TABLE stock ALTER id RESTART WITH {len(rows) + 1};"
            _, words = self.case(str(seed), create, made.statements())
            status, said, fault = support.tool(*words, "--next", f"id={len(rows) + 1}")
            if status:
                differ.append(
                    f"random real log {seed}: {fault.strip()}{''.join(it for it in said.splitlines(True) if 'refused,' in it or 'replay' in it or 'take' in it)}"
                )
        self.assertEqual(differ, [])
        support.note(f"{count} random real logs of PostgreSQL: imported, 0 differ")

    def test_the_whole_way(self):
        create = """CREATE TABLE pay (id int PRIMARY KEY, dept varchar(20), amount numeric(10,2) NOT NULL, active boolean NOT NULL DEFAULT true, since date, seen timestamptz, note text);
 INSERT INTO pay VALUES (1, 'ENG', 100.50, true, '2024-01-05', now(), NULL), (2, 'OPS', 80, true, '2023-02-01', now(), 'x'), (3, 'ENG', 120, false, NULL, now(), 'y');"""
        statements = [
            "PREPARE raise (numeric, text) AS UPDATE public.pay SET amount = amount + $1, seen = now() WHERE dept = $2 AND active",
            "EXECUTE raise (15.5, 'ENG')",
            "BEGIN",
            "UPDATE pay SET amount = 0",
            "UPDATE pay SET amount = 'much'",
            "COMMIT",
            "UPDATE pay SET amount = 0 WHERE nowhere = 1",
            "UPDATE ONLY \"pay\" AS p SET since = since + 7, note = $$it's$$ WHERE p.since < DATE '2024-01-01' OR NOT p.active AND note IS NOT NULL",
            "INSERT INTO pay (id, dept, amount) VALUES (4, E'O\\'B', 12.25::numeric), (5, 'HR', 1) RETURNING id",
            "DELETE FROM pay WHERE id = '5'::int",
        ]
        place, words = self.case("whole", create, statements, "pay")
        found, said, fault = support.tool(*words)
        if found:
            # (since = since + 7 with a column that may be NULL, and more that is set)
            self.assertIn("SET since reads a column that may be NULL, and more is set", said + fault)
        statements[7] = statements[7].replace("since = since + 7, ", "")
        place, words = self.case("whole2", create, statements, "pay")
        said = self.works(*words)
        self.assertIn("it failed", said)
        self.assertIn("the column seen is left out: the function now", said)
        out = place / "out"
        self.works("complain", out, "id=1", "amount=115.11")
        self.works("domains", out, "--param", "p1=1400..1600")
        self.assertIn("p1: 15.50 -> 14.61", self.works("solve", out))
        self.works("apply", out, "--fix", place / "fix.sql", "--now", place / "after.csv")
        real = (out / "real.sql").read_text()
        self.assertIn("amount = amount + 14.61", real)
        # The repaired statements, run in a fresh table, and the changes by key, run on the table as it is.
        self.server.psql((place / "fix.sql").read_text())
        self.server.csv("SELECT * FROM pay", place / "fixed.csv")
        self.works("compare", out, place / "fixed.csv", "--log", "repaired.sql")
        self.server.psql(f"DROP TABLE pay; {create}")
        self.server.psql(real)
        self.server.csv("SELECT * FROM pay", place / "again.csv")
        self.works("compare", out, place / "again.csv", "--log", "repaired.sql")

    def test_triggers(self):
        create = """CREATE TABLE stock (id int PRIMARY KEY, a int); INSERT INTO stock VALUES (1, 1);
 CREATE OR REPLACE FUNCTION twice() RETURNS trigger LANGUAGE plpgsql AS $$ BEGIN NEW.a := 2 * NEW.a; RETURN NEW; END $$;
 CREATE TRIGGER g BEFORE UPDATE ON stock FOR EACH ROW EXECUTE FUNCTION twice();"""
        _, words = self.case("trigger", create, ["UPDATE stock SET a = 3"])
        self.fails(*words, says="has the trigger g")


def record(connection, message, detail="", severity="LOG", query="", base="shop"):
    fields = [""] * 26
    fields[0], fields[2], fields[5], fields[11], fields[13], fields[14], fields[19] = (
        "2024-05-01 10:00:00 UTC",
        base,
        connection,
        severity,
        message,
        detail,
        query,
    )
    return fields


def log(*records):
    out = io.StringIO()
    csv.writer(out).writerows(records)
    return out.getvalue()


class Texts(unittest.TestCase):
    def entries(self, *records, **more):
        return postgres_csvlog(log(*records), "log.csv", lambda line: None, **more)

    def test_values_of_prepared_statements(self):
        made = self.entries(
            record("1", "execute <unnamed>: UPDATE t SET a = a + $1 WHERE s = $2 AND id = $10", "parameters: $1 = '-5', $2 = 'it''s $1', $10 = '7'"),
            record("1", "execute q: UPDATE t SET a = $1", "Parameters: $1 = NULL"),
            record("1", "execute q: UPDATE t SET a = $1"),
            record("1", "statement: EXECUTE r (1, 'a,b');", "prepare: PREPARE r (int, text) AS UPDATE t SET a = $1 WHERE s = $2;"),
        )
        self.assertEqual(
            [it.sql for it in made],
            [
                "UPDATE t SET a = a + (-5) WHERE s = 'it''s $1' AND id = 7",
                "UPDATE t SET a = NULL",
                "UPDATE t SET a = $1",
                "UPDATE t SET a = 1 WHERE s = 'a,b'",
            ],
        )

    def test_failed_and_rolled_back(self):
        made = self.entries(
            record("1", "statement: BEGIN"),
            record("2", "statement: UPDATE t SET a = 9"),
            record("1", "statement: UPDATE t SET a = 1"),
            record("1", "statement: SAVEPOINT s"),
            record("1", "statement: UPDATE t SET a = x"),
            record("1", "column x", severity="ERROR", query="UPDATE t SET a = x"),
            record("1", "statement: ROLLBACK TO s"),
            record("1", "statement: UPDATE t SET a = 2; COMMIT"),
            record("3", "statement: BEGIN; UPDATE t SET a = 3"),
            record("4", "statement: START TRANSACTION"),
            record("4", "statement: UPDATE t SET a = 4"),
            record("4", "statement: COMMIT"),
            record("4", "deferred", severity="ERROR", query="COMMIT"),
        )
        told = []
        kept = [it.sql for it in Done(made, "postgres", told.append).kept]
        self.assertEqual(kept, ["UPDATE t SET a = 9", "UPDATE t SET a = 1", "UPDATE t SET a = 2"])
        self.assertEqual(len([it for it in told if "it failed" in it]), 2)
        self.assertTrue(any("open at the end" in it for it in told))

    def test_refused(self):
        with self.assertRaisesRegex(Exception, "several databases"):
            self.entries(record("1", "statement: SELECT 1"), record("2", "statement: SELECT 1", base="other"))
        self.assertEqual(len(self.entries(record("1", "statement: SELECT 1"), record("2", "statement: SELECT 1", base="other"), database="other")), 1)
        with self.assertRaisesRegex(Exception, "no record of a csvlog"):
            postgres_csvlog("a,b\n", "log.csv", print)


class Recorded(support.Case):
    def test_import_without_a_server(self):
        place = self.place
        (place / "log.csv").write_text(
            log(
                record("1", "statement: UPDATE public.pay SET amount = amount * 2 + 1.25 WHERE active AND since >= '2024-01-01'"),
                record("1", "statement: UPDATE pay SET note = 'z' WHERE note = 'X'"),
            )
        )
        (place / "before.csv").write_text("id,amount,active,since,note\n1,10.00,t,2024-02-01,x\n2,5.50,f,\\N,y\n")
        (place / "after.csv").write_text("id,amount,active,since,note\n1,21.25,t,2024-02-01,x\n2,5.50,f,\\N,y\n")
        (place / "columns.csv").write_text(
            "column,type,places,default,collation,extra\nid,integer,0,,,\namount,numeric,2,,,\nactive,boolean,,true,,\nsince,date,,,,\nnote,text,,,,\n"
        )
        words = [
            "import",
            "postgres",
            place / "log.csv",
            "--before",
            place / "before.csv",
            "--after",
            place / "after.csv",
            "--columns",
            place / "columns.csv",
            "--table",
            "pay",
            "--key",
            "id",
            "--out",
            place / "out",
        ]
        said = self.works(*words)
        self.assertIn("the log has no BEGIN, COMMIT or ROLLBACK", said)
        self.assertIn("amount = 2 * amount + 125 WHERE active = 1 AND (since_null = 0 AND since >= 19723)", (place / "out" / "log.sql").read_text())
        self.assertEqual([it["type"] for it in json.loads((place / "out" / "map.json").read_text())["params"]], ["decimal:2", "made", "null", "date"])
        (place / "columns.csv").write_text("column,type\nid,integer\namount,numeric\nactive,boolean\nsince,date\nnote,money\ng,trigger\n")
        self.fails(*words, "--replace", says="has the trigger g", folder=place)
        (place / "columns.csv").write_text("column,type\nid,integer\namount,numeric\n")
        self.fails(*words, "--replace", says="have not the same columns: active, note, since", folder=place)
        (place / "columns.csv").write_text("column,type\nid,integer\namount,numeric\nactive,boolean\nsince,date\nnote,money\n")
        self.fails(*words, "--replace", says="the column note is wanted and has the type money", folder=place)
        self.fails(*words[:7], "--table", "pay", "--key", "id", "--out", place / "other", says="--columns CSV is wanting", folder=place)


if __name__ == "__main__":
    unittest.main()
