"""`import mysql`: by a real MariaDB server where one can be started, and by texts of logs that servers wrote."""
import unittest

import servers
import support
from qfix_db.logs import mysql_binlog, mysql_general
from qfix_db.transactions import Done
from real_logs import RealLog

# The query of docs/OPERATING.md.
COLUMNS = """SELECT column_name AS `column`, IF(data_type = 'tinyint', 'int', data_type) AS type, numeric_scale AS places, column_default AS `default`,
 collation_name AS collation, extra FROM information_schema.columns WHERE table_schema = 'shop' AND table_name = '{0}'
 UNION ALL SELECT trigger_name, 'trigger', NULL, NULL, NULL, NULL FROM information_schema.triggers WHERE event_object_schema = 'shop' AND event_object_table = '{0}'"""


class Server(support.Case):
    server = None

    @classmethod
    def setUpClass(cls):
        if support.PROGRAM:
            cls.server, cls.why = servers.maria()

    @classmethod
    def tearDownClass(cls):
        if cls.server:
            cls.server.stop()

    def setUp(self):
        super().setUp()
        if not self.server:
            support.skipped(f"import from a MariaDB server: {self.why}")

    def case(self, name, create, statements, table="stock"):
        """Makes a table and runs statements; answers the words that import it by the general log, and by the binlog."""
        server, place = self.server, self.place / name
        place.mkdir()
        server.mysql(f"DROP TABLE IF EXISTS {table}; {create}")
        server.tsv(f"SELECT * FROM {table}", place / "before.tsv")
        server.tsv(COLUMNS.format(table), place / "columns.tsv")
        server.binlog()
        start = server.log.stat().st_size
        server.mysql("\n".join(it + ";" for it in statements))
        (place / "general.log").write_bytes(server.log.read_bytes()[start:])
        (place / "binlog.sql").write_text(server.binlog())
        server.tsv(f"SELECT * FROM {table}", place / "after.tsv")
        words = [
            "--before",
            place / "before.tsv",
            "--after",
            place / "after.tsv",
            "--columns",
            place / "columns.tsv",
            "--table",
            table,
            "--key",
            "id",
            "--database-name",
            "shop",
        ]
        return place, [["import", "mysql", place / log, *words, "--out", place / log.split(".")[0]] for log in ("general.log", "binlog.sql")]

    def test_random_logs(self):
        differ = []
        count = min(support.LOGS, 40)
        for seed in range(1, count + 1):
            made = RealLog(seed, "mysql")
            rows = made.rows()
            values = ", ".join(
                "("
                + ", ".join("NULL" if it is None else str(it) if not isinstance(it, str) else "'" + it.replace("'", "''") + "'" for it in row)
                + ")"
                for row in rows
            )
            create = f"{made.create()}; INSERT INTO stock (id, a, b, d, city, note, day) VALUES {values}; ALTER TABLE stock AUTO_INCREMENT = {len(rows) + 1};"
            for words in self.case(str(seed), create, made.statements())[1]:
                status, said, fault = support.tool(*words, "--next", f"id={len(rows) + 1}")
                if status:
                    differ.append(
                        f"random real log {seed}, {words[2].name}: {fault.strip()}{''.join(it for it in said.splitlines(True) if 'refused,' in it or 'replay' in it or 'take' in it)}"
                    )
        self.assertEqual(differ, [])
        support.note(f"{count} random real logs of MariaDB, general log and binlog: imported, 0 differ")

    def test_the_whole_way(self):
        create = """CREATE TABLE pay (id int AUTO_INCREMENT PRIMARY KEY, dept varchar(20), amount decimal(10,2) NOT NULL DEFAULT 1.00, active tinyint(1) NOT NULL DEFAULT 1, since date, note text);
 INSERT INTO pay VALUES (1, 'ENG', 100.50, true, '2024-01-05', NULL), (2, 'OPS', 80, true, '2023-02-01', 'x'), (3, 'ENG', 120, false, NULL, 'y');"""
        statements = [
            "PREPARE raise FROM 'UPDATE shop.pay SET amount = amount + ? WHERE dept = ? AND active'",
            "SET @more = 15.5, @dept = 'ENG'",
            "EXECUTE raise USING @more, @dept",
            "SET autocommit = 0",
            "UPDATE pay SET amount = 0",
            "ROLLBACK",
            'UPDATE `pay` SET note = "it\'s\\n" WHERE note IS NOT NULL # here\n',
            "COMMIT",
            "SET autocommit = 1",
            "INSERT INTO pay (dept, amount) VALUES ('HR', 12.25), ('IT', 1)",
            "DELETE FROM pay WHERE id = 5",
        ]
        place, both = self.case("whole", create, statements, "pay")
        for words in both:
            with self.subTest(words[2].name):
                self.works(*words, "--next", "id=4")
                out = words[-1]
                self.works("complain", out, "id=1", "amount=115.11")
                self.works("domains", out, "--param", "p1=1400..1600")
                self.assertIn("p1: 15.50 -> 14.61", self.works("solve", out))
                self.works("apply", out, "--fix", place / "fix.sql", "--now", place / "after.tsv")
                self.server.mysql(f"DROP TABLE pay; {create}")
                self.server.mysql((out / "real.sql").read_text())
                self.server.tsv("SELECT * FROM pay", place / "again.tsv")
                self.works("compare", out, place / "again.tsv", "--log", "repaired.sql")
                self.server.mysql(f"DROP TABLE pay; {create}" + ";\n".join(it for it in statements) + ";\n" + (place / "fix.sql").read_text())
                self.server.tsv("SELECT * FROM pay", place / "fixed.tsv")
                self.works("compare", out, place / "fixed.tsv", "--log", "repaired.sql")

    def test_what_mysql_does_otherwise(self):
        create = "CREATE TABLE stock (id int PRIMARY KEY, a int NOT NULL, b int NOT NULL, s varchar(9) NOT NULL); INSERT INTO stock VALUES (1, 1, 2, 'Oslo'), (2, 3, 4, 'oslo');"
        _, (words, _) = self.case("order", create, ["UPDATE stock SET a = a + 1, b = a"])
        said = self.works(*words, status=1)
        self.assertIn("SET b reads a, which MySQL has set before it", said)
        _, (words, _) = self.case("case", create, ["UPDATE stock SET a = 9 WHERE s = 'OSLO'"])
        self.fails(*words, says="may be one text in the database")
        place, (words, _) = self.case(
            "trigger", create + "CREATE TRIGGER g BEFORE UPDATE ON stock FOR EACH ROW SET NEW.a = 7;", ["UPDATE stock SET b = 9"]
        )
        self.fails(*words, says="has the trigger g")
        (place / "columns.tsv").write_text("\n".join(it for it in (place / "columns.tsv").read_text().split("\n") if "trigger" not in it))
        said = self.works(*words, status=1)
        self.assertIn("r1: a was 1 and is 7, and no statement names it", said)


GENERAL = """/usr/sbin/mariadbd, Version: 10.11.6-MariaDB-log. started with:
Tcp port: 0  Unix socket: /run/socket
Time		    Id Command	Argument
240501 10:00:00	     3 Connect	root@localhost on shop using Socket
		     3 Query	BEGIN
		     3 Query	UPDATE t SET a = 1
  WHERE a = 2
		     4 Connect	root@localhost on other using Socket
240501 10:00:01	     4 Query	UPDATE t SET a = 9
		     3 Prepare	UPDATE t SET a = ?
		     3 Execute	UPDATE t SET a = 5
		     3 Query	ROLLBACK
		     3 Query	SET autocommit=0
		     3 Query	UPDATE t SET a = 6
		     3 Query	COMMIT
		     3 Query	UPDATE t SET a = 7
		     3 Quit	
"""

BINLOG = """/*!50530 SET @@SESSION.PSEUDO_SLAVE_MODE=1*/;
DELIMITER /*!*/;
# at 4
#240501 10:00:00 server id 1  end_log_pos 256 CRC32 0x1 	Start: binlog v 4
# at 300
#240501 10:00:01 server id 1  end_log_pos 350 CRC32 0x1 	Query	thread_id=3	exec_time=0
use `shop`/*!*/;
SET TIMESTAMP=1714557601/*!*/;
BEGIN
/*!*/;
SET @`more`:=15.5/*!*/;
SET INSERT_ID=42/*!*/;
#240501 10:00:01 server id 1  end_log_pos 450 CRC32 0x1 	Query	thread_id=3
UPDATE t SET a = a + @`more`
/*!*/;
COMMIT/*!*/;
use `other`/*!*/;
UPDATE t SET a = 2
/*!*/;
DELIMITER ;
# End of log file
"""


class Texts(unittest.TestCase):
    def test_general_log(self):
        told = []
        made = mysql_general(GENERAL, "general.log", told.append, "shop")
        self.assertIn("tells no statement that failed", told[0])
        self.assertIn(("UPDATE t SET a = 1\n  WHERE a = 2", "line 6", "3"), [(it.sql, it.place, it.connection) for it in made])
        self.assertEqual([it.sql for it in Done(made, "mysql", told.append).kept], ["UPDATE t SET a = 6"])

    def test_binlog(self):
        made = mysql_binlog(BINLOG, "binlog", print, "shop")
        kept = Done(made, "mysql", print).kept
        self.assertEqual([(it.sql, it.counted) for it in kept], [("UPDATE t SET a = a + 15.5", 42)])
        self.assertEqual(kept[0].place, "line 14")
        with self.assertRaisesRegex(Exception, "format is ROW"):
            mysql_binlog("### UPDATE `shop`.`t`\n/*!*/;", "binlog", print)


class Recorded(support.Case):
    def test_import_without_a_server(self):
        place = self.place
        (place / "binlog.sql").write_text(BINLOG.replace("UPDATE t SET a = a + @`more`", 'INSERT INTO t (a, s) VALUES (@more, "x\\ty")'))
        (place / "before.tsv").write_text("id\ta\ts\n1\t2.0\ta\\tb\n")
        (place / "after.tsv").write_text("id\ta\ts\n1\t2.0\ta\\tb\n42\t15.5\tx\\ty\n")
        (place / "columns.tsv").write_text(
            "column\ttype\tplaces\tdefault\tcollation\textra\nid\tint\t0\tNULL\tNULL\tauto_increment\na\tdecimal\t1\tNULL\tNULL\t\ns\tvarchar\tNULL\tNULL\tutf8mb4_bin\t\n"
        )
        words = [
            "import",
            "mysql",
            place / "binlog.sql",
            "--before",
            place / "before.tsv",
            "--after",
            place / "after.tsv",
            "--columns",
            place / "columns.tsv",
            "--table",
            "t",
            "--key",
            "id",
            "--database-name",
            "shop",
            "--out",
            place / "out",
        ]
        self.assertIn("0 rows differ", self.works(*words))
        self.assertIn("VALUES (42, 155, 'x\ty')", (place / "out" / "log.sql").read_text())
        (place / "general.log").write_text(
            GENERAL.split("Time\t")[0] + "".join(f"\t\t     3 Query\tUPDATE {it}.t SET a = 1\n" for it in ("shop", "other"))
        )
        words[2] = place / "general.log"
        words.remove("--database-name"), words.remove("shop")
        self.fails(*words, "--replace", says="in several schemas (other, shop)", folder=place)


if __name__ == "__main__":
    unittest.main()
