"""Each command on small folders: what it says and writes, and each of its refusals."""
import json
import re
import shutil
import subprocess
import unittest

import support
from qfix_db import why

TABLE = "id,dept,pay\n1,ENG,40\n2,ENG,60\n3,OPS,62\n4,HR,90\n"
LOG = "-- raise\nUPDATE staff SET pay = pay + 5 WHERE dept IN ('ENG', 'OPS') AND pay < 65;\nDELETE FROM staff WHERE pay >= 90;\n"
COMPLAINTS = '[{"row": "r2", "set": {"pay": 60}}, {"row": "r3", "set": {"pay": 62}}]'
DOMAINS = "param,lo,hi\np2,40,70\n"


class Where(support.Case):
    def test_each_constant(self):
        said = self.works("where", self.folder(initial=TABLE, log=LOG))
        self.assertEqual(said.count("\n"), 3)
        self.assertIn("p2 = 65  statement 1, line 2: .. T dept IN ('ENG', 'OPS') AND pay < [65];".split(": ")[0], said)
        self.assertIn("AND pay < [65];", said)
        self.assertIn("p3 = 90  statement 2, line 3: DELETE FROM staff WHERE pay >= [90];", said)

    def test_factors(self):
        folder = self.folder(initial="a\n1\n", log="UPDATE t SET a = 3 * a;\n")
        self.assertEqual(self.works("where", folder), "")
        self.assertIn("factor 3 of a", self.works("where", folder, "--factors"))

    def test_refused(self):
        self.fails("where", self.place / "none", says="there is no folder")
        folder = self.folder(initial=TABLE, log="UPDATE staff SET pay = 1.5;")
        self.fails("where", folder, says="qfix-db why", folder=folder)


class Complain(support.Case):
    def test_by_key(self):
        folder = self.folder(initial=TABLE, log=LOG)
        self.assertIn("r2 is now pay=65", self.works("complain", folder, "id=2", "pay=60"))
        self.works("complain", folder, "id=4", "present", "--key", "id")
        self.works("complain", folder, "id=1", "absent")
        self.works("complain", folder, "id=2", "pay=61")
        wanted = [{"row": "r4", "set": {"id": 4}}, {"row": "r1", "state": "absent"}, {"row": "r2", "set": {"pay": 61}}]
        self.assertEqual(json.loads((folder / "complaints.json").read_text()), wanted)

    def test_a_wanted_table(self):
        folder = self.folder(initial=TABLE, log=LOG)
        (folder / "wanted.csv").write_text("id,dept,pay\n1,ENG,45\n2,ENG,60\n4,HR,90\n")
        self.works("complain", folder, "--wanted", folder / "wanted.csv", "--key", "id", "--whole")
        wanted = [{"row": "r2", "set": {"pay": 60}}, {"row": "r4", "set": {"id": 4, "dept": "HR", "pay": 90}}, {"row": "r3", "state": "absent"}]
        found = json.loads((folder / "complaints.json").read_text())
        self.assertEqual(found, wanted)

    def test_refused(self):
        folder = self.folder(initial=TABLE, log=LOG, complaints="[]")
        for words, says in [
            (["id=9", "pay=1"], "no row has id = 9"),
            (["dept=ENG", "pay=1"], "2 rows have dept = ENG: r1, r2"),
            (["id=1", "color=1"], "there is no column color"),
            (["id=1", "pay=x"], "pay: 'x' is no value of the type int"),
            (["id=1"], "the key, then COLUMN=VALUE"),
            (["id=1", "gone"], "'gone' is not COLUMN=VALUE"),
            (["id=1", "pay=1", "absent"], "should be gone has no wanted cells"),
            ([], "either a key and cells, or --wanted"),
            (["dept=ENG", "pay=1", "--key", "id"], "to name the key: id"),
            (["--wanted", folder / "none.csv", "--key", "id"], "could not be read"),
            (["--wanted", folder / "initial.csv"], "the key is not known"),
            (["--wanted", folder / "log.sql", "--key", "id"], "line 2"),
        ]:
            with self.subTest(words):
                self.fails("complain", folder, *words, says=says, folder=folder)


class Compare(support.Case):
    def test_differences(self):
        folder = self.folder(initial=TABLE, log=LOG)
        (folder / "after.csv").write_text("id,dept,pay\n1,ENG,45\n2,ENG,65\n3,OPS,67\n")
        self.assertIn("3 rows, 0 differ", self.works("compare", folder, folder / "after.csv", "--key", "id"))
        (folder / "after.csv").write_text("id,dept,pay\n1,ENG,45\n3,OPS,68\n7,HR,1\n")
        said = self.works("compare", folder, folder / "after.csv", "--key", "id", status=1)
        for line in (
            "r2 (id 2): the database has no such row",
            "id 7: the replay has no such row",
            "r3 (id 3): pay is 67 by replay, 68 in the database",
            "3 rows, 3 differ",
        ):
            self.assertIn(line, said)

    def test_refused(self):
        folder = self.folder(initial=TABLE, log=LOG)
        (folder / "a.csv").write_text("id,pay\n1,45\n1,45\n")
        (folder / "b.csv").write_text("id,pay\n1\n")
        (folder / "c.csv").write_text("pay\n1\n")
        for name, says in [
            ("a.csv", "an earlier row has the same key"),
            ("b.csv", "1 cells, and the header has 2"),
            ("c.csv", "no column id"),
            ("d.csv", "could not be read"),
        ]:
            self.fails("compare", folder, folder / name, "--key", "id", says=says, folder=folder)
        self.fails("compare", folder, folder / "c.csv", "--key", "x", says="no column x", folder=folder)
        self.fails("compare", folder, folder / "c.csv", says="the key is not known", folder=folder)


class Domains(support.Case):
    def test_ranges(self):
        folder = self.folder(initial=TABLE, log=LOG, complaints=COMPLAINTS)
        self.works("domains", folder, "--statement", 1, "--points", 1000)
        self.assertEqual((folder / "domains.csv").read_text(), "param,lo,hi\np1,-10,20\np2,50,80\n")
        self.works("domains", folder, "--param", "p2=40..70")
        self.assertEqual((folder / "domains.csv").read_text(), DOMAINS)
        self.works("domains", folder, "--param", "p2", "--reach", 3)
        self.assertEqual((folder / "domains.csv").read_text(), "param,lo,hi\np2,62,68\n")

    def test_only_what_can_matter(self):
        folder = self.folder(initial="a,b\n1,1\n", log="UPDATE t SET a = a + 1; UPDATE t SET b = 7;", complaints='[{"row": "r1", "set": {"a": 5}}]')
        self.works("domains", folder, "--reach", 9)
        self.assertEqual((folder / "domains.csv").read_text(), "param,lo,hi\np1,-8,10\n")
        self.assertIn("p2 can't matter", self.works("domains", folder, "--param", "p2", "--reach", 1))

    def test_none(self):
        folder = self.folder(
            initial="a,b\n1,1\n",
            log="UPDATE t SET a = 3 * a; UPDATE t SET a = a + 0; UPDATE t SET a = a + 4;",
            complaints='[{"row": "r1", "set": {"a": 5}}]',
            domains="param,lo,hi\np1,-1,1\n",
        )
        said = self.works("domains", folder, "--none")
        self.assertIn("widen -1..1 (now 0): p1", said)
        self.assertIn("no range: p2", said)
        self.assertIn("a factor, which may not change: statement 1, line 1: UPDATE t SET a = [3] * a", said)

    def test_refused(self):
        folder = self.folder(initial=TABLE, log=LOG, complaints=COMPLAINTS, domains=DOMAINS)
        for words, says in [
            (["--param", "p9"], "the log has p1 to p3"),
            (["--param", "x"], "wanted pK or pK=LO..HI"),
            (["--param", "p2=70..80"], "has not the old value 65"),
            (["--param", f"p2=0..{2**51}"], "passes 2^50"),
            (["--statement", "5"], "the log has 1 to 2"),
            (["--points", "3"], "too many for so few points"),
            (["--reach", "0"], "are 1 or more"),
        ]:
            with self.subTest(words):
                self.fails("domains", folder, *words, says=says, folder=folder)
        folder = self.folder("other", initial=TABLE, log=LOG, complaints="[]")
        self.fails("domains", folder, says="there are no complaints", folder=folder)


class Solve(support.Case):
    def test_a_repair(self):
        folder = self.folder(initial=TABLE, log=LOG, complaints=COMPLAINTS, domains=DOMAINS)
        said = self.works("solve", folder)
        self.assertIn("p2: 65 -> 60  (statement 1)", said)
        self.assertIn("+ UPDATE staff SET pay = pay + 5 WHERE dept IN ('ENG', 'OPS') AND pay < 60", said)
        self.assertEqual((folder / "repaired.sql").read_text(), LOG.replace("65", "60"))
        self.assertFalse((folder / ".answer.cert.new").exists())

    def test_none_keeps_the_old_answer(self):
        folder = self.folder(initial=TABLE, log=LOG, complaints='[{"row": "r2", "set": {"pay": 60}}]', domains="param,lo,hi\np2,61,70\n")
        (folder / "repaired.sql").write_text("earlier")
        said = self.works("solve", folder, status=1)
        self.assertTrue(said.startswith("none\n"))
        self.assertIn("widen 61..70 (now 65): p2", said)
        self.assertIn("no range: p1", said)
        self.assertEqual((folder / "repaired.sql").read_text(), "earlier")

    def test_none_says_what_would_repair(self):
        folder = self.folder(initial=TABLE, log=LOG, complaints=COMPLAINTS, domains="param,lo,hi\np2,61,70\n")
        self.assertIn("p2 = 60 alone repairs, and its range 61..70 has it not: p2, statement 1, line 2", self.works("solve", folder, status=1))
        said = self.works("domains", self.example("price_factor"), "--none")
        self.assertIn("the factor 2 in place of 3 would repair (statement 2)", said)

    def test_refused_with_the_reason(self):
        folder = self.folder(initial=TABLE, log=LOG, complaints='[{"row": "r9", "set": {"pay": 60}}]', domains=DOMAINS)
        said = self.works("solve", folder, status=3)
        self.assertIn("refused: UnknownRow 1", said)
        self.assertIn("complaints.json, line 1 (complaint 1)", said)
        self.fails("solve", folder, "--budget", 0, says="--budget is 1 to", folder=folder)
        (folder / "domains.csv").unlink()
        self.fails("solve", folder, says="has no domains.csv", folder=folder)


class Widen(support.Case):
    def test_the_other_rows(self):
        folder = self.folder(initial=TABLE, log=LOG, complaints='[{"row": "r2", "set": {"pay": 60}}]', domains=DOMAINS)
        said = self.works("widen", folder, "--key", "id", "--write", "--complain")
        self.assertIn("p2: 65 -> 60", said)
        self.assertIn("1 other rows change (1 complained of, 0 vouched for, 3 in all)", said)
        self.assertIn("r3 (id 3): pay 67 -> 62", said)
        self.assertEqual((folder / "repaired.sql").read_text(), LOG.replace("65", "60"))
        self.works("solve", folder)
        self.assertEqual((folder / "repaired.sql").read_text(), LOG.replace("65", "60"))

    def test_vouched_rows_and_inserts(self):
        log = "INSERT INTO t VALUES (8, 1), (9, 6), (10, 8);\nUPDATE t SET b = b + 10 WHERE b > 5;\nINSERT INTO t VALUES (11, 3);\n"
        folder = self.folder(
            initial="a:int,b:int\n1,4\n2,7\n", log=log, complaints='[{"row": "i2", "set": {"b": 6}}]', domains="param,lo,hi\np8,0,9\np1,8,8\n"
        )
        (folder / "good.csv").write_text("a\n2\n")
        said = self.works("widen", folder, "--key", "a", "--vouched", folder / "good.csv")
        self.assertIn("p8: 5 -> 6", said)
        self.assertIn("0 other rows change (1 complained of, 1 vouched for, 6 in all)", said)

    def test_refused(self):
        folder = self.folder(initial=TABLE, log=LOG, complaints=COMPLAINTS, domains=DOMAINS)
        (folder / "good.csv").write_text("id\n77\n")
        (folder / "bad.csv").write_text("x\n77\n")
        self.fails("widen", folder, "--vouched", folder / "good.csv", "--key", "id", says="0 rows have id 77", folder=folder)
        self.fails("widen", folder, "--vouched", folder / "bad.csv", "--key", "id", says="the key id is wanting", folder=folder)
        (folder / "complaints.json").write_text('[{"row": "r9"}]')
        self.fails("widen", folder, says="rows that are not there: r9", folder=folder)
        (folder / "complaints.json").write_text("[]")
        self.fails("widen", folder, says="there are no complaints", folder=folder)


class Slack(support.Case):
    def test_intervals(self):
        folder = self.folder(initial=TABLE, log=LOG, **{"repaired.sql": LOG.replace("65", "60")})
        said = self.works("slack", folder, "--write", "round.sql")
        self.assertIn("p2 (statement 1): 65 -> 60; the same table from 41 to 60; roundest 60", said)
        self.assertEqual((folder / "round.sql").read_text(), LOG.replace("65", "60"))

    def test_the_meant_constant(self):
        said = self.works("slack", self.example("payroll"))
        self.assertIn("65000 -> 60704; the same table from 59652 to 60704; roundest 60000", said)

    def test_refused(self):
        folder = self.folder(initial=TABLE, log=LOG, **{"repaired.sql": LOG.replace("65", "60")})
        self.fails("slack", folder, "--write", "log.sql", says="would take the place", folder=folder)
        (folder / "repaired.sql").write_text("DELETE FROM staff")
        self.fails("slack", folder, says="other statements than log.sql", folder=folder)


class Why(support.Case):
    def test_each_kind_is_known(self):
        page = (support.TOP / "docs" / "REFUSALS.md").read_text()
        named = set()
        for line in page.splitlines():
            cells = line.split("|")
            if len(cells) > 3 and cells[1].strip() not in ("Kind", "---"):
                named |= {it.split()[0] for it in cells[1].strip().split(",") if it.strip()}
        self.assertEqual(named - set(why.KINDS), set())
        self.assertGreater(len(named), 35)

    def test_places(self):
        folder = self.folder(initial=TABLE, log=LOG, complaints=COMPLAINTS, domains=DOMAINS)
        for line, says in [
            ("refused: BadByte 20", "log.sql, line 2, column 12"),
            ("refused: BadSyntax 2", "log.sql, line 3, column 1 (statement 2)"),
            ("refused: BadNumber 3 2", "initial.csv, line 4 (record 3), column 2 (dept): 'OPS'"),
            ("refused: BadName 2", "initial.csv, line 1, column 2 (dept)"),
            ("refused: UnknownRow 2", 'complaints.json, line 1 (complaint 2):\n    {"row": "r3", "set": {"pay": 62}}'),
            ("refused: MissesOld 2", "domains.csv, line 2 (record 1)"),
            ("refused: UnevenDomain 1", "p2,40,70"),
            ("refused: TooLong 3", "complaints.json"),
            ("refused: TooManyFree 90", "90 constants"),
            ("Wide 1", "narrower"),
        ]:
            with self.subTest(line):
                self.assertIn(says, self.works("why", folder, *line.split(), status=1))
        self.fails("why", folder, "refused: Strange 1", says="no refusal that this tool knows", folder=folder)

    def test_it_asks_qfix(self):
        folder = self.folder(initial=TABLE, log=LOG)
        self.assertEqual(self.works("why", folder), "qfix takes the files\n")
        (folder / "log.sql").write_text(LOG + "UPDATE staff SET pay = wage;\n")
        said = self.works("why", folder, status=1)
        self.assertTrue(said.startswith("refused: "))
        if "UnknownColumn" in said:
            self.assertIn("words that are no column: wage", said)
            self.assertIn("log.sql, line 4", said)


class Report(support.Case):
    def page(self, folder):
        self.works("report", folder)
        page = (folder / "report.html").read_text()
        self.assertIsNone(re.search(r"(src|href)\s*=|url\(|@import|<script|https?:", page))
        return page

    def test_a_repair_with_its_tree(self):
        page = self.page(self.example("payroll"))
        for text in (
            "1 constant of 5 must change, by 4296 in all.",
            "salary &lt; <b>60704</b>",
            "<del>63204</del> <ins>60704</ins>",
            "p2 60705 to 75000",
            "row r17 (emp_no 1017) can&#x27;t come out right",
            "nothing cheaper than the answer",
            "was 65000",
        ):
            self.assertIn(text, page)

    def test_no_repair(self):
        page = self.page(self.example("price_factor"))
        for text in ("No constants within the ranges repair the log.", "the factor 3 of price", "row r2 (sku 2)"):
            self.assertIn(text, page)

    def test_two_widths_in_a_browser(self):
        """The page is as wide as the window at both widths: only tables and trees within it are scrolled."""
        browser = shutil.which("chromium") or shutil.which("google-chrome")
        if not browser:
            support.skipped("the report in a browser: Chromium is not on this machine")
        script = "<script>document.title = document.documentElement.scrollWidth + ' of ' + innerWidth</script></body>"
        for name in ("payroll", "brackets"):
            path = self.place / f"{name}.html"
            path.write_text(self.page(self.example(name)).replace("</body>", script))
            for width in (500, 1200):
                words = [
                    "--headless",
                    "--no-sandbox",
                    "--disable-gpu",
                    "--hide-scrollbars",
                    f"--window-size={width},900",
                    f"--user-data-dir={self.place}/browser",
                    "--dump-dom",
                ]
                try:
                    made = subprocess.run([browser, *words, f"file://{path}"], capture_output=True, text=True, timeout=90)
                except subprocess.TimeoutExpired:
                    support.skipped("the report in a browser: Chromium does not answer")
                found = re.search(r"<title>(\d+) of (\d+)</title>", made.stdout)
                if not found:
                    support.skipped("the report in a browser: Chromium does not run here")
                self.assertLessEqual(int(found[1]), int(found[2]), (name, width))

    def test_large_trees_are_folded(self):
        folder = self.folder(
            initial="a\n0\n", log="UPDATE t SET a = a + 50;", complaints='[{"row": "r1", "set": {"a": 200}}]', domains="param,lo,hi\np1,0,100\n"
        )
        lines = [f"split p1 {cut} r1\nrefuted r1\nempty" for cut in range(99)]
        (folder / "answer.cert").write_text("qfix-cert 1\nanswer none\n" + "\n".join(lines) + "\nrefuted r1\nempty\nend\n")
        page = self.page(folder)
        self.assertIn("below: see the list", page)
        self.assertIn("All 199 boxes as a list", page)

    def test_refused(self):
        folder = self.folder(initial=TABLE, log=LOG, complaints=COMPLAINTS, domains=DOMAINS)
        (folder / "answer.cert").write_text("qfix-cert 1\nanswer none\nsplit p1\n")
        self.fails("report", folder, says="line 3 of the certificate", folder=folder)
        (folder / "answer.cert").write_text("hello\n")
        self.fails("report", folder, says="has not the form", folder=folder)
        (folder / "answer.cert").unlink()
        (folder / "repaired.sql").write_text(LOG)
        self.fails("report", folder, says="repaired.sql is no answer to complaints.json", folder=folder)
        self.fails("report", self.place / "none", says="there is no folder")


if __name__ == "__main__":
    unittest.main()
