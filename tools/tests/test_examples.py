"""The folders of examples/: the answer that each of them states, and its certificate where it has one."""
import unittest

import support
from qfix_db.program import Program

WORDS = ["initial.csv", "log.sql", "complaints.json", "domains.csv"]


class Examples(support.Case):
    def test_answers(self):
        program = Program(support.PROGRAM)
        for folder in sorted((support.TOP / "examples").iterdir()):
            if not all((folder / it).is_file() for it in WORDS):
                continue
            with self.subTest(folder.name):
                status, said, fault = program.run(folder, "diagnose", *WORDS, 100000, self.place / "made.cert")
                if (folder / "repaired.sql").is_file():
                    self.assertEqual((status, said), (0, (folder / "repaired.sql").read_bytes()))
                else:
                    self.assertEqual((status, said), (1, b"none\n"), fault)
                for cert in [self.place / "made.cert", *folder.glob("*.cert")]:
                    status, said, _ = program.run(folder, "check", *WORDS, cert)
                    self.assertEqual((status, said[:10]), (0, b"accepted: "), said)

    def test_help_and_version(self):
        program = Program(support.PROGRAM)
        for word, begins in [("--version", b"qfix "), ("--help", b"qfix: which constants")]:
            status, said, fault = program.run(self.place, word)
            self.assertEqual((status, said[: len(begins)]), (0, begins), fault)


if __name__ == "__main__":
    unittest.main()
