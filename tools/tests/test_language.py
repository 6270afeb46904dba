"""The log language as the tools read it, against what qfix prints."""
import unittest

import support
from qfix_db.evaluate import Evaluator
from qfix_db.faults import Fault
from qfix_db.folder import Folder
from qfix_db.language import Log
from qfix_db.program import Program

import random_logs


class Language(support.Case):
    def test_constants_and_final_tables_of_random_logs(self):
        program, taken = Program(support.PROGRAM), 0
        for seed in range(1, 61):
            table, log = random_logs.make(seed)
            folder = Folder(self.folder(initial=table, log=log))
            try:
                final = program.replay(folder.path)
            except Fault:
                continue
            taken += 1
            made = folder.log()
            found = [(it.name, it.value, it.statement, it.start) for it in made.params]
            self.assertEqual(found, [(it.name, it.value, it.statement, it.offset) for it in program.params(folder.path)], seed)
            _, rows = folder.initial()
            self.assertEqual(Evaluator(made, rows, final.kinds).table({it.number: it.value for it in made.params}), final.rows, seed)
        self.assertGreater(taken, 40)

    def test_how_far_the_table_stays(self):
        """The interval of same_round against each value near it, by the evaluator itself at that value."""
        for seed in range(1, 41):
            table, log = random_logs.make(seed)
            folder = Folder(self.folder(initial=table, log=log))
            try:
                final = Program(support.PROGRAM).replay(folder.path)
            except Fault:
                continue
            made, (_, rows) = folder.log(), folder.initial()
            evaluator = Evaluator(made, rows, final.kinds)
            constants = {it.number: it.value for it in made.params}
            for param in made.params[:6]:
                low, high, found = evaluator.same_round(constants, param.number)
                self.assertTrue(found)
                for x in range(param.value - 30, param.value + 31):
                    same = evaluator.table({**constants, param.number: x}) == final.rows
                    self.assertFalse(low <= x <= high and not same, (seed, param.name, x))
                    self.assertFalse(x in (low - 1, high + 1) and same, (seed, param.name, x))

    def test_constants_that_are_put_in(self):
        rows = [
            (b"UPDATE t SET a = a-5;", {1: -3}, b"UPDATE t SET a = a- -3;"),
            (b"UPDATE t SET a = 1 WHERE b BETWEEN-5 AND-3;", {3: 2}, b"UPDATE t SET a = 1 WHERE b BETWEEN-5 AND 2;"),
            (b"UPDATE t SET a = 07;", {1: 7}, b"UPDATE t SET a = 07;"),
        ]
        for log, values, wanted in rows:
            self.assertEqual(Log(log).with_constants(values), wanted)

    def test_refused(self):
        for log in (b"UPDATE t SET a = 1.5", b"UPDATE t SET a = b * c", b"SELECT 1", b'UPDATE "t" SET a = 1', b"UPDATE t SET a = 'x", b"DELETE t"):
            with self.assertRaises(Fault):
                Log(log)


if __name__ == "__main__":
    unittest.main()
