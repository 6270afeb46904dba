"""What the tests share: the tools run in this process, folders, and a line for what is skipped."""
import contextlib
import importlib.machinery
import importlib.util
import io
import os
import shutil
import sys
import tempfile
import unittest
from pathlib import Path

TOOLS = Path(__file__).resolve().parent.parent
TOP = TOOLS.parent
sys.path.insert(0, str(TOOLS))

from qfix_db import program  # noqa: E402

PROGRAM = program.find(os.environ.get("QFIX_PROGRAM"))
LOGS = int(os.environ.get("QFIX_LOGS", "200"))
said = set()


def skipped(line):
    """Says once that something was skipped, past what unittest holds back."""
    if line not in said:
        said.add(line)
        print(f"skipped: {line}", file=sys.__stderr__)
    raise unittest.SkipTest(line)


def note(line):
    """Says what was tested, past what unittest holds back."""
    print(line, file=sys.__stdout__, flush=True)


def entry():
    """The module of tools/qfix-db."""
    loader = importlib.machinery.SourceFileLoader("qfix_db_entry", str(TOOLS / "qfix-db"))
    module = importlib.util.module_from_spec(importlib.util.spec_from_loader("qfix_db_entry", loader))
    loader.exec_module(module)
    return module


ENTRY = entry()


def tool(*words):
    """Runs qfix-db; answers the status, and what it said on standard output and standard error."""
    out, err, before = io.StringIO(), io.StringIO(), sys.argv
    sys.argv = ["qfix-db", "--program", PROGRAM, *map(str, words)] if PROGRAM else ["qfix-db", *map(str, words)]
    try:
        with contextlib.redirect_stdout(out), contextlib.redirect_stderr(err):
            status = ENTRY.main()
    except SystemExit as ended:
        status = ended.code
    finally:
        sys.argv = before
    return status, out.getvalue(), err.getvalue()


class Case(unittest.TestCase):
    """A test with a folder of its own, and the program."""

    needs_program = True

    def setUp(self):
        if self.needs_program and not PROGRAM:
            skipped("there is no program qfix to test the operator's tools with (./build makes it)")
        self.place = Path(tempfile.mkdtemp(prefix="qfix-test-"))
        self.addCleanup(shutil.rmtree, self.place)

    def folder(self, name="case", **files):
        """A folder with files; initial, log, complaints, domains are those of qfix."""
        made = self.place / name
        made.mkdir(exist_ok=True)
        names = {"initial": "initial.csv", "log": "log.sql", "complaints": "complaints.json", "domains": "domains.csv"}
        for key, text in files.items():
            (made / names.get(key, key)).write_bytes(text.encode())
        return made

    def example(self, name):
        made = self.place / name
        shutil.copytree(TOP / "examples" / name, made)
        return made

    def works(self, *words, status=0):
        """Runs the tool, which must end with this status; answers what it said."""
        found, out, err = tool(*words)
        self.assertEqual(found, status, f"{words}\n{out}\n{err}")
        return out

    def fails(self, *words, says, folder=None):
        """Runs the tool, which must end with status 2 and these words, and leave the folder as it was."""
        before = contents(folder) if folder else None
        found, out, err = tool(*words)
        self.assertEqual(found, 2, f"{words}\n{out}\n{err}")
        self.assertIn(says, err)
        if folder:
            self.assertEqual(contents(folder), before)


def contents(folder):
    return {str(it.relative_to(folder)): it.read_bytes() for it in sorted(Path(folder).rglob("*")) if it.is_file()}
