"""The program qfix: where it lies, and its commands."""
import csv
import io
import os
import shutil
import subprocess
from dataclasses import dataclass
from pathlib import Path

from .faults import Fault

TOP = Path(__file__).resolve().parent.parent.parent
csv.field_size_limit(2**27)


@dataclass
class Constant:
    """A record of `qfix params`."""

    name: str
    value: int
    statement: int
    offset: int

    @property
    def number(self):
        return int(self.name[1:])


@dataclass
class Final:
    """The table that `qfix replay` printed: its columns (name to int or text), and its rows (name to cells by column)."""

    kinds: dict
    rows: dict


def find(given):
    """The program's path: the one that was given, the one that ./build makes, or `qfix` on PATH; None where there is none."""
    if given:
        if not os.access(given, os.X_OK):
            raise Fault(f"--program: there is no program {given}")
        return str(Path(given).resolve())
    built = TOP / "crates" / "qfix" / "out" / "qfix"
    return str(built) if os.access(built, os.X_OK) else shutil.which("qfix")


class Program:
    def __init__(self, given=None):
        self.path = find(given)

    def run(self, folder, *words):
        """Runs the program in a folder; answers the status, what it said and what it said on standard error."""
        if not self.path:
            raise Fault("there is no program qfix: make it with ./build, or name it with --program PATH")
        try:
            ran = subprocess.run([self.path, *map(str, words)], cwd=folder, capture_output=True)
        except OSError as error:
            raise Fault(f"{self.path} could not be run: {error.strerror}") from error
        return ran.returncode, ran.stdout, ran.stderr.decode(errors="replace").strip()

    def must(self, folder, *words):
        status, said, fault = self.run(folder, *words)
        if status:
            line = said.decode(errors="replace").strip() or fault or f"the status {status}"
            raise Fault(f"qfix {words[0]} in {folder}: {line} (`qfix-db why {folder}` says where)")
        return said.decode()

    def replay(self, folder, initial="initial.csv", log="log.sql"):
        records = list(csv.reader(io.StringIO(self.must(folder, "replay", initial, log), newline="")))
        kinds = dict(name.rsplit(":", 1) for name in records[0][1:])
        return Final(kinds, {it[0]: dict(zip(kinds, it[1:])) for it in records[1:]})

    def params(self, folder, initial="initial.csv", log="log.sql"):
        records = list(csv.reader(io.StringIO(self.must(folder, "params", initial, log), newline="")))
        return [Constant(it[0], int(it[1]), int(it[2]), int(it[3])) for it in records[1:]]
