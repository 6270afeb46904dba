"""qfix-db solve: runs qfix diagnose and says what changed, in the words of the real log."""
from .changes import changed, real_statement, shown
from .domains import Choice, advice_on_none
from .faults import Fault, write_all
from .folder import Folder
from .language import Log
from .program import Program
from .why import explain

HELP = "runs `qfix diagnose` on the folder, keeps repaired.sql, and says what changed in the words of the real log"
ABOUT = """Runs `qfix diagnose` on the folder's files. Where there is a repair, repaired.sql is written (never half), and each changed constant and
statement is shown, old and new. The certificate, where qfix puts one, is answer.cert: qfix puts it first under another name, and it is kept
only where qfix's own status says that it is whole. Else what to do next is said, and repaired.sql stays as it was. The status is qfix's own."""
CERT, NEW = "answer.cert", ".answer.cert.new"


def arguments(words):
    words.add_argument("folder", metavar="DIR")
    words.add_argument("--budget", type=int, default=100000, help="the search's budget, 1 to 1000000 (100000)")


def told(log, repaired, folder_map):
    """What changed, a line for each constant and two for each statement."""
    lines, by_statement = [], {}
    for old, new in changed(log, repaired):
        lines.append(f"{old.name}: {shown(old, old.value, folder_map)} -> {shown(new, new.value, folder_map)}  (statement {old.statement})")
        by_statement.setdefault(old.statement, {})[old.name] = new.value
    for number, news in by_statement.items():
        if folder_map.statements:
            one, other = real_statement(folder_map, number, news)
            lines.append(f"{folder_map.statements[number - 1]['place']}:")
        else:
            one, other = (it.data[it.statements[number - 1].start : it.statements[number - 1].end].decode(errors="replace") for it in (log, repaired))
        lines += [f"- {' '.join(one.split())}", f"+ {' '.join(other.split())}"]
    return lines or ["nothing changes: the log already does what is asked"]


def run(given):
    folder, program = Folder(given.folder), Program(given.program)
    folder.must_be_compared()
    if not 1 <= given.budget <= 1000000:
        raise Fault("--budget is 1 to 1000000")
    for name in ("initial.csv", "log.sql", "complaints.json"):
        folder.read(name)
    if not folder.has("domains.csv"):
        raise Fault(f"{folder.path} has no domains.csv (`qfix-db domains`)")
    new = folder.path / NEW
    try:
        status, said, fault = program.run(folder.path, "diagnose", "initial.csv", "log.sql", "complaints.json", "domains.csv", given.budget, NEW)
        files = {folder.path / CERT: new.read_bytes()} if new.is_file() and status in (0, 1, 2) else {}
    finally:
        new.unlink(missing_ok=True)
    if status == 0:
        lines = told(folder.log(), Log(said), folder.map())
        write_all({folder.path / "repaired.sql": said, **files})
        print("\n".join(lines))
        return 0
    write_all(files)
    print(said.decode(errors="replace").strip() or fault or f"the status {status}")
    if status == 1:
        print("\n".join(advice_on_none(Choice(folder, program))))
    elif status == 2:
        print("the budget ended first: give a greater --budget, fewer constants or narrower ranges (`qfix-db domains`)")
    elif status == 3:
        print("\n".join(explain(folder, said.decode().strip())))
    return status
