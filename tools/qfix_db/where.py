"""qfix-db where: each constant with its statement, line and text, the constant in brackets."""
import re

from .faults import Fault
from .folder import Folder
from .program import Program

HELP = "each constant of the log with its statement, line and text, the constant in brackets"
ABOUT = """Prints a line for each constant of the log that may change:

    p2 = 65000  statement 1, line 2: .. AND salary < [65000];

Where the folder has a map.json of `import`, the real log's place, text and value follow. Factors of columns are no constants that may
change; --factors lists them too."""


def arguments(words):
    words.add_argument("folder", metavar="DIR")
    words.add_argument("--log", default="log.sql", help="another log of the folder, as repaired.sql")
    words.add_argument("--statement", type=int, action="append", help="only constants of this statement (may be given again)")
    words.add_argument("--made", action="store_true", help="the constants that `import` made itself too, as the marks of NULL")
    words.add_argument("--factors", action="store_true", help="the factors too, which may not change")


def around(data, start, end, before=40, after=20):
    """The text round some bytes, on its line, with brackets round them."""
    first = data.rfind(b"\n", 0, start) + 1
    last = data.find(b"\n", end)
    last = len(data) if last < 0 else last
    lead, tail = data[first:start].decode(errors="replace"), data[end:last].decode(errors="replace").rstrip()
    lead = lead if len(lead) <= before else ".. " + lead[-before:].lstrip()
    tail = tail if len(tail) <= after else tail[:after].rstrip() + " .."
    return f"{lead.lstrip()}[{data[start:end].decode(errors='replace')}]{tail}"


def numeral_end(data, start):
    return re.compile(rb"-?[ \t\r\n]*[0-9]+").match(data, start).end()


def real_line(folder_map, name):
    """The constant in the real log's statement, where map.json has it."""
    place = folder_map.params.get(name)
    if not place or place.get("from") is None:
        return "made by import" if place else None
    statement = folder_map.statements[place["statement"] - 1]
    shown = around(statement["sql"].encode(), place["from"], place["to"])
    return f"{statement['place']} of the real log: {shown}"


def run(given):
    folder = Folder(given.folder)
    constants = Program(given.program).params(folder.path, log=given.log)
    data, folder_map = folder.read(given.log), folder.map()
    log = folder.log(given.log)
    if [(it.start, it.value) for it in log.params] != [(it.offset, it.value) for it in constants]:
        raise Fault("qfix and this tool read the constants of the log otherwise; please tell its author")
    for constant in constants:
        made = folder_map.params.get(constant.name, {}).get("from", 0) is None
        if given.statement and constant.statement not in given.statement or made and not given.made:
            continue
        line, _, _ = log.line_of(constant.offset)
        end = numeral_end(data, constant.offset)
        print(f"{constant.name} = {constant.value}  statement {constant.statement}, line {line}: {around(data, constant.offset, end)}")
        real = real_line(folder_map, constant.name)
        if real:
            print(f"    {real}")
    for factor in log.factors if given.factors else []:
        if not given.statement or factor.statement in given.statement:
            line, _, _ = log.line_of(factor.start)
            print(f"factor {factor.value} of {factor.column}  statement {factor.statement}, line {line}: {around(data, factor.start, factor.end)}")
    return 0
