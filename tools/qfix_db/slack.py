"""qfix-db slack: how far each changed constant may be otherwise with the same final table, and its roundest value."""
import datetime

from . import values
from .changes import changed, shown
from .evaluate import GREATEST, LEAST, Evaluator
from .faults import Fault, write_all
from .folder import Folder
from .program import Program

HELP = "for each changed constant the interval in which the final table is the same, and its roundest value"
ABOUT = """The least repair is the nearest constant, not the one that was meant: it may say 60704 where people meant 60000. For each constant that
repaired.sql changes this says between which values, the other constants as repaired, the final table stays exactly as repaired.sql makes
it, and the roundest value there. With --write OUT.sql these roundest values are put in one after another, each with the earlier ones, and
the log is written where qfix replays it to the same table; the least repair stays in repaired.sql."""


def arguments(words):
    words.add_argument("folder", metavar="DIR")
    words.add_argument("--repaired", default="repaired.sql", help="the repaired log in the folder (repaired.sql)")
    words.add_argument("--all", action="store_true", help="the constants that did not change, too")
    words.add_argument("--write", metavar="OUT.sql", help="a log of the folder with the roundest values")


def digits(value):
    """The count of a number's digits but the zeros at its end."""
    return len(str(abs(value)).rstrip("0")) or 1


def roundest(low, high, near, kind="int"):
    """The value of an interval that has the fewest digits but zeros at its end, the nearest to another among these; of days the first
    of a year, else of a month."""
    tries = {near}
    if kind in ("date", "time", "zoned"):
        tries |= round_days(low, high, near, 1 if kind == "date" else 86400)
        return min(tries, key=lambda it: (day_roughness(it, kind), abs(it - near)))
    for power in range(17):
        step = 10**power
        tries |= {near // step * step, -(-near // step) * step, high // step * step, -(-low // step) * step}
    return min((it for it in tries if low <= it <= high), key=lambda it: (digits(it), abs(it - near)))


def round_days(low, high, near, unit):
    made = set()
    for first in ((1, 1), None):
        day = values.EPOCH + datetime.timedelta(days=max(min(near // unit, 2900000), -700000))
        for year in (day.year, day.year + 1):
            for month in range(1, 13):
                if first is None or month == 1:
                    made.add((datetime.date(year, month, 1) - values.EPOCH).days * unit)
    made |= {near // unit * unit, -(-near // unit) * unit}
    return {it for it in made if low <= it <= high}


def day_roughness(value, kind):
    seconds = value * (86400 if kind == "date" else 1)
    if seconds % 86400:
        return 3 if seconds % 3600 == 0 else 4
    day = values.EPOCH + datetime.timedelta(days=seconds // 86400)
    return 0 if (day.month, day.day) == (1, 1) else 1 if day.day == 1 else 2


def span_text(param, low, high, found, folder_map):
    low_text = "any value down" if low <= LEAST else shown(param, low, folder_map)
    high_text = "any value up" if high >= GREATEST else shown(param, high, folder_map)
    return f"{low_text} to {high_text}" + ("" if found else " at least (the search ended)")


def run(given):
    folder, program = Folder(given.folder), Program(given.program)
    old, new = folder.log(), folder.log(given.repaired)
    folder_map = folder.map()
    pairs = [(it, it2) for it, it2 in zip(old.params, new.params)] if given.all else changed(old, new)
    final = program.replay(folder.path, log=given.repaired)
    _, rows = folder.initial()
    constants = {it.number: it.value for it in new.params}
    evaluator = Evaluator(new, rows, final.kinds)
    if evaluator.table(constants) != final.rows:
        raise Fault("qfix and this tool replay the log otherwise; please tell its author")
    for one, other in pairs:
        low, high, found = evaluator.same_round(constants, other.number)
        kind = folder_map.params.get(other.name, {}).get("type", "int")
        best = roundest(low, high, other.value, kind)
        change = shown(one, one.value, folder_map) + ("" if one.value == other.value else f" -> {shown(other, other.value, folder_map)}")
        round_one = "" if one.value == other.value else f"; roundest {shown(other, best, folder_map)}"
        print(
            f"{other.name} (statement {other.statement}): {change}; the same table from {span_text(other, low, high, found, folder_map)}{round_one}"
        )
        if given.write and one.value != other.value:
            constants[other.number] = best
    if given.write:
        if given.write in ("log.sql", given.repaired):
            raise Fault(f"--write {given.write} would take the place of a log that is needed")
        write_same(folder, program, old, constants, final, given.write)
    return 0


def write_same(folder, program, old, constants, final, name):
    """Writes the log with these constants, where qfix replays it to the same table; else leaves things as they were."""
    path = folder.path / name
    before = path.read_bytes() if path.is_file() else None
    write_all({path: old.with_constants(constants)})
    try:
        made = program.replay(folder.path, log=name)
    except Fault:
        made = None
    if made is None or made.rows != final.rows:
        if before is None:
            path.unlink()
        else:
            write_all({path: before})
        raise Fault("with the roundest values qfix does not replay the log to the same table; nothing was written")
    print(f"{path} has the roundest values; qfix replays it to the same table")
