"""qfix-db domains: ranges for the constants that may change."""
import re

from . import flow, values
from .advise import hints
from .faults import Fault, write_all
from .folder import LIMIT, Folder
from .program import Program
from .where import around

HELP = "domains.csv: by statement, by parameter, or all constants that can matter to the complaints; what to do on `none`"
ABOUT = """Writes domains.csv. Without further words each constant that can matter to the complaints gets a range round its old value; with
--statement or --param only these. The ranges are as wide as --points combinations of all of them allow, or --reach to both sides:

    qfix-db domains DIR --statement 3
    qfix-db domains DIR --param p2=50000..75000 --param p5
    qfix-db domains DIR --reach 1000

A constant that `import` made itself (the mark of NULL) gets none but where it is named. `--none` writes nothing: after the answer `none` it says
which constant alone would repair outside its range, which constants could matter and have no range, which ranges could be wider, and which factors stand in
the way: a factor is no constant that may change."""


def arguments(words):
    words.add_argument("folder", metavar="DIR")
    words.add_argument("--statement", type=int, action="append", default=[], help="the constants of this statement that can matter")
    words.add_argument("--param", action="append", default=[], metavar="pK[=LO..HI]", help="this constant, with its range where given")
    words.add_argument("--points", type=int, default=100000, help="so many combinations at most (100000)")
    words.add_argument("--reach", type=int, help="so far to both sides, in place of --points")
    words.add_argument("--none", action="store_true", help="say what to do after the answer `none`, and write nothing")


class Choice:
    """The folder's constants, and which of them can matter."""

    def __init__(self, folder, program):
        self.folder, self.log, self.map = folder, folder.log(), folder.map()
        self.names, self.rows = folder.initial()
        self.complaints = folder.complaints()
        if not self.complaints:
            raise Fault("there are no complaints: without them no constant matters (`qfix-db complain`)")
        self.final = program.replay(folder.path)
        self.needed = flow.needed(self.log, self.names, self.complaints, self.final)
        self.by_name = {it.name: it for it in self.log.params}

    def is_made(self, param):
        return self.map.params.get(param.name, {}).get("from", 0) is None

    def shown(self, param):
        line, _, _ = self.log.line_of(param.start)
        return f"{param.name}, statement {param.statement}, line {line}: {around(self.log.data, param.start, param.end)}"


def asked(choice, words):
    """The parameters of --param, with their ranges where they have one."""
    made = {}
    for word in words:
        found = re.fullmatch(r"(p?\d+)(?:=(-?\d+)\.\.(-?\d+))?", word)
        if not found:
            raise Fault(f"--param {word}: wanted pK or pK=LO..HI")
        name = "p" + found[1].lstrip("p")
        if name not in choice.by_name:
            raise Fault(f"--param {word}: the log has p1 to p{len(choice.by_name)}")
        old = choice.by_name[name].value
        span = (int(found[2]), int(found[3])) if found[2] else None
        if span and not span[0] <= old <= span[1]:
            raise Fault(f"--param {word}: the range has not the old value {old}")
        if span and max(map(abs, span)) > LIMIT:
            raise Fault(f"--param {word}: the range passes 2^50")
        if choice.by_name[name].number not in choice.needed:
            print(f"{name} can't matter to these complaints")
        made[name] = span
    return made


def chosen(choice, given):
    """The parameters that get a range: name to range, or None where it is to be found."""
    made = asked(choice, given.param)
    for number in given.statement:
        if not 1 <= number <= len(choice.log.statements):
            raise Fault(f"--statement {number}: the log has 1 to {len(choice.log.statements)}")
    if given.statement or not given.param:
        for param in choice.log.params:
            if param.number in choice.needed and not choice.is_made(param) and (not given.statement or param.statement in given.statement):
                made.setdefault(param.name, None)
    if not made:
        raise Fault("no constant that can matter is left" + (" in these statements" if given.statement else ""))
    return dict(sorted(made.items(), key=lambda it: int(it[0][1:])))


def ranged(choice, picked, points, reach):
    """Gives each parameter without a range one round its old value."""
    open_ones = [name for name, span in picked.items() if span is None]
    if reach is None and open_ones:
        for low, high in (span for span in picked.values() if span):
            points //= high - low + 1
        each = 0
        while (2 * (each + 1) + 1) ** len(open_ones) <= points and each < LIMIT:
            each = each * 2 if each and (4 * each + 1) ** len(open_ones) <= points else each + 1
        reach = each
        if reach < 1:
            raise Fault(
                f"{len(picked)} constants are too many for so few points: name a statement or fewer constants, or give --reach. They are {', '.join(list(picked)[:20])}"
            )
    made = {}
    for name, span in picked.items():
        old = choice.by_name[name].value
        kind = choice.map.params.get(name, {}).get("type")
        low, high = span or (max(old - reach, -LIMIT), min(old + reach, LIMIT))
        made[name] = (max(low, 0), min(high, 1)) if kind == "bool" and not span else (low, high)
    return made


def advice_on_none(choice):
    """What can be done after the answer `none`, a line each."""
    domains, lines = choice.folder.domains(), []
    matter = [it for it in choice.log.params if it.number in choice.needed and not choice.is_made(it)]
    lines += hints(choice, choice.rows, matter, domains)
    without = [it for it in matter if it.name not in domains]
    for param in without:
        lines.append(f"no range: {choice.shown(param)}")
    for param in matter:
        if param.name in domains:
            low, high = domains[param.name]
            lines.append(f"widen {low}..{high} (now {param.value}): {choice.shown(param)}")
    columns = flow.seeds(choice.complaints, choice.final)
    for factor in choice.log.factors:
        line, _, _ = choice.log.line_of(factor.start)
        shown = around(choice.log.data, factor.start, factor.end)
        lines.append(f"a factor, which may not change: statement {factor.statement}, line {line}: {shown}")
    if not matter:
        lines.append("no constant can matter to these complaints")
    lines.append(
        "complaints must be complete: a row without one must end as it did, wrong or not. Columns complained of: "
        + ", ".join(sorted("whether a row is there" if it == flow.LIVE else it for it in columns))
    )
    lines.append("where not all wrong rows are known: qfix-db widen")
    return lines


def run(given):
    folder = Folder(given.folder)
    choice = Choice(folder, Program(given.program))
    if given.none:
        print("\n".join(advice_on_none(choice)))
        return 0
    if given.points < 1 or given.reach is not None and given.reach < 1:
        raise Fault("--points and --reach are 1 or more")
    made = ranged(choice, chosen(choice, given), given.points, given.reach)
    text = "param,lo,hi\n" + "".join(f"{name},{low},{high}\n" for name, (low, high) in made.items())
    write_all({folder.path / "domains.csv": text})
    combinations = 1
    for name, (low, high) in made.items():
        combinations *= high - low + 1
        kind = choice.map.params.get(name, {}).get("type", "int")
        shown = "" if kind in ("int", "text") else f" ({values.decode(low, kind)} to {values.decode(high, kind)})"
        print(f"{low}..{high}{shown}  {choice.shown(choice.by_name[name])}")
    print(
        f"{len(made)} of the {len(choice.needed)} constants that can matter have a range ({len(choice.log.params)} in all); {combinations} combinations"
    )
    return 0
