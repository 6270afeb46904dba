"""qfix-db report: one HTML page about an answer, with nothing from outside."""
import json
from html import escape
from pathlib import Path

from . import flow
from .apply import unmet
from .certificate import Reader
from .changes import changed, real_statement, rows_changed, shown
from .faults import Fault, write_all
from .folder import Folder
from .picture import line_picture, tree_picture
from .program import Program

HELP = "one HTML page: the inputs, what changed in the log and in the rows, and the certificate's tree as a picture"
ABOUT = """Writes one HTML page that needs nothing from outside: what changed in the log (old and new), the rows before and after, why nothing cheaper
serves (the certificate's tree of boxes, with each box's constants, its least cost and the row that refutes it; large trees are folded), and
the four inputs at a glance. Where the folder has no repaired.sql the answer is taken to be that no constants repair. The certificate is
answer.cert of the folder, where it is there; what `qfix check` says of it stands on the page."""
MOST_ROWS, MOST_LIST = 60, 2000

STYLE = """
:root{color-scheme:light}*{box-sizing:border-box}body{font:16px/1.5 system-ui,sans-serif;color:#1c2430;background:#f4f6f9;margin:0}
main{max-width:64rem;margin:0 auto;padding:1rem}section{background:#fff;border:1px solid #dbe1ea;border-radius:8px;padding:1rem 1.25rem;margin:1rem 0}
h1{font-size:1.5rem;margin:.5rem 0}h2{font-size:1.15rem;margin:0 0 .6rem}p{margin:.4rem 0}code,pre,td,th,svg text{font-family:ui-monospace,monospace;font-size:13px}
pre{white-space:pre-wrap;overflow-wrap:anywhere;background:#f7f9fc;border-left:4px solid #8a94a6;padding:.5rem .75rem;margin:.4rem 0}
pre.old{border-color:#b3372b;background:#fdf4f3}pre.new{border-color:#1b7a3d;background:#f2faf5}
pre.old b,del{background:#f6c9c4;text-decoration:none;font-weight:700}pre.new b,ins{background:#bfe6cb;text-decoration:none;font-weight:700}
.wide{overflow-x:auto}table{border-collapse:collapse}td,th{border-bottom:1px solid #dbe1ea;padding:.2rem .6rem;text-align:left;white-space:nowrap}
th{color:#5b6b82;font-weight:600}.big{font-size:1.1rem}.good{color:#1b7a3d}.bad{color:#b3372b}.quiet{color:#5b6b82}svg{display:block}svg text{fill:#1c2430}
svg .b{font-weight:700}svg .s{fill:#5b6b82;font-size:12px}.key span{display:inline-block;padding:0 .5rem;margin:0 .5rem .2rem 0;border:1px solid;border-radius:4px}
details{margin:.2rem 0 .2rem 1rem}summary{cursor:pointer}details p{margin:.1rem 0 .1rem 1rem}
"""


def arguments(words):
    words.add_argument("folder", metavar="DIR")
    words.add_argument("--out", metavar="HTML", help="the page (report.html in the folder)")
    words.add_argument("--repaired", default="repaired.sql", help="the repaired log in the folder (repaired.sql)")
    words.add_argument("--cert", default="answer.cert", help="the certificate in the folder (answer.cert)")
    words.add_argument("--title", help="the page's title")


def count(number, one, many=None):
    return f"{number} {one if number == 1 else many or one + 's'}"


class Report:
    def __init__(self, given):
        self.folder, self.program, self.given = Folder(given.folder), Program(given.program), given
        folder = self.folder
        self.map, self.log, self.complaints, self.domains = folder.map(), folder.log(), folder.complaints(), folder.domains()
        self.names, self.first = folder.initial()
        self.before = self.program.replay(folder.path)
        self.repaired = folder.log(given.repaired) if folder.has(given.repaired) else None
        self.after = self.program.replay(folder.path, log=given.repaired) if self.repaired else None
        faults = unmet(self.complaints, self.after) if self.after else []
        if faults:
            raise Fault(f"{given.repaired} is no answer to complaints.json ({faults[0]}); was it kept from an earlier question?")
        self.changed = changed(self.log, self.repaired) if self.repaired else []
        self.news = {old.number: new.value for old, new in self.changed}
        # (without map.json the first column whose cells are all different serves as the key)
        distinct = [it for it in self.names if len({row[it] for row in self.first.values()}) == len(self.first) > 1]
        self.key = self.map.key.split(",") if self.map.key else distinct[:1]
        self.needed = flow.needed(self.log, self.names, self.complaints, self.before)
        self.tree, self.verdict = self.certificate()

    def certificate(self):
        if not self.folder.has(self.given.cert):
            return None, None
        words = ["check", "initial.csv", "log.sql", "complaints.json", "domains.csv", self.given.cert]
        status, said, fault = self.program.run(self.folder.path, *words)
        spans = {it.number: self.domains[it.name] for it in self.log.params if it.number in self.needed and it.name in self.domains}
        reader = Reader(self.folder.read(self.given.cert), spans)
        stated = dict(enumerate(reader.values, 1))
        if self.repaired and stated and stated != {it.number: it.value for it in self.repaired.params}:
            raise Fault(f"{self.given.cert} states other constants than {self.given.repaired}")
        return reader.tree(), (status, said.decode(errors="replace").strip() or fault)

    # ---- words

    def param(self, number):
        return self.log.params[number - 1]

    def value(self, number, value):
        return shown(self.param(number), value, self.map)

    def row(self, name):
        """A row's name with its key, or with its first cell."""
        cells = self.first.get(name) or self.before.rows.get(name) or (self.after.rows.get(name) if self.after else None)
        return f"{name} ({', '.join(f'{it} {cells[it]}' for it in self.key)})" if cells and self.key else name

    def spans(self, box):
        """The constants of a box: those that have more than one value at the top."""
        parts = []
        for number, (low, high) in sorted(box.spans.items()):
            top = self.tree.spans[number]
            if top[0] < top[1]:
                parts.append(
                    f"p{number} {self.value(number, low)} to {self.value(number, high)}" if low < high else f"p{number} = {self.value(number, low)}"
                )
        return ", ".join(parts) or "the old constants alone"

    def told(self, box, folded=False):
        """The three lines of a box and its title."""
        olds = {it.number: it.value for it in self.log.params}
        cost = f"cost {box.cost(olds)} or more"
        if folded:
            second = f"{count(box.count() - 1, 'box', 'boxes')} below: see the list"
        elif box.kind == "split":
            second = f"cut at p{box.param} = {self.value(box.param, box.cut)}"
        elif box.kind == "refuted":
            second = f"row {self.row(box.row)} can't come out right"
        elif box.kind == "dear":
            second = "nothing cheaper than the answer"
        else:
            second = "not searched"
        return self.spans(box), cost, second, f"{box.kind}; {self.spans(box)}; {cost}; {second}"

    # ---- parts of the page

    def summary(self):
        rows = rows_changed(self.before, self.after) if self.after else {}
        complained = {it.get("row") for it in self.complaints}
        if self.repaired is None:
            return (
                '<p class="big bad">No constants within the ranges repair the log.</p>'
                + f"<p>{count(len(self.complaints), 'row is', 'rows are')} complained of; some row can't come out right whatever the constants are.</p>"
            )
        if not self.changed:
            return '<p class="big good">Nothing has to change: the log does what is asked.</p>'
        cost = sum(abs(new.value - old.value) for old, new in self.changed)
        others = [it for it in rows if it not in complained]
        lines = [f'<p class="big good">{count(len(self.changed), "constant")} of {len(self.log.params)} must change, by {cost} in all.</p>']
        lines.append(
            f"<p>{count(len(self.complaints), 'row')} complained of; {count(len(rows), 'row ends', 'rows end')} otherwise than before, {'none' if not others else len(others)} of them without a complaint.</p>"
        )
        return "".join(lines)

    def statements(self):
        made = []
        for number in sorted({old.statement for old, _ in self.changed}):
            olds = [(old, new) for old, new in self.changed if old.statement == number]
            changes = ", ".join(
                f"{old.name}: {escape(shown(old, old.value, self.map))} → {escape(shown(new, new.value, self.map))}" for old, new in olds
            )
            place = self.map.statements[number - 1]["place"] if self.map.statements else f"line {self.log.line_of(olds[0][0].start)[0]}"
            one, other = self.pair(number, olds)
            made.append(
                f'<p><b>{changes}</b> <span class="quiet">statement {number}, {escape(place)}</span></p><pre class="old">{one}</pre><pre class="new">{other}</pre>'
            )
        return "".join(made) or "<p>No statement changes.</p>"

    def pair(self, number, olds):
        """The statement before and after, its changed constants marked; in the real log's words where they are known."""
        if self.map.statements:
            sql, other = real_statement(self.map, number, {old.name: new.value for old, new in olds})
            return self.marked(sql, other)
        one, other = self.log.statements[number - 1], self.repaired.statements[number - 1]
        return mark(self.log.data, one.start, one.end, [it for it, _ in olds]), mark(
            self.repaired.data, other.start, other.end, [it for _, it in olds]
        )

    def marked(self, one, other):
        """Marks what differs between two texts: their middle, without their common ends."""
        lead = 0
        while lead < min(len(one), len(other)) and one[lead] == other[lead]:
            lead += 1
        tail = 0
        while tail < min(len(one), len(other)) - lead and one[-1 - tail] == other[-1 - tail]:
            tail += 1
        while lead and (one[lead - 1].isalnum() or one[lead - 1] in ".-"):
            lead -= 1
        while tail and (one[len(one) - tail].isalnum() or one[len(one) - tail] in ".-"):
            tail -= 1
        return tuple(f"{escape(it[:lead])}<b>{escape(it[lead : len(it) - tail])}</b>{escape(it[len(it) - tail :])}" for it in (one, other))

    def rows(self):
        if self.after is None:
            return self.wanted()
        rows = rows_changed(self.before, self.after)
        complained = {it.get("row") for it in self.complaints}
        columns = self.map.columns(self.before.kinds)
        head = "".join(f"<th>{escape(self.map.real.get(it, it))}</th>" for it in columns)
        made = []
        for name, (one, other) in list(rows.items())[:MOST_ROWS]:
            cells = []
            for column in columns:
                old, new = (self.map.shown(column, it, self.before.kinds) if it else None for it in (one, other))
                cells.append(
                    f"<td>{escape(old)}</td>"
                    if old == new
                    else "<td>"
                    + (f"<del>{escape(old)}</del>" if old is not None else "")
                    + (" " if None not in (old, new) else "")
                    + (f"<ins>{escape(new)}</ins>" if new is not None else "")
                    + "</td>"
                )
            what = "comes back" if one is None else "goes" if other is None else "changes"
            made.append(f"<tr><td>{name}</td>{''.join(cells)}<td>{what}{'' if name in complained else ', without a complaint'}</td></tr>")
        more = f"<p>and {len(rows) - MOST_ROWS} more</p>" if len(rows) > MOST_ROWS else ""
        stay = len(self.before.rows) - sum(1 for one, _ in rows.values() if one is not None)
        return f'<div class="wide"><table><tr><th>row</th>{head}<th></th></tr>{"".join(made)}</table></div>{more}<p class="quiet">The other {count(stay, "row")} of the final table stay as they are.</p>'

    def wanted(self):
        """What was asked, where there is no repair."""
        made = []
        for complaint in self.complaints[:MOST_ROWS]:
            row = self.before.rows.get(complaint["row"])
            asked = (
                "gone"
                if complaint.get("state") == "absent"
                else ", ".join(f"{it} {value}" for it, value in complaint.get("set", {}).items()) or "there"
            )
            now = "gone" if row is None else ", ".join(f"{it} {row.get(it.lower(), '')}" for it in complaint.get("set", {})) or "there"
            made.append(f"<tr><td>{escape(self.row(complaint['row']))}</td><td><del>{escape(now)}</del></td><td><ins>{escape(asked)}</ins></td></tr>")
        factors = "".join(
            f"<li>statement {it.statement}: the factor {it.value} of {escape(it.column)} is no constant that may change</li>"
            for it in self.log.factors
        )
        return f'<div class="wide"><table><tr><th>row</th><th>is</th><th>should be</th></tr>{"".join(made)}</table></div>' + (
            f"<ul>{factors}</ul>" if factors else ""
        )

    def why(self):
        if self.tree is None:
            return '<p class="quiet">There is no certificate in the folder.</p>'
        status, said = self.verdict
        lines = [
            f'<p>qfix check: <b class="{"good" if status == 0 else "bad"}">{escape(said)}</b>. {self.proves()} The ranges were cut into {count(len(self.tree.leaves()), "box", "boxes")}.</p>'
        ]
        lines.append(
            '<p class="key"><span style="background:#fbe3e0">refuted</span>a row can\'t come out right there. <span style="background:#e9eef5">dear</span>nothing there is cheaper than the answer.</p>'
        )
        open_ones = [number for number, (low, high) in self.tree.spans.items() if low < high]
        if len(open_ones) == 1:
            number = open_ones[0]
            leaves = [(it.kind, it.spans[number]) for it in self.tree.leaves()]
            old = self.param(number).value
            new = self.news.get(number, old) if self.repaired else None
            lines.append(
                f"<p>The values of p{number}:</p><div>{line_picture(self.tree.spans[number], old, new, leaves, lambda it: self.value(number, it))}</div><p>The boxes, each cut into those below it:</p>"
            )
        lines.append(f'<div class="wide">{tree_picture(self.tree, self.told)}</div>')
        if self.tree.count() > 31:
            lines.append(f"<details><summary>All {self.tree.count()} boxes as a list</summary>{self.listed()}</details>")
        return "".join(lines)

    def proves(self):
        """What an accepted certificate says, in a sentence."""
        status, said = self.verdict
        if status or not said.startswith("accepted: "):
            return "Nothing below is to be believed."
        if said.startswith("accepted: repair"):
            return "It is proved that these constants repair, and that no others within the ranges cost less."
        return (
            "It is proved that no constants within the ranges repair."
            if said == "accepted: none"
            else "It is proved that no repair costs less than that."
        )

    def listed(self):
        """All boxes as nested lists that open, up to a count."""
        made, waiting, left = [], [self.tree], MOST_LIST
        while waiting:
            box = waiting.pop()
            if isinstance(box, str):
                made.append(box)
                continue
            left -= 1
            first, cost, second, _ = self.told(box)
            if left < 0:
                continue
            if box.parts:
                made.append(f"<details><summary>{escape(first)} — {cost}: {escape(second)}</summary>")
                waiting += ["</details>", box.parts[1], box.parts[0]]
            else:
                made.append(f"<p>{escape(first)} — {cost}: {escape(second)}</p>")
        return "".join(made) + (f"<p>and {-left} more</p>" if left < 0 else "")

    def inputs(self):
        header = "".join(f"<th>{escape(it)}</th>" for it in self.names)
        some = "".join(
            "<tr>" + f"<td>{name}</td>" + "".join(f"<td>{escape(row[it][:40])}</td>" for it in self.names) + "</tr>"
            for name, row in list(self.first.items())[:5]
        )
        log = escape(self.log.data.decode(errors="replace")[:4000]) + ("\n.." if len(self.log.data) > 4000 else "")
        complaints = "\n".join(escape(json.dumps(it, ensure_ascii=False)) for it in self.complaints[:20]) + (
            f"\n.. {len(self.complaints)} in all" if len(self.complaints) > 20 else ""
        )
        domains = "".join(
            f"<tr><td>{name}</td><td>{escape(self.value(int(name[1:]), self.param(int(name[1:])).value))}</td><td>{escape(self.value(int(name[1:]), low))}</td><td>{escape(self.value(int(name[1:]), high))}</td></tr>"
            for name, (low, high) in self.domains.items()
        )
        return (
            f'<details open><summary>The table before: {count(len(self.first), "row")}, {count(len(self.names), "column")}</summary><div class="wide"><table><tr><th>row</th>{header}</tr>{some}</table></div></details>'
            f'<details><summary>The log: {count(len(self.log.statements), "statement")}, {count(len(self.log.params), "constant")}</summary><pre>{log}</pre></details>'
            f'<details><summary>{count(len(self.complaints), "complaint")}</summary><pre>{complaints}</pre></details>'
            f'<details><summary>The ranges of {count(len(self.domains), "constant")}</summary><div class="wide"><table><tr><th></th><th>old</th><th>from</th><th>to</th></tr>{domains}</table></div></details>'
        )

    def page(self):
        title = escape(self.given.title or f"What was wrong in the log of {self.map.table or self.folder.path.resolve().name}")
        parts = [("What must change in the log" if self.repaired else "What was asked", self.statements() if self.repaired else self.rows())]
        if self.repaired:
            parts.append(("The rows before and after", self.rows()))
        parts.append(("Why nothing cheaper serves" if self.repaired else "Why nothing serves", self.why()))
        parts.append(("The four inputs", self.inputs()))
        body = "".join(f"<section><h2>{name}</h2>{text}</section>" for name, text in parts)
        head = f'<!DOCTYPE html><html lang="en"><head><meta charset="utf-8"><meta name="viewport" content="width=device-width,initial-scale=1"><title>{title}</title><style>{STYLE}</style></head>'
        return f"{head}<body><main><h1>{title}</h1>{self.summary()}{body}</main></body></html>\n"


def mark(data, start, end, params):
    """A statement's text with its constants marked."""
    made, at = "", start
    for param in params:
        made += (
            escape(data[at : param.start].decode(errors="replace")) + "<b>" + escape(data[param.start : param.end].decode(errors="replace")) + "</b>"
        )
        at = param.end
    return made + escape(data[at:end].decode(errors="replace"))


def run(given):
    report = Report(given)
    out = Path(given.out) if given.out else report.folder.path / "report.html"
    write_all({out: report.page()})
    print(f"{out} written")
    return 0
