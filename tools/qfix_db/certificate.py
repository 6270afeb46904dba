"""A certificate's tree, as a person looks at it. Whether it is valid is for `qfix check` to say."""
import re
from dataclasses import dataclass, field

from .faults import Fault


@dataclass
class Box:
    """A box of constants: `kind` is split, refuted, dear or open; `spans` goes from a parameter's number to its values in the box."""

    kind: str
    spans: dict
    row: str = None
    param: int = None
    cut: int = None
    steps: int = 0
    parts: list = field(default_factory=list)

    def count(self):
        return 1 + sum(it.count() for it in self.parts)

    def leaves(self):
        return [self] if not self.parts else [leaf for it in self.parts for leaf in it.leaves()]

    def cost(self, olds):
        """The cost of the cheapest constants of the box."""
        return sum(max(low - olds[number], olds[number] - high, 0) for number, (low, high) in self.spans.items())


class Reader:
    def __init__(self, data, spans):
        self.lines = data.decode("ascii", "replace").split("\n")
        self.at, self.spans = 2, spans
        head = self.lines[0].strip() == "qfix-cert 1" and len(self.lines) > 2 and self.lines[1].startswith("answer ")
        if not head:
            raise Fault("the certificate has not the form that this tool reads")
        words = self.lines[1].split()
        self.answer, self.values = words[1], [int(it) for it in words[2:]]

    def next(self):
        if self.at >= len(self.lines):
            raise Fault("the certificate is cut short")
        self.at += 1
        return self.lines[self.at - 1]

    def tree(self):
        """Reads a tree without recursion, for it may be deep."""
        root = Box("", dict(self.spans))
        waiting = [root]
        while waiting:
            box = waiting.pop()
            line = self.next()
            found = re.fullmatch(r"split p(\d+) (-?\d+) ([ri]\d+)", line)
            if found:
                box.kind, box.param, box.cut, box.row = "split", int(found[1]), int(found[2]), found[3]
                low, high = box.spans.get(box.param, (box.cut, box.cut + 1))
                box.parts = [Box("", {**box.spans, box.param: (low, box.cut)}), Box("", {**box.spans, box.param: (box.cut + 1, high)})]
                waiting += [box.parts[1], box.parts[0]]
            elif line in ("dear", "open"):
                box.kind = line
            elif line.startswith("refuted "):
                box.kind, box.row = "refuted", line.split()[1]
                box.steps = self.refutation()
            else:
                raise Fault(f"line {self.at} of the certificate has not the form that this tool reads")
        return root

    def refutation(self):
        steps, open_cases = 0, 1
        while open_cases:
            line = self.next()
            if line == "empty":
                open_cases -= 1
            elif line.startswith("case "):
                open_cases += 1
            elif not line.startswith(("ge ", "le ")):
                raise Fault(f"line {self.at} of the certificate has not the form that this tool reads")
            steps += line != "empty"
        return steps
