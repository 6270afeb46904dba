"""Pictures of a certificate as SVG: the tree of boxes, and the line of one constant's values."""
from html import escape

HEIGHT, INDENT, GAP, LETTER = 62, 14, 8, 7.9
BOLD = ' class="b"'
COLOURS = {
    "split": ("#ffffff", "#8a94a6"),
    "refuted": ("#fbe3e0", "#b3372b"),
    "dear": ("#e9eef5", "#5b6b82"),
    "open": ("#fff3d1", "#a87400"),
    "folded": ("#f7f7f7", "#8a94a6"),
}


def rows_of(tree, most):
    """The boxes to draw, each with its depth and its parent's place; below the depth at which they would be more than `most`, folded."""
    depth = 1
    while depth < 40 and count_to(tree, depth + 1) <= most and count_to(tree, depth + 1) > count_to(tree, depth):
        depth += 1
    made, waiting = [], [(tree, 0, None)]
    while waiting:
        box, level, parent = waiting.pop()
        folded = bool(box.parts) and level >= depth
        made.append((box, level, parent, folded))
        if box.parts and not folded:
            place = len(made) - 1
            waiting += [(box.parts[1], level + 1, place), (box.parts[0], level + 1, place)]
    return made


def count_to(tree, depth):
    """How many boxes have at most this depth."""
    count, level = 0, [tree]
    for _ in range(depth + 1):
        count += len(level)
        level = [part for it in level for part in it.parts]
    return count


def tree_picture(tree, told, most=31):
    """The tree as SVG, a box below the other. `told(box, folded)` gives the three lines and the title of a box."""
    rows = rows_of(tree, most)
    texts = [told(box, folded) for box, _, _, folded in rows]
    letters = min(max(36, *(len(line) for it in texts for line in it[:3])), 76)
    wide, deepest = int(letters * LETTER) + 20, max(level for _, level, _, _ in rows)
    width, height = wide + deepest * INDENT + 4, len(rows) * (HEIGHT + GAP) + 4
    made = [f'<svg viewBox="0 0 {width} {height}" width="{width}" height="{height}" role="img" aria-label="the tree of the certificate">']
    for place, (box, level, parent, folded) in enumerate(rows):
        x, y = 2 + level * INDENT, 2 + place * (HEIGHT + GAP)
        if parent is not None:
            above = 2 + parent * (HEIGHT + GAP) + HEIGHT
            made.append(f'<path d="M{x - INDENT / 2} {above}V{y + HEIGHT / 2}H{x}" fill="none" stroke="#8a94a6" stroke-width="1.5"/>')
        fill, line = COLOURS["folded" if folded else box.kind]
        made.append(
            f'<g><title>{escape(texts[place][3])}</title><rect x="{x}" y="{y}" width="{wide}" height="{HEIGHT}" rx="6" fill="{fill}" stroke="{line}"/>'
        )
        for number, text in enumerate(texts[place][:3]):
            made.append(f'<text x="{x + 10}" y="{y + 18 + 18 * number}"{"" if number else BOLD}>{escape(cut(text, letters))}</text>')
        made.append("</g>")
    return "".join(made) + "</svg>"


def cut(text, most):
    return text if len(text) <= most else text[: most - 2].rstrip() + " …"


def line_picture(span, old, new, leaves, shown):
    """The values of one constant as a line, as wide as its place: what was refuted, what is dear, the old value and the new one."""
    low, high = span

    def x(value):
        return 1 + 98 * (value - low) / max(high - low, 1)

    made = ['<svg width="100%" height="94" role="img" aria-label="the values of the constant">']
    for kind, (start, end) in leaves:
        fill, line = COLOURS[kind]
        begin, stop = x(start), max(x(min(end + 1, high)), x(start) + 0.3)
        made.append(f'<rect x="{begin:.2f}%" y="34" width="{stop - begin:.2f}%" height="22" fill="{fill}" stroke="{line}" stroke-width="0.8"/>')
    marks = [(old, "was " + shown(old), "#b3372b", 20)] + ([(new, "now " + shown(new), "#1b7a3d", 75)] if new is not None else [])
    for value, text, colour, y in marks:
        at = x(value)
        anchor = "start" if at < 20 else "end" if at > 80 else "middle"
        made.append(f'<line x1="{at:.2f}%" x2="{at:.2f}%" y1="28" y2="62" stroke="{colour}" stroke-width="2.5"/>')
        made.append(f'<text x="{at:.2f}%" y="{y}" text-anchor="{anchor}" style="fill:{colour}"{BOLD}>{escape(text)}</text>')
    made.append(
        f'<text x="1%" y="91" class="s">{escape(shown(low))}</text><text x="99%" y="91" text-anchor="end" class="s">{escape(shown(high))}</text>'
    )
    return "".join(made) + "</svg>"
