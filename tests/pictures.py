"""Draws the pictures of docs/ from their texts: docs/exchange.svg from docs/exchange.txt, and docs/directions.svg from docs/directions.txt.

usage: pictures.py [--check], which draws nothing and says whether the pictures are what the texts make.
"""
import html
import pathlib
import re
import sys

from usage import arguments

DOCS = pathlib.Path(__file__).resolve().parent.parent / "docs"
NAMES = ["exchange", "directions"]
INK, QUIET, CAME, MADE, PAPER = "#1f262d", "#5f6b76", "#0b62a4", "#c2571a", "#ffffff"
MARGIN, TITLE = 24, 64


def text(x, y, words, fill=INK, anchor="middle", more=""):
    return f'<text x="{x:g}" y="{y:g}" fill="{fill}" text-anchor="{anchor}"{more}>{html.escape(words, quote=False)}</text>'


def lines(x, y, words, **settings):
    """Lines of text, the middle of them at y."""
    parts = words.split(" / ")
    return [text(x, y + 4.5 + 16 * (at - (len(parts) - 1) / 2), part, **settings) for at, part in enumerate(parts)]


def box(x, y, width, height, fill=PAPER, stroke=INK):
    """A box with its middle at a point."""
    return f'<rect x="{x - width / 2:g}" y="{y - height / 2:g}" width="{width:g}" height="{height:g}" rx="6" fill="{fill}" stroke="{stroke}"/>'


def arrow(points, stroke):
    """A line through the points, with a head at the last one."""
    (x0, y0), (x, y) = points[-2:]
    length = ((x - x0) ** 2 + (y - y0) ** 2) ** 0.5
    dx, dy = (x - x0) / length, (y - y0) / length
    path = " ".join(f"{a:.1f},{b:.1f}" for a, b in [*points[:-1], (x - 8 * dx, y - 8 * dy)])
    head = " ".join(f"{x - 10 * dx + side * dy:.1f},{y - 10 * dy - side * dx:.1f}" for side in (-4.5, 4.5))
    return [
        f'<polyline points="{path}" fill="none" stroke="{stroke}" stroke-width="1.6"/>',
        f'<polygon points="{x:.1f},{y:.1f} {head}" fill="{stroke}"/>',
    ]


def picture(title, width, height, parts):
    first = (
        f'<svg xmlns="http://www.w3.org/2000/svg" viewBox="0 0 {width} {height}" width="{width}" height="{height}" '
        f'font-family="sans-serif" font-size="13">'
    )
    heading = text(MARGIN, 34, title, anchor="start", more=' font-size="16"')
    paper = f'<rect width="100%" height="100%" fill="{PAPER}"/>'
    return "\n".join([first, f"<title>{html.escape(title)}</title>", paper, heading, *parts, "</svg>"]) + "\n"


def key(x, y, entries):
    """Beside the title, what each colour stands for; each entry is so wide."""
    for stroke, words, width in entries:
        yield from arrow([(x, y), (x + 30, y)], stroke)
        yield text(x + 38, y + 4.5, words, fill=QUIET, anchor="start")
        x += width


def exchange(title, rows):
    gap, step, top = 390, 40, TITLE + 22
    lanes, parts, y = {}, [], top + 58
    mono = ' font-family="monospace" font-size="12.5"'
    for row in rows:
        if lane := re.fullmatch(r"lane (\w+): (.+)", row):
            lanes[lane[1]] = (120 + gap * len(lanes), lane[2])
        elif note := re.fullmatch(r"note (\w+): (.+)", row):
            parts += [box(lanes[note[1]][0], y - 4, 7 * len(note[2]) + 24, 26, "#f2f4f7", QUIET), text(lanes[note[1]][0], y + 0.5, note[2])]
            y += step
        else:
            source, sign, target, words = re.fullmatch(r"(\w+) ([-=])> (\w+): (.+)", row).groups()
            start, end = lanes[source][0], lanes[target][0]
            stroke = CAME if sign == "-" else MADE
            parts += [text((start + end) / 2, y - 8, words, stroke, more=mono), *arrow([(start, y), (end, y)], stroke)]
            y += step
    drawn = []
    for name, (x, said) in lanes.items():
        drawn.append(f'<line x1="{x}" y1="{top}" x2="{x}" y2="{y - MARGIN}" stroke="{QUIET}" stroke-dasharray="4 4"/>')
        drawn += [box(x, top, 150, 46), text(x, top - 3, name, more=' font-weight="bold"'), text(x, top + 14, said, QUIET)]
    width = 240 + gap * (len(lanes) - 1)
    return picture(title, width, y, [*key(width - 400, 29.5, [(CAME, "as it came", 150), (MADE, "made by the gateway", 0)]), *drawn, *parts])


def border(start, end, wide, high):
    """Where the line from the middle of a box to another point leaves the box."""
    dx, dy = end[0] - start[0], end[1] - start[1]
    part = min(wide / 2 / abs(dx) if dx else 9, high / 2 / abs(dy) if dy else 9)
    return start[0] + dx * part, start[1] + dy * part


def edge(start, end, words, way, wide, high):
    """An arrow between two boxes with its words: over the boxes between, or straight, and then beside the way back if there is one."""
    if way == "over":
        level = start[1] - high / 2 - 70
        points = [(start[0], start[1] - high / 2), (start[0], level), (end[0], level), (end[0], end[1] - high / 2)]
        return [*arrow(points, INK), *lines((start[0] + end[0]) / 2, level - 14, words)]
    below = way == "back" and start[0] > end[0]
    shift = 0 if way != "back" else 14 if below else -14
    ends = [(x, y + shift) for x, y in (border(start, end, wide, high), border(end, start, wide, high))]
    x, y = (ends[0][0] + ends[1][0]) / 2, (ends[0][1] + ends[1][1]) / 2
    if start[1] == end[1]:
        return [*arrow(ends, INK), *lines(x, y + (1 if below else -1) * (8 + 8 * len(words.split(" / "))), words)]
    if start[0] == end[0]:
        return [*arrow(ends, INK), *lines(x + 12, y, words, anchor="start")]
    return [*arrow(ends, INK), *lines(x + (-12 if start[0] < end[0] else 12), y + 12, words, anchor="end" if start[0] < end[0] else "start")]


def states(title, rows):
    wide, high, across, down, top = 176, 82, 370, 190, TITLE + 110
    places, parts, column = {}, [], 0
    pairs = {tuple(re.split(" -> |, over|: ", row)[:2]) for row in rows if " -> " in row}
    for row in rows:
        if state := re.fullmatch(r"state ([\w ]+), (\d) (\d): (.+)", row):
            column = max(column, int(state[2]))
            x, y = MARGIN + wide / 2 + across * (int(state[2]) - 1), top + high / 2 + down * (int(state[3]) - 1)
            places[state[1]] = (x, y)
            parts += [box(x, y, wide, high, "#eef4fa", CAME), text(x, y - 16, state[1], more=' font-weight="bold"'), *lines(x, y + 13, state[4], fill=QUIET)]
        elif first := re.fullmatch(r"start -> ([\w ]+)", row):
            x, y = places[first[1]]
            parts += [f'<circle cx="{x:g}" cy="{y - high / 2 - 38:g}" r="5" fill="{INK}"/>', *arrow([(x, y - high / 2 - 38), (x, y - high / 2)], INK)]
            parts.append(text(x + 12, y - high / 2 - 33.5, "setup", fill=QUIET, anchor="start"))
        else:
            source, target, over, words = re.fullmatch(r"([\w ]+) -> ([\w ]+?)(, over)?: (.+)", row).groups()
            way = "over" if over else "back" if (target, source) in pairs else "straight"
            parts += edge(places[source], places[target], words, way, wide, high)
    bottom = max(y for _, y in places.values()) + high / 2
    return picture(title, 2 * MARGIN + wide + across * (column - 1), int(bottom) + MARGIN, parts)


def drawn(name):
    rows = [row.strip() for row in (DOCS / f"{name}.txt").read_text().splitlines()]
    kind, title = re.fullmatch(r"(exchange|states): (.+)", next(row for row in rows if row and row[0] != "#")).groups()
    rest = [row for row in rows if row and row[0] != "#"][1:]
    return (exchange if kind == "exchange" else states)(title, rest)


def main():
    check = arguments(__doc__, 0, 1, ["--check"]) == ["--check"]
    wrong = 0
    for name in NAMES:
        path = DOCS / f"{name}.svg"
        if not check:
            path.write_text(drawn(name))
        elif not path.exists() or path.read_text() != drawn(name):
            wrong += 1
            print(f"docs/{name}.svg is not what docs/{name}.txt makes: run python3 tests/pictures.py")
    print(f"{len(NAMES)} pictures, {wrong} faults")
    return wrong > 0


if __name__ == "__main__":
    sys.exit(main())
