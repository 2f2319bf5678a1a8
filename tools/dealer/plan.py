"""Draws the targets as a plan position view in SVG: north up, own ship in the middle, range rings, a colour and shape for each class."""
import math
from xml.sax.saxutils import escape

from dealer.evaluation import literal_classes
from dealer.floats import float_of
from dealer.text import FileError
from dealer.tree import FLOAT64, INT32, INT64

WIDTH, HEIGHT, MIDDLE, RADIUS = 960, 720, 360, 300
LEGEND_X = 730
# colours that the colour-blind can tell apart (Okabe and Ito), without the yellow, which is pale on white
COLOURS = ["#0072b2", "#d55e00", "#009e73", "#cc79a7", "#e69f00", "#56b4e9", "#000000"]
SHAPES = ["circle", "square", "triangle", "diamond"]
# no place: infinite, no number, or beyond what rings can be drawn for
FAR = 1e300
LABELS_MOST, NAME_MOST = 100, 24
CARDINALS = ((0, "N"), (90, "E"), (180, "S"), (270, "W"))


def column_of(table, name, option):
    """The values of a column of numbers, as floats; None where there is no place."""
    column = next((c for c in table[1] if c[0] == name), None)
    if column is None:
        raise FileError(f"there is no column {name} to draw by: name the table's columns bearing and range, or say {option} NAME")
    _, kind, _, values = column
    if kind not in (INT32, INT64, FLOAT64):
        raise FileError(f"column {name} holds no numbers to draw by")
    return [as_float(kind, v) for v in values]


def as_float(kind, v):
    if v is None:
        return None
    f = float_of(v) if kind == FLOAT64 else float(v)
    return f if abs(f) < FAR else None


def placed(table, bearing, distance):
    """Row, bearing in degrees and range of each target that has both; a range below 0 is none."""
    both = zip(column_of(table, bearing, "--bearing"), column_of(table, distance, "--range"))
    return [(i, b, r) for i, (b, r) in enumerate(both) if b is not None and r is not None and r >= 0]


def ring_step(most):
    """1, 2 or 5 times a power of ten, so that three to six rings hold the farthest target."""
    if most <= 0:
        return 1.0
    power = max(10.0 ** math.floor(math.log10(most)), 1 / FAR)
    return next(power * m for m in (0.2, 0.5, 1.0, 2.0) if most / (power * m) <= 6)


def ring_label(r):
    return f"{r:.6g}"


def point(bearing, part):
    """The place of a bearing, at a part of the radius."""
    turn = math.radians(bearing % 360)
    return MIDDLE + RADIUS * part * math.sin(turn), MIDDLE - RADIUS * part * math.cos(turn)


def shape(index, x, y, title):
    """The mark of a class at a place."""
    colour, kind = COLOURS[index % len(COLOURS)], SHAPES[index % len(SHAPES)]
    points = {"square": ((-6, -6), (6, -6), (6, 6), (-6, 6)), "triangle": ((0, -8), (7, 6), (-7, 6)), "diamond": ((0, -8), (8, 0), (0, 8), (-8, 0))}
    if kind == "circle":
        body = f'circle cx="{x:.1f}" cy="{y:.1f}" r="7"'
        name = "circle"
    else:
        body = 'polygon points="' + " ".join(f"{x + a:.1f},{y + b:.1f}" for a, b in points[kind]) + '"'
        name = "polygon"
    return f'  <{body} fill="{colour}" stroke="white"><title>{escape(title)}</title></{name}>'


def label(x, y, words, **marks):
    extra = "".join(f' {k.replace("_", "-")}="{v}"' for k, v in marks.items())
    return f'  <text x="{x:.1f}" y="{y:.1f}"{extra}>{escape(words)}</text>'


def rings(step, count):
    lines = ["  <!-- range rings and bearings -->"]
    for n in range(count, 0, -1):
        part = n / count
        lines.append(f'  <circle cx="{MIDDLE}" cy="{MIDDLE}" r="{RADIUS * part:.1f}" fill="none" stroke="#bbbbbb"/>')
        lines.append(label(MIDDLE + 4, MIDDLE - RADIUS * part + 13, ring_label(n * step), fill="#777777", font_size=12))
    for bearing, word in CARDINALS:
        x, y = point(bearing, 1)
        lines.append(f'  <line x1="{MIDDLE}" y1="{MIDDLE}" x2="{x:.1f}" y2="{y:.1f}" stroke="#dddddd"/>')
        x, y = point(bearing, 1.06)
        lines.append(label(x, y + 5, word, text_anchor="middle", font_weight="bold"))
    return lines


def class_indexes(evaluation):
    """A number for each class: those that the rule names first, so that a class keeps its colour, then the others."""
    seen = [evaluation.class_of(i) for i in range(len(evaluation.entries))]
    return {name: n for n, name in enumerate(dict.fromkeys(literal_classes(evaluation.source.rule) + sorted(set(seen))))}


def targets(evaluation, points, indexes, most):
    lines = ["  <!-- targets, each with its row -->"]
    for i, bearing, r in points:
        x, y = point(bearing, r / most)
        title = f"row {i}: {evaluation.class_of(i)}, {evaluation.decided_by(i)}"
        lines.append(shape(indexes[evaluation.class_of(i)], x, y, title))
        if len(points) <= LABELS_MOST:
            lines.append(label(x + 10, y + 4, str(i), font_size=12))
    return lines


def legend(evaluation, points, indexes):
    lines = ["  <!-- legend: classes and how many targets each has -->"]
    seen = [evaluation.class_of(i) for i in range(len(evaluation.entries))]
    y = 70
    for name, n in indexes.items():
        lines.append(shape(n, LEGEND_X, y, name))
        short = name if len(name) <= NAME_MOST else name[:NAME_MOST - 2] + ".."
        lines.append(label(LEGEND_X + 18, y + 5, f"{short}: {seen.count(name)}"))
        y += 26
    missing = len(seen) - len(points)
    if missing:
        lines.append(label(LEGEND_X - 8, y + 12, f"not drawn: {missing}", fill="#777777"))
        lines.append(label(LEGEND_X - 8, y + 30, "(no bearing or no range)", fill="#777777"))
        y += 44
    notes = ["north up, own ship in the middle", "rings: range, as in the table"]
    for said in notes + ["numbers beside the marks: rows"] * (len(points) <= LABELS_MOST):
        lines.append(label(LEGEND_X - 8, y + 22, said, fill="#777777", font_size=12))
        y += 18
    return lines, y + 22


def drawn(evaluation, bearing, distance):
    """The picture as SVG."""
    points = placed(evaluation.source.table, bearing, distance)
    farthest = max((r for _, _, r in points), default=0)
    step = ring_step(farthest)
    count = max(1, math.ceil(farthest / step))
    indexes = class_indexes(evaluation)
    beside, bottom = legend(evaluation, points, indexes)
    height = max(HEIGHT, bottom)
    lines = [f'<svg xmlns="http://www.w3.org/2000/svg" width="{WIDTH}" height="{height}" viewBox="0 0 {WIDTH} {height}" '
             'font-family="sans-serif" font-size="15">',
             f'  <rect width="{WIDTH}" height="{height}" fill="white"/>']
    lines += rings(step, count)
    lines.append(f'  <path d="M {MIDDLE - 6} {MIDDLE} h 12 M {MIDDLE} {MIDDLE - 6} v 12" stroke="black" stroke-width="2"/>')
    lines += targets(evaluation, points, indexes, step * count) + beside
    return "\n".join(lines + ["</svg>"]) + "\n"
