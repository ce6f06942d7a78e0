"""Pictures of dependences: a Graphviz text, and an SVG laid out by Graphviz or, where it isn't installed, by this module.

A box is a test, a frame a chain, and an arrow goes from the earlier test to the later one. A kind has a colour, a dash and its name at
the arrow, so that none is told by colour alone.
"""

import html
import shlex
import shutil
import subprocess
from typing import NamedTuple

from parts.dependences import class_of, method_of

KINDS = {
    "raw": ("#0550ae", "#79c0ff", "", "reads what the earlier test wrote"),
    "waw": ("#a40e26", "#ffa198", "7 3", "overwrites what the earlier test wrote"),
    "war": ("#6a4a00", "#e3b341", "2 3", "overwrites what the earlier test read"),
}
STYLES = {"raw": "solid", "waw": "dashed", "war": "dotted"}
BOX, GAP, ROW, INCH = 38, 26, 104, 72
STYLE = """
.picture{--ground:#fff;--ink:#1f2328;--muted:#57606a;--frame:#f6f8fa;--line:#6e7781;%s}
@media(prefers-color-scheme:dark){.picture{--ground:#0d1117;--ink:#e6edf3;--muted:#9198a1;--frame:#161b22;--line:#848d97;%s}}
.picture{background:var(--ground)}.picture text{fill:var(--ink)}.picture .muted{fill:var(--muted)}
.picture .frame{fill:var(--frame);stroke:var(--line)}.picture .test{fill:var(--ground);stroke:var(--ink)}
%s
""" % (
    "".join(f"--{kind}:{light};" for kind, (light, *_) in KINDS.items()),
    "".join(f"--{kind}:{dark};" for kind, (_, dark, *_) in KINDS.items()),
    "\n".join(
        f".picture .{kind} path{{fill:none;stroke:var(--{kind});stroke-width:1.6{';stroke-dasharray:' + dash if dash else ''}}}"
        f".picture .{kind} text{{fill:var(--{kind});stroke:var(--frame);stroke-width:4;paint-order:stroke}}"
        f".picture #{kind} path{{fill:var(--{kind})}}"
        for kind, (_, _, dash, _) in KINDS.items()
    ),
)


class Box(NamedTuple):
    """Where a test's box stands: its upper left corner and its width."""

    x: float
    y: float
    wide: float

    @property
    def middle(self):
        return self.x + self.wide / 2


class Layout(NamedTuple):
    """Boxes by test, and for each conflict the points of its curve (each three further ones bend it to the last of them) and
    the place of its name."""

    boxes: dict
    curves: list


def quoted(text):
    return '"' + text.replace("\\", "\\\\").replace('"', '\\"') + '"'


def graphviz_text(dependences):
    lines = ["digraph dependences {", "  rankdir=TB;", '  node [shape=box, fontname="sans-serif", style=filled, fillcolor=white];']
    for number, chain in enumerate(dependences.chains(), 1):
        lines.append(f"  subgraph cluster_{number} {{")
        lines.append(f'    label="chain {number}"; color="#6e7781";')
        lines += [f"    {quoted(name)};" for name in chain]
        lines.append("  }")
    for it in dependences.conflicts:
        colour = KINDS[it.kind][0]
        about = quoted("; ".join(it.lines()))
        lines.append(
            f"  {quoted(it.first)} -> {quoted(it.later)} [color={quoted(colour)}, fontcolor={quoted(colour)}, "
            f'style={STYLES[it.kind]}, label="{it.kind} {it.count}", tooltip={about}];'
        )
    return "\n".join(lines + ["}"]) + "\n"


def width_of(name):
    """The width of a test's box: its class stands above its method."""
    return 18 + max(6.6 * len(class_of(name)), 7.4 * len(method_of(name)))


def by_graphviz(dependences):
    """The layout that `dot` makes, or None where there is none."""
    if not shutil.which("dot"):
        return None
    number = {name: at for at, name in enumerate(dependences.names())}
    lines = ["digraph g { rankdir=TB; ranksep=0.6; nodesep=0.35; node [shape=box, fixedsize=true]; edge [fontsize=11, arrowhead=none];"]
    for at, chain in enumerate(dependences.chains()):
        boxes = " ".join(f'{number[name]} [label="", width={width_of(name) / INCH:.3f}, height={BOX / INCH:.3f}];' for name in chain)
        lines.append(f"subgraph cluster_{at} {{ margin=32; {boxes} }}")
    for at, it in enumerate(dependences.conflicts):
        # The colour carries the conflict's number through to the answer; the label keeps room for its name.
        lines.append(f'{number[it.first]} -> {number[it.later]} [label="  {it.kind} {it.count}  ", color="{at}"];')
    try:
        made = subprocess.run(["dot", "-Tplain"], input="\n".join(lines + ["}"]), capture_output=True, text=True, timeout=60)
    except (OSError, subprocess.TimeoutExpired):
        return None
    return from_plain(made.stdout, list(number)) if made.returncode == 0 else None


def from_plain(text, names):
    """The layout that a text of `dot -Tplain` gives; it counts in inches from below."""
    boxes, curves, height = {}, {}, 0
    for words in map(shlex.split, text.splitlines()):
        if words[0] == "graph":
            height = INCH * float(words[3])
        elif words[0] == "node":
            x, y, wide = (INCH * float(it) for it in words[2:5])
            boxes[names[int(words[1])]] = Box(x - wide / 2, height - y - BOX / 2, wide)
        elif words[0] == "edge":
            end = 4 + 2 * int(words[3])
            at = [INCH * float(it) for it in words[4:end] + words[end + 1 : end + 3]]
            points = [(x, height - y) for x, y in zip(at[::2], at[1::2])]
            x, y = points.pop()
            curves[int(words[-1])] = (points, (x - 20, y + 4))
    return Layout(boxes, [curves[at] for at in range(len(curves))])


def built_in(dependences):
    """A layout of this module's own: chains beside one another, in each a row for each step from its first tests. An arrow past
    a row has a place of its own between the boxes there."""
    level = levels(dependences)
    numbered = list(enumerate(dependences.conflicts))
    boxes, bends, left = {}, {}, GAP
    for chain in dependences.chains():
        inside = set(chain)
        rows = rows_of(chain, [(at, it) for at, it in numbered if it.later in inside], level)
        widest = max(map(row_width, rows))
        for depth, row in enumerate(rows):
            at = left + (widest - row_width(row)) / 2
            for one in row:
                wide = cell_width(one)
                place = Box(at, 46 + depth * ROW, wide)
                (boxes if isinstance(one, str) else bends)[one] = place
                at += wide + GAP
        left += widest + 2 * GAP
    between = {}
    for at, it in numbered:
        between.setdefault((it.first, it.later), []).append(at)
    curves = []
    for at, it in numbered:
        stops = [bends[at, depth] for depth in range(level[it.first] + 1, level[it.later])]
        same = between[it.first, it.later]
        curves.append(curve(boxes[it.first], boxes[it.later], stops, same.index(at), len(same)))
    return Layout(boxes, curves)


def levels(dependences):
    """The row of each test in its chain: the steps of the longest way to it."""
    level = {}
    for name in dependences.names():
        level[name] = 0
    order = {name: at for at, name in enumerate(level)}
    for it in sorted(dependences.conflicts, key=lambda it: order[it.later]):
        level[it.later] = max(level[it.later], 1 + level[it.first])
    return level


def rows_of(chain, conflicts, level):
    """The rows of a chain: its tests, and a pair (conflict, row) for each row that a conflict's arrow passes. A row stands by the
    middle of what it is tied to above it."""
    rows = [[] for _ in range(1 + max(level[name] for name in chain))]
    above = {}
    for name in chain:
        rows[level[name]].append(name)
    for at, it in conflicts:
        last = it.first
        for depth in range(level[it.first] + 1, level[it.later]):
            rows[depth].append((at, depth))
            above[at, depth] = [last]
            last = (at, depth)
        above.setdefault(it.later, []).append(last)
    for depth in range(1, len(rows)):
        place = {one: at / len(rows[depth - 1]) for at, one in enumerate(rows[depth - 1])}
        rows[depth].sort(key=lambda one: sum(place.get(it, 0) for it in above[one]) / len(above[one]))
    return rows


def cell_width(one):
    """The width of a test's box, or of the place where an arrow passes, with its name beside it."""
    return width_of(one) if isinstance(one, str) else 46


def row_width(row):
    return sum(map(cell_width, row)) + GAP * (len(row) - 1)


def curve(first, later, stops, nth, count):
    """A conflict's curve, and the place of its name: from the earlier box through its places in the rows between to the later box.
    It is the nth of so many between the same two tests, which leave and end beside one another."""
    aside = 18 * (nth - (count - 1) / 2)
    x, y = first.middle + aside, first.y + BOX
    points = [(x, y)]
    ends = [(stop.x, stop.y) for stop in stops] + [(later.middle + aside, later.y)]
    for to_x, to_y in ends:
        half = (to_y - y) / 2
        points += [(x, y + half), (to_x, to_y - half), (to_x, to_y)]
        if (to_x, to_y) != ends[-1]:
            points += [(to_x, to_y + BOX / 3), (to_x, to_y + 2 * BOX / 3), (to_x, to_y + BOX)]
        x, y = points[-1]
    if stops:
        return points, (stops[0].x + 5, stops[0].y + BOX / 2 + 4)
    (x, y), (to_x, to_y) = points[0], points[-1]
    above = 13 * (count - 1 - nth)
    return points, (x + 0.72 * (to_x - x) + 5, y + 0.62 * (to_y - y) + 4 - above)


def svg(dependences, layout):
    """The picture; its size is that of what it shows."""
    frames = [frame_of(chain, dependences, layout) for chain in dependences.chains()]
    width = max((right for _, _, right, _ in frames), default=0) + GAP / 2
    height = max((bottom for *_, bottom in frames), default=0) + GAP / 2
    left = min((it for it, *_ in frames), default=0) - GAP / 2
    top = min((it for _, it, *_ in frames), default=0) - GAP / 2
    out = [
        f'<svg xmlns="http://www.w3.org/2000/svg" class="picture" viewBox="{left:g} {top:g} {width - left:g} {height - top:g}" '
        f'width="{width - left:g}" height="{height - top:g}" font-family="sans-serif" font-size="12" role="group" '
        'aria-label="Tests as boxes, and an arrow to each later test from an earlier one with which it conflicts">',
        f"<style>{STYLE}</style>",
        "<defs>",
    ]
    for kind in KINDS:
        out.append(
            f'<marker id="{kind}" viewBox="0 0 8 8" refX="8" refY="4" markerWidth="7" markerHeight="7" orient="auto">'
            f'<path d="M0 0L8 4L0 8z"/></marker>'
        )
    out.append("</defs>")
    for number, (x, y, right, bottom) in enumerate(frames, 1):
        out.append(f'<rect class="frame" x="{x:g}" y="{y:g}" width="{right - x:g}" height="{bottom - y:g}" rx="6"/>')
        out.append(f'<text class="muted" x="{x + 8:g}" y="{y + 16:g}">chain {number}</text>')
    out += [arrow(it, *layout.curves[at]) for at, it in enumerate(dependences.conflicts)]
    out += [box_shape(name, box) for name, box in layout.boxes.items()]
    return "\n".join(out + ["</svg>"])


def frame_of(chain, dependences, layout):
    """Left, top, right and bottom of a chain's frame, around its boxes, arrows and the names at them."""
    inside = set(chain)
    boxes = [layout.boxes[name] for name in chain]
    curves = [layout.curves[at] for at, it in enumerate(dependences.conflicts) if it.later in inside]
    points = [point for curve, _ in curves for point in curve]
    names = [place for _, place in curves]
    across = [it.x for it in boxes] + [x for x, _ in points + names]
    right = [it.x + it.wide for it in boxes] + [x for x, _ in points] + [x + 46 for x, _ in names]
    down = [it.y for it in boxes] + [it.y + BOX for it in boxes] + [y for _, y in points]
    return min(across) - 14, min(down) - 28, max(right) + 14, max(down) + 12


def box_shape(name, box):
    inside, method = html.escape(class_of(name)), html.escape(method_of(name))
    return (
        f'<g><rect class="test" x="{box.x:g}" y="{box.y:g}" width="{box.wide:g}" height="{BOX}" rx="4"/>'
        f'<text class="muted" x="{box.middle:g}" y="{box.y + 15:g}" text-anchor="middle" font-size="11">{inside}</text>'
        f'<text x="{box.middle:g}" y="{box.y + 30:g}" text-anchor="middle">{method}</text></g>'
    )


def arrow(it, points, place):
    """A conflict's arrow; what it is about is its title."""
    (x, y), bends = points[0], points[1:]
    way = f"M{x:.1f} {y:.1f}" + "".join(
        "C" + " ".join(f"{x:.1f} {y:.1f}" for x, y in bends[at : at + 3]) for at in range(0, len(bends), 3)
    )
    about = html.escape(f"{it.kind}: {it.first} -> {it.later}\n" + "\n".join(it.lines()))
    return (
        f'<g class="{it.kind}"><title>{about}</title><path d="{way}" marker-end="url(#{it.kind})"/>'
        f'<text x="{place[0]:.1f}" y="{place[1]:.1f}" font-size="11">{it.kind} {it.count}</text></g>'
    )
