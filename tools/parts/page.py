"""The page of a suite's dependences: one HTML file that needs nothing else. Lists of tests stand in it as they are; its script
makes the list of conflicts and the matrix from the data at its end."""

import base64
import gzip
import html
import json
import os
from itertools import groupby
from typing import NamedTuple

from parts import drawing
from parts.dependences import class_of, method_of

HERE = os.path.dirname(os.path.abspath(__file__))
MARKS = {"raw": "●", "waw": "■", "war": "▲"}
# Up to so many joined tests a picture is drawn, and else a matrix; a block of the matrix has at most so many tests.
DRAWN, BLOCK = 30, 40
# Data above PLAIN bytes is packed, and cut down until it has at most MOST.
PLAIN, MOST = 300_000, 1_300_000
# Rows of who writes most, and of what matters.
TOP, MATTER = 12, 25


class Suite(NamedTuple):
    """What the page is about: outcomes by name, from a report; warm-up tests, and how many of their conflicts are hidden."""

    dependences: object
    outcomes: dict
    warm: list
    hidden: int
    effects: bool

    def names(self):
        """The tests that are known by name: all of a report in its order, or else those that conflict with another."""
        joined = self.dependences.names()
        return [*self.outcomes, *(name for name in joined if name not in self.outcomes)] if self.outcomes else joined


def page(suite):
    joined = set(suite.dependences.names())
    parts = [
        ("matters", "What matters", matters(suite)),
        ("writers", "Who writes most", writers(suite.dependences)),
        picture(suite) if len(joined) <= DRAWN else ("matrix", "Matrix", matrix_part()),
        ("conflicts", "Conflicts", conflicts_part(suite)),
        ("tests", "Tests", tests_table(suite)),
        ("reading", "How to read this page", asset("reading.html")),
    ]
    parts = [part for part in parts if part[2]]
    title = f"Dependences of {suite.dependences.tests} tests"
    return f"""<!DOCTYPE html>
<html lang="en">
<head>
<meta charset="utf-8">
<meta name="viewport" content="width=device-width, initial-scale=1">
<title>{title}</title>
<style>
{asset("page.css")}</style>
</head>
<body>
<h1>{title}</h1>
{summary(suite, len(joined))}
<nav aria-label="Parts of this page">{"".join(f'<a href="#{name}">{head}</a>' for name, head, _ in parts)}</nav>
<main>
{"".join(f'<section><h2 id="{name}">{head}</h2>{chr(10)}{text}</section>{chr(10)}' for name, head, text in parts)}</main>
{data_element(suite)}
<script>
{asset("page.js")}</script>
</body>
</html>
"""


def asset(name):
    with open(os.path.join(HERE, name), encoding="utf-8") as file:
        return file.read()


def summary(suite, joined):
    chains = suite.dependences.chains()
    counts = [sum(it.kind == kind for it in suite.dependences.conflicts) for kind in MARKS]
    kinds = ", ".join(f"{kind_mark(kind)} {count:,}" for kind, count in zip(MARKS, counts))
    alone = suite.dependences.tests - joined - len(suite.warm)
    lines = [
        f"<p>Conflicts: {sum(counts):,} ({kinds}). Tests that they join: {joined:,}, in chains that stay together: "
        f"{len(chains):,}. Tests without a conflict: {alone:,}.</p>"
    ]
    if suite.warm:
        names = ", ".join(f"<code>{html.escape(name)}</code>" for name in suite.warm)
        lines.append(f"<p>Hidden: {counted(suite.hidden, 'conflict')} with the warm-up {names}. A run keeps to them all the same.</p>")
    if suite.outcomes:
        found = [it.verdict for it in suite.outcomes.values()]
        ends = ", ".join(f"{found.count(end)} {end}" for end in ("passed", "failed", "error"))
        units = sum(it.units for it in suite.outcomes.values())
        lines.append(f"<p>The report: {ends}; {counted(units, 'unit')} of work.</p>")
    return "\n".join(lines)


def kind_mark(kind):
    return f'<span class="kind {kind}">{MARKS[kind]} {kind}</span>'


def broken(name):
    """A name that may be parted behind its dots."""
    return html.escape(name).replace(".", ".<wbr>")


def named(test):
    """A test's name, which shows its conflicts."""
    return f'<button type="button" class="plain name" data-test="{html.escape(test)}">{broken(test)}</button>'


def counted(count, what):
    return f"{count:,} {what}{'' if count == 1 else 's'}"


def table(heads, rows, form="cards"):
    """A table. Where the window is narrow, each row is a card, or in the form `lines` two lines. A head with # before it is of
    numbers."""
    out = [f'<table class="{form}"><thead><tr>']
    out += [f'<th scope="col"{number_class(head)}>{head.lstrip("#")}</th>' for head in heads]
    out.append("</tr></thead><tbody>")
    for row in rows:
        inside = [f"<div>{cell}</div>" if cell != "" else "" for cell in row]
        cells = [f'<td data-label="{head.lstrip("#")}"{number_class(head)}>{cell}</td>' for head, cell in zip(heads, inside)]
        out.append("\n<tr>" + "".join(cells) + "</tr>")
    return "".join(out) + "\n</tbody></table>\n"


def number_class(head):
    return ' class="number"' if head.startswith("#") else ""


def matters(suite):
    """The conflicts that change a later test, of a manifest; nothing where there is none."""
    if not suite.effects:
        return ""
    raw = [it for it in suite.dependences.conflicts if it.effect]
    told = [it for it in raw if it.effect != "same"]
    first = (
        f"<p>Of {counted(len(raw), 'raw conflict')}, {len(told):,} {'matters' if len(told) == 1 else 'matter'}: the later test, run after all that "
        "it needs but the earlier one, has another verdict or output (<code>changed</code>), or passes its budget (<code>over</code>).</p>\n"
    )
    rows = [(named(it.later), named(it.first), it.effect, first_place(it)) for it in told[:MATTER]]
    more = f"<p>{len(told) - MATTER:,} more stand among the conflicts, by their effect.</p>\n" if len(told) > MATTER else ""
    return first + (table(["test", "needs", "effect", "where"], rows) + more if rows else "")


def first_place(conflict):
    return f"<code>{html.escape(conflict.locations[0].at)}</code>" if conflict.locations else ""


def writers(dependences):
    """The tests on whose writes most others depend."""
    read, over, places = {}, {}, {}
    for it in dependences.conflicts:
        if it.kind != "war":
            (read if it.kind == "raw" else over).setdefault(it.first, set()).add(it.later)
            places[it.first] = places.get(it.first, 0) + it.count
    if not places:
        return ""
    first = sorted(places, key=lambda name: (-len(read.get(name, ())), -len(over.get(name, ())), -places[name]))
    rows = [(named(name), *(f"{it:,}" for it in (len(read.get(name, ())), len(over.get(name, ())), places[name]))) for name in first[:TOP]]
    note = "<p>How many later tests read what a test wrote, how many overwrite it, and at how many locations.</p>\n"
    return note + table(["test", "#read by", "#overwritten by", "#locations"], rows, "lines")


def picture(suite):
    if not suite.dependences.conflicts:
        return ("picture", "Picture", "")
    layout = drawing.by_graphviz(suite.dependences) or drawing.built_in(suite.dependences)
    note = "<p>A box is a test, an arrow goes to a later test from an earlier one, with the kind and the number of locations.</p>\n"
    shown = drawing.svg(suite.dependences, layout)
    return ("picture", "Picture", f'{note}<div class="scroll" tabindex="0" role="region" aria-label="Picture">\n{shown}\n</div>\n')


def matrix_part():
    key = ", ".join(f"{kind_mark(kind)} {what}" for kind, (*_, what) in drawing.KINDS.items())
    return (
        "<p>Rows are later tests, columns earlier ones, both in suite order. A class is a block that unfolds; a number is that of "
        f"pairs of tests in it. The later test: {key}. Arrow keys go from mark to mark, and a mark shows its conflicts.</p>\n"
        '<div class="scroll matrix" id="cells" tabindex="0" role="region" aria-label="Matrix"></div>\n'
    )


def conflicts_part(suite):
    classes = sorted({class_of(name) for name in suite.dependences.names()})
    options = "".join(f"<option>{html.escape(name)}</option>" for name in classes)
    marks = "".join(f'<label><input type="checkbox" name="{kind}" checked>{kind_mark(kind)}</label>' for kind in MARKS)
    effect = (
        '<label>effect <select name="effect"><option value="">any</option><option>changed</option><option>over</option>'
        "<option>same</option></select></label>"
        if suite.effects
        else ""
    )
    return (
        f'<form id="filter" role="search" aria-label="Conflicts"><label>test <input type="search" name="test"></label>'
        f'<label>class <select name="class"><option value="">any</option>{options}</select></label>'
        f'<label>location <input type="search" name="location"></label>{effect}'
        f'<fieldset class="marks" aria-label="kinds">{marks}</fieldset><button type="reset">show all</button></form>\n'
        '<p id="found" role="status" tabindex="-1"><noscript>This list needs scripts; <code>electric deps</code> writes the '
        "same as text.</noscript></p>\n"
        '<table class="cards"><thead><tr><th scope="col">kind</th><th scope="col">earlier test</th><th scope="col">later test</th>'
        '<th scope="col">where they meet</th></tr></thead><tbody id="rows"></tbody></table>\n'
        '<p class="more"><button type="button" id="more" hidden>more</button></p>\n'
    )


def tests_table(suite):
    chain_of = {name: at for at, chain in enumerate(suite.dependences.chains(), 1) for name in chain}
    needs, after = {}, {}
    for it in suite.dependences.conflicts:
        (needs if it.kind == "raw" else after).setdefault(it.later, {})[it.first] = True
    rows = []
    for name in suite.names():
        also = [other for other in after.get(name, ()) if other not in needs.get(name, ())]
        tied = [chain_of.get(name, ""), some(list(needs.get(name, ())), name), some(also, name)]
        known = suite.outcomes.get(name)
        outcome = [known.number, verdict(known), f"{known.units:,}"] if known else ["", "", ""]
        shown = named(name) if name in chain_of else f'<span class="name">{broken(name)}</span>'
        rows.append([outcome[0], shown, *outcome[1:], *tied] if suite.outcomes else [shown, *tied])
    heads = ["chain", "reads what they wrote", "also stands behind"]
    heads = ["#number", "test", "verdict", "#units", *heads] if suite.outcomes else ["test", *heads]
    note = "" if suite.outcomes else "<p>Those that conflict with another; with a report the page lists all, with verdicts and units.</p>\n"
    return note + table(heads, rows)


def some(names, test):
    """The first three of some names, and how many more there are; those of the test's own class without the class."""
    more = [f'<span class="muted">and {len(names) - 3} more</span>'] if len(names) > 3 else []
    own = [method_of(name) if class_of(name) == class_of(test) else name for name in names[:3]]
    return "<br>".join([f'<span class="name">{broken(name)}</span>' for name in own] + more)


def verdict(outcome):
    told = f" {html.escape(outcome.kind)}" if outcome.kind else ""
    message = f": {html.escape(outcome.message)}" if outcome.message else ""
    return f'<span class="{"good" if outcome.verdict == "passed" else "bad"}">{outcome.verdict}</span>{told}{message}'


def data_element(suite):
    """The data as a script element: plain where it is small, else packed, with fewer locations where it would be too large."""
    for listed in (8, 1, 0):
        text = json.dumps(data_of(suite, listed), ensure_ascii=True, separators=(",", ":")).replace("<", "\\u003c")
        if len(text) <= PLAIN:
            return f'<script type="application/json" id="data">{text}</script>'
        packed = base64.b64encode(gzip.compress(text.encode(), 9, mtime=0)).decode()
        if len(packed) <= MOST or not listed:
            return f'<script type="application/gzip" id="data">{packed}</script>'


def data_of(suite, listed):
    """Columns of numbers, one row a conflict, with its first `listed` locations; tests and locations have numbers of their own."""
    conflicts = suite.dependences.conflicts
    names = suite.names()
    number = {name: at for at, name in enumerate(names)}
    places = {}
    own = [[places.setdefault(place, len(places)) for place in it.locations[:listed]] for it in conflicts]
    effects = [None, "same", "changed", "over"]
    joined = sorted(number[name] for name in suite.dependences.names())
    return {
        "names": names,
        "numbers": {str(it.number): it.name for it in suite.outcomes.values()},
        "joined": joined,
        "blocks": blocks([names[at] for at in joined]),
        "kind": [list(MARKS).index(it.kind) for it in conflicts],
        "first": steps(number[it.first] for it in conflicts),
        "later": steps(number[it.later] for it in conflicts),
        "count": [it.count for it in conflicts],
        "effects": effects,
        "effect": [effects.index(it.effect) for it in conflicts],
        "place": steps(it[0] if it else -1 for it in own),
        "more": {str(at): it[1:] for at, it in enumerate(own) if len(it) > 1},
        "places": [[place.at, " > ".join(place.walk)] for place in places],
    }


def steps(numbers):
    """Each number's difference to the one before, which packs well."""
    found, last = [], 0
    for it in numbers:
        found.append(it - last)
        last = it
    return found


def blocks(names):
    """Runs of tests of one class, as first place, place behind the last, and name; a long run is cut."""
    found, at = [], 0
    for name, run in groupby(names, class_of):
        size = len(list(run))
        for first in range(0, size, BLOCK):
            last = min(first + BLOCK, size)
            part = f" {first + 1} to {last}" if size > BLOCK else ""
            found.append([at + first, at + last, name + part])
        at += size
    return found
