"""Imports of definitions, one module a line."""

import re

GROUP = re.compile(r"(?m)^((?:ghost )?use Rattle(?:\.\w+)+)\.\{([^}]*\.[^}]*)\}(;?)$")


def one_each(text):
    """The text with each import that takes names of several modules written as one import for each name."""
    return GROUP.sub(lambda group: "\n".join(one(*group.group(1, 2, 3))), text)


def one(head, names, end):
    for name in names.split(", "):
        path, _, word = name.rpartition(".")
        yield f"{head}{path and '.' + path}.{{{word}}}{end}"
