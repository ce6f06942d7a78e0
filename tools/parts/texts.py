"""The texts that the program reads and writes, as Python values. A text in another form is a ValueError that says where.

`docs/USAGE.md` describes the forms: suite texts, records, reports, plans, manifests and fault lines.
"""

import re
from typing import NamedTuple, Optional

TEST = re.compile(r'test (\d+) (\S+) (passed|failed|error)(?: (\S+))??(?: "((?:[^"\\]|\\.)*)")? units (\d+)')
CHAIN = re.compile(r"chain (\d+) tests ([\d,]+) units \d+")
WORKER = re.compile(r"worker (\d+) chains ([\d,]+|-) units \d+")


class Fault(ValueError):
    """A fault line of the program, which stands in place of the text."""


class Outcome(NamedTuple):
    """How one test ended, as its lines of a report say; `kind` and `message` are None where there are none, and `told` is the verdict
    and, on a line of its own, the output, both as they stand there."""

    number: int
    name: str
    verdict: str
    kind: Optional[str]
    message: Optional[str]
    units: int
    output: str
    told: str


class Edge(NamedTuple):
    """A raw conflict of a record: its tests, numbered from 1, and where the later one met it first."""

    first: int
    later: int
    location: str


def lines_of(text, *headers):
    """The lines of a text behind its header, which is one of these."""
    if text.startswith("electric: "):
        raise Fault(text.splitlines()[0])
    if not text:
        raise ValueError("nothing was written")
    first, *lines = text.splitlines()
    if first not in headers:
        raise ValueError(f"its first line isn't `{headers[0]}`")
    return lines


def unquoted(text):
    """What stands between the quotes of a message or an output, as it was: code units of UTF-16, or bytes of UTF-8."""
    plain = {"n": "\n", '"': '"', "\\": "\\"}
    if "\\x" in text:
        found = re.sub(r"\\(?:x(..)|(.))", lambda it: chr(int(it[1], 16)) if it[1] else plain[it[2]], text)
        return found.encode("latin-1").decode("utf-8", "replace")
    units = re.sub(r"\\(?:u(....)|(.))", lambda it: chr(int(it[1], 16)) if it[1] else plain[it[2]], text)
    return units.encode("utf-16-be", "surrogatepass").decode("utf-16-be", "replace")


def report(text, header="electric-run 1"):
    """The outcomes that a report of `run` or `order` lists, or with its own header a text of `cones`."""
    outcomes = []
    for number, line in enumerate(lines_of(text, header), 2):
        found = TEST.fullmatch(line)
        if found:
            at, name, verdict, kind, message, units = found.groups()
            told = None if message is None else unquoted(message)
            said = line[found.start(3) : found.end() - len(f" units {units}")]
            outcomes.append(Outcome(int(at), name, verdict, kind, told, int(units), "", said))
        elif line.startswith('out "') and line.endswith('"') and outcomes:
            outcomes[-1] = outcomes[-1]._replace(output=unquoted(line[5:-1]), told=f"{outcomes[-1].told}\n{line}")
        elif line.startswith("passed "):
            return outcomes
        elif number > 2 or not line.startswith("selected "):
            raise ValueError(f"line {number} of the report isn't one of a report")
    raise ValueError("the report has no last line")


def suite_tests(text):
    """The names of a suite text's tests, in order."""
    return [line.split(" ")[1] for line in lines_of(text, "electric-suite 1") if line.startswith("test ")]


def plan(text):
    """For each worker of a plan the numbers of its tests, ascending."""
    chains, workers = {}, []
    for number, line in enumerate(lines_of(text, "electric-plan 1"), 2):
        chain, worker = CHAIN.fullmatch(line), WORKER.fullmatch(line)
        if chain:
            chains[chain[1]] = [int(test) for test in chain[2].split(",")]
        elif worker:
            own = [] if worker[2] == "-" else worker[2].split(",")
            workers.append(sorted(test for it in own for test in chains[it]))
        elif line == "end":
            return workers
        else:
            raise ValueError(f"line {number} of the plan isn't one of a plan")
    raise ValueError("the plan has no last line")


def record(text):
    """The lines of a record without those of conflicts, and its raw conflicts."""
    lines = lines_of(text, "electric-record 2", "electric-record 1")
    if lines[-1:] != ["end"]:
        raise ValueError("the record has no last line")
    found = [(line, re.fullmatch(r"(raw|waw|war) (\d+) (\d+) \d+ (.+)", line)) for line in lines]
    plain = [text.split("\n", 1)[0], *(line for line, it in found if not it)]
    return plain, [Edge(int(it[2]), int(it[3]), it[4]) for _, it in found if it and it[1] == "raw"]


def manifest(text):
    """The effect of each conflict that a manifest lists, by its earlier and later test."""
    effects = {}
    for number, line in enumerate(lines_of(text, "electric-manifest 1"), 2):
        found = re.fullmatch(r"raw (\S+) -> (\S+) (same|changed|over)", line)
        if found:
            effects[found[1], found[2]] = found[3]
        elif line == "end":
            return effects
        else:
            raise ValueError(f"line {number} of the manifest isn't one of a manifest")
    raise ValueError("the manifest has no last line")
