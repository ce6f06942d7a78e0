"""A made suite of any size, for the checks of tools/graph."""

import json


def dense(tests, classes):
    """Dependences of tests that share a registry: each reads what every earlier one of its class put there, some overwrite it, and
    each tenth test is read by the first test of every later class. As JSON, and a report."""
    names = [f"shop.part{it * classes // tests}.Registry{it * classes // tests}Test.testPut{it:04}" for it in range(tests)]
    group = [it * classes // tests for it in range(tests)]
    edges = []
    for later in range(tests):
        for first in range(later):
            far = first % 10 == 0 and (later == 0 or group[later - 1] != group[later])
            if classes > 1 and group[first] != group[later] and not far:
                continue
            places = [{"at": f"static shop.part{group[first]}.Registry.all", "walk": []}]
            walk = [places[0]["at"], "field shop.Entries.list"]
            places += [{"at": f"elem {group[first] + 1}:3 {first + more}", "walk": walk} for more in range(7)]
            edge = {"count": 8 + (first * later) % 90, "from": names[first], "locations": places, "to": names[later]}
            edges.append({**edge, "kind": "raw"})
            if later == first + 1:
                edges.append({**edge, "kind": "waw", "count": 1, "locations": places[:1]})
            elif later == first + 2:
                edges.append({**edge, "kind": "war", "count": 2, "locations": places[:2]})
    lines = ["electric-run 1", f"selected {tests} executed {tests} chains -"]
    for at, name in enumerate(names, 1):
        end = f'failed java.lang.AssertionError "expected {at}, found 0"' if at % 17 == 0 else "passed"
        lines.append(f"test {at} {name} {end} units {100 + at * at % 9973}")
    lines.append(f"passed {tests - tests // 17} failed {tests // 17} error 0")
    return json.dumps({"edges": edges, "tests": tests}, separators=(",", ":")), "\n".join(lines) + "\n"


def manifest(given):
    """A manifest of such dependences, in which every seventh raw conflict matters."""
    pairs = [f"{it['from']} -> {it['to']}" for it in json.loads(given)["edges"] if it["kind"] == "raw"]
    effects = ["changed", *["same"] * 6, "over", *["same"] * 6]
    lines = [f"raw {pair} {effects[at % len(effects)]}" for at, pair in enumerate(pairs)]
    return "\n".join(["electric-manifest 1", *lines, "end"]) + "\n"
