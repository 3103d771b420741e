#!/usr/bin/env python3
"""Lists the places of src/ that a review of the code's forms looks at, point by point: usage: places.py [POINT] [ROOT].

It finds candidates by the text alone; which of them are places, a reader says. The points:
1 kinds and absence: own enums, numbers for kinds, 0 for none, flags; 2 twins; 3 loops; 4 comparing, converting and printing by hand;
5 facts and parameters that travel together; 6 buffers, parallel lists, indices; 7 switches on which step to run; 8 answers of proofs."""

import collections
import itertools
import pathlib
import re
import sys

ROOT = pathlib.Path(sys.argv[2]) if len(sys.argv) > 2 else pathlib.Path(__file__).resolve().parent.parent
SOURCES = sorted(ROOT.glob("crates/*/src/**/*.rt"))


def lines(pattern):
    """Each line of the code, comments included, that a pattern stands in."""
    rule = re.compile(pattern)
    for path in SOURCES:
        for number, line in enumerate(path.read_text().splitlines(), 1):
            if rule.search(line):
                yield f"{path.relative_to(ROOT)}:{number}: {line.strip()}"


def functions():
    """Each function: its crate, file, name, parameters, clauses and body."""
    head = re.compile(r"^( *)(?:pub(?:\([a-z]+\))? )?(?:final )?fn (\w+)(?:<[^{;]*?>)?\((.*?)\)(?: -> (?:\[[^\]]*\]|[^{;])*?)?\n?((?:\s*(?:requires|ensures)\*?[^\n]*\n)*)\s*\{\n(.*?)^\1\}", re.S | re.M)
    for path in SOURCES:
        for found in head.finditer(path.read_text()):
            name, params, clauses, body = found.group(2), found.group(3), found.group(4), found.group(5)
            yield path.relative_to(ROOT).parts[1], path.relative_to(ROOT), name, params, clauses, body


def kinds():
    yield from lines(r"\benum \w+")
    yield from lines(r"\bas u8\b|-> u8\b")
    yield from lines(r"///.*\b(0 (where|for|past|at|outside)\b|or 0\b|0 otherwise)|\b0 is (no|none)")
    yield from lines(r"Result<bool|\b\w+: bool\b")


def twins():
    """Functions of one name, and functions whose bodies are one but for names and numbers."""
    names, shapes = collections.defaultdict(list), collections.defaultdict(list)
    for crate, path, name, params, clauses, body in functions():
        names[name].append(f"{path}::{name}")
        shape = re.sub(r"\s+", " ", re.sub(r"\b[A-Za-z_]\w*\b|b?'.'|b?\"[^\"]*\"|\d[\d_]*", "x", re.sub(r"//[^\n]*", "", body)))
        if len(shape) > 24:
            shapes[shape].append(f"{path}::{name}")
    for group in itertools.chain(names.values(), shapes.values()):
        if len(group) > 1:
            yield "  ".join(group)


def loops():
    yield from lines(r"^\s*(for|while|loop)\b")


def by_hand():
    yield from lines(r"\bimpl\b.*\b(PartialEq|Eq|PartialOrd|Ord|Clone|Copy|Default|From|TryFrom|Display|Debug)\b.* for ")
    yield from lines(r"\bfn (\w*same\w*|copy|copied|clone|\w+_number|from_\w+|to_\w+|\w+_of)\(")


def together():
    """Clauses that stand in three or more functions of a crate, and pairs of parameters that do."""
    facts, pairs = collections.defaultdict(set), collections.defaultdict(set)
    for crate, path, name, params, clauses, body in functions():
        for clause in re.findall(r"requires \w* ?\{ (.*?) \}\n", clauses + "\n"):
            facts[crate, re.sub(r"\.(now|old|new|entry)\b", "", clause)].add(f"{path.name}::{name}")
        given = [re.sub(r"\s+", " ", p).strip() for p in re.split(r",\s*(?![^<(\[]*[>)\]])", params)]
        given = [p for p in given if ":" in p]
        for pair in itertools.combinations(sorted(given), 2):
            pairs[crate, " + ".join(pair)].add(f"{path.name}::{name}")
    for found in (facts, pairs):
        for (crate, what), where in sorted(found.items()):
            if len(where) >= 3:
                yield f"{crate}: {what}: {len(where)}: {', '.join(sorted(where))}"


def buffers():
    yield from lines(r"^\s*(pub )?\w+: (&'?\w* ?(mut )?)?(Vec<|\[\w)")
    yield from lines(r"\blet mut \w+ = \[")


def switches():
    """Parameters that are an enum of the crate, where the body chooses by it."""
    kinds = collections.defaultdict(set)
    for path in SOURCES:
        for name in re.findall(r"\benum (\w+)", path.read_text()):
            kinds[path.relative_to(ROOT).parts[1]].add(name)
    for crate, path, name, params, clauses, body in functions():
        for param, kind in re.findall(r"(\w+): (\w+)", params):
            if kind in kinds[crate] and re.search(rf"match \(?{param}\b", body):
                yield f"{path}::{name} by {param}: {kind}"


def answers():
    for path in sorted(ROOT.glob("crates/*/proofs/**/Answers.antt")):
        count = len(re.findall(r"^pub [\w-]+ : goal\.", path.read_text(), re.M))
        yield f"{path.relative_to(ROOT)}: {count} answers"


POINTS = {"1": kinds, "2": twins, "3": loops, "4": by_hand, "5": together, "6": buffers, "7": switches, "8": answers}

if __name__ == "__main__":
    if len(sys.argv) > 1 and sys.argv[1] in POINTS:
        found = list(POINTS[sys.argv[1]]())
        print("\n".join(found))
        print(len(found))
    else:
        for point, rule in POINTS.items():
            print(point, len(list(rule())))
