"""Prints keys as numbers: first how many there are, then a line each, as `keys.txt` reads them. No key is printed twice.

    keys.py recorded SESSION..   the keys of the slices of recorded sessions, those of unsat queries' last slices as cores
    keys.py few COUNT            of generated queries with three variables and four comparisons, of few forms
    keys.py many COUNT           of generated queries with six variables and six comparisons, of many forms

Of generated keys three in ten are cores, drawn by chance, but none of a slice with fewer than two comparisons.
"""

import math
import random
import re
import sys

OPS = {"<=": 0, "<": 0, ">=": 1, ">": 1, "=": 2, "==": 2, "!=": 3}
TERM = re.compile(r"([+-]?)(?:(\d+)\*)?([A-Za-z_]\w*|\d+)(?:\*(\d+))?")


def side(text):
    """The terms of one side: a factor and a variable, or None for a constant."""
    terms = []
    for sign, before, name, after in TERM.findall(text.replace(" ", "")):
        factor = (-1 if sign == "-" else 1) * int(before or 1) * int(after or 1)
        terms.append((factor * int(name), None) if name.isdigit() else (factor, name))
    return terms


def atom(line):
    left, op, right = re.match(r"^(.*?)(<=|>=|==|!=|<|>|=)(.*)$", line).groups()
    return side(left), op, side(right)


def names(comparison):
    return [name for _, name in comparison[0] + comparison[2] if name is not None]


def canonical(order, comparison):
    """The canonical atom as form, op and constant, or a bool where it has no variables."""
    factors, constant, op = {}, 0, OPS[comparison[1]]
    for sign, terms in ((1, comparison[0]), (-1, comparison[2])):
        for factor, name in terms:
            if name is None:
                constant -= sign * factor
            else:
                factors[name] = factors.get(name, 0) + sign * factor
    constant += {"<": -1, ">": 1}.get(comparison[1], 0)
    form = sorted((order[name], factor) for name, factor in factors.items() if factor)
    if not form:
        return (0 <= constant, 0 >= constant, constant == 0, constant != 0)[op]
    if form[0][1] < 0:
        form, constant, op = [(var, -factor) for var, factor in form], -constant, (1, 0, 2, 3)[op]
    divisor = math.gcd(*(factor for _, factor in form))
    if op > 1 and constant % divisor:
        return op == 3
    constant = -(-constant // divisor) if op == 1 else constant // divisor
    return tuple((var, factor // divisor) for var, factor in form), op, constant


def implies(a, b):
    (_, op, c), (_, other, d) = a, b
    if op == 0:
        return (other == 0 and c <= d) or (other == 3 and c < d)
    if op == 1:
        return (other == 1 and c >= d) or (other == 3 and c > d)
    return (c <= d, c >= d, c == d, c != d)[other] if op == 2 else other == 3 and c == d


def key(bounds, comparisons):
    """The key of a slice, or None where a comparison without variables is false."""
    order = {}
    for name in [name for comparison in comparisons for name in names(comparison)] + list(bounds):
        order.setdefault(name, len(order))
    atoms = {canonical(order, comparison) for comparison in comparisons} - {True}
    if False in atoms:
        return None
    for name, (low, high) in bounds.items():
        atoms |= {(((order[name], 1),), 0, high), (((order[name], 1),), 1, low)}
    alike = {}
    for one in atoms:
        alike.setdefault(one[0], []).append(one)
    return sorted(b for group in alike.values() for b in group if not any(a != b and implies(a, b) for a in group))


def slices(bounds, comparisons):
    """Bounds and comparisons of each slice, and whether it has the last comparison."""
    parent = {name: name for name in bounds}

    def root(name):
        while parent[name] != name:
            name = parent[name]
        return name

    for comparison in comparisons:
        for name in names(comparison)[1:]:
            parent[root(name)] = root(names(comparison)[0])
    groups = {}
    for name in bounds:
        groups.setdefault(root(name), {})[name] = bounds[name]
    for group in groups.values():
        own = [comparison for comparison in comparisons if any(name in group for name in names(comparison))]
        yield group, own, bool(own) and own[-1] is comparisons[-1]


def queries(path):
    query = None
    for line in open(path, encoding="utf-8"):
        line = line.split("#")[0].strip()
        if line in ("query", "executor", "end"):
            if query:
                yield query
            query = ({}, []) if line == "query" else None
        elif line.startswith("var "):
            _, name, low, high = line.split()
            query[0][name] = (int(low), int(high))
        elif query:
            query[1].append(atom(line))


def recorded(paths):
    for path in paths:
        words = open(path.replace(".green", ".expected"), encoding="utf-8").read().split("\n")
        verdicts = [word for word in words if word in ("sat", "unsat")]
        for query, verdict in zip(queries(path), verdicts):
            for bounds, comparisons, has_last in slices(*query):
                yield key(bounds, comparisons), not (verdict == "unsat" and has_last)


def generated(kind, count):
    draw = random.Random(1)
    for _ in range(count):
        if kind == "few":
            bounds = {name: (0, 99) for name in "abc"}
            comparisons = [
                ([(draw.randint(1, 5), "a"), (draw.randint(1, 5), "b")], "<=", [(draw.randrange(900), None)]),
                ([(1, "b"), (-1, "c")], ">=", [(draw.randrange(-20, 100), None)]),
                ([(1, "c")], "!=", [(draw.randrange(100), None)]),
                ([(1, "a")], draw.choice(["<=", ">=", "=", "!="]), [(1, "c")]),
            ]
        else:
            bounds = {"x%d" % number: (-100, 100) for number in range(6)}
            comparisons = [
                (
                    [
                        (draw.choice([-5, -4, -3, -2, -1, 1, 2, 3, 4, 5]), name)
                        for name in draw.sample(sorted(bounds), draw.randint(2, 4))
                    ],
                    draw.choice(["<=", ">=", "!=", "="]),
                    [(draw.randrange(-300, 300), None)],
                )
                for _ in range(6)
            ]
        for group, own, _ in slices(bounds, comparisons):
            yield key(group, own), draw.random() < 0.7 or len(own) < 2


def main():
    rows = recorded(sys.argv[2:]) if sys.argv[1] == "recorded" else generated(sys.argv[1], int(sys.argv[2]))
    lines = {}
    for atoms, satisfied in rows:
        if atoms is not None:
            numbers = [len(atoms)]
            for form, op, constant in atoms:
                numbers += [op, constant, len(form)] + [number for term in form for number in term]
            lines.setdefault(" ".join(map(str, numbers)), int(satisfied))
    print(len(lines))
    for line, satisfied in lines.items():
        print(satisfied, line)


main()
