#!/usr/bin/env python3
"""Writes ten sets of clauses that no valuation meets, in DIMACS form, into a folder.

Pigeons in one hole too few, chains of exclusive ors with a contradiction, random
3-SAT of 100 variables at 4.6 clauses a variable, and two numbers over 1 whose
product is a prime.

usage: dimacs.py FOLDER
"""
import pathlib
import random
import sys

import generate


def random_3sat(variables, ratio, seed):
    rng = random.Random(seed)
    clauses = []
    for _ in range(round(ratio * variables)):
        chosen = rng.sample(range(1, variables + 1), 3)
        clauses.append([v if rng.random() < 0.5 else -v for v in chosen])
    return variables, clauses


def product(bits, value):
    """Two numbers of so many bits, both over 1, whose product is the value: columns of partial products, added by full and half adders."""
    clauses, count = [], 2 * bits
    left, right = list(range(1, bits + 1)), list(range(bits + 1, 2 * bits + 1))

    def gate(make):
        nonlocal count
        count += 1
        clauses.extend(make(count))
        return count

    def both(x, y):
        return gate(lambda z: [[-x, -y, z], [x, -z], [y, -z]])

    def odd(x, y):
        return gate(lambda z: [[-x, -y, -z], [x, y, -z], [x, -y, z], [-x, y, z]])

    def most(x, y, w):
        return gate(lambda z: [[-x, -y, z], [-x, -w, z], [-y, -w, z], [x, y, -z], [x, w, -z], [y, w, -z]])

    columns = [[] for _ in range(2 * bits + 1)]
    for i in range(bits):
        for j in range(bits):
            columns[i + j].append(both(left[i], right[j]))
    for place, column in enumerate(columns[:-1]):
        while len(column) > 1:
            x, y = column.pop(0), column.pop(0)
            if column:
                w = column.pop(0)
                column.append(odd(odd(x, y), w))
                columns[place + 1].append(most(x, y, w))
            else:
                column.append(odd(x, y))
                columns[place + 1].append(both(x, y))
        if column:
            clauses.append([column[0] if value >> place & 1 else -column[0]])
    return count, [*clauses, left[1:], right[1:]]


SETS = {
    **{f"pigeons0{holes}": generate.pigeons(holes) for holes in (5, 6, 7)},
    "xor16": generate.xor_chain(16, 3),
    "xor20": generate.xor_chain(20, 1),
    **{f"random100_{seed}": random_3sat(100, 4.6, seed) for seed in (1, 2, 3)},
    "product08_prime": product(8, 40961),
    "product10_prime": product(10, 1046527),
}

folder = pathlib.Path(sys.argv[1])
folder.mkdir(exist_ok=True)
for name, (variables, clauses) in SETS.items():
    lines = [f"p cnf {variables} {len(clauses)}", *(" ".join(map(str, [*clause, 0])) for clause in clauses)]
    (folder / f"{name}.cnf").write_text("\n".join(lines) + "\n")
