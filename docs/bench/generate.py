#!/usr/bin/env python3
"""Writes the instances of the search benchmark into a folder.

Each file has the number of variables, and then the clauses, each ended by 0.
The families: random 3-SAT at 4.2 clauses a variable, pigeons in one hole too
few, and chains of exclusive ors with a contradiction.

usage: generate.py FOLDER
"""
import itertools
import pathlib
import random
import sys


def random_3sat(variables, seed):
    """Clauses of three distinct variables with random signs."""
    rng = random.Random(seed)
    clauses = []
    for _ in range(round(4.2 * variables)):
        chosen = rng.sample(range(1, variables + 1), 3)
        clauses.append([v if rng.random() < 0.5 else -v for v in chosen])
    return variables, clauses


def pigeons(holes):
    """One pigeon more than there are holes, each in a hole of its own."""
    def var(pigeon, hole):
        return pigeon * holes + hole + 1

    clauses = [[var(p, h) for h in range(holes)] for p in range(holes + 1)]
    for hole in range(holes):
        for one, two in itertools.combinations(range(holes + 1), 2):
            clauses.append([-var(one, hole), -var(two, hole)])
    return (holes + 1) * holes, clauses


def xor_chain(variables, seed=None):
    """The exclusive or of all variables, summed twice, is both 1 and 0.

    With a seed each sum takes the variables in an order of its own.
    """
    rng = random.Random(seed)
    count = variables
    clauses = []

    def exclusive_or(a, b):
        nonlocal count
        count += 1
        c = count
        clauses.extend([[-a, -b, -c], [a, b, -c], [a, -b, c], [-a, b, c]])
        return c

    ends = []
    for _ in range(2):
        order = list(range(1, variables + 1))
        if seed is not None:
            rng.shuffle(order)
        total = order[0]
        for v in order[1:]:
            total = exclusive_or(total, v)
        ends.append(total)
    clauses.append([ends[0]])
    clauses.append([-ends[1]])
    return count, clauses


def write(folder, name, instance):
    """Writes one instance."""
    variables, clauses = instance
    lines = [str(variables)] + [" ".join(map(str, c + [0])) for c in clauses]
    (folder / (name + ".cnf")).write_text("\n".join(lines) + "\n")


def main():
    folder = pathlib.Path(sys.argv[1])
    folder.mkdir(parents=True, exist_ok=True)
    for variables in (50, 100):
        for seed in range(20):
            name = f"random{variables:03}_{seed:02}"
            write(folder, name, random_3sat(variables, 1000 * variables + seed))
    write(folder, "pigeons06", pigeons(5))
    write(folder, "pigeons08", pigeons(7))
    write(folder, "xor32", xor_chain(32))
    for variables in (8, 12, 16):
        write(folder, f"xor{variables:02}_shuffled", xor_chain(variables, variables))


if __name__ == "__main__":
    main()
