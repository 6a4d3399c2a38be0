#!/usr/bin/env python3
"""Writes clauses and the questions that are put to one solver over them, one after the other.

    questions.py FOLDER

A file has the number of variables and of clauses, the clauses, each ended by 0, the number of questions, the steps of each
question, whether each log is checked, and the literals that each question assumes, ended by 0.

many250 to many1000      5,000 variables, 15,000 random clauses of three literals, 64 assumed literals each
behind250 to behind1000  a random 3-SAT instance of 150 variables with 4,145 conflicts, and behind it so many refuted
                         questions, each over three clauses of its own
ring4000                 a ring of 4,000 free variables, each or its neighbour being true, beside 4,000 that are assumed
"""
import pathlib
import random
import sys

sys.dont_write_bytecode = True
import generate  # noqa: E402

STEPS = 2_000_000


def random_clause(rng, variables, length=3):
    return [v if rng.random() < 0.5 else -v for v in rng.sample(range(1, variables + 1), length)]


def many(count):
    variables, rng = 5000, random.Random(5)
    clauses = [random_clause(rng, variables) for _ in range(15000)]
    rng = random.Random(7)
    return variables, clauses, [random_clause(rng, variables, 64) for _ in range(count)]


def behind(count):
    variables, clauses = generate.random_3sat(150, 150019)
    for first in range(variables + 1, variables + 4001, 4):
        clauses += [[-first, first + 2], [-first - 1, first + 3], [-first - 2, -first - 3]]
    refuted = [[variables + 4 * number + 1, variables + 4 * number + 2] for number in range(count)]
    return variables + 4000, clauses, [[], *refuted]


def ring(count):
    clauses = [[count + place, count + place % count + 1] for place in range(1, count + 1)]
    return 2 * count, clauses, [[-v if v % 2 else v for v in range(1, count + 1)]]


def write(file, variables, clauses, questions):
    lines = [f"{variables} {len(clauses)}"]
    lines += [" ".join(map(str, [*clause, 0])) for clause in clauses]
    lines += [f"{len(questions)} {STEPS} 0"]
    lines += [" ".join(map(str, [*question, 0])) for question in questions]
    file.write_text("\n".join(lines) + "\n")


def main():
    folder = pathlib.Path(sys.argv[1])
    folder.mkdir(parents=True, exist_ok=True)
    for count in (250, 500, 1000):
        write(folder / f"many{count}", *many(count))
        write(folder / f"behind{count}", *behind(count))
    write(folder / "ring4000", *ring(4000))


if __name__ == "__main__":
    main()
