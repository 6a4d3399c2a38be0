#!/usr/bin/env python3
"""Turns a trace of picosat into the hinted derivation that `svrand check` reads.

    picosat -T FILE.trace FILE.cnf
    trace.py FILE.cnf FILE.trace [--spoil N] > FILE.lrat

A line of the trace is a number, the literals of a clause, 0, its antecedents in any order, 0; a clause of the
formula has none. Prints the clauses of FILE.cnf, and a line for each learned clause with its antecedents in the
order of propagation. With --spoil N the last hint of the N-th lemma of two hints or more is its first hint once
more, so that no clause becomes false: it is rejected as `short` at that line, whose number is told on standard error.
"""
import argparse
import sys


def numbers_of(path):
    return [int(word) for line in open(path, encoding="ascii") if line[:1] not in "cp" for word in line.split()]


def split(numbers):
    """The lists that end with a 0."""
    found, part = [], []
    for number in numbers:
        if number:
            part.append(number)
        else:
            found.append(part)
            part = []
    return found


def in_order(lemma, antecedents, clauses):
    """The antecedents in the order of propagation, up to the one that becomes false."""
    true, left, hints = {-lit for lit in lemma}, list(antecedents), []
    while left:
        for number in left:
            open_ones = {lit for lit in clauses[number] if -lit not in true}
            if not open_ones:
                return [*hints, number]
            if len(open_ones) == 1 and not open_ones & true:
                true |= open_ones
                hints.append(number)
                left.remove(number)
                break
        else:
            return None
    return None


def main():
    asked = argparse.ArgumentParser(description=__doc__, formatter_class=argparse.RawDescriptionHelpFormatter)
    asked.add_argument("cnf")
    asked.add_argument("trace")
    asked.add_argument("--spoil", type=int, default=0)
    words = asked.parse_args()
    header = next(line for line in open(words.cnf, encoding="ascii") if line.startswith("p"))
    given = split(numbers_of(words.cnf))
    print(f"p cnf {header.split()[2]} {len(given)}")
    for clause in given:
        print(*clause, 0)
    named = {frozenset(clause): number for number, clause in reversed(list(enumerate(given, 1)))}
    clauses, ours, last, long = dict(enumerate(given, 1)), {}, len(given), 0
    parts = split(numbers_of(words.trace))
    for (name, *literals), antecedents in sorted(zip(parts[::2], parts[1::2])):
        if not antecedents:
            ours[name] = named[frozenset(literals)]
            continue
        hints = in_order(literals, [ours[other] for other in antecedents], clauses)
        if hints is None:
            sys.exit(f"clause {name} does not follow from its antecedents by unit propagation")
        last += 1
        ours[name], clauses[last] = last, literals
        long += len(hints) > 1
        if len(hints) > 1 and long == words.spoil:
            hints[-1] = hints[0]
            print(f"spoilt {last}", file=sys.stderr)
        print(last, *literals, 0, *hints, 0)


if __name__ == "__main__":
    main()
