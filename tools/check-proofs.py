#!/usr/bin/env python3
"""Checks the derivations that `svrand run --proofs` prints, with nothing of svrand but its text.

    ./svrand run --proofs < SCRIPT | tools/check-proofs.py

Prints a line for each proof: its reason, how many clauses, steps and assumed literals it has, and `accepted`, or what
is wrong with it. Each step has to be a chain of resolutions over clauses that stand before it, and the goal a clause
of which every literal is the negation of an assumed one. Of the log of a call that gave up, which has no goal, the
steps alone are checked. The exit status is 1 where a proof is not accepted.
"""
import sys


class Wrong(Exception):
    """What is wrong with a proof."""


def numbers(words):
    """The numbers of a line, whose last word is 0."""
    found = [int(word) for word in words]
    if not found or found[-1] != 0:
        raise Wrong("a line does not end with 0")
    return found[:-1]


def resolved(clauses, words):
    """The clause of a step: a start, and then pairs of a pivot and a clause that holds its negation."""
    def clause(number):
        if not 1 <= number <= len(clauses):
            raise Wrong(f"no clause has the number {number}")
        return clauses[number - 1]

    start, *links = words
    found = clause(start)
    for pivot, linked in zip(links[::2], links[1::2]):
        if pivot not in found:
            raise Wrong(f"the pivot {pivot} is not in the clause so far")
        if -pivot not in clause(linked):
            raise Wrong(f"the negation of the pivot {pivot} is not in clause {linked}")
        found = (found - {pivot}) | (clause(linked) - {-pivot})
    return found


def judged(lines):
    """How many clauses, steps and assumed literals the lines of a proof have, from behind its reason to its end."""
    clauses, assumed, inputs, goal, is_log = [], set(), 0, None, False
    for line in lines:
        kind, *words = line.split()
        if kind == "a":
            assumed = set(numbers(words))
        elif kind == "c":
            clauses.append(frozenset(numbers(words)))
            inputs += 1
        elif kind == "s":
            clauses.append(resolved(clauses, numbers(words)))
        elif kind == "g":
            goal = int(words[0])
        elif kind == "f":
            is_log = True
        elif kind != "b":
            raise Wrong(f"no line of a proof begins with {kind}")
    if not is_log:
        if goal is None or not 1 <= goal <= len(clauses):
            raise Wrong("it has no goal")
        if any(-literal not in assumed for literal in clauses[goal - 1]):
            raise Wrong("its goal has a literal whose negation is not assumed")
    return inputs, len(clauses) - inputs, len(assumed)


def proofs(text):
    """The line of the call, the reason and the lines of each proof."""
    call, reason, lines = "", None, []
    for line in text:
        line = line.rstrip("\n")
        if reason is None and line.startswith("#"):
            call = line.split(" ")[0]
        elif reason is None and line.startswith("p "):
            reason, lines = line[2:], []
        elif reason is not None and line == "e":
            yield call, reason, lines
            reason = None
        elif reason is not None:
            lines.append(line)
    if reason is not None:
        raise Wrong("the text ends within a proof")


def main():
    refused = 0
    try:
        for call, reason, lines in proofs(sys.stdin):
            try:
                inputs, steps, assumed = judged(lines)
                print(f"{call} {reason}: {inputs} clauses, {steps} steps, {assumed} assumed: accepted")
            except (Wrong, ValueError, IndexError) as wrong:
                refused += 1
                print(f"{call} {reason}: refused: {wrong}")
    except Wrong as wrong:
        refused += 1
        print(f"refused: {wrong}")
    return 1 if refused else 0


if __name__ == "__main__":
    sys.exit(main())
