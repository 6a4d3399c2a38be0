#!/usr/bin/env python3
"""Turns a solver's derivation into the hinted one that `svrand check` reads.

Reads clauses in DIMACS form and a derivation in DRAT's text form, as CaDiCaL
writes it (`cadical --plain --no-binary FILE.cnf FILE.drat`), and prints the
clauses, then one line for each lemma with the clauses that show it in the order
of propagation, and one for each deletion. A lemma that unit propagation does not
show (DRAT allows such) ends it with status 1.

usage: hinted.py FILE.cnf FILE.drat [--spoil N]

With --spoil N the N-th lemma that has two hints or more names its last hint, the
clause that all its literals make false, no longer: so it is rejected as `short`
at that line, and its number is told on standard error.
"""
import argparse
import sys


def numbers(path):
    """The clauses of a DIMACS file, and its number of variables."""
    variables, clauses, clause = 0, [], []
    for line in open(path, encoding="ascii"):
        if line.startswith("c"):
            continue
        if line.startswith("p"):
            variables = int(line.split()[2])
            continue
        for word in line.split():
            if word == "0":
                clauses.append(clause)
                clause = []
            else:
                clause.append(int(word))
    return variables, clauses


class Clauses:
    """Live clauses by their numbers, with two watched literals each, and what follows from them by unit propagation."""

    def __init__(self):
        self.live, self.numbers, self.watches, self.units = {}, {}, {}, set()
        self.value, self.trail, self.why, self.base = {}, [], {}, 0

    def add(self, number, clause):
        """Adds a clause, with literals that are open or true now watched first."""
        clause = sorted(set(clause), key=lambda it: self.value.get(it) is False)
        self.live[number] = clause
        self.numbers.setdefault(frozenset(clause), []).append(number)
        if len(clause) < 2 or self.value.get(clause[1]) is False:
            self.units.add(number)
        for lit in clause[:2]:
            self.watches.setdefault(lit, []).append(number)

    def remove(self, clause):
        """Removes one clause with these literals, and gives its number. What it was the reason for is forgotten."""
        known = self.numbers.get(frozenset(clause))
        if not known:
            return None
        number = known.pop()
        gone = self.live.pop(number)
        self.units.discard(number)
        if any(self.why.get(lit) == number for lit in gone):
            self.back_to(0)
            self.base = 0
            self.units.update(self.live)
        return number

    def back_to(self, length):
        while len(self.trail) > length:
            lit = self.trail.pop()
            del self.value[lit], self.value[-lit], self.why[lit]

    def assume(self, lit, why):
        self.value[lit], self.value[-lit], self.why[lit] = True, False, why
        self.trail.append(lit)

    def look_at(self, number):
        """Takes what a clause forces; whether all its literals are false."""
        open_ones = [it for it in self.live[number] if self.value.get(it) is not False]
        if not open_ones:
            return True
        if len(open_ones) == 1 and self.value.get(open_ones[0]) is None:
            self.assume(open_ones[0], number)
        return False

    def propagate(self, start):
        """Propagates from that place of the trail, and gives a clause all of whose literals are false, or None."""
        at = start
        while at < len(self.trail):
            false = -self.trail[at]
            at += 1
            old, self.watches[false] = self.watches.get(false, []), []
            for place, number in enumerate(old):
                clause = self.live.get(number)
                if clause is None or false not in clause[:2]:
                    continue
                if clause[0] == false:
                    clause[0], clause[1] = clause[1], clause[0] if len(clause) > 1 else clause[0]
                if self.value.get(clause[0]) is True:
                    self.watches[false].append(number)
                    continue
                for other in range(2, len(clause)):
                    if self.value.get(clause[other]) is not False:
                        clause[1], clause[other] = clause[other], clause[1]
                        self.watches.setdefault(clause[1], []).append(number)
                        break
                else:
                    self.watches[false].append(number)
                    if self.look_at(number):
                        self.watches[false] += old[place + 1:]
                        return number
        return None

    def settle(self):
        """Propagates what the clauses alone force, and gives a false clause, or None."""
        while self.units:
            number = self.units.pop()
            if self.look_at(number):
                self.units.add(number)
                return number
        false = self.propagate(self.base)
        if false is not None:
            self.units.add(false)
        self.base = len(self.trail)
        return false

    def reasons(self, number):
        """The clauses that made all literals of this one false, in the order of the trail, and then it."""
        wanted, hints = {-it for it in self.live[number]}, []
        for lit in reversed(self.trail):
            why = self.why[lit]
            if lit in wanted and why:
                hints.append(why)
                wanted.update(-it for it in self.live[why] if it != lit)
        return hints[::-1] + [number]

    def shown(self, lemma):
        """The hints that show a lemma; None where unit propagation does not show it."""
        false = self.settle()
        if false is not None:
            return self.reasons(false)
        for lit in lemma:
            if self.value.get(lit) is True:
                why = self.why[lit]
                hints = self.reasons(why) if why else []
                self.back_to(self.base)
                return hints
            if self.value.get(-lit) is None:
                self.assume(-lit, 0)
        false = self.propagate(self.base)
        hints = None if false is None else self.reasons(false)
        self.back_to(self.base)
        return hints


def main():
    parser = argparse.ArgumentParser(description=__doc__, formatter_class=argparse.RawDescriptionHelpFormatter)
    parser.add_argument("cnf")
    parser.add_argument("drat")
    parser.add_argument("--spoil", type=int, default=0)
    asked = parser.parse_args()
    variables, clauses = numbers(asked.cnf)
    print("p cnf", variables, len(clauses))
    known = Clauses()
    for number, clause in enumerate(clauses, 1):
        print(*clause, 0)
        known.add(number, clause)
    number, spoilt = len(clauses), 0
    for line in open(asked.drat, encoding="ascii"):
        words = line.split()
        if words[0] == "d":
            gone = known.remove(int(it) for it in words[1:-1])
            if gone:
                print(number, "d", gone, 0)
            continue
        lemma = [int(it) for it in words[:-1]]
        hints = known.shown(lemma)
        number += 1
        if hints is None:
            sys.exit(f"lemma {number} does not follow by unit propagation: {line.strip()}")
        if len(hints) > 1:
            spoilt += 1
            if spoilt == asked.spoil:
                hints.pop()
                print(f"spoilt {number}", file=sys.stderr)
        print(number, *lemma, 0, *hints, 0)
        if not lemma:
            break
        known.add(number, lemma)


main()
