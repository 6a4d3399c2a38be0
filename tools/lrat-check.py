#!/usr/bin/env python3
"""Checks the derivations that `svrand run --lrat` prints, with nothing of svrand but its text.

    ./svrand run --lrat < SCRIPT | tools/lrat-check.py
    tools/lrat-check.py TEXT                  TEXT: a file with such output, or with one derivation alone
    tools/lrat-check.py --take N [TEXT]       prints the N-th derivation, from 1, as another program reads it

Prints a line for each derivation: the call and what it shows, and `accepted`, or `rejected` with the line at fault and
why, in the words of `svrand check`. A lemma is shown by taking each of its literals for false and going through its
hints: at most one literal of a hint's clause may be left that is not false, which then becomes true; where none is left
the lemma is shown. The exit status is 1 where a derivation is not accepted.
"""
import argparse
import sys


class Fault(Exception):
    """A text that is no derivation."""


class Tokens:
    """The numbers of a derivation behind its header, one after the other."""

    def __init__(self, words):
        self.words, self.at = words, 0

    def is_done(self):
        return self.at == len(self.words)

    def word(self):
        if self.is_done():
            raise Fault("the text ends within a line")
        self.at += 1
        return self.words[self.at - 1]

    def number(self):
        word = self.word()
        if not word.removeprefix("-").isdecimal():
            raise Fault(f"{word} is no number")
        return int(word)

    def up_to_zero(self):
        found = []
        while (number := self.number()) != 0:
            found.append(number)
        return found


def clause_of(numbers, variables):
    for literal in numbers:
        if abs(literal) > variables:
            raise Fault(f"{literal} is over {variables} variables")
    return frozenset(numbers)


def why_not(lemma, hints, live):
    """Why the hints do not show a lemma, or None where they do."""
    if any(-literal in lemma for literal in lemma):
        return None
    true = {-literal for literal in lemma}
    for hint in hints:
        if hint < 0:
            return "negative"
        if hint not in live:
            return "hint"
        left = [literal for literal in live[hint] if -literal not in true]
        if len(left) > 1:
            return "open"
        if not left:
            return None
        true.add(left[0])
    return "short"


def verdict(lines):
    """How many clauses and lemmas there are, and the first line at fault with its reason, or None."""
    header = lines[0].split()
    if len(header) != 4 or not all(word.isdecimal() for word in header[2:]):
        raise Fault("its first line is not `p cnf V C`")
    variables, count = int(header[2]), int(header[3])
    tokens = Tokens(" ".join(lines[1:]).split())
    live = {number: clause_of(tokens.up_to_zero(), variables) for number in range(1, count + 1)}
    is_shown, last, lemmas = frozenset() in live.values(), count, 0
    while not tokens.is_done():
        number = tokens.number()
        if number < 1:
            raise Fault(f"{number} is no identifier")
        if not tokens.is_done() and tokens.words[tokens.at] == "d":
            tokens.word()
            for gone in tokens.up_to_zero():
                if live.pop(gone, None) is None:
                    return count, lemmas, (number, "delete")
            continue
        lemma = clause_of(tokens.up_to_zero(), variables)
        hints = tokens.up_to_zero()
        fault = "order" if number <= last else why_not(lemma, hints, live)
        if fault:
            return count, lemmas, (number, fault)
        live[number], last, lemmas = lemma, number, lemmas + 1
        is_shown = is_shown or not lemma
    return count, lemmas, None if is_shown else (0, "unfinished")


def derivations(text):
    """The call, what it shows and the lines of each derivation. Logs of what was given up, in their other form, are left out."""
    call, reason, lines = "", "", None
    for line in text:
        line = line.rstrip("\n")
        if lines is not None and line != "e":
            lines.append(line)
        elif lines is not None:
            yield call, reason, lines
            lines = None
        elif line.startswith("p cnf "):
            lines = [line]
        elif line.startswith("p "):
            reason = line[2:]
        elif line.startswith("#"):
            call, reason = line.split(" ")[0], ""
    if lines is not None:
        yield call, reason, lines


def told(call, reason, lines):
    """Whether a derivation is accepted, and the line that says so."""
    name = f"{call} {reason}".strip() or "derivation"
    try:
        clauses, lemmas, fault = verdict(lines)
    except Fault as fault:
        return False, f"{name}: refused: {fault}"
    if fault:
        return False, f"{name}: rejected {fault[0]} {fault[1]}"
    return True, f"{name}: {clauses} clauses, {lemmas} lemmas: accepted"


def main():
    asked = argparse.ArgumentParser(description=__doc__, formatter_class=argparse.RawDescriptionHelpFormatter)
    asked.add_argument("--take", type=int, metavar="N")
    asked.add_argument("text", nargs="?", metavar="TEXT")
    words = asked.parse_args()
    text = open(words.text, encoding="latin-1") if words.text else sys.stdin
    refused = 0
    for number, (call, reason, lines) in enumerate(derivations(text), 1):
        if words.take is None:
            is_accepted, line = told(call, reason, lines)
            refused += not is_accepted
            print(line)
        elif words.take == number:
            print("\n".join(lines))
    return 1 if refused else 0


if __name__ == "__main__":
    sys.exit(main())
