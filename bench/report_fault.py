#!/usr/bin/env python3
"""The first fault of a report's text, by a reader that shares nothing with Ketch.

usage: report_fault.py REPORT

Prints `report`, or the line (from 1) and the kind of the first fault: the first line with which no
report begins, `Form`, or `Truncated` where the text ends before it.
"""
import re
import sys

NUMBER = re.compile(rb"0|[1-9][0-9]*")
SIGNED = re.compile(rb"0|-?[1-9][0-9]*")


class Fault(Exception):
    pass


def number(word, bits=32):
    if not NUMBER.fullmatch(word) or int(word) >= 2**bits:
        raise ValueError(word)
    return int(word)


def signed(word, low, high):
    if not SIGNED.fullmatch(word) or not low <= int(word) <= high or int(word) == 0:
        raise ValueError(word)
    return int(word)


def literal(word):
    return signed(word, -(2**31), 2**31 - 1)


def hint(word):
    return signed(word, 1 - 2**63, 2**63 - 1)


def identifier(word):
    found = number(word, 63)
    if found == 0:
        raise ValueError(word)
    return found


def bound(word, *names):
    return None if word in names else number(word)


def expect(is_so):
    if not is_so:
        raise ValueError


class Reader:
    def __init__(self, text):
        self.text, self.at, self.line = text, 0, 0

    def words(self, tell):
        """What `tell` makes of the next line's words; a ValueError is that line's fault."""
        self.line += 1
        if self.at == len(self.text):
            raise Fault(f"{self.line} Truncated")
        end = self.text.find(b"\n", self.at)
        try:
            expect(end >= 0)
            told = tell(self.text[self.at : end].split(b" "))
        except ValueError:
            raise Fault(f"{self.line} Form") from None
        self.at = end + 1
        return told

    def numbers(self, name, *bits):
        def tell(words):
            expect(words[0] == name and len(words) == 1 + len(bits))
            return [number(word, some) for word, some in zip(words[1:], bits)]

        return self.words(tell)

    def count(self, name):
        return self.numbers(name, 32)[0]

    def values(self, width):
        self.words(lambda words: expect(len(words) == 1 and re.fullmatch(rb"[01]{%d}" % width, words[0])))

    def clause(self):
        def tell(words):
            expect(words[-1] == b"0")
            for word in words[:-1]:
                literal(word)

        self.words(tell)

    def proof(self):
        def step(words):
            identifier(words[0])
            rest = words[1:]
            if rest[:1] == [b"d"]:
                expect(rest[-1] == b"0")
                for word in rest[1:-1]:
                    identifier(word)
                return
            cut = rest.index(b"0")
            for word in rest[:cut]:
                literal(word)
            expect(rest[cut + 1 :] and rest[-1] == b"0")
            for word in rest[cut + 1 : -1]:
                hint(word)

        for _ in range(self.count(b"proof")):
            self.words(step)

    def entry(self):
        def tell(words):
            expect(len(words) == 6 and words[3] in (b"r", b"u"))
            number(words[0], 64), number(words[1]), number(words[2]), number(words[5], 64)
            if words[4] not in (b"zero", b"sweep", b"proved"):
                name, colon, rest = words[4].partition(b":")
                expect(colon and name in (b"walk", b"hop", b"again"))
                number(rest)

        self.words(tell)

    def witness(self, goal, inputs, latches):
        self.words(lambda words: expect(words == [b"1"]))
        self.words(lambda words: expect(words == [b"b%d" % goal]))
        self.values(latches)
        self.values(inputs)
        row = re.compile(rb"[01]{%d}" % inputs)

        def is_end(words):
            expect(len(words) == 1 and (words[0] == b"." or row.fullmatch(words[0])))
            return words[0] == b"."

        while not self.words(is_end):
            pass

    def goal(self, goal, inputs, latches):
        def tell(words):
            expect(words[0] == b"goal" and number(words[1]) == goal)
            kind, rest = words[2], words[3:]
            if kind == b"reached":
                expect(len(rest) == 1)
                number(rest[0], 64)
            elif kind == b"unreachable":
                expect(len(rest) == 3 and rest[1] == b"inv")
                number(rest[0], 64), number(rest[2])
            else:
                expect(kind == b"open" and rest[0] == b"depth" and rest[2] == b"hops" and rest[-2] == b"strength")
                bound(rest[1], b"none"), bound(rest[-1], b"none")
                for word in rest[3:-2]:
                    bound(word, b"none", b"noseed")
            return kind

        def safely(words):
            try:
                return tell(words)
            except IndexError:
                raise ValueError from None

        kind = self.words(safely)
        if kind == b"reached":
            self.witness(goal, inputs, latches)
        elif kind == b"unreachable":
            self.proof()

    def query(self, name, kinds):
        def tell(words):
            expect(len(words) > 1 and words[0] == name and words[1] in kinds)
            expect(len(words) == kinds[words[1]])
            return words[1], [number(word) for word in words[2:]]

        kind, ns = self.words(tell)
        if kind in (b"kept", b"excludes"):
            for _ in range(ns[1]):
                self.clause()
        else:
            def blocked(words):
                expect(words[0] == b"blocked")
                goals = [number(word) for word in words[1:]]
                expect(goals and goals[0] == len(goals) - 1)
                expect(all(a < b for a, b in zip(goals[1:], goals[2:])))

            self.words(blocked)
        self.proof()

    def report(self):
        self.words(lambda words: expect(words == [b"ketch", b"1"]))
        inputs, latches, _ = self.numbers(b"size", 32, 32, 32)

        def options(words):
            expect(words[0] == b"options" and len(words) == 11 and words[10] in (b"0", b"1"))
            for place, word in enumerate(words[1:10]):
                number(word, 64 if place in (5, 6) else 32)

        self.words(options)
        for _ in range(self.count(b"history")):
            self.entry()
        for batch in range(self.count(b"seeds")):
            def seed(words):
                expect(len(words) == 3 and words[0] == b"seed" and number(words[1]) == batch)
                return bound(words[2], b"none")

            rows = self.words(seed)
            if rows is not None:
                self.values(latches)
                for _ in range(rows):
                    self.values(inputs)
                self.values(latches)
        for _ in range(self.count(b"invs")):
            for _ in range(self.count(b"inv")):
                self.clause()
                self.proof()
        for goal in range(self.count(b"goals")):
            self.goal(goal, inputs, latches)
        for _ in range(self.count(b"spents")):
            self.query(b"spent", {b"sweep": 3, b"hop": 4, b"kept": 4, b"excludes": 4})
        for _ in range(self.count(b"refutes")):
            self.query(b"refute", {b"sweep": 3, b"hop": 4})
        self.numbers(b"end", 32, 32, 32)
        if self.at < len(self.text):
            raise Fault(f"{self.line + 1} Form")


def first_fault(text):
    try:
        Reader(text).report()
    except Fault as fault:
        return str(fault)
    return "report"


if __name__ == "__main__":
    with open(sys.argv[1], "rb") as file:
        print(first_fault(file.read()))
