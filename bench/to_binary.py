#!/usr/bin/env python3
"""Writes a circuit of ASCII AIGER in the binary form, for tools that read that one alone.

usage: to_binary.py CIRCUIT.aag CIRCUIT.aig

Outputs, bad literals and constraints keep their order, so bad literal g of a goal circuit is still goal g.
Variables get new numbers: inputs, latches, then gates, each gate after those that it uses. Names are left out.
"""
import sys


def delta(number):
    """A number as groups of seven bits, the lowest first; all bytes but the last have the top bit."""
    groups = bytearray()
    while number >= 128:
        groups.append(number % 128 + 128)
        number //= 128
    groups.append(number)
    return bytes(groups)


def in_order(gates):
    """The left sides, each after those of the gates that it uses."""
    ordered, seen = [], set()
    for lhs in gates:
        stack = [lhs]
        while stack:
            top = stack[-1]
            waits = [2 * (lit // 2) for lit in gates[top] if 2 * (lit // 2) in gates and 2 * (lit // 2) not in seen]
            if waits and top not in seen:
                stack.extend(waits)
                continue
            stack.pop()
            if top not in seen:
                seen.add(top)
                ordered.append(top)
    return ordered


def main():
    source, target = sys.argv[1:]
    lines = iter(open(source, encoding="latin-1").read().split("\n"))
    numbers = lambda: [int(word) for word in next(lines).split()]
    magic, *header = next(lines).split()
    assert magic == "aag", "the circuit isn't in the ASCII form"
    _, inputs, latches, outputs, ands, bads, constraints = ([int(word) for word in header] + [0] * 4)[:7]
    input_lits = [numbers()[0] for _ in range(inputs)]
    latch_rows = [numbers() for _ in range(latches)]
    plain = [[numbers()[0] for _ in range(count)] for count in (outputs, bads, constraints)]
    gates = {row[0]: row[1:] for row in (numbers() for _ in range(ands))}

    ordered = in_order(gates)
    new = {0: 0}
    for lit in input_lits + [row[0] for row in latch_rows] + ordered:
        new[lit] = 2 * len(new)
    # a variable that nothing defines is false
    renamed = lambda lit: new.get(lit - lit % 2, 0) + lit % 2

    with open(target, "wb") as out:
        counts = [len(new) - 1, inputs, latches, outputs, ands, bads, constraints]
        while len(counts) > 5 and counts[-1] == 0:
            counts.pop()
        out.write(("aig " + " ".join(map(str, counts)) + "\n").encode())
        for lit, after, *reset in latch_rows:
            fields = [renamed(after)] + [new[lit] if value == lit else value for value in reset]
            out.write((" ".join(map(str, fields)) + "\n").encode())
        for lit in sum(plain, []):
            out.write(f"{renamed(lit)}\n".encode())
        for lhs in ordered:
            smaller, larger = sorted(renamed(lit) for lit in gates[lhs])
            out.write(delta(new[lhs] - larger) + delta(larger - smaller))


if __name__ == "__main__":
    main()
