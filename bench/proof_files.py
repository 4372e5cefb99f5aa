#!/usr/bin/env python3
"""Takes the proofs out of a report, each with its formula, for any LRAT checker.

usage: proof_files.py CIRCUIT.aag SIGNALS REPORT FOLDER

For each clause k of the report FOLDER gets clause<k>.cnf and clause<k>.lrat, that a step from a state in which all
clauses hold keeps it, and for each unreachable goal g goal<g>.cnf and goal<g>.lrat, that no state in which they hold
shows it. A report of `cover --proofs` also has, for each step that a search went through whole, the proof that nothing
more is reached there: sweep<t>.cnf and sweep<t>.lrat from reset, hop<b>_<t>.cnf and hop<b>_<t>.lrat from the state of
batch b's seed. Nothing here is taken from the program: the formulas are made from the circuit, as docs/FORMATS.md has them.
The clauses are printed in the circuit's own names, and whether each holds at reset, which no proof is needed for.
"""
import os
import sys


class Circuit:
    def __init__(self, text):
        lines = iter(text.split("\n"))
        numbers = lambda: [int(word) for word in next(lines).split()]
        magic, *header = next(lines).split()
        assert magic == "aag", "the circuit isn't in the ASCII form"
        self.top, inputs, latches, outputs, gates, bads, constraints = ([int(word) for word in header] + [0] * 4)[:7]
        self.inputs = [numbers()[0] for _ in range(inputs)]
        self.latches = [(numbers() + [0])[:3] for _ in range(latches)]
        self.outputs, self.bads, self.constraints = ([numbers()[0] for _ in range(n)] for n in (outputs, bads, constraints))
        self.gates = in_order([tuple(numbers()) for _ in range(gates)])
        self.names = {}
        for line in lines:
            if line[:1] not in tuple("ilobc") or " " not in line:
                break
            place, name = line.split(" ", 1)
            self.names[place] = name

    def place(self, word):
        """The literal at a place as `l0`."""
        sections = {"i": self.inputs, "l": [row[0] for row in self.latches], "o": self.outputs, "b": self.bads, "c": self.constraints}
        return int(word[1:]) if word[0] == "n" else sections[word[0]][int(word[1:])]

    def signal(self, line):
        if line[0] != "@":
            return self.place(line)
        return self.place(next(place for place, name in self.names.items() if name == line[1:]))


def in_order(gates):
    """Again and again the gate with the least left side among those whose gate inputs are all placed."""
    left, placed = sorted(gates), []
    while left:
        waiting = {gate[0] // 2 for gate in left}
        gate = next(gate for gate in left if not {lit // 2 for lit in gate[1:]} & waiting)
        left.remove(gate)
        placed.append(gate)
    return placed


def cnf(lit):
    return -(lit // 2 + 1) if lit % 2 else lit // 2 + 1


def step(circuit):
    """The clauses of one step from any state: constants, gates, constraints."""
    defined = {lit // 2 for lit in circuit.inputs + [row[0] for row in circuit.latches] + [gate[0] for gate in circuit.gates]}
    clauses = [[-1]] + [[-(x + 1)] for x in range(1, circuit.top + 1) if x not in defined]
    for gate, left, right in circuit.gates:
        clauses += [[-cnf(gate), cnf(left)], [-cnf(gate), cnf(right)], [cnf(gate), -cnf(left), -cnf(right)]]
    return clauses + [[cnf(lit)] for lit in circuit.constraints]


def over_latches(circuit, clause, column):
    """A clause over latches with each latch's literal (column 0) or next literal (column 1)."""
    lits = [circuit.latches[abs(lit) - 1][column] for lit in clause]
    return [cnf(lit) if sign > 0 else -cnf(lit) for lit, sign in zip(lits, clause)]


def at_step(circuit, clauses, t):
    """Clauses of one step, over the variables of step t."""
    before = t * (circuit.top + 1)
    return [[lit + before if lit > 0 else lit - before for lit in clause] for clause in clauses]


def first_states(circuit, state):
    """The clauses of the latches at step 0: their values in this state, or their resets."""
    if state is None:
        values = [(row[0], row[2]) for row in circuit.latches if row[2] != row[0]]
    else:
        values = [(row[0], value) for row, value in zip(circuit.latches, state)]
    return [[cnf(lit) if value else -cnf(lit)] for lit, value in values]


def search(circuit, signals, state, last, blocked):
    """The runs of steps 0 to last, from reset or from a state, that end in a goal that isn't blocked."""
    clauses = []
    for t in range(last + 1):
        clauses += at_step(circuit, step(circuit), t)
        if t == 0:
            clauses += first_states(circuit, state)
        for lit, later, _ in circuit.latches if t else []:
            (now,), (then,) = at_step(circuit, [[cnf(lit)]], t)[0], at_step(circuit, [[cnf(later)]], t - 1)[0]
            clauses += [[-now, then], [now, -then]]
    goals = [[-cnf(lit) if goal >> k & 1 else cnf(lit) for k, lit in enumerate(signals)] for goal in blocked]
    return clauses + at_step(circuit, goals, last)


def write(folder, name, circuit, clauses, proof, steps=1):
    with open(os.path.join(folder, name + ".cnf"), "w") as file:
        file.write(f"p cnf {steps * (circuit.top + 1)} {len(clauses)}\n")
        file.writelines(" ".join(map(str, clause)) + " 0\n" for clause in clauses)
    with open(os.path.join(folder, name + ".lrat"), "w") as file:
        file.writelines(line + "\n" for line in proof)


def proof_at(lines, at):
    """The lines of the proof whose count stands there."""
    word, count = lines[at].split()
    assert word == "proof"
    return lines[at + 1:at + 1 + int(count)]


def invariant(lines):
    """The clauses of a report, each with its proof."""
    at = next((k for k, line in enumerate(lines) if line.startswith("inv ")), None)
    if at is None:
        return []
    found, count = [], int(lines[at].split()[1])
    at += 1
    for _ in range(count):
        proof = proof_at(lines, at + 1)
        found.append(([int(word) for word in lines[at].split()[:-1]], proof))
        at += 2 + len(proof)
    return found


def seed_states(lines):
    """The state of each batch's seed, and None where a batch has none."""
    at = next(k for k, line in enumerate(lines) if line.startswith("seeds ")) + 1
    states = []
    while lines[at].startswith("seed "):
        word = lines[at].split()[2]
        rows = 0 if word == "none" else int(word) + 2
        states.append([int(value) for value in lines[at + rows]] if rows else None)
        at += 1 + rows
    return states


def said(circuit, clause):
    names = [circuit.names.get(f"l{abs(lit) - 1}", f"l{abs(lit) - 1}") for lit in clause]
    return " or ".join(name if lit > 0 else "not " + name for name, lit in zip(names, clause))


def holds_at_reset(circuit, clause):
    """Whether some latch of the clause, with a fixed reset, starts as it says."""
    rows = [(circuit.latches[abs(lit) - 1], lit > 0) for lit in clause]
    free = {row[0]: sign for row, sign in rows if row[2] == row[0]}
    opposed = any(row[0] in free and free[row[0]] != sign for row, sign in rows)
    return opposed or any(row[2] != row[0] and (row[2] == 1) == sign for row, sign in rows)


def main():
    source, list_name, report, folder = sys.argv[1:]
    circuit = Circuit(open(source, encoding="latin-1").read())
    listed = [line.strip() for line in open(list_name, encoding="latin-1")]
    signals = [circuit.signal(line) for line in listed if line and line[0] != "#"]
    lines = open(report).read().split("\n")
    os.makedirs(folder, exist_ok=True)

    kept = invariant(lines)
    base = step(circuit) + [over_latches(circuit, clause, 0) for clause, _ in kept]
    for place, (clause, proof) in enumerate(kept):
        broken = [[-lit] for lit in over_latches(circuit, clause, 1)]
        write(folder, f"clause{place}", circuit, base + broken, proof)
        print(f"clause {place}: {said(circuit, clause)} ({'holds' if holds_at_reset(circuit, clause) else 'FAILS'} at reset)")
    for at, line in enumerate(lines):
        words = line.split()
        if words[:1] == ["goal"] and words[2:3] == ["unreachable"]:
            goal = int(words[1])
            shown = [[cnf(lit) if goal >> k & 1 else -cnf(lit)] for k, lit in enumerate(signals)]
            write(folder, f"goal{goal}", circuit, base + shown, proof_at(lines, at + 1))
            print(f"goal {goal}: unreachable")
        if words[:1] == ["refute"]:
            hop = words[1] == "hop"
            state = seed_states(lines)[int(words[2])] if hop else None
            last, blocked = int(words[-1]), [int(goal) for goal in lines[at + 1].split()[2:]]
            name = "_".join(words[2:]) if hop else words[2]
            write(folder, words[1] + name, circuit, search(circuit, signals, state, last, blocked), proof_at(lines, at + 2), last + 1)
            print(f"{' '.join(words[1:])}: nothing but {len(blocked)} settled goals")


main()
