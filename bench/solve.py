#!/usr/bin/env python3
"""Time and conflicts of Ketch's solver beside cadical and minisat, on formulas like those of the search.

The program is crates/solve_dimacs/out/solve_dimacs, as `rt ci` or `rt run` leaves it. `cadical --plain` and
`minisat -no-pre`, both without preprocessing, run where they are on PATH; a peer that is missing is skipped. Each
formula is a circuit of AND gates over time frames: counters, timers, arbiters, multipliers, and random gates. Ketch's
conflicts are those that it learned from; the literals of level 0 that became lemmas cost none. Times are user seconds.

    solve.py [--shuffles COUNT] [--timeout SECONDS] [--only WORD] [--most CLAUSES] [--folds] [--check] [--keep FOLDER]

How soon a model is met is luck, and one formula tells little of it. `--shuffles` solves each formula so many times, with
its variables renamed and its clauses and their literals in other orders, by seeds 1, 2 and so on, and prints totals.
`--check` has `ketch lrat` check each proof of unsatisfiability; `--keep` leaves the formulas in a folder.
"""
import argparse
import os
import random
import re
import resource
import shutil
import subprocess
import sys
import tempfile

TOP = os.path.dirname(os.path.dirname(os.path.abspath(__file__)))
PROGRAM = os.path.join(TOP, "crates", "solve_dimacs", "out", "solve_dimacs")
KETCH = os.path.join(TOP, "crates", "ketch", "out", "ketch")
BUDGET = 1 << 60
ANSWERS = {10: "sat", 20: "unsat", 30: "spent"}
TRUE = 1


class Circuit:
    """AND gates as clauses. A literal is a number; variable 1 is true.

    Where constants are folded, a gate that has one, or that stands already, takes no clauses. The search doesn't fold:
    what follows of reset and of constants is then left to the solver.
    """

    folds = False

    def __init__(self):
        self.variables, self.clauses, self.gates = 1, [(TRUE,)], {}

    def input(self):
        self.variables += 1
        return self.variables

    def inputs(self, count):
        return [self.input() for _ in range(count)]

    def negate(self, a):
        return -a

    def both(self, a, b):
        if not self.folds:
            return self.gate(a, b)
        if a > b:
            a, b = b, a
        if a == -b or -TRUE in (a, b):
            return -TRUE
        if TRUE in (a, b):
            return b if a == TRUE else a
        if a == b:
            return a
        if (a, b) not in self.gates:
            self.gates[a, b] = self.gate(a, b)
        return self.gates[a, b]

    def gate(self, a, b):
        out = self.input()
        self.clauses += [(-out, a), (-out, b), (out, -a, -b)]
        return out

    def either(self, a, b):
        return -self.both(-a, -b)

    def differ(self, a, b):
        return self.both(self.either(a, b), -self.both(a, b))

    def choose(self, test, a, b):
        return self.either(self.both(test, a), self.both(-test, b))

    def all(self, lits):
        lits = list(lits)
        while len(lits) > 1:
            lits = [self.both(*lits[k:k + 2]) if k + 1 < len(lits) else lits[k] for k in range(0, len(lits), 2)]
        return lits[0] if lits else TRUE

    def any(self, lits):
        return -self.all(-lit for lit in lits)

    def equal(self, bits, value):
        return self.all(bit if value >> k & 1 else -bit for k, bit in enumerate(bits))

    def want(self, lit):
        self.clauses.append((lit,))

    def reset(self, values):
        """A state by units."""
        state = self.inputs(len(values))
        for lit, value in zip(state, values):
            self.want(lit if value else -lit)
        return state

    def shuffled(self, seed):
        """The same formula under other names and in another order."""
        chosen, other = random.Random(seed), Circuit()
        names = list(range(1, self.variables + 1))
        chosen.shuffle(names)
        renamed = [[names[lit - 1] if lit > 0 else -names[-lit - 1] for lit in lits] for lits in self.clauses]
        other.variables, other.clauses = self.variables, [chosen.sample(lits, len(lits)) for lits in renamed]
        chosen.shuffle(other.clauses)
        return other

    def write(self, path):
        with open(path, "w") as file:
            file.write(f"p cnf {self.variables} {len(self.clauses)}\n")
            file.writelines(" ".join(map(str, lits)) + " 0\n" for lits in self.clauses)


def advanced(circuit, state, carry):
    following = []
    for bit in state:
        following.append(circuit.differ(bit, carry))
        carry = circuit.both(bit, carry)
    return following


def counter(bits, frames, target):
    """Counts the steps at which an input is true, with another that puts it back: does it reach the target?"""
    circuit = Circuit()
    state = circuit.reset([False] * bits)
    for _ in range(frames):
        carry, back = circuit.inputs(2)
        state = [circuit.both(-back, bit) for bit in advanced(circuit, state, carry)]
    circuit.want(circuit.equal(state, target))
    return circuit


def timed(bits, frames):
    """A counter that counts an input where a timer, which nothing stops, has two of its bits the same: can it count more?"""
    circuit = Circuit()
    timer, state = circuit.reset([False] * bits), circuit.reset([False] * bits)
    allowed = 0
    for frame in range(frames):
        carry = circuit.both(circuit.input(), -circuit.differ(timer[0], timer[bits // 2]))
        allowed += (frame & 1) == (frame >> bits // 2 & 1)
        state, timer = advanced(circuit, state, carry), advanced(circuit, timer, TRUE)
    circuit.want(circuit.equal(state, allowed + 1))
    return circuit


def arbiter_grants(circuit, pointer, requests):
    """Who is granted: the first that requests, from the pointer on."""
    count = len(requests)
    grants = []
    for client in range(count):
        wins = []
        for first in range(count):
            between = [-requests[(first + k) % count] for k in range((client - first) % count)]
            wins.append(circuit.all([pointer[first], requests[client]] + between))
        grants.append(circuit.any(wins))
    return grants


def arbiter(clients, frames, wanted):
    """A round-robin arbiter from reset: two grants at once in a frame, or grants in an order that is wanted."""
    circuit = Circuit()
    pointer = circuit.reset([client == 0 for client in range(clients)])
    clashes, orders = [], []
    for frame in range(frames):
        requests = circuit.inputs(clients)
        grants = arbiter_grants(circuit, pointer, requests)
        clashes += [circuit.both(a, b) for k, a in enumerate(grants) for b in grants[:k]]
        orders.append(grants[frame * wanted % clients])
        none = circuit.all(-grant for grant in grants)
        pointer = [circuit.choose(none, pointer[k], grants[k - 1]) for k in range(clients)]
    circuit.want(circuit.all(orders) if wanted else circuit.any(clashes))
    return circuit


def add(circuit, a, b, carry):
    one = circuit.differ(a, b)
    return circuit.differ(one, carry), circuit.either(circuit.both(a, b), circuit.both(one, carry))


def product(circuit, left, right):
    """An array multiplier: a row of adders for each bit on the right."""
    rows = [[circuit.both(a, b) for a in left] for b in right]
    sums, out = rows[0], []
    for row in rows[1:]:
        out.append(sums[0])
        sums, carry, above = [], -TRUE, sums[1:] + [-TRUE] * (len(row) - len(sums) + 1)
        for a, b in zip(row, above):
            bit, carry = add(circuit, a, b, carry)
            sums.append(bit)
        sums.append(carry)
    return out + sums


def commuted(bits):
    """Do a * b and b * a differ?"""
    circuit = Circuit()
    left, right = circuit.inputs(bits), circuit.inputs(bits)
    one, other = product(circuit, left, right), product(circuit, right, left)
    circuit.want(circuit.any(circuit.differ(a, b) for a, b in zip(one, other)))
    return circuit


def factored(bits, number):
    """Two factors above 1 of a number."""
    circuit = Circuit()
    left, right = circuit.inputs(bits), circuit.inputs(bits)
    circuit.want(circuit.equal(product(circuit, left, right), number))
    for factor in (left, right):
        circuit.want(circuit.any(factor[1:]))
    return circuit


class Runs:
    """Many runs at once, one to a bit: what a circuit computes, on values."""

    def __init__(self, count, chosen):
        self.count, self.chosen, self.all_true = count, chosen, (1 << count) - 1

    def inputs(self, count):
        return [self.chosen.getrandbits(self.count) for _ in range(count)]

    def negate(self, a):
        return self.all_true ^ a

    def both(self, a, b):
        return a & b


def step(gates, nexts, values, of):
    """The next state after one step of random gates, over a state and inputs."""
    for a, not_a, b, not_b in gates:
        values.append(of.both(of.negate(values[a]) if not_a else values[a], of.negate(values[b]) if not_b else values[b]))
    return [of.negate(values[k]) if negated else values[k] for k, negated in nexts]


def random_gates(count, latches, inputs, chosen):
    """AND gates over earlier ones nearby, one in four as three that make the difference; which gates the latches take."""
    gates, first = [], latches + inputs
    while len(gates) < count:
        here = first + len(gates)
        a, b = chosen.sample(range(max(0, here - 4 * latches), here), 2)
        if chosen.randrange(4):
            gates.append((a, chosen.randrange(2), b, chosen.randrange(2)))
        else:
            gates += [(a, 0, b, 1), (a, 1, b, 0), (here, 1, here + 1, 1)]
    return gates, [(first + chosen.randrange(count // 2, count), chosen.randrange(2)) for _ in range(latches)]


def random_frames(latches, count, frames, seen):
    """A combination of ten latches after some frames of random gates, that 4,096 random runs show or don't show."""
    inputs, chosen = latches // 2, random.Random(latches * count + frames)
    gates, nexts = random_gates(count, latches, inputs, chosen)
    circuit, runs = Circuit(), Runs(4096, chosen)
    state, shown = circuit.reset([False] * latches), [0] * latches
    for _ in range(frames):
        state = step(gates, nexts, state + circuit.inputs(inputs), circuit)
        shown = step(gates, nexts, shown + runs.inputs(inputs), runs)
    places = sorted(range(latches), key=lambda k: abs(2 * bin(shown[k]).count("1") - runs.count))[:10]
    combinations = {sum((shown[place] >> run & 1) << k for k, place in enumerate(places)) for run in range(runs.count)}
    unseen = [value for value in range(1 << len(places)) if value not in combinations]
    circuit.want(circuit.equal([state[place] for place in places], chosen.choice(sorted(combinations) if seen else unseen)))
    return circuit


def formulas():
    """Name, answer, and how to make it; small ones first in each family."""
    for bits, frames in ((6, 20), (7, 40), (8, 80), (9, 150), (10, 300)):
        yield f"counter {bits} bits {frames} frames", "sat", lambda b=bits, f=frames: counter(b, f, f * 3 // 4)
        yield f"counter {bits} bits {frames} frames", "unsat", lambda b=bits, f=frames: counter(b, f, f + 1)
    for bits, frames in ((6, 20), (6, 40), (7, 80), (8, 160)):
        yield f"timer {bits} bits {frames} frames", "unsat", lambda b=bits, f=frames: timed(b, f)
    for clients, frames in ((5, 10), (6, 12), (7, 16), (8, 30)):
        yield f"arbiter {clients} clients {frames} frames", "unsat", lambda c=clients, f=frames: arbiter(c, f, 0)
    for clients, frames in ((8, 30), (16, 60)):
        yield f"arbiter {clients} clients {frames} frames", "sat", lambda c=clients, f=frames: arbiter(c, f, 3)
    for bits in (4, 5, 6, 7):
        yield f"multiplier {bits} bits commuted", "unsat", lambda b=bits: commuted(b)
    for bits, number in ((10, 1009 * 997), (12, 4093 * 3989), (14, 16381 * 12347), (16, 65521 * 64997)):
        yield f"multiplier {bits} bits factored", "sat", lambda b=bits, n=number: factored(b, n)
    for latches, count, frames in ((20, 200, 8), (40, 1000, 20), (60, 4000, 30), (80, 8000, 24)):
        name = f"gates {count} by {frames} frames"
        yield name, "sat", lambda l=latches, c=count, f=frames: random_frames(l, c, f, True)
        yield name, None, lambda l=latches, c=count, f=frames: random_frames(l, c, f, False)


def chain(count, last):
    """A unit, and implications from each variable to the next that stand before it; the last one false, or free."""
    yield f"p cnf {count} {count + last}\n"
    for variable in range(count - 1, 0, -1):
        yield f"-{variable} {variable + 1} 0\n"
    yield "1 0\n"
    if last:
        yield f"-{count} 0\n"


def spent():
    """The user seconds of all programs that were run."""
    return resource.getrusage(resource.RUSAGE_CHILDREN).ru_utime


def run(words, timeout, output=None):
    """User seconds, status (None after so many seconds), and what was written to standard output and error, together."""
    limit = resource.RLIM_INFINITY if timeout is None else timeout
    with tempfile.TemporaryFile() as said:
        before = spent()
        bounded = {"preexec_fn": lambda: resource.setrlimit(resource.RLIMIT_CPU, (limit, limit))}
        status = subprocess.run(words, stdout=output or said, stderr=said, **bounded).returncode
        seconds = spent() - before
        said.seek(0)
        is_late = status not in ANSWERS and timeout is not None and seconds > 0.9 * timeout
        return seconds, None if is_late else status, said.read().decode()


class Outcome:
    """How a solver ended; what isn't known is None."""

    def __init__(self, seconds, answer, conflicts=None, lemmas=None, hints=None):
        self.seconds, self.answer, self.conflicts, self.lemmas, self.hints = seconds, answer, conflicts, lemmas, hints

    def ended(self):
        return self.answer in ("sat", "unsat")

    def rate(self):
        return self.conflicts / self.seconds if self.conflicts and self.seconds else None


def known_sum(numbers):
    return None if None in numbers else sum(numbers)


def total(outcomes):
    """Of several formulas as one, which ended where each did."""
    late = [one.answer for one in outcomes if not one.ended()]
    return Outcome(
        sum(one.seconds for one in outcomes),
        late[0] if late else outcomes[0].answer,
        known_sum([one.conflicts for one in outcomes]),
        known_sum([one.lemmas for one in outcomes]),
        known_sum([one.hints for one in outcomes]),
    )


def answer_of(status):
    return ANSWERS.get(status, "late" if status is None else f"status {status}")


def number_in(pattern, text):
    found = re.search(pattern, text)
    return int(found.group(1)) if found else None


def ketch(formula, proof, timeout):
    with open(proof, "wb") as output:
        seconds, status, said = run([PROGRAM, formula, str(BUDGET)], timeout, output)
    numbers = [number_in(name + r"=(\d+)", said) for name in ("conflicts", "lemmas", "hints")]
    return Outcome(seconds, answer_of(status), *numbers)


def peer(words, pattern, formula, timeout):
    seconds, status, said = run(words + [formula], timeout)
    conflicts = number_in(pattern, said)
    # cadical has no line for them where there are none
    return Outcome(seconds, answer_of(status), 0 if conflicts is None and status in ANSWERS else conflicts)


PEERS = {
    "cadical": (["cadical", "--plain"], r"c conflicts: +(\d+)"),
    "minisat": (["minisat", "-no-pre"], r"conflicts +: +(\d+)"),
}


def shown(value, width, places=0):
    return f"{'-' if value is None else format(value, f'.{places}f'):>{width}}"


def quotient(own, other, least):
    """Of two numbers, where both are known; a peer's is taken for this at least."""
    return None if own is None or other is None else own / max(other, least)


def ratios(own, other):
    """Ketch's conflicts and seconds by a peer's, where both ended."""
    if not other or not own.ended() or not other.ended():
        return None, None
    return quotient(own.conflicts, other.conflicts, 1), quotient(own.seconds, other.seconds, 0.001)


def line(name, clauses, outcomes):
    own, others = outcomes["ketch"], [outcomes.get(name) for name in PEERS]
    every = [own] + others
    cells = [f"{name:35} {own.answer:6} {clauses:8}"]
    cells += [shown(one and one.conflicts, 9) for one in every]
    cells += [shown(one and one.rate(), 9) for one in every]
    cells += [shown(one and one.seconds, 9, 2) for one in every]
    cells += [shown(one, 7, 1) for other in others for one in ratios(own, other)]
    cells.append(shown(own.hints / own.lemmas if own.hints and own.lemmas else None, 8, 1))
    print(" ".join(cells), flush=True)


def head():
    names = ["ketch"] + list(PEERS)
    cells = [f"{'formula':35} {'answer':6} {'clauses':>8}"]
    cells += [f"{name + text:>{width}}" for text, width in (("", 9), ("/s", 9), (" s", 9)) for name in names]
    cells += [f"{text + name[:4]:>7}" for name in PEERS for text in ("c/", "s/")]
    print(" ".join(cells + [f"{'hints/l':>8}"]))
    print("(conflicts, conflicts a second, user seconds, Ketch's conflicts and seconds by the peer's, hints a lemma)")


def agree(name, wanted, outcomes):
    """Ends the bench where two answers differ, or one differs from what is known."""
    answers = {one.answer for one in outcomes.values()} & {"sat", "unsat"}
    if len(answers | ({wanted} if wanted else set())) > 1:
        sys.exit(f"{name}: {({solver: one.answer for solver, one in outcomes.items()})}, wanted {wanted}")


def compare(name, wanted, path, options):
    """The outcomes of one formula."""
    proof = path + ".lrat"
    outcomes = {"ketch": ketch(path, proof, options.timeout)}
    for solver, (words, pattern) in PEERS.items():
        if shutil.which(words[0]):
            outcomes[solver] = peer(words, pattern, path, options.timeout)
    agree(name, wanted, outcomes)
    if options.check and outcomes["ketch"].answer == "unsat":
        seconds, status, said = run([KETCH, "lrat", path, proof], None)
        if status != 0:
            sys.exit(f"{name}: the proof is refused: {said}")
    os.unlink(proof)
    return outcomes


def measure(name, wanted, circuit, folder, options):
    """A line for a formula, or for all its shuffles."""
    path, outcomes = os.path.join(folder, name.replace(",", "").replace(" ", "_") + ".cnf"), []
    for seed in range(1, options.shuffles + 1) or [None]:
        (circuit.shuffled(seed) if seed else circuit).write(path)
        outcomes.append(compare(name, wanted, path, options))
    line(name, len(circuit.clauses), {solver: total([one[solver] for one in outcomes]) for solver in outcomes[0]})


def load(count, folder):
    print(f"\nloading {count} clauses, a chain of units to propagate; wanted under 5 s")
    path = os.path.join(folder, "chain.cnf")
    for last in (False, True):
        with open(path, "w") as file:
            file.writelines(chain(count, last))
        outcome = ketch(path, path + ".lrat", 600)
        size = os.path.getsize(path) / 1e6
        print(f"{'ends in a conflict' if last else 'has a model':20} {outcome.answer:6} {size:6.1f} MB {outcome.seconds:7.2f} s")
    os.unlink(path + ".lrat")


def words():
    parser = argparse.ArgumentParser(description="Ketch's solver beside cadical and minisat.")
    parser.add_argument("--shuffles", type=int, default=0, help="how many shuffles of each formula, in place of itself")
    parser.add_argument("--timeout", type=int, default=60, help="processor seconds for each run")
    parser.add_argument("--only", default="", help="formulas whose name has this word")
    parser.add_argument("--most", type=int, default=600_000, help="the most clauses of a formula")
    parser.add_argument("--folds", action="store_true", help="fold the constants of the circuits")
    parser.add_argument("--check", action="store_true")
    parser.add_argument("--keep", help="a folder for the formulas")
    return parser.parse_args()


def main():
    options = words()
    Circuit.folds = options.folds
    for program in [PROGRAM] + [KETCH] * options.check:
        if not os.path.exists(program):
            sys.exit(f"no {program}: run `rt ci` first")
    for solver, (command, _) in PEERS.items():
        if not shutil.which(command[0]):
            print(f"no {solver}: it is skipped")
    with tempfile.TemporaryDirectory() as scratch:
        folder = options.keep or scratch
        os.makedirs(folder, exist_ok=True)
        head()
        for name, wanted, make in formulas():
            if options.only not in name:
                continue
            circuit = make()
            if len(circuit.clauses) <= options.most:
                measure(f"{name}, {wanted or 'unseen'}", wanted, circuit, folder, options)
        if options.only in "loading":
            load(2_000_000, scratch)


if __name__ == "__main__":
    main()
