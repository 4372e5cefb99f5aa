#!/usr/bin/env python3
"""Time and memory of the prover, and its instructions beside those of minisat on its questions.

The program is crates/engine_bench/out/engine_bench, as `rt ci` or `rt run` leaves it. The circuits are made by yosys
from bench/verilog. The prover looks for the greatest invariant among the candidates of strength 2. Its last round asks
of each clause that stays whether it is kept; earlier rounds ask more. Of several runs stands the one of the least user
seconds.

callgrind counts instructions, and all questions of the prover: the calls of the solver. Some questions of the last
round go to `minisat`. What it takes for the same clauses with an empty one behind them, which it only reads, is taken
away. It propagates while it reads: a question that this decides leaves nothing to compare. The prover's whole count,
shared among its questions, is divided by the mean of minisat's on those that are left. A peer that is missing is
skipped.

    prove.py [--sample QUESTIONS] [--only WORD] [--runs RUNS]
"""
import argparse
import os
import re
import shutil
import tempfile

from engines import BENCH, LEMMAS, SIGNALS, Run, circuit, least, need

SOLVE = "sat_solver::solver::solve"


def question(folder, path, signals, place):
    """The path of the formula that asks whether the clause at the place is kept, and of the one that is only parsed."""
    name, parsed = os.path.join(folder, f"kept_{place}.cnf"), os.path.join(folder, f"parsed_{place}.cnf")
    text = Run([BENCH, "kept", path, signals, str(place), str(LEMMAS)], folder).out
    for path_of, behind in ((name, b""), (parsed, b"0\n")):
        with open(path_of, "wb") as file:
            file.write(text + behind)
    return name, parsed


def count(folder, words):
    """A run's instructions, and how often it called the solver."""
    counts = os.path.join(folder, "counts")
    Run(["valgrind", "--tool=callgrind", "--compress-strings=no", f"--callgrind-out-file={counts}"] + words, folder, 600)
    instructions, calls, is_solver = 0, 0, False
    with open(counts, errors="replace") as file:
        for line in file:
            if line.startswith("cfn="):
                is_solver = line.strip() == f"cfn={SOLVE}"
            elif line.startswith("calls=") and is_solver:
                calls += int(line[len("calls="):].split()[0])
            elif line.startswith(("summary:", "totals:")):
                instructions = int(line.split()[1])
    return instructions, calls


def decided(folder, formula, parsed):
    """minisat's instructions on the formula, without those that reading it takes."""
    return count(folder, ["minisat", "-verb=0", formula])[0] - count(folder, ["minisat", "-verb=0", parsed])[0]


def questions(folder, path, signals, clauses, sample):
    if clauses == 0 or shutil.which("minisat") is None:
        return []
    return [question(folder, path, signals, place) for place in range(0, clauses, max(1, clauses // sample))]


def measure(folder, name, sample, runs):
    path, signals, gates = circuit(folder, name)
    words = [BENCH, "prove", path, signals, "2", str(LEMMAS)]
    first = Run(words, folder, 600)
    found = re.match(r"whole clauses=(\d+)", first.err)
    clauses = int(found.group(1)) if found else 0
    prove = least([first] + [Run(words, folder, 600) for _ in range(runs)])
    print(f"{name}: {gates} gates: {prove.err}, {prove.seconds:.2f} s, {prove.megabytes:.0f} MB")
    if shutil.which("valgrind") is None:
        return
    instructions, calls = count(folder, words)
    each = instructions / max(calls, 1)
    print(f"  the prover: {each / 1e6:.2f} million instructions for each of {calls} questions")
    asked = questions(folder, path, signals, clauses, sample)
    took = [decided(folder, formula, parsed) for formula, parsed in asked]
    left = [taken for taken in took if taken > 0]
    if asked:
        line = f"  minisat: {len(took) - len(left)} of {len(took)} questions are decided while it reads"
        if left:
            mean = sum(left) / len(left)
            line += f"; {mean / 1e6:.2f} million for each of the others, {each / mean:.2f} times as many by the prover"
        print(line)


def main():
    parser = argparse.ArgumentParser(description=__doc__, formatter_class=argparse.RawDescriptionHelpFormatter)
    parser.add_argument("--sample", type=int, default=5)
    parser.add_argument("--only", default="")
    parser.add_argument("--runs", type=int, default=3)
    options = parser.parse_args()
    need(BENCH)
    for name in SIGNALS:
        if options.only in name:
            with tempfile.TemporaryDirectory() as folder:
                measure(folder, name, options.sample, options.runs)


if __name__ == "__main__":
    main()
