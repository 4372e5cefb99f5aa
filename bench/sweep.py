#!/usr/bin/env python3
"""Time, memory and lemmas of sweeps from reset, beside cadical on the same formulas and ABC's bmc3.

The program is crates/engine_bench/out/engine_bench, as `rt ci` or `rt run` leaves it. The circuits are made by yosys
from bench/verilog. A sweep goes to the depth with the default budget of lemmas. For each step the formula by which it
is searched whole, with all goals blocked that were found, goes to `cadical --plain`, and for the lemmas to
crates/solve_dimacs/out/solve_dimacs. `bmc3 -a` of ABC looks for the same goals over as many frames, in the circuit
whose outputs are the goals. A peer that is missing is skipped. Each program runs several times, in turn with the
others; of each stands the least of its user seconds.

    sweep.py [--depth STEPS] [--only WORD] [--runs RUNS]
"""
import argparse
import os
import re
import shutil
import tempfile

from engines import BENCH, LEMMAS, SIGNALS, SOLVER, Run, circuit, goal_circuit, least, need

PEERS = {"solver": SOLVER, "cadical": "cadical", "bmc3": "berkeley-abc"}


def formula(folder, path, signals, step):
    """The path of the formula by which the step is searched whole."""
    name = os.path.join(folder, f"step_{step}.cnf")
    with open(name, "wb") as file:
        file.write(Run([BENCH, "search", path, signals, str(step), str(LEMMAS)], folder).out)
    return name


def number_after(word, text):
    found = re.search(word + r"\s*(\d+)", text)
    return int(found.group(1)) if found else 0


def commands(folder, name, path, signals, depth):
    """The words of each run: the sweep, the solver and cadical on each step's formula, bmc3."""
    found = {"sweep": [BENCH, "sweep", path, signals, str(depth), str(LEMMAS)]}
    for step in range(depth + 1):
        at = formula(folder, path, signals, step)
        found[f"solver {step}"] = [SOLVER, at, str(LEMMAS)]
        found[f"cadical {step}"] = ["cadical", "--plain", "-n", at]
    goals = goal_circuit(folder, path, SIGNALS[name])
    found["bmc3"] = ["berkeley-abc", "-q", f"read_aiger {goals}; bmc3 -a -F {depth + 1}"]
    missing = [peer for peer, program in PEERS.items() if shutil.which(program) is None]
    return {key: words for key, words in found.items() if key.split()[0] not in missing}


def report(taken, name, gates, depth):
    sweep = taken["sweep"]
    print(f"{name}: {gates} gates, {len(SIGNALS[name])} signals, steps 0 to {depth}: {sweep.err}, "
          f"{sweep.seconds:.2f} s, {sweep.megabytes:.0f} MB")
    steps = range(depth + 1)
    if "solver 0" in taken:
        ours = [taken[f"solver {step}"] for step in steps]
        lemmas = [number_after("lemmas=", run.err) for run in ours]
        print(f"  its last formulas alone: {sum(run.seconds for run in ours):.2f} s, lemmas {lemmas}, "
              f"statuses {[run.status for run in ours]}")
    if "cadical 0" in taken:
        theirs = [taken[f"cadical {step}"] for step in steps]
        conflicts = [number_after("c conflicts:", run.out.decode()) for run in theirs]
        seconds = sum(run.seconds for run in theirs)
        print(f"  cadical --plain on them: {seconds:.2f} s, conflicts {conflicts}, statuses "
              f"{[run.status for run in theirs]}; the sweep takes {sweep.seconds / seconds:.1f} times as long")
    if "bmc3" in taken:
        found = re.search(rb"are SAT \((\d+) out of", taken["bmc3"].out)
        print(f"  bmc3: {taken['bmc3'].seconds:.2f} s, found={int(found.group(1)) if found else 0}")


def main():
    parser = argparse.ArgumentParser(description=__doc__, formatter_class=argparse.RawDescriptionHelpFormatter)
    parser.add_argument("--depth", type=int, default=10)
    parser.add_argument("--only", default="")
    parser.add_argument("--runs", type=int, default=3)
    options = parser.parse_args()
    need(BENCH)
    for name in SIGNALS:
        if options.only in name:
            with tempfile.TemporaryDirectory() as folder:
                path, signals, gates = circuit(folder, name)
                words = commands(folder, name, path, signals, options.depth)
                rounds = [{key: Run(of, folder, 600) for key, of in words.items()} for _ in range(options.runs)]
                report({key: least([taken[key] for taken in rounds]) for key in words}, name, gates, options.depth)


if __name__ == "__main__":
    main()
