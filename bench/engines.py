"""What bench/sweep.py and bench/prove.py share: circuits from Verilog, their goal circuits, and runs of programs."""
import os
import re
import shutil
import subprocess
import sys
import time

TOP = os.path.dirname(os.path.dirname(os.path.abspath(__file__)))
BENCH = os.path.join(TOP, "crates", "engine_bench", "out", "engine_bench")
SOLVER = os.path.join(TOP, "crates", "solve_dimacs", "out", "solve_dimacs")
VERILOG = os.path.join(TOP, "bench", "verilog")
LEMMAS = 20000
SIGNALS = {
    "arbiter": ["gnt[0]", "gnt[1]", "gnt[2]", "gnt[3]", "busy", "expired", "conflict"],
    "fifo": ["full", "empty", "almost_full", "almost_empty", "overflow", "underflow"],
    "uart": ["tx", "busy", "ready", "frame_error", "parity_error", "sample"],
    "processor": ["valid", "stalled", "taken", "carry", "zero", "masked", "trapped", "storing", "loading"],
}


class Run:
    """A program's output, its user seconds and its greatest memory in MB."""

    def __init__(self, words, folder, timeout=None):
        out, err = os.path.join(folder, "out"), os.path.join(folder, "err")
        with open(out, "wb") as to, open(err, "wb") as to_err:
            process = subprocess.Popen(words, stdout=to, stderr=to_err, cwd=folder)
        end = time.monotonic() + timeout if timeout else None
        while True:
            pid, status, usage = os.wait4(process.pid, os.WNOHANG if end else 0)
            if pid:
                break
            if time.monotonic() > end:
                process.kill()
                _, status, usage = os.wait4(process.pid, 0)
                break
            time.sleep(0.002)
        process.returncode = self.status = os.waitstatus_to_exitcode(status)
        self.seconds, self.megabytes = usage.ru_utime, usage.ru_maxrss / 1024
        with open(out, "rb") as file:
            self.out = file.read()
        with open(err, "rb") as file:
            self.err = file.read().decode(errors="replace").strip()


def read_circuit(path):
    """The header's numbers, the lines of inputs and latches, those of gates, and each output's place and literal."""
    with open(path) as file:
        lines = file.read().split("\n")
    header = [int(word) for word in lines[0].split()[1:]]
    top, inputs, latches, outputs, ands = header[:5]
    assert not any(header[5:]), "the circuit has more than outputs"
    first = 1 + inputs + latches
    last = first + outputs + ands
    found = (re.match(r"o(\d+) (.*)", line) for line in lines[last:])
    by_name = {symbol[2]: (int(symbol[1]), int(lines[first + int(symbol[1])])) for symbol in found if symbol}
    return (top, inputs, latches, ands), lines[1:first], lines[first + outputs:last], by_name


def circuit(folder, name):
    """The paths of a circuit and of its signals, made from Verilog, and the number of its gates."""
    path, signals = os.path.join(folder, f"{name}.aag"), os.path.join(folder, f"{name}.signals")
    design = os.path.join(VERILOG, f"{name}.v")
    script = (f"read_verilog {design}; synth -flatten -top {name}; dfflegalize -cell $_DFF_P_ 01; opt_clean; "
              f"techmap; abc -g AND; opt_clean; write_aiger -ascii -symbols {path}")
    subprocess.run(["yosys", "-q", "-p", script], check=True)
    (_, _, _, gates), _, _, outputs = read_circuit(path)
    # a register and the output that shows it have one name, so signals go by their places
    with open(signals, "w") as file:
        file.write("".join(f"o{outputs[signal][0]}\n" for signal in SIGNALS[name]))
    return path, signals, gates


def goal_circuit(folder, path, signals):
    """The path of the binary circuit whose output g is true where goal g is shown: the digit of weight 2^k of a goal's
    number is the value of signal k."""
    (top, inputs, latches, _), head, gates, outputs = read_circuit(path)
    goals = [1]
    for signal in signals:
        level = []
        true = outputs[signal][1]
        for lit in (true ^ 1, true):
            for goal in goals:
                top += 1
                gates.append(f"{2 * top} {goal} {lit}")
                level.append(2 * top)
        goals = level
    ascii_path, binary = os.path.join(folder, "goals.aag"), os.path.join(folder, "goals.aig")
    lines = [f"aag {top} {inputs} {latches} {len(goals)} {len(gates)}"] + head + [str(goal) for goal in goals] + gates
    with open(ascii_path, "w") as file:
        file.write("\n".join(lines) + "\n")
    subprocess.run([sys.executable, os.path.join(TOP, "bench", "to_binary.py"), ascii_path, binary], check=True)
    return binary


def least(runs):
    """The run that took the least time."""
    return min(runs, key=lambda run: run.seconds)


def need(*programs):
    for program in programs:
        if not os.path.exists(program):
            sys.exit(f"no proved program {os.path.basename(program)}: run `rt run` in its crate first")
    if shutil.which("yosys") is None:
        print("skipped: no yosys")
        sys.exit(0)
