#!/usr/bin/env python3
"""Time and memory of `ketch cover` on chains of latches, over the proved program.

The program is crates/ketch/out/ketch, as `rt ci` or `rt run` leaves it. Each latch takes the value
of the one before it, and the first is always 1. Prints a line for each size.
"""
import os
import sys
import tempfile
import time

TOP = os.path.dirname(os.path.dirname(os.path.abspath(__file__)))
PROGRAM = os.path.join(TOP, "crates", "ketch", "out", "ketch")


def chain(latches):
    lines = [f"aag {latches} 0 {latches} 0 0"]
    lines += [f"{2 * k} {2 * k - 2 if k > 1 else 1}" for k in range(1, latches + 1)]
    return "\n".join(lines) + "\n"


def measure(folder, latches):
    circuit = os.path.join(folder, "chain.aag")
    signals = os.path.join(folder, "signals.txt")
    with open(circuit, "w") as file:
        file.write(chain(latches))
    with open(signals, "w") as file:
        file.write("".join(f"l{k}\n" for k in range(min(10, latches))))
    pid = os.fork()
    if pid == 0:
        out = os.open(os.path.join(folder, "report"), os.O_WRONLY | os.O_CREAT | os.O_TRUNC)
        os.dup2(out, 1)
        os.execv(PROGRAM, [PROGRAM, "cover", circuit, signals])
    started = time.monotonic()
    _, status, usage = os.wait4(pid, 0)
    seconds = time.monotonic() - started
    size = os.path.getsize(os.path.join(folder, "report"))
    print(f"{latches:5} latches: {seconds:7.3f} s, {usage.ru_maxrss / 1024:7.1f} MB, "
          f"report {size} bytes, status {os.waitstatus_to_exitcode(status)}")


def main():
    if not os.path.exists(PROGRAM):
        sys.exit("no proved program: run `rt ci` first")
    with tempfile.TemporaryDirectory() as folder:
        for latches in (125, 250, 500, 1000):
            measure(folder, latches)


if __name__ == "__main__":
    main()
