#!/usr/bin/env python3
"""The guide's way from Verilog to a report, with yosys from a package and the proved program.

Prints `same` where the report of examples/arbiter.v is that of examples/arbiter.report. Skips where yosys is
missing.
"""
import os
import shutil
import subprocess
import sys
import tempfile

TOP = os.path.dirname(os.path.dirname(os.path.abspath(__file__)))
PROGRAM = os.path.join(TOP, "crates", "ketch", "out", "ketch")
EXAMPLES = os.path.join(TOP, "examples")


def main():
    if not os.path.exists(PROGRAM):
        sys.exit("no proved program: run `rt ci` first")
    if shutil.which("yosys") is None:
        print("skipped: no yosys")
        return
    with tempfile.TemporaryDirectory() as folder:
        circuit = os.path.join(folder, "arbiter.aag")
        design = os.path.join(EXAMPLES, "arbiter.v")
        script = (f"read_verilog {design}; synth -flatten -top arbiter; abc -g AND; "
                  f"write_aiger -ascii -symbols {circuit}")
        subprocess.run(["yosys", "-q", "-p", script], check=True)
        words = [PROGRAM, "cover", circuit, os.path.join(EXAMPLES, "arbiter.signals")]
        done = subprocess.run(words, capture_output=True)
    with open(os.path.join(EXAMPLES, "arbiter.report"), "rb") as file:
        wanted = file.read()
    if done.stdout != wanted:
        sys.exit(f"another report, status {done.returncode}: {done.stderr.decode()}")
    print(f"same: {len(wanted)} bytes, status {done.returncode}")


if __name__ == "__main__":
    main()
