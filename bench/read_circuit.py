#!/usr/bin/env python3
"""Time and memory of reading ASCII and binary circuits, over the proved program.

The program is crates/ketch/out/ketch, as `rt ci` or `rt run` leaves it. Each circuit is read whole, put in
order and built; then its product of frames is found too large, so nothing of the run follows the reading.
Prints a line for each text: its size, the seconds, and millions of bytes a second. Beside it stands the time
in which Python reads the same file, which is what the disk and the kernel take.
"""
import os
import random
import sys
import tempfile
import time

TOP = os.path.dirname(os.path.dirname(os.path.abspath(__file__)))
PROGRAM = os.path.join(TOP, "crates", "ketch", "out", "ketch")
INPUTS = 100
WANTED = "ketch: limit: frames\n"


def gates(count, near):
    """Lines of gates, each over earlier variables at most `near` places before it."""
    chosen = random.Random(1)
    for gate in range(count):
        variable = INPUTS + gate + 1
        least = max(1, variable - near)
        left, right = (2 * chosen.randrange(least, variable) + chosen.randrange(2) for _ in "ab")
        yield f"{2 * variable} {left} {right}"


def circuit(count, near, shuffled, symbols):
    lines = list(gates(count, near))
    if shuffled:
        random.Random(2).shuffle(lines)
    head = [f"aag {INPUTS + count} {INPUTS} 0 1 {count}"]
    head += [str(2 * k) for k in range(1, INPUTS + 1)]
    head.append(str(2 * (INPUTS + count)))
    names = [f"i{k} request[{k}]" for k in range(symbols)]
    return "\n".join(head + lines + names) + "\n"


def delta(value, least):
    """A number in groups of seven bits, the lowest first, in at least so many bytes."""
    groups = []
    while value or len(groups) < least:
        groups.append(value % 128 + 128)
        value //= 128
    groups[-1] -= 128
    return bytes(groups)


def binary_circuit(count, near, outputs, least):
    """Gates as above, deltas of at least so many bytes, and a line and a symbol for each output."""
    chosen = random.Random(3)
    top = INPUTS + count
    lines = [f"aig {top} {INPUTS} 0 {outputs} {count}"]
    lines += [str(2 * (top - k)) for k in range(outputs)]
    parts = ["\n".join(lines).encode(), b"\n"]
    for gate in range(count):
        variable = INPUTS + gate + 1
        lowest = max(1, variable - near)
        inputs = (2 * chosen.randrange(lowest, variable) + chosen.randrange(2) for _ in "ab")
        right, left = sorted(inputs)
        parts.append(delta(2 * variable - left, least) + delta(left - right, least))
    parts += [f"o{k} grant[{k}]\n".encode() for k in range(outputs)]
    return b"".join(parts)


def run(words, folder):
    """Seconds, peak memory in MB, and what the program said."""
    said = os.path.join(folder, "said")
    pid = os.fork()
    if pid == 0:
        err = os.open(said, os.O_WRONLY | os.O_CREAT | os.O_TRUNC)
        os.dup2(err, 2)
        os.execv(PROGRAM, [PROGRAM] + words)
    started = time.monotonic()
    _, _, usage = os.wait4(pid, 0)
    seconds = time.monotonic() - started
    with open(said) as file:
        return seconds, usage.ru_maxrss / 1024, file.read()


def plain_read(path):
    started = time.monotonic()
    with open(path, "rb") as file:
        file.read()
    return time.monotonic() - started


def measure(folder, title, text):
    path = os.path.join(folder, "circuit")
    signals = os.path.join(folder, "signals")
    with open(path, "wb") as file:
        file.write(text if isinstance(text, bytes) else text.encode())
    with open(signals, "w") as file:
        file.write("o0\n")
    words = ["cover", path, signals, "--hop", "50"]
    seconds, peak, said = min(run(words, folder) for _ in range(3))
    if said != WANTED:
        sys.exit(f"{title}: the program said {said!r}")
    size = len(text) / 1e6
    print(f"{title:42} {size:6.1f} MB: {seconds:6.3f} s, {size / seconds:6.1f} MB/s, "
          f"{peak:7.1f} MB held; read alone {plain_read(path):5.3f} s")


def main():
    if not os.path.exists(PROGRAM):
        sys.exit("no proved program: run `rt ci` first")
    with tempfile.TemporaryDirectory() as folder:
        for count in (350_000, 700_000, 1_400_000, 2_600_000):
            measure(folder, f"{count} gates in order", circuit(count, 1000, False, INPUTS))
        measure(folder, "1000000 gates in shuffled lines", circuit(1_000_000, 1000, True, INPUTS))
        measure(folder, "1000000 gates, far and shuffled", circuit(1_000_000, 4_000_000, True, INPUTS))
        # short deltas; long ones; long ones beside lines and symbols, some 60 MB
        for count, near, outputs, least in (
            (3_900_000, 60, 100, 1),
            (3_900_000, 1_000_000, 100, 5),
            (3_000_000, 1_000_000, 1_000_000, 5),
        ):
            title = f"{count} gates, {outputs} outputs, binary"
            measure(folder, title, binary_circuit(count, near, outputs, least))


if __name__ == "__main__":
    main()
