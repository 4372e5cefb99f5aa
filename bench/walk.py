#!/usr/bin/env python3
"""Gate evaluations a second of batches of 64 lanes, beside a plain loop in C and ABC's `&sim`, on random circuits.

The program is crates/walk_bench/out/walk_bench, as `rt ci` or `rt run` leaves it. The loop in C is this script's own,
compiled by `cc -O2`: one 64-bit word a variable, the same random words, once with no goals, and once with the goals
counted lane by lane. `berkeley-abc` simulates as many lanes without goals (`&sim -W 2`, two words of 32 bits). A peer
that is missing is skipped. Each circuit has ten latches as signals, so 1,024 goals, which Ketch tells apart at each
step. What each takes to start and to read is measured by a short run and left out. Of several runs, which take turns,
the fastest counts.

    walk.py [--seconds SECONDS] [--runs RUNS] [--only GATES] [--check]

`--check` compares the number of goals that a batch visits with that of the C program.
"""
import argparse
import os
import random
import shutil
import subprocess
import sys
import tempfile
import time

TOP = os.path.dirname(os.path.dirname(os.path.abspath(__file__)))
PROGRAM = os.path.join(TOP, "crates", "walk_bench", "out", "walk_bench")
LANES = 64
PEERS = ("c", "c goals", "abc")
MOST = 1_000_000
SIZES = ((400, 40, 20), (1500, 120, 40), (5000, 300, 60), (15000, 800, 100))

LOOP = r"""
#include <stdint.h>
#include <stdio.h>
#include <stdlib.h>
#include <string.h>

typedef struct { uint32_t lhs, left, right; } Gate;

static uint64_t s[4];

static uint64_t turned(uint64_t x, int k) { return (x << k) | (x >> (64 - k)); }

static uint64_t next(void) {
    uint64_t word = turned(s[0] + s[3], 23) + s[0], t = s[1] << 17;
    s[2] ^= s[0]; s[3] ^= s[1]; s[1] ^= s[2]; s[0] ^= s[3]; s[2] ^= t; s[3] = turned(s[3], 45);
    return word;
}

static void seed(uint64_t x) {
    for (int k = 0; k < 4; k++) {
        uint64_t z = x += 0x9e3779b97f4a7c15;
        z = (z ^ (z >> 30)) * 0xbf58476d1ce4e5b9;
        z = (z ^ (z >> 27)) * 0x94d049bb133111eb;
        s[k] = z ^ (z >> 31);
    }
}

static uint64_t value(const uint64_t *v, uint32_t lit) { return v[lit >> 1] ^ -(uint64_t)(lit & 1); }

static void solve(uint64_t *v, const Gate *gates, size_t count) {
    for (size_t k = 0; k < count; k++)
        v[gates[k].lhs >> 1] = value(v, gates[k].left) & value(v, gates[k].right);
}

int main(int argc, char **argv) {
    unsigned top, inputs, latches, outputs, gates;
    FILE *file = fopen(argv[1], "r");
    long steps = atol(argv[2]), signals = atol(argv[3]);
    if (!file || fscanf(file, "aag %u %u %u %u %u", &top, &inputs, &latches, &outputs, &gates) != 5) return 1;
    uint64_t *v = calloc(top + 1, 8), *state = calloc(latches, 8);
    uint32_t *in = malloc(4 * inputs), *own = malloc(4 * latches), *to = malloc(4 * latches), other;
    Gate *list = malloc(gates * sizeof *list);
    for (unsigned k = 0; k < inputs; k++) if (fscanf(file, "%u", in + k) != 1) return 1;
    for (unsigned k = 0; k < latches; k++) if (fscanf(file, "%u %u", own + k, to + k) != 2) return 1;
    for (unsigned k = 0; k < outputs; k++) if (fscanf(file, "%u", &other) != 1) return 1;
    for (unsigned k = 0; k < gates; k++)
        if (fscanf(file, "%u %u %u", &list[k].lhs, &list[k].left, &list[k].right) != 3) return 1;
    char *seen = calloc(1 << signals, 1);
    long goals = 0;
    seed(1);
    for (long t = 0; t < steps; t++) {
        for (unsigned k = 0; k < inputs; k++) v[in[k] >> 1] = next();
        for (unsigned k = 0; k < latches; k++) v[own[k] >> 1] = state[k];
        solve(v, list, gates);
        for (unsigned k = 0; k < latches; k++) state[k] = value(v, to[k]);
        for (int lane = 0; signals && lane < 64; lane++) {
            unsigned goal = 0;
            for (long k = 0; k < signals; k++) goal |= (v[own[k] >> 1] >> lane & 1) << k;
            goals += !seen[goal];
            seen[goal] = 1;
        }
    }
    uint64_t sum = 0;
    for (unsigned k = 0; k < latches; k++) sum ^= state[k];
    printf("%ld visits %llx\n", goals, (unsigned long long)sum);
}
"""


def gates(count, latches, inputs, chosen):
    """AND gates over earlier ones nearby, one in four as three that make the difference: lines, and the last variable."""
    lines, first = [], 1 + inputs + latches

    def gate(left, right):
        lines.append(f"{2 * (first + len(lines))} {left} {right}")
        return 2 * (first + len(lines) - 1)

    while len(lines) < count:
        here = first + len(lines)
        a, b = (2 * place + chosen.randrange(2) for place in chosen.sample(range(max(1, here - 4 * latches), here), 2))
        if chosen.randrange(4):
            gate(a, b)
        else:
            one, other = gate(a, b ^ 1), gate(a ^ 1, b)
            gate(one ^ 1, other ^ 1)
    return lines, first + len(lines) - 1


def circuit(count, latches, inputs):
    chosen = random.Random(count)
    lines, top = gates(count, latches, inputs, chosen)
    head = [f"aag {top} {inputs} {latches} 1 {len(lines)}"]
    head += [str(2 * (1 + k)) for k in range(inputs)]
    last = top - len(lines) // 2
    head += [f"{2 * (1 + inputs + k)} {2 * chosen.randrange(last, top + 1) + chosen.randrange(2)}" for k in range(latches)]
    return "\n".join(head + [str(2 * top)] + lines) + "\n", len(lines)


def run(words):
    started = time.monotonic()
    done = subprocess.run(words, stdout=subprocess.PIPE, stderr=subprocess.STDOUT, text=True)
    if done.returncode:
        sys.exit(f"{words}: status {done.returncode}: {done.stdout}")
    return time.monotonic() - started, done.stdout


def steps_for(words, seconds):
    """How many steps take about so long, and what a run of one step takes: each the least of three, since other work may delay a run."""

    def least(steps):
        return min(run(words(steps))[0] for _ in range(3))

    short, steps = least(1), 16
    while steps < MOST and least(steps) - short < seconds / 4:
        steps = min(MOST, 4 * steps)
    return steps, short


def rates(work, ways, options):
    """Gate evaluations a second of each way, where `work` is how many a step has. A way gives the command for so many steps."""
    chosen = {name: steps_for(words, options.seconds) for name, words in ways.items()}
    best = {}
    for _ in range(options.runs):
        for name, words in ways.items():
            steps, short = chosen[name]
            took = max(run(words(steps))[0] - short, 1e-6)
            best[name] = max(best.get(name, 0), work * (steps - 1) / took)
    return best


def ways(path, signals, folder):
    """The command of each program for so many steps."""
    found = {"ketch": lambda steps: [PROGRAM, path, signals, str(steps), "1"]}
    if shutil.which("cc"):
        loop = os.path.join(folder, "loop")
        found["c"] = lambda steps: [loop, path, str(steps), "0"]
        found["c goals"] = lambda steps: [loop, path, str(steps), "10"]
    if shutil.which("berkeley-abc"):
        binary = path.removesuffix(".aag") + ".aig"
        subprocess.run([sys.executable, os.path.join(TOP, "bench", "to_binary.py"), path, binary], check=True)
        found["abc"] = lambda steps: ["berkeley-abc", "-q", f"read {binary}; &get; &sim -F {steps} -W 2"]
    return found


def check(path, signals, folder):
    loop = os.path.join(folder, "loop")
    ours, theirs = run([PROGRAM, path, signals, "1000", "1"])[1], run([loop, path, "1000", "10"])[1]
    if ours.split()[0] != theirs.split()[0]:
        sys.exit(f"{path}: Ketch says {ours}, the loop {theirs}")


def compare(sizes, folder, options):
    text, count = circuit(*sizes)
    path, signals = (os.path.join(folder, f"{count}.{end}") for end in ("aag", "signals"))
    with open(path, "w") as file:
        file.write(text)
    with open(signals, "w") as file:
        file.write("".join(f"l{k}\n" for k in range(10)))
    if options.check and shutil.which("cc"):
        check(path, signals, folder)
    found = rates(count * LANES, ways(path, signals, folder), options)
    cells = [f"{count:7}"] + [f"{found[name]:10.2e}" if name in found else f"{'-':>10}" for name in ("ketch",) + PEERS]
    cells += [f"{found['ketch'] / found[name]:8.2f}" if name in found else f"{'-':>8}" for name in PEERS]
    print(" ".join(cells), flush=True)


def main():
    parser = argparse.ArgumentParser(description="Batches of 64 lanes beside a loop in C and ABC.")
    parser.add_argument("--seconds", type=float, default=2, help="how long a run lasts, about")
    parser.add_argument("--runs", type=int, default=5, help="how many runs, of which the fastest counts")
    parser.add_argument("--only", type=int, help="the circuit of so many gates alone")
    parser.add_argument("--check", action="store_true")
    options = parser.parse_args()
    if not os.path.exists(PROGRAM):
        sys.exit(f"no {PROGRAM}: run `rt ci walk_bench` first")
    for peer in ("cc", "berkeley-abc"):
        if not shutil.which(peer):
            print(f"no {peer}: it is skipped")
    with tempfile.TemporaryDirectory() as folder:
        if shutil.which("cc"):
            with open(os.path.join(folder, "loop.c"), "w") as file:
                file.write(LOOP)
            subprocess.run(["cc", "-O2", "-o", os.path.join(folder, "loop"), os.path.join(folder, "loop.c")], check=True)
        heads = [f"{'gates':>7}"] + [f"{name:>10}" for name in ("ketch",) + PEERS] + [f"{'/' + name:>8}" for name in PEERS]
        print(" ".join(heads))
        print("(gate evaluations a second, 64 to a word; Ketch's by the peer's)")
        for sizes in SIZES:
            if options.only in (None, sizes[0]):
                compare(sizes, folder, options)


if __name__ == "__main__":
    main()
