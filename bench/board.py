#!/usr/bin/env python3
"""Posts and looks a second at one board, by 1, 2 and 4 callers on threads of their own.

The program is crates/board_bench/out/board_bench, as `rt ci` or `rt run` leaves it. Its boards have 1,024 goals. Each
caller posts for each goal, and then looks at each so often; the evidence is made before. What it takes to start the
threads of the posts is taken off. Of several runs the fastest counts, for posts and for looks each, and the runs with
different numbers of callers take turns.

    board.py [--boards BOARDS] [--looks LOOKS] [--runs RUNS]
"""
import argparse
import os
import subprocess
import sys

TOP = os.path.dirname(os.path.dirname(os.path.abspath(__file__)))
PROGRAM = os.path.join(TOP, "crates", "board_bench", "out", "board_bench")
CALLERS = (1, 2, 4)
GOALS = 1024


def rates(callers, boards, looks):
    """Posts and looks a second of one run."""
    words = [PROGRAM, str(callers), str(boards), str(looks)]
    done = subprocess.run(words, stdout=subprocess.PIPE, stderr=subprocess.PIPE, text=True)
    posts, reached = callers * boards * GOALS, callers * boards * GOALS * looks
    if done.returncode or done.stdout != f"{posts} posts, {reached} looks\n":
        sys.exit(f"{words}: status {done.returncode}: {done.stdout}{done.stderr}")
    posting, looking, starting = (int(word) for word in done.stderr.split())
    return posts * 1e9 / max(posting - starting, 1), reached * 1e9 / max(looking, 1)


def main():
    parser = argparse.ArgumentParser(description="Posts and looks a second at one board.")
    parser.add_argument("--boards", type=int, default=100, help="how many boards a run has, one after another")
    parser.add_argument("--looks", type=int, default=500, help="how often a caller looks at each goal of a board")
    parser.add_argument("--runs", type=int, default=5, help="how many runs, of which the fastest counts")
    options = parser.parse_args()
    if not os.path.exists(PROGRAM):
        sys.exit(f"no {PROGRAM}: run `rt ci board_bench` first")
    best = {callers: (0.0, 0.0) for callers in CALLERS}
    for _ in range(options.runs):
        for callers in CALLERS:
            now = rates(callers, options.boards, options.looks)
            best[callers] = tuple(map(max, best[callers], now))
    print(f"{'callers':>7} {'posts/s':>10} {'looks/s':>10}   ({os.cpu_count()} processors; all callers together)")
    for callers, (posts, looks) in best.items():
        print(f"{callers:7} {posts:10.2e} {looks:10.2e}")


if __name__ == "__main__":
    main()
