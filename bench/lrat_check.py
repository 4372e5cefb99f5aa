#!/usr/bin/env python3
"""Time and memory of `ketch lrat` beside a plain C checker over arrays, on the same files.

The program is crates/ketch/out/ketch, as `rt ci` or `rt run` leaves it; the C checker below is
compiled with `cc -O2`. Three families are generated: a chain of implications with a lemma every
hundred, chains of clauses of ten literals with long hints, and a formula of ten million clauses
with a proof of one step. Where `cadical` is on PATH, its proof of a pigeonhole formula is checked
too, with hints that a forward pass of unit propagation finds here. What is missing is skipped. An
argument scales the sizes down: `lrat_check.py 0.1`.
"""
import json
import os
import shutil
import subprocess
import sys
import tempfile
import time

TOP = os.path.dirname(os.path.dirname(os.path.abspath(__file__)))
PROGRAM = os.path.join(TOP, "crates", "ketch", "out", "ketch")

CHECKER = r"""
#include <stdio.h>
#include <stdlib.h>

typedef long long number;
static char *text, *at;
static int *lits;
static size_t lit_count, lit_room;
static size_t *starts;
static number clause_room, greatest;
static unsigned char *live;
static signed char *values;
static int *trail;
static size_t trail_count, trail_room;

static void read_file(const char *name) {
    FILE *file = fopen(name, "rb");
    if (!file) exit(3);
    fseek(file, 0, SEEK_END);
    long size = ftell(file);
    rewind(file);
    free(text);
    text = malloc(size + 1);
    if (fread(text, 1, size, file) != (size_t)size) exit(3);
    text[size] = 0;
    fclose(file);
    at = text;
}

static int next_number(number *n) {
    while (*at == ' ' || *at == '\n' || *at == '\r' || *at == '\t') at++;
    if (!*at) return 0;
    int minus = *at == '-';
    if (minus) at++;
    if (*at < '0' || *at > '9') exit(9);
    number value = 0;
    while (*at >= '0' && *at <= '9') value = value * 10 + (*at++ - '0');
    *n = minus ? -value : value;
    return 1;
}

static void push_lit(int lit) {
    if (lit_count == lit_room) lits = realloc(lits, (lit_room = lit_room * 2 + 1024) * sizeof *lits);
    lits[lit_count++] = lit;
}

static void begin_clause(number id) {
    if (id + 2 > clause_room) {
        number room = (id + 2) * 2;
        starts = realloc(starts, room * sizeof *starts);
        live = realloc(live, room);
        for (number k = clause_room; k < room; k++) live[k] = 0;
        clause_room = room;
    }
    for (number k = greatest + 1; k <= id; k++) starts[k] = lit_count;
    greatest = id;
}

static void assume(int lit) {
    int variable = abs(lit);
    if (values[variable]) return;
    values[variable] = lit > 0 ? 1 : -1;
    if (trail_count == trail_room) trail = realloc(trail, (trail_room = trail_room * 2 + 1024) * sizeof *trail);
    trail[trail_count++] = variable;
}

/* 1 where the clause is false, 0 where it is passed over or forced; two open literals end the run */
static int walk(number id) {
    if (id < 1 || id > greatest || !live[id]) exit(9);
    int open = 0;
    for (size_t k = starts[id]; lits[k]; k++) {
        int value = values[abs(lits[k])] * (lits[k] > 0 ? 1 : -1);
        if (value > 0) return 0;
        if (value == 0 && lits[k] != open) {
            if (open) exit(9);
            open = lits[k];
        }
    }
    if (!open) return 1;
    assume(open);
    return 0;
}

int main(int count, char **words) {
    (void)count;
    read_file(words[1]);
    number variables, clauses, n, id;
    while (*at == 'c') while (*at && *at++ != '\n') ;
    if (sscanf(at, "p cnf %lld %lld", &variables, &clauses) != 2) return 9;
    while (*at && *at++ != '\n') ;
    values = calloc(variables + 1, 1);
    for (id = 1; id <= clauses; id++) {
        begin_clause(id);
        do { if (!next_number(&n)) return 9; push_lit((int)n); } while (n);
        live[id] = 1;
    }
    read_file(words[2]);
    while (next_number(&id)) {
        while (*at == ' ') at++;
        if (*at == 'd') {
            at++;
            while (next_number(&n) && n) { if (n > greatest || !live[n]) return 9; live[n] = 0; }
            continue;
        }
        if (id <= greatest) return 9;
        begin_clause(id);
        trail_count = 0;
        do { if (!next_number(&n)) return 9; push_lit((int)n); if (n) assume((int)-n); } while (n);
        int ended = 0;
        while (next_number(&n) && n) if (!ended) { if (n < 0) return 9; ended = walk(n); }
        if (!ended) return 9;
        while (trail_count) values[trail[--trail_count]] = 0;
        live[id] = 1;
        if (!lits[starts[id]]) { puts("accepted"); return 0; }
    }
    return 9;
}
"""


def chain(scale):
    """x1, x1 -> x2, .. and not xn; a lemma for every hundredth variable."""
    n = int(2_000_000 * scale) // 100 * 100
    clauses = ["1 0"] + [f"-{k} {k + 1} 0" for k in range(1, n)] + [f"-{n} 0"]
    steps, hints, known, identity = [], 0, 1, len(clauses)
    for first in range(1, n, 100):
        last = min(first + 100, n)
        named = [known] + list(range(first + 1, last + 1))
        identity += 1
        steps.append(f"{identity} {last} 0 {' '.join(map(str, named))} 0")
        hints += len(named)
        known = identity
    steps.append(f"{identity + 1} 0 {known} {n + 1} 0")
    return n, clauses, steps, hints + 2


def wide(scale):
    """Clauses of ten literals, each of which forces one; a hundred lemmas walk them all."""
    n = int(100_000 * scale)
    units = [f"{k} 0" for k in range(1, 10)]
    body = [" ".join(f"-{m}" for m in range(k - 9, k)) + f" {k} 0" for k in range(10, n + 1)]
    clauses = units + body + [f"-{n} 0"]
    walk = " ".join(map(str, range(1, n + 1)))
    steps = [f"{n + 1 + r} {n} {n + r} 0 {walk} 0" for r in range(1, 101)]
    steps.append(f"{n + 102} 0 {walk} {n + 1} 0")
    return n + 100, clauses, steps, 101 * n + 1


def large(scale):
    """Many clauses of two literals, and the proof names the last two."""
    n, count = 999_983, int(10_000_000 * scale)
    clauses = [f"{k % n + 1} -{k * 7919 % n + 1} 0" for k in range(count - 2)] + ["1 0", "-1 0"]
    return n, clauses, [f"{count + 1} 0 {count - 1} {count} 0"], 2


def pigeon_clauses(holes):
    """One pigeon more than there are holes."""
    def sits(pigeon, hole):
        return pigeon * holes + hole + 1

    clauses = [[sits(p, h) for h in range(holes)] for p in range(holes + 1)]
    return clauses + [[-sits(p, h), -sits(q, h)] for h in range(holes) for p in range(holes + 1) for q in range(p)]


class Propagation:
    """Clauses under two watches each, and the reasons of what follows from assumed literals."""

    def __init__(self, clauses):
        self.clauses, self.watches, self.units = [None], {}, []
        for lits in clauses:
            self.add(lits)

    def add(self, lits):
        self.clauses.append(list(lits))
        place = len(self.clauses) - 1
        if len(lits) == 1:
            self.units.append(place)
        for lit in lits[:2]:
            self.watches.setdefault(lit, []).append(place)
        return place

    def hints(self, lemma):
        """The clauses that refute the lemma's negation, in the order in which they become unit."""
        reasons = {-lit: 0 for lit in lemma}
        queue = list(reasons)
        for place in self.units:
            lit = self.clauses[place][0]
            if -lit in reasons:
                return self.walk_back(reasons, place)
            if lit not in reasons:
                reasons[lit] = place
                queue.append(lit)
        for lit in queue:
            conflict = self.visit(-lit, reasons, queue)
            if conflict:
                return self.walk_back(reasons, conflict)
        return None

    def visit(self, false, reasons, queue):
        kept = self.watches.get(false, [])
        self.watches[false] = still = []
        for at, place in enumerate(kept):
            lits = self.clauses[place]
            if len(lits) > 1 and lits[0] == false:
                lits[0], lits[1] = lits[1], lits[0]
            if lits[0] in reasons:
                still.append(place)
                continue
            other = next((k for k in range(2, len(lits)) if -lits[k] not in reasons), None)
            if other is not None:
                lits[1], lits[other] = lits[other], lits[1]
                self.watches.setdefault(lits[1], []).append(place)
                continue
            still.append(place)
            if -lits[0] in reasons:
                still.extend(kept[at + 1:])
                return place
            reasons[lits[0]] = place
            queue.append(lits[0])
        return None

    def walk_back(self, reasons, conflict):
        needed = set(self.clauses[conflict])
        named = [conflict]
        for lit in reversed(list(reasons)):
            if -lit in needed and reasons[lit]:
                named.append(reasons[lit])
                needed.update(self.clauses[reasons[lit]])
        return named[::-1]


def pigeons(_scale):
    """A small pigeonhole formula, and the lemmas of cadical with hints of our own; clauses stay live."""
    holes = 6
    clauses = pigeon_clauses(holes)
    variables = (holes + 1) * holes
    lines = [" ".join(map(str, lits)) + " 0" for lits in clauses]
    with tempfile.TemporaryDirectory() as folder:
        formula, proof = os.path.join(folder, "formula"), os.path.join(folder, "proof")
        write_formula(formula, variables, lines)
        subprocess.run(["cadical", "-q", "--plain", "--no-binary", formula, proof], stdout=subprocess.DEVNULL)
        with open(proof) as file:
            lemmas = [list(map(int, line.split()[:-1])) for line in file if not line.startswith("d")]
    known, steps, count = Propagation(clauses), [], 0
    for lemma in lemmas:
        hints = known.hints(lemma)
        if hints is None:
            raise SystemExit("a lemma of cadical doesn't follow by unit propagation")
        place = known.add(lemma)
        steps.append(f"{place} {''.join(f'{lit} ' for lit in lemma)}0 {' '.join(map(str, hints))} 0")
        count += len(hints)
        if not lemma:
            break
    return variables, lines, steps, count


def write_formula(path, variables, clauses):
    with open(path, "w") as file:
        file.write(f"p cnf {variables} {len(clauses)}\n")
        file.write("\n".join(clauses) + "\n")


def measure(words):
    """Seconds, peak memory in MB, and the status of a run."""
    null = os.open(os.devnull, os.O_WRONLY)
    started = time.monotonic()
    pid = os.posix_spawn(words[0], words, os.environ, file_actions=[(os.POSIX_SPAWN_DUP2, null, 1)])
    _, status, usage = os.wait4(pid, 0)
    seconds = time.monotonic() - started
    os.close(null)
    return seconds, usage.ru_maxrss / 1024, os.waitstatus_to_exitcode(status)


def compare(name, clauses, hints, formula, proof, checker):
    size = (os.path.getsize(formula) + os.path.getsize(proof)) / 1e6
    print(f"{name}: {clauses} clauses, {hints} hints, {size:.0f} MB")
    times = []
    for label, words in [("ketch", [PROGRAM, "lrat", formula, proof]), ("C", checker and [checker, formula, proof])]:
        if not words:
            continue
        seconds, memory, status = measure(words)
        times.append(seconds)
        print(f"  {label:6} {seconds:7.2f} s  {clauses / seconds / 1e6:6.2f} M clauses/s  {hints / seconds / 1e6:6.2f} M hints/s  "
              f"{memory:7.0f} MB  status {status}")
    if len(times) == 2:
        print(f"  ketch takes {times[0] / times[1]:.2f} times C's time")


def compile_checker(folder):
    if not shutil.which("cc"):
        print("no cc: ketch alone is measured")
        return None
    source, program = os.path.join(folder, "checker.c"), os.path.join(folder, "checker")
    with open(source, "w") as file:
        file.write(CHECKER)
    subprocess.run(["cc", "-O2", "-o", program, source], check=True)
    return program


def make(family, scale, folder):
    """Writes a family's files in a process of its own, so that its memory isn't measured."""
    sizes = os.path.join(folder, "sizes")
    pid = os.fork()
    if pid == 0:
        variables, clauses, steps, hints = family(scale)
        write_formula(os.path.join(folder, "formula"), variables, clauses)
        with open(os.path.join(folder, "proof"), "w") as file:
            file.write("\n".join(steps) + "\n")
        with open(sizes, "w") as file:
            json.dump([len(clauses), hints], file)
        os._exit(0)
    _, status = os.waitpid(pid, 0)
    if status:
        sys.exit(1)
    with open(sizes) as file:
        return json.load(file)


def main():
    scale = float(sys.argv[1]) if len(sys.argv) > 1 else 1.0
    if not os.path.exists(PROGRAM):
        sys.exit("no program: run `rt run` in crates/ketch first")
    families = [("chain", chain), ("wide", wide), ("large", large)]
    if shutil.which("cadical"):
        families.append(("pigeons, by cadical", pigeons))
    else:
        print("no cadical: its proof is skipped")
    with tempfile.TemporaryDirectory() as folder:
        checker = compile_checker(folder)
        for name, family in families:
            clauses, hints = make(family, scale, folder)
            compare(name, clauses, hints, os.path.join(folder, "formula"), os.path.join(folder, "proof"), checker)


main()
