#!/usr/bin/env bash
# Refuses each allocation of a worked run in turn: a load and a batch over a schema with two indexes, a dry run, the counts,
# points, bounds and icebergs. A run must end with status 5 and no output, or with status 0 and the transcript of the lines that
# it doesn't answer with `memory`: a line that is skipped changes nothing. It prints how many runs ended in each way, and stops at
# the first run that ends in no such way.
#
#     bench/memory.sh [PROGRAM]
#
# PROGRAM is the built program, by default crates/qcube/out/qcube. It runs under a C library's malloc that refuses call number N,
# for each N, until a run makes fewer calls; this needs cc. The expected transcripts are computed by a few lines of this page,
# which filter and sum.
source "$(dirname "${BASH_SOURCE[0]}")/common.sh"

cat > refuse.c <<'C'
#define _GNU_SOURCE
#include <dlfcn.h>
#include <errno.h>
#include <stdlib.h>

static unsigned long calls;

static int refused(void) {
    static unsigned long number;
    if (number == 0) {
        const char *text = getenv("REFUSED");
        number = text ? strtoul(text, 0, 10) : ~0ul;
    }
    return ++calls == number;
}

void *malloc(size_t size) {
    static void *(*real)(size_t);
    if (!real) real = (void *(*)(size_t))dlsym(RTLD_NEXT, "malloc");
    return refused() ? 0 : real(size);
}

void *realloc(void *old, size_t size) {
    static void *(*real)(void *, size_t);
    if (!real) real = (void *(*)(void *, size_t))dlsym(RTLD_NEXT, "realloc");
    return refused() ? 0 : real(old, size);
}

void *aligned_alloc(size_t align, size_t size) {
    static void *(*real)(size_t, size_t);
    if (!real) real = (void *(*)(size_t, size_t))dlsym(RTLD_NEXT, "aligned_alloc");
    return refused() ? 0 : real(align, size);
}

int posix_memalign(void **place, size_t align, size_t size) {
    static int (*real)(void **, size_t, size_t);
    if (!real) real = (int (*)(void **, size_t, size_t))dlsym(RTLD_NEXT, "posix_memalign");
    return refused() ? ENOMEM : real(place, align, size);
}

__attribute__((destructor)) static void told(void) {
    if (getenv("COUNTED")) {
        char text[32];
        int at = 31;
        text[at] = '\n';
        for (unsigned long left = calls; at > 0; left /= 10) {
            text[--at] = '0' + left % 10;
            if (left < 10) break;
        }
        extern long write(int, const void *, size_t);
        write(9, text + at, 32 - at);
    }
}
C
cc -O1 -shared -fPIC -o refuse.so refuse.c -ldl

python3 - "$program" <<'PY'
import os
import subprocess
import sys
from itertools import combinations, product

program = sys.argv[1]
ANY = "*"
BASE = [(1, ("S1", "P1", "s"), 6), (2, ("S1", "P2", "s"), 12), (3, ("S2", "P1", "f"), 9)]
BATCH = [(4, ("S2", "P2", "f"), 3)]
SCRIPT = ["load base.csv", "try plus4.csv", "apply plus4.csv", "stats", "point *,P2,*", "point S2,*,*", "bounds S2,*,*",
          "iceberg count >= 2", "iceberg mean sale >= 15/2"]


def files():
    def record(row):
        return f"{row[0]},{','.join(row[1])},{row[2]}\n"

    header = "id,store,product,season,sale\n"
    texts = {
        "s.schema": "qcube 1\nid id\ndim store\ndim product\ndim season\nmeasure sale 0\nindex count\nindex mean sale\n",
        "base.csv": header + "".join(map(record, BASE)),
        "plus4.csv": "op," + header + "".join("+," + record(row) for row in BATCH),
        "script": "".join(line + "\n" for line in SCRIPT),
    }
    for name, text in texts.items():
        with open(name, "w") as file:
            file.write(text)


def covered(rows, cell):
    return [row for row in rows if all(c in (ANY, v) for c, v in zip(cell, row[1]))]


def closure(rows, cell):
    tuples = [row[1] for row in covered(rows, cell)]
    return tuple(column[0] if len(set(column)) == 1 else ANY for column in zip(*tuples)) if tuples else None


def order(cell):
    return [(value != ANY, value) for value in cell]


def cells(rows):
    columns = [[ANY, *sorted({row[1][i] for row in rows})] for i in range(3)]
    return [cell for cell in product(*columns) if covered(rows, cell)]


def front(cell, n):
    return cell[:n] + (ANY,) * (len(cell) - n)


def classes(rows):
    return [cell for cell in cells(rows) if closure(rows, cell) == cell]


def counts(rows):
    nodes = {front(cell, n) for cell in classes(rows) for n in range(4)}
    edges, tree_edges = 0, 0
    for node in nodes:
        last = max((i for i in range(3) if node[i] != ANY), default=-1)
        upper = closure(rows, node)
        forced = next((i for i in range(last + 1, 3) if upper[i] != ANY), 3)
        for i in range(last + 1, min(forced, 2) + 1):
            values = {row[1][i] for row in covered(rows, node)}
            for value in values:
                target = front(closure(rows, node[:i] + (value,) + node[i + 1:]), i + 1)
                edges += 1
                tree_edges += front(target, i) == node
    return len(rows), len(classes(rows)), len(nodes), tree_edges, edges - tree_edges


def figures(rows, cell):
    from fractions import Fraction
    amounts = [row[2] for row in covered(rows, cell)]
    mean = Fraction(sum(amounts), len(amounts))
    return f"{len(amounts)},{sum(amounts)},{min(amounts)},{max(amounts)},{mean.numerator}/{mean.denominator}"


def lower(rows, upper):
    values = [i for i in range(3) if upper[i] != ANY]
    kept = [tuple(upper[i] if i in some else ANY for i in range(3)) for n in range(4) for some in combinations(values, n)]
    same = [cell for cell in kept if closure(rows, cell) == upper]
    least = [cell for cell in same if all(closure(rows, cell[:i] + (ANY,) + cell[i + 1:]) != upper for i in range(3) if cell[i] != ANY)]
    return sorted(least, key=order)


def told_class(rows, line, upper):
    text = f"class,{line},{','.join(upper)},{figures(rows, upper)}\n"
    return text + "".join(f"lower,{line},{','.join(cell)}\n" for cell in lower(rows, upper))


def iceberg(rows, line, value, least):
    passing = [upper for upper in classes(rows) if value(upper) >= least]
    passing.sort(key=lambda upper: (-value(upper), order(upper)))
    return "".join(told_class(rows, line, upper) for upper in passing) + f"end,{line},{len(passing)}\n"


def transcript(skipped):
    from fractions import Fraction
    rows, out = [], ""
    for line, command in enumerate(SCRIPT, 1):
        word, rest = (command + " ").split(" ", 1)
        rest = rest.strip()
        if line in skipped:
            out += f"memory,{line}\n"
        elif word == "load":
            rows = list(BASE)
            out += f"applied,{line},{len(BASE)},{len(classes(rows))}\n"
        elif word in ("try", "apply"):
            after = rows + BATCH
            out += f"applied,{line},{len(BATCH)},{len(classes(after))}\n"
            rows = after if word == "apply" else rows
        elif word == "stats":
            out += f"stats,{line},{','.join(map(str, counts(rows)))}\n"
        elif word == "point":
            cell = tuple(rest.split(","))
            out += f"point,{line},{rest},{figures(rows, cell)}\n" if covered(rows, cell) else f"none,{line}\n"
        elif word == "bounds":
            upper = closure(rows, tuple(rest.split(",")))
            out += told_class(rows, line, upper) + f"end,{line},1\n" if upper else f"none,{line}\n"
        elif rest.startswith("count"):
            out += iceberg(rows, line, lambda upper: len(covered(rows, upper)), 2)
        else:
            amounts = lambda upper: [row[2] for row in covered(rows, upper)]
            out += iceberg(rows, line, lambda upper: Fraction(sum(amounts(upper)), len(amounts(upper))), Fraction(15, 2))
    return out


def ran(number):
    """The status, the output, and the number of calls for memory."""
    read, write = os.pipe()
    os.dup2(write, 9)
    os.close(write)
    process = subprocess.run(
        [program, "run", "s.schema", "script"], stdout=subprocess.PIPE, stderr=subprocess.PIPE, pass_fds=(9,),
        env={"LD_PRELOAD": os.path.abspath("refuse.so"), "REFUSED": str(number), "COUNTED": "1"})
    os.close(9)
    with os.fdopen(read) as pipe:
        calls = int(pipe.read() or 0)
    return process.returncode, process.stdout.decode(), calls


files()
status, out, calls = ran(0)
assert (status, out) == (0, transcript(set())), (status, out, transcript(set()))
assert calls > 0, "the program doesn't call this malloc"
ended = {}
for number in range(1, calls + 1):
    status, out, _ = ran(number)
    skipped = {int(record.split(",")[1]) for record in out.splitlines() if record.startswith("memory,")}
    good = (status == 5 and out == "") or (status == 0 and out == transcript(skipped))
    assert good, (number, status, out)
    ending = "status 5" if status == 5 else f"lines skipped: {' '.join(map(str, sorted(skipped))) or 'none'}"
    ended[ending] = ended.get(ending, 0) + 1
print(f"{calls} calls for memory, each refused in turn")
for ending, times in ended.items():
    print(f"    {ending}: {times}")
PY
