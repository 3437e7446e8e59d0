#!/usr/bin/env bash
# Loads 300,000 rows of 6 dimensions and builds their tree, asks points of it, and runs a whole day of points over 500,000 rows of
# one dimension: time and memory, beside a plain Rust program with the same build and search.
#
#     bench/tree.sh [PROGRAM]
#
# PROGRAM is the built program, by default crates/qcube/out/qcube. The inputs are generated from a fixed seed; values are drawn by
# a Zipf law from 500, 200, 80, 30, 12 and 5. Times are processor times, the least of three runs. The plain program (bench/plain)
# is built by cargo if Debian's packages of its crates are installed (bench/common.sh), and is left out otherwise.
source "$(dirname "${BASH_SOURCE[0]}")/common.sh"
build_plain

python3 - <<'PY'
import random
from common import zipf_rows

counts = (500, 200, 80, 30, 12, 5)
draw = random.Random(7)
rows = zipf_rows(draw, counts, 300_000)
with open("zipf.csv", "w") as file:
    file.write("id,a,b,c,d,e,f,sale\n")
    for row, texts in enumerate(rows, 1):
        file.write(f"{row},{','.join(texts)},{draw.randrange(-50_000, 50_001) / 100:.2f}\n")
with open("load", "w") as file:
    file.write("load zipf.csv\nstats\n")
with open("points", "w") as file:
    file.write("load zipf.csv\nstats\n")
    for _ in range(500_000):
        row = rows[draw.randrange(len(rows))]
        file.write("point " + ",".join(text if draw.random() < 0.5 else "*" for text in row) + "\n")
with open("lines", "w") as file:
    file.write("load zipf.csv\nstats\n")
    for _ in range(500_000):
        row = rows[draw.randrange(len(rows))]
        file.write("point " + ",".join(text if draw.random() < 0.5 else "*" for text in row[:-1]) + ",f\n")
with open("zipf.schema", "w") as file:
    file.write("qcube 1\nid id\n" + "".join(f"dim {name}\n" for name in "abcdef") + "measure sale 2\nnodes 4000000\n")
with open("day.csv", "w") as file:
    file.write("id,v\n" + "".join(f"{k},v{k % 1000:03}\n" for k in range(1, 500_001)))
with open("day", "w") as file:
    file.write("load day.csv\n" + "".join(f"point v{line % 1000:03}\n" for line in range(2, 500_002)) + "stats\n")
with open("day.schema", "w") as file:
    file.write("qcube 1\nid id\ndim v\n")
PY

python3 - "$program" "$plain" <<'PY'
import sys
from common import best

program, plain = sys.argv[1:]
load, out, peak = best(program, "run", "zipf.schema", "load")
rows, classes, nodes, tree_edges, links = map(int, out[-1].split(",")[2:])
print(f"{rows:,} rows: {classes:,} classes, {nodes:,} nodes, {tree_edges:,} tree edges, {links:,} links")
print(f"load and build {load:.2f} s; peak {peak / nodes:.0f} bytes a node in all (at most 400)")
if plain:
    seconds, out, plain_peak = best(plain, "tree", "zipf.csv")
    assert int(out[-1]) == nodes, out
    print(f"    a plain program: {seconds:.2f} s, {plain_peak / nodes:.0f} bytes a node; {load / seconds:.2f} times (at most 2.5)")
whole, out, _ = best(program, "run", "zipf.schema", "points")
assert sum(line.startswith("point,") for line in out) == 500_000
lines, out, _ = best(program, "run", "zipf.schema", "lines")
assert sum(line.startswith("none,") for line in out) == 500_000
print(f"a point {(whole - load) / 0.5:.2f} microseconds, of which its line {(lines - load) / 0.5:.2f} (the line of a value that no row has, which isn't searched and has a short reply); the rest {(whole - lines) / 0.5:.2f} (at most 4, and the reply)")
if plain:
    _, out, _ = best(plain, "points", "zipf.csv")
    assert int(out[-1]) == 500_000, out
    print(f"    a search of the plain program, without line and reply: {float(out[0]) / 0.5:.2f} microseconds")
day, out, _ = best(program, "run", "day.schema", "day")
assert out[0] == "applied,1,500000,1001" and out[1] == "point,2,v002,500" and out[-1] == "stats,500002,500000,1001,1001,1000,0"
print(f"500,000 rows and 500,000 points of one dimension: {day:.2f} s (at most 10)")
PY
