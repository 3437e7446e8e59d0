#!/usr/bin/env bash
# Bounds of 200,000 random cells over 300,000 rows of 6 dimensions (with fewer cells the load would take most of the time), and of
# 300 classes of 12 values, each of which 4,096 cells generalize: time for each class.
#
#     bench/bounds.sh [PROGRAM]
#
# PROGRAM is the built program, by default crates/qcube/out/qcube. The inputs are generated from a fixed seed; values are drawn by
# a Zipf law from 500, 200, 80, 30, 12 and 5, and each cell has about half of the values of a row. Times are processor times, the
# least of three runs, minus those of the load alone.
source "$(dirname "${BASH_SOURCE[0]}")/common.sh"

python3 - <<'PY'
import random
from common import zipf_rows

counts = (500, 200, 80, 30, 12, 5)
draw = random.Random(7)
rows = zipf_rows(draw, counts, 300_000)
with open("zipf.csv", "w") as file:
    file.write("id,a,b,c,d,e,f\n")
    for row, texts in enumerate(rows, 1):
        file.write(f"{row},{','.join(texts)}\n")
with open("zipf.load", "w") as file:
    file.write("load zipf.csv\n")
with open("zipf.bounds", "w") as file:
    file.write("load zipf.csv\n")
    for _ in range(200_000):
        row = rows[draw.randrange(len(rows))]
        file.write("bounds " + ",".join(text if draw.random() < 0.5 else "*" for text in row) + "\n")
names = "abcdefghijkl"
wide = [[f"{name}{draw.randrange(3)}" for name in names] for _ in range(300)]
with open("wide.csv", "w") as file:
    file.write("id," + ",".join(names) + "\n")
    for row, texts in enumerate(wide, 1):
        file.write(f"{row},{','.join(texts)}\n")
with open("wide.load", "w") as file:
    file.write("load wide.csv\n")
with open("wide.bounds", "w") as file:
    file.write("load wide.csv\n" + "".join("bounds " + ",".join(texts) + "\n" for texts in wide))
for name, dims in (("zipf", "abcdef"), ("wide", names)):
    with open(f"{name}.schema", "w") as file:
        file.write("qcube 1\nid id\n" + "".join(f"dim {dim}\n" for dim in dims) + "nodes 4000000\n")
PY

python3 - "$program" <<'PY'
import sys
from common import best

program = sys.argv[1]
for name, cells, most in (("zipf", 200_000, 20), ("wide", 300, 62_500)):
    load, _, _ = best(program, "run", f"{name}.schema", f"{name}.load")
    whole, out, _ = best(program, "run", f"{name}.schema", f"{name}.bounds")
    assert sum(line.startswith("class,") for line in out) == cells
    lowers = sum(line.startswith("lower,") for line in out)
    print(f"{name}: {cells:,} classes, {lowers / cells:.1f} lower bounds each: {(whole - load) / cells * 1e6:.1f} microseconds each (at most {most:,})")
PY
