#!/usr/bin/env bash
# Loads 500,000 rows of 6 dimensions, and learns 1,000,000 distinct texts of one dimension: time and peak memory, beside a plain
# Rust program that only reads and keeps them. The schema allows one node. So the load is refused when all is read, learnt and
# kept, and the tree has its root. bench/tree.sh measures the cost of the tree.
#
#     bench/formats.sh [PROGRAM]
#
# PROGRAM is the built program, by default crates/qcube/out/qcube. The inputs are generated from a fixed seed; values are drawn by
# a Zipf law from 200, 100, 50, 20, 8 and 4. The plain program (bench/plain) is built by cargo if Debian's packages of its crates
# are installed (bench/common.sh), and is left out otherwise.
source "$(dirname "${BASH_SOURCE[0]}")/common.sh"
build_plain

python3 - <<'PY'
import random
from common import zipf_rows

draw = random.Random(7)
with open("rows.csv", "w") as file:
    file.write("id,a,b,c,d,e,f,sale\n")
    for row, texts in enumerate(zipf_rows(draw, (200, 100, 50, 20, 8, 4), 500_000), 1):
        file.write(f"{row},{','.join(texts)},{draw.randrange(-50_000, 50_001) / 100:.2f}\n")
with open("texts.csv", "w") as file:
    file.write("id,a\n")
    for row in range(1, 1_000_001):
        file.write(f"{row},text {row * 7919 % 1_000_003}\n")
with open("rows.schema", "w") as file:
    file.write("qcube 1\nid id\n" + "".join(f"dim {name}\n" for name in "abcdef") + "measure sale 2\nnodes 1\n")
with open("texts.schema", "w") as file:
    file.write("qcube 1\nid id\ndim a\nnodes 1\n")
for name in ("rows", "texts"):
    with open(f"{name}.script", "w") as file:
        file.write(f"load {name}.csv\n")
PY

python3 - "$program" "$plain" <<'PY'
import os, sys
from common import best

program, plain = sys.argv[1:3]
for name, rows, most in (("rows", 500_000, 2.5), ("texts", 1_000_000, 2)):
    seconds, out, peak = best(program, "run", f"{name}.schema", f"{name}.script", runs=5)
    assert out == ["refused,1,nodes"], out
    a_row = (peak - os.path.getsize(f"{name}.csv")) / rows
    print(f"{name}.csv, {rows:,} rows: {seconds:.3f} s; peak the file and {a_row:.0f} bytes a row")
    if plain:
        other, _, _ = best(plain, name, f"{name}.csv", runs=5)
        print(f"    a plain program: {other:.3f} s; {seconds / other:.2f} times (at most {most})")
    else:
        print("    a plain program: left out, as its crates aren't installed")
PY
