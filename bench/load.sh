#!/usr/bin/env bash
# Loads base files of two sizes, builds their trees, and answers points over the larger: time and peak memory.
#
#     bench/load.sh [PROGRAM]
#
# PROGRAM is the built program, by default crates/qcube/out/qcube. The inputs are generated from a fixed seed: rows of 4
# dimensions with 200, 50, 12 and 4 values and one amount.
source "$(dirname "${BASH_SOURCE[0]}")/common.sh"

python3 - <<'PY'
import random
for rows in (100_000, 1_000_000):
    draw = random.Random(7)
    with open(f"base{rows}.csv", "w") as file:
        file.write("id,store,product,season,region,sale\n")
        for row in range(1, rows + 1):
            file.write(f"{row},S{draw.randrange(200)},P{draw.randrange(50)},s{draw.randrange(12)},"
                       f"r{draw.randrange(4)},{draw.randrange(-500, 501)}\n")
    with open(f"load{rows}", "w") as file:
        file.write(f"load base{rows}.csv\n")
with open("points", "w") as file:
    file.write("load base1000000.csv\n" + "point S1,*,s3,*\n" * 200_000)
with open("s.schema", "w") as file:
    file.write("qcube 1\nid id\ndim store\ndim product\ndim season\ndim region\nmeasure sale 0\n")
PY

python3 - "$program" <<'PY'
import os, sys
from common import best

program = sys.argv[1]
small, _, _ = best(program, "run", "s.schema", "load100000")
large, _, peak = best(program, "run", "s.schema", "load1000000")
points, _, _ = best(program, "run", "s.schema", "points")
bytes_a_row = (peak - os.path.getsize("base1000000.csv")) / 1_000_000
print(f"load 100,000 rows: {small:.3f} s")
print(f"load 1,000,000 rows: {large:.3f} s, {large / small:.1f} times (at most 12)")
print(f"peak memory: the file and {bytes_a_row:.0f} bytes a row, tree included (at most 400)")
print(f"a point over 1,000,000 rows: {(points - large) / 0.2:.2f} microseconds")
PY
