#!/usr/bin/env bash
# Applies 100 batches of 200 insertions over 300,000 rows of 6 skewed dimensions, whose tree is kept, and over 50,000 and 500,000
# rows. Measures the time of a batch, beside another program of the same commands if one is named.
#
#     bench/insertions.sh [PROGRAM [OTHER]]
#
# PROGRAM is the built program, by default crates/qcube/out/qcube. OTHER runs on the same inputs and must write the same replies.
# The inputs are generated from a fixed seed; values are drawn by a Zipf law from 500, 200, 80, 30, 12 and 5. The time of the
# batches is that of the whole script minus that of its load alone, each the least of three runs.
other=${2:+$(realpath "$2")}
source "$(dirname "${BASH_SOURCE[0]}")/common.sh"

python3 - <<'PY'
import random
from common import zipf_rows

counts = (500, 200, 80, 30, 12, 5)
batches, size = 100, 200
with open("rows.schema", "w") as file:
    file.write("qcube 1\nid id\n" + "".join(f"dim {name}\n" for name in "abcdef") + "measure sale 2\nnodes 4000000\n")
for rows in (50_000, 300_000, 500_000):
    draw = random.Random(rows)
    records = [
        f"{row},{','.join(texts)},{draw.randrange(-50_000, 50_001) / 100:.2f}\n"
        for row, texts in enumerate(zipf_rows(draw, counts, rows + batches * size), 1)
    ]
    with open(f"{rows}.csv", "w") as file:
        file.write("id,a,b,c,d,e,f,sale\n")
        file.writelines(records[:rows])
    with open(f"{rows}.load", "w") as file:
        file.write(f"load {rows}.csv\n")
    with open(f"{rows}.script", "w") as script:
        script.write(f"load {rows}.csv\n")
        for batch in range(batches):
            first = rows + batch * size
            with open(f"{rows}-{batch}.csv", "w") as file:
                file.write("op,id,a,b,c,d,e,f,sale\n")
                file.writelines("+," + record for record in records[first : first + size])
            script.write(f"apply {rows}-{batch}.csv\n")
PY

python3 - "$program" "$other" <<'PY'
import sys
from common import best

program, other = sys.argv[1:]


def batches(name, rows):
    load, _, _ = best(name, "run", "rows.schema", f"{rows}.load")
    whole, out, _ = best(name, "run", "rows.schema", f"{rows}.script")
    assert len(out) == 101 and all(line.startswith("applied,") for line in out), out[-1]
    return (whole - load) / 100, out


took = {}
for rows in (50_000, 300_000, 500_000):
    took[rows], out = batches(program, rows)
    print(f"{rows:,} rows: a batch of 200 insertions {took[rows] * 1000:.2f} ms")
    if other:
        beside, replies = batches(other, rows)
        assert replies == out
        print(f"    the other program: {beside * 1000:.2f} ms; {took[rows] / beside:.2f} times (at most 2)")
print(f"over 10 times the rows a batch takes {took[500_000] / took[50_000]:.2f} times as long (at most 2)")
PY
