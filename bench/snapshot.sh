#!/usr/bin/env bash
# Packs a table of 300,000 rows of 6 skewed dimensions, and opens its snapshot: times beside that of loading its CSV file.
#
#     bench/snapshot.sh [PROGRAM]
#
# PROGRAM is the built program, by default crates/qcube/out/qcube. The rows are generated from a fixed seed.
source "$(dirname "${BASH_SOURCE[0]}")/common.sh"

python3 - <<'PY'
import random
from common import zipf_rows

draw = random.Random(17)
rows = zipf_rows(draw, (500, 200, 80, 30, 12, 5), 300_000)
with open("base.csv", "w") as file:
    file.write("id,a,b,c,d,e,f,sale\n")
    for row, texts in enumerate(rows, 1):
        file.write(f"{row},{','.join(texts)},{draw.randrange(-1_500_000, 1_500_001) / 100:.2f}\n")
with open("load", "w") as file:
    file.write("load base.csv\n")
with open("none", "w") as file:
    pass
with open("s.schema", "w") as file:
    file.write("qcube 1\nid id\n" + "".join(f"dim {dim}\n" for dim in "abcdef") + "measure sale 2\nnodes 4000000\n")
PY

"$program" pack s.schema load > snapshot

python3 - "$program" <<'PY'
import os, sys
from common import best

program = sys.argv[1]
load, _, _ = best(program, "run", "s.schema", "load")
pack, _, _ = best("sh", "-c", 'exec "$0" pack s.schema load > /dev/null', program)
opened, _, _ = best(program, "open", "snapshot", "none")
print(f"load 300,000 rows: {load:.3f} s")
print(f"pack them: {pack:.3f} s, {pack / load:.2f} times (at most 1.3)")
print(f"open the snapshot of {os.path.getsize('snapshot'):,} bytes: {opened:.3f} s, {opened / load:.2f} times (at most 0.9)")
PY
