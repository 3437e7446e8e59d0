#!/usr/bin/env bash
# Runs files of an extreme shape, each beside an ordinary file of the same bytes or the same number of rows: processor time and
# peak memory. The shapes are a wide header, a long line, a field of quotes, one value in all rows, rows that share little in many
# dimensions, a batch among rows of one tuple, and a table whose rows are all deleted and inserted again.
#
#     bench/shapes.sh [PROGRAM]
#
# PROGRAM is the built program, by default crates/qcube/out/qcube. A time is the least of three runs, or of RUNS.
source "$(dirname "${BASH_SOURCE[0]}")/common.sh"

python3 - <<'PY'
import os
import random
from pairs import base, schema, script

draw = random.Random(11)
names = [f"c{k}" for k in range(16)]
schema("s", "a")
schema("wide", names)

many = 100_000
base("usual", "id,a,sale", (f"{row},x{draw.randrange(500)},1" for row in range(1, many + 1)))
base("same", "id,a,sale", (f"{row},x,{row % 7}" for row in range(1, many + 1)))
columns = 2_000_000
base("columns", "id,a,sale," + ",".join(f"n{k}" for k in range(columns)), ["1,x,1," + "," * (columns - 1)])
lines = os.path.getsize("columns.csv") // 410
base("bytes", "id,a,sale,more", (f"{row},x,1,{'y' * 400}" for row in range(1, lines + 1)))
base("line", "id,a,sale,more", ["1,x,1," + "y" * 20_000_000])
base("lines", "id,a,sale,more", (f"{row},x,1,{'y' * 1000}" for row in range(1, 20_001)))
base("quotes", "id,a,sale,more", ['1,x,1,"' + '""' * 10_000_000 + '"'])


def wide(name, values):
    base(name, "id," + ",".join(names) + ",sale", (f"{row}," + ",".join(values()) + ",1" for row in range(1, 301)))


wide("deep", lambda: [f"v{draw.randrange(2)}" for _ in names])
wide("flat", lambda: ["v0"] * 8 + [f"v{draw.randrange(2)}" for _ in names[8:]])


def batch(name, *changes):
    with open(name, "w") as file:
        file.write("op,id,a,sale\n")
        for part in changes:
            file.writelines(change + "\n" for change in part)


some = 2_000
gone = [f"-,{row},," for row in range(1, some + 1)]
batch("chain.batch", gone, (f"+,{many + row},x,2" for row in range(1, some + 1)))
batch("usual.batch", gone, (f"+,{many + row},x{row % 500},2" for row in range(1, some + 1)))
script("chain", "load same.csv", "apply chain.batch")
script("changed", "load usual.csv", "apply usual.batch")
batch("none.batch", (f"-,{row},," for row in range(1, many + 1)))
batch("all.batch", (f"+,{row},x{row % 500},1" for row in range(1, many + 1)))
script("once", "load usual.csv", "apply none.batch", "apply all.batch")
script("emptied", "load usual.csv", *["apply none.batch", "apply all.batch"] * 3)
PY

python3 - "$program" <<'PY'
from pairs import measure_pairs

measure_pairs([
    ("a header of 2,000,000 columns", "s", "columns", "bytes"),
    ("one line of 20 MB", "s", "line", "lines"),
    ("one field of 10,000,000 quotes", "s", "quotes", "lines"),
    ("one value in 100,000 rows", "s", "same", "usual"),
    ("300 rows of 16 dimensions that share little", "wide", "deep", "flat"),
    ("2,000 deletions and 2,000 insertions among 100,000 rows of one tuple", "s", "chain", "changed"),
    ("100,000 rows deleted and inserted again, three times beside once", "s", "emptied", "once"),
])
PY
