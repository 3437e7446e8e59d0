#!/usr/bin/env bash
# Pins 16 states while 100 batches of 200 deletions and 200 insertions are applied over 300,000 rows of 6 dimensions. Measures
# what the pins add to the time of a batch and to the memory, and the time of a point at the oldest pin, beside another program of
# the same commands if one is named.
#
#     bench/pins.sh [PROGRAM [OTHER]]
#
# PROGRAM is the built program, by default crates/qcube/out/qcube. OTHER runs on the same inputs and must write the same replies.
# The inputs are generated from a fixed seed; values are drawn by a Zipf law from 500, 200, 80, 30, 12 and 5. A pin is made before
# each sixth batch. Each time is the least of three runs, minus that of the script that it extends.
other=${2:+$(realpath "$2")}
source "$(dirname "${BASH_SOURCE[0]}")/common.sh"

python3 - <<'PY'
import random
from common import zipf_rows

rows, batches, size, points = 300_000, 100, 200, 20_000
draw = random.Random(rows)
tuples = zipf_rows(draw, (500, 200, 80, 30, 12, 5), rows + batches * size)
records = [f"{row},{','.join(texts)},{draw.randrange(-50_000, 50_001) / 100:.2f}\n" for row, texts in enumerate(tuples, 1)]
with open("rows.schema", "w") as file:
    file.write("qcube 1\nid id\n" + "".join(f"dim {name}\n" for name in "abcdef") + "measure sale 2\nnodes 4000000\n")
with open("base.csv", "w") as file:
    file.write("id,a,b,c,d,e,f,sale\n")
    file.writelines(records[:rows])
present = list(range(1, rows + 1))
plain, pinned = ["load base.csv\n"], ["load base.csv\n"]
for batch in range(batches):
    with open(f"{batch}.csv", "w") as file:
        file.write("op,id,a,b,c,d,e,f,sale\n")
        for _ in range(size):
            place = draw.randrange(len(present))
            present[place], present[-1] = present[-1], present[place]
            file.write(f"-,{present.pop()},,,,,,,\n")
        first = rows + batch * size
        file.writelines("+," + record for record in records[first : first + size])
        present.extend(range(first + 1, first + size + 1))
    if batch % 6 == 0 and batch < 96:
        pinned.append(f"pin day{batch}\n")
    plain.append(f"apply {batch}.csv\n")
    pinned.append(f"apply {batch}.csv\n")
asked = []
for _ in range(points):
    texts = tuples[draw.randrange(rows)]
    asked.append("point " + ",".join(text if draw.random() < 0.5 else "*" for text in texts) + "\n")
for name, lines in (("load", plain[:1]), ("plain", plain), ("pinned", pinned), ("now", pinned + asked), ("oldest", pinned + ["at day0 " + line for line in asked])):
    with open(name, "w") as file:
        file.writelines(lines)
PY

python3 - "$program" "$other" <<'PY'
import sys
from common import best

program, other = sys.argv[1:]


def measured(name):
    scripts = ("load", "plain", "pinned", "now", "oldest")
    took = {script: best(name, "run", "rows.schema", script) for script in scripts}
    seconds = {script: took[script][0] for script in scripts}
    figures = [
        ("a batch", (seconds["plain"] - seconds["load"]) / 100 * 1e3, "ms"),
        ("a batch while names are pinned", (seconds["pinned"] - seconds["load"]) / 100 * 1e3, "ms"),
        ("a point", (seconds["now"] - seconds["pinned"]) / 20_000 * 1e6, "us"),
        ("a point at the oldest pin", (seconds["oldest"] - seconds["pinned"]) / 20_000 * 1e6, "us"),
        ("peak memory of the batches", took["plain"][2] / 2**20, "MiB"),
        ("peak memory with 16 pins", took["pinned"][2] / 2**20, "MiB"),
    ]
    return figures, {script: took[script][1] for script in scripts}


figures, replies = measured(program)
if other:
    beside, others = measured(other)
    for (what, value, unit), (_, its, _) in zip(figures, beside):
        print(f"{what}: {value:.2f} {unit}, the other's {its:.2f}, {value / its:.2f} times")
    assert replies == others, "the replies differ"
else:
    for what, value, unit in figures:
        print(f"{what}: {value:.2f} {unit}")
PY
