#!/usr/bin/env bash
# 1,000 ranges, the parents and children of 2,000 classes and 50 icebergs over 300,000 rows of 6 skewed dimensions, icebergs with
# and without indexes, and what three indexes add to a load: times, beside another program of the same commands if one is named.
#
#     bench/queries.sh [PROGRAM [OTHER]]
#
# PROGRAM is the built program, by default crates/qcube/out/qcube. OTHER runs on the same inputs and must write the same replies.
# The inputs are generated from a fixed seed; values are drawn by a Zipf law from 500, 200, 80, 30, 12 and 5. Times are processor
# times, the least of three runs, minus those of the load alone.
other=${2:+$(realpath "$2")}
source "$(dirname "${BASH_SOURCE[0]}")/common.sh"

python3 - <<'PY'
import random
from common import zipf_rows

counts = (500, 200, 80, 30, 12, 5)
draw = random.Random(11)
rows = zipf_rows(draw, counts, 300_000)
with open("rows.csv", "w") as file:
    file.write("id,a,b,c,d,e,f,sale\n")
    for row, texts in enumerate(rows, 1):
        file.write(f"{row},{','.join(texts)},{draw.randrange(-1_500_000, 1_500_001) / 100:.2f}\n")
dims = "".join(f"dim {dim}\n" for dim in "abcdef")
for name, indexes in (("plain", ""), ("indexed", "index count\nindex sum sale\nindex mean sale\n")):
    with open(f"{name}.schema", "w") as file:
        file.write(f"qcube 1\nid id\n{dims}measure sale 2\n{indexes}nodes 4000000\n")

def field(name, values):
    kind = draw.random()
    if kind < 0.5:
        return "*"
    if kind < 0.6:
        return "?"
    some = [f"{name}{draw.randrange(values)}" for _ in range(3)]
    return "|" + "|".join(some) if kind < 0.8 else f"~{min(some)}~{max(some)}"

with open("load", "w") as file:
    file.write("load rows.csv\n")
with open("ranges", "w") as file:
    file.write("load rows.csv\n")
    for _ in range(1_000):
        file.write("range " + ",".join(field(name, n) for name, n in zip("abcdef", counts)) + "\n")
for word in ("parents", "children"):
    with open(word, "w") as file:
        file.write("load rows.csv\n")
        for _ in range(2_000):
            texts = draw.choice(rows)
            file.write(word + " " + ",".join("*" if draw.random() < 0.5 else text for text in texts) + "\n")
with open("icebergs", "w") as file:
    file.write("load rows.csv\n")
    for k in range(17):
        file.write(f"iceberg count >= {1_000 + 600 * k}\niceberg sum sale >= {2_000_000 + 200_000 * k}\niceberg mean sale >= {14_980 + k}.5\n")
PY

python3 - "$program" "$other" <<'PY'
import sys
from common import best

programs = [name for name in sys.argv[1:] if name]

def ratio(times):
    return f"; {times[0] / times[1]:.2f} times the other's" if len(times) > 1 and times[1] > 0 else ""

loads = {schema: [best(p, "run", f"{schema}.schema", "load") for p in programs] for schema in ("plain", "indexed")}
extra = [indexed[0] - plain[0] for indexed, plain in zip(loads["indexed"], loads["plain"])]
print(f"load {loads['plain'][0][0]:.2f} s, {loads['plain'][0][2] / 2**20:.0f} MiB; three indexes add {extra[0]:.2f} s and "
      f"{(loads['indexed'][0][2] - loads['plain'][0][2]) / 2**20:.0f} MiB{ratio(extra)}")
asked = (("plain", "ranges", "cell,"), ("plain", "parents", "class,"), ("plain", "children", "class,"), ("plain", "icebergs", "class,"),
         ("indexed", "icebergs", "class,"))
for schema, script, one in asked:
    runs = [best(p, "run", f"{schema}.schema", script) for p in programs]
    assert all(out == runs[0][1] for _, out, _ in runs), script
    answers = sum(line.startswith(one) for line in runs[0][1])
    times = [run[0] - load[0] for run, load in zip(runs, loads[schema])]
    print(f"{script} over a {schema} cube: {answers:,} answers in {times[0]:.3f} s, {times[0] / answers * 1e6:.1f} microseconds each{ratio(times)}")
PY
