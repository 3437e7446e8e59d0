#!/usr/bin/env bash
# Measures PROGRAM beside another program of the same words and replies, on the same inputs, in turn. Prints ratios of the median
# processor times of five runs, of the least, and of the median peak memory. The runs are: loads of 300,000, 50,000 and 400,000 rows
# of 6 skewed dimensions; a load and a new dimension; points after a load, ranges, bounds, parents and children of classes; icebergs
# by a walk and by indexes; what three index lines add to a load; batches with and without them; 500,000 rows and points of one
# dimension; one answer of 100,000 cells; a snapshot that is packed and opened; and generated runs.
#
#     bench/beside.sh [OTHER [PROGRAM]]
#
# OTHER is the other program, or a folder whose `build.sh` builds it and prints its path. If it is missing or empty, it is the
# plain program (bench/plain), a hand-written Rust program without proofs, which cargo builds. PROGRAM is the built program, by
# default crates/qcube/out/qcube. RUNS sets another number of runs. The inputs are generated from fixed seeds. Both programs must
# write the same replies. A time "after its load" is that of the whole script minus that of its load. On a machine with other work
# the least times tell more than the medians.
other=${1:+$(realpath "$1")}
[ -d "$other" ] && other=$("$other/build.sh")
[ $# -gt 0 ] && shift
source "$(dirname "${BASH_SOURCE[0]}")/common.sh"
[ -n "$other" ] || { need_plain; other=$plain; }

python3 - <<'PY'
import random
from common import zipf_rows

counts = (500, 200, 80, 30, 12, 5)
draw = random.Random(17)
everything = zipf_rows(draw, counts, 440_000)
records = [f"{row},{','.join(texts)},{draw.randrange(-1_500_000, 1_500_001) / 100:.2f}\n" for row, texts in enumerate(everything, 1)]
for rows in (50_000, 300_000, 400_000):
    with open(f"{rows}.csv", "w") as file:
        file.write("id,a,b,c,d,e,f,sale\n")
        file.writelines(records[:rows])
    with open(f"load{rows}", "w") as file:
        file.write(f"load {rows}.csv\n")
dims = "".join(f"dim {dim}\n" for dim in "abcdef")
for name, indexes in (("rows", ""), ("indexed", "index count\nindex sum sale\nindex mean sale\n")):
    with open(f"{name}.schema", "w") as file:
        file.write(f"qcube 1\nid id\n{dims}measure sale 2\n{indexes}nodes 4000000\n")

def script(name, lines):
    with open(name, "w") as file:
        file.write("load 300000.csv\n")
        file.writelines(line + "\n" for line in lines)

def box_field(name, values):
    kind = draw.random()
    some = [f"{name}{draw.randrange(values)}" for _ in range(3)]
    return "*" if kind < 0.5 else "?" if kind < 0.6 else "|" + "|".join(some) if kind < 0.8 else f"~{min(some)}~{max(some)}"

def cells(word, many):
    for _ in range(many):
        texts = draw.choice(everything)
        yield word + " " + ",".join("*" if draw.random() < 0.5 else text for text in texts)

script("points", cells("point", 200_000))
script("bounds", cells("bounds", 20_000))
script("parents", cells("parents", 2_000))
script("children", cells("children", 2_000))
script("ranges", ("range " + ",".join(box_field(name, n) for name, n in zip("abcdef", counts)) for _ in range(1_000)))
script("icebergs", (line for k in range(17) for line in (
    f"iceberg count >= {1_000 + 600 * k}", f"iceberg sum sale >= {2_000_000 + 200_000 * k}", f"iceberg mean sale >= {14_980 + k}.5")))
present = list(range(1, 300_001))
for batch in range(100):
    with open(f"batch{batch}.csv", "w") as file:
        file.write("op,id,a,b,c,d,e,f,sale\n")
        for _ in range(200):
            place = draw.randrange(len(present))
            present[place], present[-1] = present[-1], present[place]
            file.write(f"-,{present.pop()},,,,,,,\n")
        file.writelines("+," + record for record in records[300_000 + 200 * batch : 300_200 + 200 * batch])
script("batches", (f"apply batch{batch}.csv" for batch in range(100)))
with open("wide.schema", "w") as file:
    file.write(f"qcube 2\nid id\n{dims}measure sale 2\nnodes 4000000\n")
script("widened", ["widen region west"])
with open("none", "w") as file:
    pass
with open("one.schema", "w") as file:
    file.write("qcube 1\nid id\ndim v\n")
with open("one.csv", "w") as file:
    file.write("id,v\n" + "".join(f"{row},v{row * 7919 % 1_000}\n" for row in range(1, 500_001)))
with open("many.csv", "w") as file:
    file.write("id,v\n" + "".join(f"{row},w{row * 7_919 % 100_003}\n" for row in range(1, 100_001)))
for name, query in (("many", ""), ("cells", "range ?\n")):
    with open(name, "w") as file:
        file.write("load many.csv\n" + query)
with open("one", "w") as file:
    file.write("load one.csv\n" + "".join(f"point v{row * 104_729 % 1_100}\n" for row in range(500_000)))
PY

python3 - "$program" "$other" <<'PY'
import hashlib
import os
import statistics
import subprocess
import sys

programs = sys.argv[1:]
RUNS = int(os.environ.get("RUNS", "5"))

def run(program, words):
    process = subprocess.Popen([program, *words], stdout=subprocess.PIPE, stderr=subprocess.DEVNULL)
    told = hashlib.sha256()
    while piece := process.stdout.read(1 << 20):
        told.update(piece)
    _, status, usage = os.wait4(process.pid, 0)
    process.returncode = status
    assert status == 0, (program, words)
    return usage.ru_utime + usage.ru_stime, usage.ru_maxrss / 1024, told.digest()

def measured(*words):
    """The median processor time, the median peak memory in MiB and the least processor time of each program."""
    runs = [[], []]
    for turn in range(RUNS):
        for which in (0, 1) if turn % 2 == 0 else (1, 0):
            runs[which].append(run(programs[which], words))
    assert len({told for one in runs for _, _, told in one}) == 1, words
    return [(*(statistics.median(values[k] for values in one) for k in (0, 1)), min(values[0] for values in one)) for one in runs]

def ratio(ours, theirs, unit):
    return f"{ours:.3f} and {theirs:.3f} {unit}, {ours / theirs:.2f} times"

def say_times(name, both, most, before=((0, 0, 0), (0, 0, 0))):
    """Prints the times of both programs less those before."""
    median, least = (ratio(both[0][k] - before[0][k], both[1][k] - before[1][k], "s") for k in (0, 2))
    print(f"{name}: {median} (at most {most}); the least {least}", flush=True)

def say_peaks(both, most):
    print(f"    peak: {ratio(both[0][1], both[1][1], 'MiB')} (at most {most})", flush=True)

def behind(name, script, schema, load, most):
    say_times(f"{name}, after its load", measured("run", schema, script), most, load)

load = measured("run", "rows.schema", "load300000")
say_times("load of 300,000 rows", load, 0.9)
say_peaks(load, 0.85)
bounds = {"parents": 1.5, "children": 1.5, "batches": 1.1}
for name in ("points", "bounds", "parents", "children", "ranges", "icebergs", "batches"):
    behind(name, name, "rows.schema", load, bounds.get(name, 1.0))
widened = measured("run", "wide.schema", "widened")
say_times("load and widen", widened, 1.1)
say_peaks(widened, 1.0)
indexed = measured("run", "indexed.schema", "load300000")
say_times("what three index lines add", indexed, 1.1, load)
for name in ("icebergs", "batches"):
    behind(f"{name} with three indexes", name, "indexed.schema", indexed, bounds.get(name, 1.0))
say_times("500,000 rows and points of one dimension", measured("run", "one.schema", "one"), 1.0)
behind("one answer of 100,000 cells", "cells", "one.schema", measured("run", "one.schema", "many"), 1.1)
say_times("pack", measured("pack", "rows.schema", "load300000"), 1.0)
with open("snapshot", "wb") as file:
    subprocess.run([programs[0], "pack", "rows.schema", "load300000"], stdout=file, check=True)
say_times("open", measured("open", "snapshot", "none"), 1.0)
small, large = measured("run", "rows.schema", "load50000"), measured("run", "rows.schema", "load400000")
growth = [large[k][2] / small[k][2] for k in (0, 1)]
print(f"400,000 rows take {growth[0]:.1f} times as long as 50,000 (at most 8.2), the other program {growth[1]:.1f} times")
for rows in ("20000", "200000"):
    say_times(f"gen {rows} 7", measured("gen", rows, "7"), 1.1)
PY
