#!/usr/bin/env bash
# Runs with an outside that fails. Standard output is closed, full, or a pipe that nobody reads (status 4). A script and a base
# file have the greatest allowed length, with the peak memory beside their length, and then one byte more. A load of 300,000 rows
# of 6 dimensions gets 30 to 400 MB of memory; it must end with status 5 and no output, or with status 0 and `memory,1` or the
# load's reply.
#
#     bench/outside.sh [PROGRAM]
#
# PROGRAM is the built program, by default crates/qcube/out/qcube.
source "$(dirname "${BASH_SOURCE[0]}")/common.sh"
cp "$top"/crates/worked_runs/data/runs/store/* .

ends() {
    local want=$1 got=0
    shift
    "$@" || got=$?
    test "$got" = "$want" || { echo "status $got in place of $want: $*"; exit 1; }
}
closed() { "$program" run s.schema script >&- 2> err; }
full() { "$program" run s.schema script > /dev/full 2> err; }
unread() {
    { "$program" run s.schema counts 2> err; echo $? > status; } | true
    return "$(cat status)"
}
yes stats | head -n 100000 > counts
for way in closed full unread; do
    ends 4 "$way"
    test "$(cat err)" = "qcube: cannot write"
done
echo "status 4: standard output closed, full, and not read"

python3 - "$program" <<'PY'
import random
import resource
import subprocess
import sys
from common import best, zipf_rows

program = sys.argv[1]
MOST = 268_435_456


def long_file(name, front, fill, length):
    with open(name, "wb") as file:
        file.write(front)
        left = length - len(front)
        while left:
            left -= file.write(fill * min(left, 1 << 20))


for what, script, base, reply in (
    ("script", MOST, 0, "stats,1,0,0,0,0,0"),
    ("base file", 0, MOST, "applied,1,1,1"),
    ("base file with one byte more", 0, MOST + 1, "refused,1,size"),
):
    front = b"id,store,product,season,sale\n1,S1,P1,s,6\n"
    long_file("d.csv", front, b"\n", max(base, len(front)))
    line = b"load d.csv\n" if base else b"stats\n#"
    long_file("long", line, b"#", max(script, len(line)))
    took, told, peak = best(program, "run", "s.schema", "long", runs=1)
    assert told == [reply], told
    print(f"{what}: {told[0]}, {took:.2f} s, peak {peak / MOST:.2f} times a file's greatest length")
long_file("long", b"stats\n#", b"#", MOST + 1)
run = subprocess.run([program, "run", "s.schema", "long"], capture_output=True)
assert (run.returncode, run.stdout, run.stderr) == (6, b"", b"qcube: long is too long\n"), run
print("script with one byte more: status 6")

draw = random.Random(300_000)
with open("rows.schema", "w") as file:
    file.write("qcube 1\nid id\n" + "".join(f"dim {name}\n" for name in "abcdef") + "measure sale 2\nnodes 4000000\n")
with open("rows.csv", "w") as file:
    file.write("id,a,b,c,d,e,f,sale\n")
    for row, texts in enumerate(zipf_rows(draw, (500, 200, 80, 30, 12, 5), 300_000), 1):
        file.write(f"{row},{','.join(texts)},{draw.randrange(-50_000, 50_001) / 100:.2f}\n")
with open("load", "w") as file:
    file.write("load rows.csv\n")
endings = {}
for megabytes in range(30, 401, 10):
    most = megabytes << 20
    run = subprocess.run([program, "run", "rows.schema", "load"], capture_output=True, preexec_fn=lambda: resource.setrlimit(resource.RLIMIT_AS, (most, most)))
    ending = (run.returncode, run.stdout.decode())
    good = ending in ((5, ""), (0, "memory,1\n")) or (run.returncode == 0 and run.stdout.startswith(b"applied,1,300000,"))
    assert good, (megabytes, ending, run.stderr)
    endings.setdefault(ending, []).append(megabytes)
for (status, told), sizes in endings.items():
    print(f"status {status}, output {told.strip() or 'empty'}: with {sizes[0]} to {sizes[-1]} MB of address space")
PY
