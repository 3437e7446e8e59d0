#!/usr/bin/env bash
# Makes warehouses of 20,000 and 200,000 drawn rows with their 40 batches, beside another program of the same words if one is
# named.
#
#     bench/gen.sh [PROGRAM [OTHER]]
#
# PROGRAM is the built program, by default crates/qcube/out/qcube. OTHER must write the same records. Each time is the least of
# three runs.
other=${2:+$(realpath "$2")}
source "$(dirname "${BASH_SOURCE[0]}")/common.sh"

python3 - "$program" "$other" <<'PY'
import sys
from common import best

program, other = sys.argv[1:]
for rows in (20_000, 200_000):
    took, told, peak = best(program, "gen", str(rows), "7")
    print(f"gen {rows} 7: {took:.2f} s, {peak / 1_000_000:.0f} MB")
    if other:
        beside, record, _ = best(other, "gen", str(rows), "7")
        assert record == told, (record, told)
        print(f"    the other program: {beside:.2f} s; {took / beside:.2f} times (at most 1.5)")
PY
