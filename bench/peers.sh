#!/usr/bin/env bash
# Measures qcube beside what a user might choose instead: PostgreSQL's GROUP BY CUBE, as a materialized table with an index,
# ClickHouse's WITH CUBE, as a table sorted by the dimensions, and SQLite, as a table of the UNION ALL of the 64 GROUP BYs. Each
# gets the same table of 300,000 rows of 6 skewed dimensions, the same 200 cells and the same batch.
#
#     bench/peers.sh [PROGRAM]
#
# PROGRAM is the built program, by default crates/qcube/out/qcube. The Debian packages are `postgresql`, `clickhouse-server` with
# `clickhouse-client`, and `sqlite3`; a peer whose package is missing is left out. ROWS sets another number of rows, and PEERS the
# peers to run, as in `PEERS="postgres sqlite"`. The servers run in a folder of their own, as the user nobody if root starts this
# script, and are stopped at the end. The whole run takes more than 10 minutes on an idle machine.
#
# Times of qcube and SQLite are processor seconds of their process. Those of PostgreSQL and ClickHouse are processor seconds of
# all processes of the server, so other load on the machine hardly shows in them. A point of a server is the median of the times
# that its client saw over one connection.
source "$(dirname "${BASH_SOURCE[0]}")/common.sh"
chmod 755 "$folder"

python3 - "${ROWS:-300000}" <<'PY'
import random
import sys
from common import zipf_rows

counts = (500, 200, 80, 30, 12, 5)
many = int(sys.argv[1])
draw = random.Random(17)
rows = zipf_rows(draw, counts, many + 200)
records = [f"{row},{','.join(texts)},{draw.randrange(-1_500_000, 1_500_001)}\n" for row, texts in enumerate(rows, 1)]
with open("base.csv", "w") as file:
    file.write("id,a,b,c,d,e,f,sale\n")
    file.writelines(records[:many])
deleted = draw.sample(range(1, many + 1), 200)
with open("deleted", "w") as file:
    file.writelines(f"{row}\n" for row in deleted)
with open("inserted.csv", "w") as file:
    file.write("id,a,b,c,d,e,f,sale\n")
    file.writelines(records[many:])
with open("batch.csv", "w") as file:
    file.write("op,id,a,b,c,d,e,f,sale\n")
    file.writelines(f"-,{row},,,,,,,\n" for row in deleted)
    file.writelines("+," + record for record in records[many:])
with open("cells", "w") as file:
    for _ in range(200):
        texts = draw.choice(rows[:many])
        file.write(",".join("*" if draw.random() < 0.5 else text for text in texts) + "\n")
with open("s.schema", "w") as file:
    file.write("qcube 1\nid id\n" + "".join(f"dim {dim}\n" for dim in "abcdef") + "measure sale 0\nnodes 4000000\n")
PY

python3 "$top/bench/peers.py" "$program"
