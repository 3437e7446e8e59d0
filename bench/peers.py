"""The peers of bench/peers.sh. Each makes the cube, answers 200 points and applies a batch, in the current folder."""
import os
import shutil
import signal
import statistics
import subprocess
import sys
import time
from itertools import combinations
from resource import RUSAGE_CHILDREN, getrusage

DIMS = "abcdef"
AGGS = "count(*) AS n, sum(sale) AS s, min(sale) AS lo, max(sale) AS hi"
HZ = os.sysconf("SC_CLK_TCK")
with open("cells") as file:
    CELLS = [line.strip().split(",") for line in file]
with open("deleted") as file:
    DELETED = ",".join(file.read().split())


def ticks(pid):
    """Processor ticks of a process, of its children, and of those that it waited for."""
    try:
        with open(f"/proc/{pid}/stat") as file:
            fields = file.read().rsplit(")", 1)[1].split()
        with open(f"/proc/{pid}/task/{pid}/children") as file:
            children = file.read().split()
    except (FileNotFoundError, ProcessLookupError):
        return 0
    return sum(map(int, fields[11:15])) + sum(map(ticks, children))


def children_seconds():
    usage = getrusage(RUSAGE_CHILDREN)
    return usage.ru_utime + usage.ru_stime


def folder_bytes(top):
    return sum(os.path.getsize(os.path.join(at, name)) for at, _, names in os.walk(top) for name in names)


def unprivileged(words):
    if os.getuid() != 0:
        return words
    return ["setpriv", "--reuid=nobody", "--regid=nogroup", "--clear-groups", *words]


def own_folder(name):
    os.mkdir(name, 0o700)
    if os.getuid() == 0:
        shutil.chown(name, "nobody", "nogroup")
    return os.path.abspath(name)


def where(is_any, equals):
    """The WHERE condition of each cell, which finds its row in a cube's table."""
    return [" AND ".join(f"{d} {is_any}" if text == "*" else f"{d} {equals} '{text}'" for d, text in zip(DIMS, cell)) for cell in CELLS]


class Server:
    """A server that this script starts, and whose processor time it reads."""

    def start(self, words, **options):
        self.log = open(f"{self.name}.log", "w")
        self.process = subprocess.Popen(unprivileged(words), stdout=self.log, stderr=self.log, **options)
        for _ in range(600):
            if self.process.poll() is not None:
                break
            if subprocess.run(self.client("SELECT 1"), capture_output=True).returncode == 0:
                return
            time.sleep(0.2)
        raise RuntimeError(f"{self.name} didn't start: " + open(f"{self.name}.log").read()[-500:])

    def stop(self):
        self.process.send_signal(signal.SIGINT if self.name == "postgres" else signal.SIGTERM)
        self.process.wait(120)

    def ask(self, text, **options):
        run = subprocess.run(self.client(text), check=True, capture_output=True, text=True, **options)
        return run.stdout

    def seconds(self, work):
        before = ticks(self.process.pid)
        work()
        return (ticks(self.process.pid) - before) / HZ


class Postgres(Server):
    name, title = "postgres", "PostgreSQL"
    note = "a batch: REFRESH computes the whole cube again. No class bounds, no pins; a dry run is a transaction that computes the whole cube."

    def __init__(self):
        paths = [f"/usr/lib/postgresql/{version}/bin" for version in range(20, 9, -1)]
        self.bin = next((path for path in paths if os.path.exists(f"{path}/postgres")), None)
        self.missing = None if self.bin and shutil.which("psql") else "postgresql"

    def client(self, text):
        return ["psql", "-h", self.folder, "-U", "bench", "-qAtX", "-v", "ON_ERROR_STOP=1", "-c", text, "postgres"]

    def prepare(self):
        self.folder = own_folder("pg")
        data = f"{self.folder}/data"
        subprocess.run(unprivileged([f"{self.bin}/initdb", "-D", data, "-U", "bench", "--no-sync", "--locale=C"]), check=True, capture_output=True)
        settings = {"listen_addresses": "", "unix_socket_directories": self.folder, "shared_buffers": "1GB", "work_mem": "256MB",
                    "maintenance_work_mem": "512MB", "fsync": "off", "max_wal_size": "4GB"}
        self.start([f"{self.bin}/postgres", "-D", data, *(f"--{key}={value}" for key, value in settings.items())])
        self.ask("CREATE TABLE base (id bigint PRIMARY KEY, a text, b text, c text, d text, e text, f text, sale bigint)")
        self.copy("base.csv")

    def copy(self, name):
        with open(name) as file:
            self.ask("COPY base FROM STDIN CSV HEADER", stdin=file)

    def cube(self):
        def make():
            self.ask(f"CREATE MATERIALIZED VIEW cube AS SELECT {','.join(DIMS)}, {AGGS}, avg(sale) AS mean FROM base GROUP BY CUBE ({','.join(DIMS)})")
            self.ask(f"CREATE INDEX cells ON cube ({','.join(DIMS)})")
        return self.seconds(make)

    def cells(self):
        return int(self.ask("SELECT count(*) FROM cube"))

    def size(self):
        return int(self.ask("SELECT pg_total_relation_size('cube')"))

    def points(self):
        self.ask("ANALYZE cube")
        text = "\\timing on\n" + "".join(f"SELECT * FROM cube WHERE {cell};\n" for cell in where("IS NULL", "="))
        words = self.client("")[:-3] + ["postgres"]
        told = subprocess.run(words, input=text, check=True, capture_output=True, text=True).stdout
        return statistics.median(float(line.split()[1]) / 1e3 for line in told.splitlines() if line.startswith("Time:"))

    def batch(self):
        def change():
            self.ask(f"DELETE FROM base WHERE id IN ({DELETED})")
            self.copy("inserted.csv")
            self.ask("REFRESH MATERIALIZED VIEW cube")
        return self.seconds(change)


class ClickHouse(Server):
    name, title = "clickhouse", "ClickHouse"
    note = "a batch: the whole cube again. An empty value and Any are the same in it. No class bounds, no dry run, no pins."
    config = """<yandex><logger><level>error</level><log>{0}/log</log><errorlog>{0}/err</errorlog></logger>
<tcp_port>{1}</tcp_port><listen_host>127.0.0.1</listen_host><path>{0}/</path><tmp_path>{0}/temporary/</tmp_path>
<mark_cache_size>1000000000</mark_cache_size><users_config>{0}/users.xml</users_config>
<default_profile>default</default_profile><default_database>default</default_database></yandex>"""
    users = """<yandex><profiles><default><max_memory_usage>10000000000</max_memory_usage></default></profiles>
<users><default><password></password><networks><ip>127.0.0.1</ip></networks><profile>default</profile><quota>default</quota></default></users>
<quotas><default/></quotas></yandex>"""

    def __init__(self):
        self.server = shutil.which("clickhouse-server") or shutil.which("clickhouse-server", path="/usr/sbin:/usr/local/sbin")
        self.missing = None if self.server and shutil.which("clickhouse-client") else "clickhouse-server clickhouse-client"
        self.port = str(20_000 + os.getpid() % 10_000)

    def client(self, text):
        return ["clickhouse-client", "--port", self.port, "--query", text]

    def prepare(self):
        self.folder = own_folder("ch")
        for name, text in (("config.xml", self.config.format(self.folder, self.port)), ("users.xml", self.users)):
            with open(f"{self.folder}/{name}", "w") as file:
                file.write(text)
            os.chmod(f"{self.folder}/{name}", 0o644)
        self.start([self.server, f"--config-file={self.folder}/config.xml"], cwd=self.folder)
        columns = ", ".join(f"{d} String" for d in DIMS)
        for name in ("base", "base2"):
            self.ask(f"CREATE TABLE {name} (id UInt64, {columns}, sale Int64) ENGINE = MergeTree ORDER BY id")
        self.ask(f"CREATE TABLE cube ({columns}, n UInt64, s Int64, lo Int64, hi Int64, mean Float64) ENGINE = MergeTree ORDER BY ({','.join(DIMS)})")
        self.copy("base", "base.csv")

    def copy(self, table, name):
        with open(name) as file:
            self.ask(f"INSERT INTO {table} FORMAT CSVWithNames", stdin=file)

    def fill(self, table):
        self.ask(f"INSERT INTO cube SELECT {','.join(DIMS)}, {AGGS}, avg(sale) FROM {table} GROUP BY {','.join(DIMS)} WITH CUBE")

    def cube(self):
        return self.seconds(lambda: self.fill("base"))

    def cells(self):
        return int(self.ask("SELECT count() FROM cube"))

    def size(self):
        return folder_bytes(f"{self.folder}/data/default/cube")

    def points(self):
        text = "".join(f"SELECT * FROM cube WHERE {cell};\n" for cell in where("= ''", "="))
        words = ["clickhouse-client", "--port", self.port, "--multiquery", "--time"]
        told = subprocess.run(words, input=text, check=True, capture_output=True, text=True).stderr
        return statistics.median(map(float, told.split()))

    def batch(self):
        def change():
            self.ask(f"INSERT INTO base2 SELECT * FROM base WHERE id NOT IN ({DELETED})")
            self.copy("base2", "inserted.csv")
            self.ask("TRUNCATE TABLE cube")
            self.fill("base2")
        return self.seconds(change)


class Sqlite:
    name, title = "sqlite", "SQLite"
    note = "a batch: the whole cube again. No class bounds, no pins; a dry run is a transaction that computes the whole cube."

    def __init__(self):
        self.missing = None if shutil.which("sqlite3") else "sqlite3"

    def run(self, text):
        before = children_seconds()
        told = subprocess.run(["sqlite3", "-batch", "cube.db"], input="PRAGMA cache_size=-1000000;\nPRAGMA temp_store=2;\n" + text, check=True, capture_output=True, text=True)
        assert not told.stderr, told.stderr
        return children_seconds() - before, told.stdout

    def prepare(self):
        self.run("PRAGMA journal_mode=OFF;\nCREATE TABLE base (id INTEGER PRIMARY KEY, a, b, c, d, e, f, sale INTEGER);\n.import --csv --skip 1 base.csv base\n")

    def make(self):
        parts = []
        for many in range(7):
            for kept in combinations(DIMS, many):
                columns = ", ".join(d if d in kept else f"NULL AS {d}" for d in DIMS)
                group = f" GROUP BY {', '.join(kept)}" if kept else ""
                parts.append(f"SELECT {columns}, {AGGS}, avg(sale) AS mean FROM base{group}")
        cube = "\nUNION ALL ".join(parts)
        return f"PRAGMA journal_mode=OFF;\nCREATE TABLE cube AS {cube};\nCREATE INDEX cells ON cube ({','.join(DIMS)});\n"

    def cube(self):
        return self.run(self.make())[0]

    def cells(self):
        return int(self.run("SELECT count(*) FROM cube;")[1].split()[-1])

    def size(self):
        return os.path.getsize("cube.db")

    def points(self):
        text = "".join(f"SELECT * FROM cube WHERE {cell};\n" for cell in where("IS NULL", "="))
        return (self.run(text * 51)[0] - self.run(text)[0]) / (50 * len(CELLS))

    def batch(self):
        change = f"DELETE FROM base WHERE id IN ({DELETED});\n.import --csv --skip 1 inserted.csv base\nDROP TABLE cube;\n"
        return self.run(change + self.make())[0]

    def stop(self):
        pass


class Qcube:
    name, title, missing = "qcube", "qcube", None
    note = "a batch: repaired in place. The time of the cube includes reading the CSV file; its size is the peak memory of the load."

    def __init__(self, program):
        self.program = program

    def run(self, *lines):
        with open("script", "w") as file:
            file.write("load base.csv\n" + "".join(lines))
        process = subprocess.Popen([self.program, "run", "s.schema", "script"], stdout=subprocess.PIPE)
        told = process.stdout.read().decode().splitlines()
        _, status, usage = os.wait4(process.pid, 0)
        process.returncode = status
        assert status == 0 and not any(line.startswith("refused") for line in told), told[-1]
        return usage.ru_utime + usage.ru_stime, usage.ru_maxrss * 1024, told

    def prepare(self):
        with open("base.csv") as file:
            rows = {line.split(",", 1)[0]: line for line in file}
        with open("inserted.csv") as file:
            come = [line.split(",", 1)[0] for line in file][1:]
        with open("back.csv", "w") as file:
            file.write("op,id,a,b,c,d,e,f,sale\n")
            file.writelines(f"-,{row},,,,,,,\n" for row in come)
            file.writelines("+," + rows[row] for row in DELETED.split(","))

    def cube(self):
        runs = [self.run() for _ in range(3)]
        self.load, self.peak = (statistics.median(run[k] for run in runs) for k in (0, 1))
        return self.load

    def cells(self):
        return int(self.run("stats\n")[2][-1].split(",")[3])

    def size(self):
        return self.peak

    def points(self):
        asked = "".join("point " + ",".join(cell) + "\n" for cell in CELLS)
        return (self.run(asked * 1_000)[0] - self.load) / (1_000 * len(CELLS))

    def batch(self):
        return (self.run("apply batch.csv\napply back.csv\n" * 10)[0] - self.load) / 20

    def stop(self):
        pass


def measure(peer):
    try:
        peer.prepare()
        took = peer.cube()
        return took, peer.cells(), peer.size(), peer.points(), peer.batch()
    finally:
        peer.stop()


def main():
    wanted = os.environ.get("PEERS", "postgres clickhouse sqlite").split()
    own = None
    for peer in [Qcube(sys.argv[1]), *(peer() for peer in (Postgres, ClickHouse, Sqlite) if peer.name in wanted)]:
        if peer.missing:
            print(f"{peer.title}: left out, as its packages aren't installed: {peer.missing}", flush=True)
            continue
        took, cells, size, point, batch = measure(peer)
        own = own or (took, size, point, batch)
        ratio = [value / base for value, base in zip((took, size, point, batch), own)]
        what = "classes of cells" if peer.name == "qcube" else "cells"
        print(f"{peer.title}: {cells:,} {what}; ratios to qcube in brackets")
        print(f"    first cube {took:.2f} s ({ratio[0]:.1f}), size {size / 2**20:,.0f} MiB ({ratio[1]:.1f})")
        print(f"    a point {point * 1e6:.1f} microseconds ({ratio[2]:.0f}), a day's batch {batch:.3f} s ({ratio[3]:.0f})")
        print(f"    {peer.note}", flush=True)
    print(f"load on this machine over the last minutes: {' '.join(f'{value:.1f}' for value in os.getloadavg())} on {os.cpu_count()} processors")


main()
