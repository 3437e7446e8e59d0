"""Shared by the benchmarks that measure a file beside an ordinary one."""
import os
import sys
from common import best


def schema(name, dims):
    """A schema with one measure."""
    with open(name, "w") as file:
        file.write(f"qcube {2 if len(dims) > 12 else 1}\nid id\n" + "".join(f"dim {dim}\n" for dim in dims) + "measure sale 2\nnodes 4000000\n")


def script(name, *lines):
    with open(name, "w") as file:
        file.writelines(line + "\n" for line in lines)


def base(name, header, rows):
    """A base file, and a script of its name that loads it."""
    with open(f"{name}.csv", "w") as file:
        file.write(header + "\n")
        file.writelines(row + "\n" for row in rows)
    script(name, f"load {name}.csv")


def measure(schema_name, script_name):
    runs = int(os.environ.get("RUNS", "3"))
    took, replies, peak = best(sys.argv[1], "run", schema_name, script_name, runs=runs)
    assert not any(reply.startswith(("refused", "memory")) for reply in replies), (script_name, replies[:3])
    return took, peak / (1 << 20)


def measure_pairs(pairs):
    """Runs the two scripts of each pair over its schema, and prints what they took."""
    for what, schema_name, slow, usual in pairs:
        (took, peak), (other, others) = measure(schema_name, slow), measure(schema_name, usual)
        print(f"{what}: {took:.3f} s, {peak:.0f} MiB; ordinary: {other:.3f} s, {others:.0f} MiB; {took / other:.2f} times", flush=True)
