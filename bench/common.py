"""Shared by the benchmarks: inputs by a Zipf law, and measured runs."""
import os
import subprocess


def zipf_rows(draw, counts, rows):
    """Rows of texts. A text is a letter for the dimension and a number, drawn by a Zipf law from so many."""
    columns = [draw.choices(range(n), [1 / (k + 1) for k in range(n)], k=rows) for n in counts]
    return [[f"{name}{value}" for name, value in zip("abcdef", values)] for values in zip(*columns)]


def best(*words, runs=3):
    """The least processor seconds of some runs, and the output lines and the peak memory in bytes of the last."""
    least = None
    for _ in range(runs):
        process = subprocess.Popen(words, stdout=subprocess.PIPE, stderr=subprocess.DEVNULL)
        out = process.stdout.read().decode()
        _, status, usage = os.wait4(process.pid, 0)
        assert status == 0, words
        took = usage.ru_utime + usage.ru_stime
        least = took if least is None else min(least, took)
    return least, out.splitlines(), usage.ru_maxrss * 1024
