#!/usr/bin/env python3
"""Times a chain of additions of 64 bits through terms, gates and clauses, and measures its memory."""
import os
import pathlib
import subprocess
import sys
import time

TOP = pathlib.Path(__file__).resolve().parent.parent
PROGRAM = TOP / "crates" / "sum_circuits" / "out" / "sum_circuits"


def measure(count, root):
    begin = time.monotonic()
    process = subprocess.Popen([PROGRAM, str(count), str(root)], stdout=subprocess.PIPE, text=True)
    text = process.stdout.read().strip()
    _, status, usage = os.wait4(process.pid, 0)
    if status != 0:
        raise SystemExit(f"{count} {root}: status {status}")
    took = time.monotonic() - begin
    print(
        f"{count} additions, root {root}: {text};"
        f" {took:.2f} s, {usage.ru_utime + usage.ru_stime:.2f} s of processor, {usage.ru_maxrss // 1024} MiB",
        flush=True,
    )


for count, root in [(100_000, 10), (1_000, 1_000), (10_000, 10_000), (20_000, 20_000)]:
    measure(count, root)
if "--all" in sys.argv:
    measure(100_000, 100_000)
