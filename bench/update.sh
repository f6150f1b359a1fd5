#!/usr/bin/env bash
# Times updates: 2,000 inserts before one node of a document that grows from one node, and one deletion among 250,000
# records. The time and the peak of memory of `xdb . play` with the LOAD and the updates, less those of the LOAD alone. The
# least of three runs counts. Run at the top of the repository, on a machine that does nothing else.
set -eu
cd "$(dirname "$0")/.."
./xdb . play </dev/null   # builds the program where that is needed

python3 - "$PWD/crates/xdb/out/xdb" <<'PY'
import os
import random
import subprocess
import sys
import tempfile
import time

RECORDS = 250_000
RUNS = 3
program = sys.argv[1]


def records():
    """Names in no order, and prices from 0 to 999."""
    chance = random.Random(1)
    lines = ["(r"]
    for _ in range(RECORDS):
        name, price = "n%06d" % chance.randrange(1_000_000), str(chance.randrange(1000))
        lines += ["(rec", "(name", "-" + name, ")name", "(price", "-" + price, ")price", ")rec"]
    return lines + [")r"]


def script(lines, calls):
    return ("\n".join(["SESSION", "BEGIN", "LOAD 'd'"] + lines + ["."] + calls + ["COMMIT"]) + "\n").encode()


def one_run(given):
    """Seconds and the peak of memory in bytes."""
    with tempfile.TemporaryFile() as file, tempfile.TemporaryFile() as out:
        file.write(given)
        file.seek(0)
        start = time.perf_counter()
        child = subprocess.Popen([program, ".", "play"], stdin=file, stdout=out)
        _, status, used = os.wait4(child.pid, 0)
        out.seek(0)
        if status or b"error" in out.read():
            sys.exit("the program failed")
        return time.perf_counter() - start, used.ru_maxrss * 1024


def least(given):
    runs = [one_run(given) for _ in range(RUNS)]
    return min(seconds for seconds, _ in runs), min(peak for _, peak in runs)


def report(what, lines, calls):
    alone, ground = least(script(lines, []))
    seconds, peak = least(script(lines, calls))
    print("%-60s %6.2f s %7.1f MiB, beside a LOAD of %.2f s and %.1f MiB"
          % (what, seconds - alone, (peak - ground) / 2**20, alone, ground / 2**20))


report("2,000 inserts before one node", ["(a", "(x", ")x", ")a"], ["UPDATE insert element y {} preceding doc('d')/a/x"] * 2000)
big = records()
report("delete doc('d')//rec[price > 500]", big, ["UPDATE delete doc('d')//rec[price > 500]"])
PY
