#!/usr/bin/env bash
# Times queries over a document of 250,000 records, each with a name and a price and their texts: the time and the peak of
# memory of `xdb . play` with the LOAD of the document and one query, less those of the LOAD alone. The least of three runs
# counts. Where `basex` is installed, the same queries over the same document stand beside. Run at the top of the
# repository, on a machine that does nothing else.
set -eu
cd "$(dirname "$0")/.."
folder=$(mktemp -d)
trap 'rm -rf "$folder"' EXIT
./xdb . play </dev/null   # builds the program where that is needed

python3 - "$PWD/crates/xdb/out/xdb" "$folder" <<'PY'
import os
import random
import shutil
import subprocess
import sys
import tempfile
import time

RECORDS = 250_000
RUNS = 3
QUERIES = (
    "count(doc('d')//node())",
    "count(doc('d')/r/rec[price > 500])",
    "for $x in doc('d')/r/rec where $x/price > 900 order by $x/name return $x/name",
    "sum(for $i in 1 to 1000 return count((1 to 1000)[. = $i]))",
    "count(doc('d')//rec/name | doc('d')//price)",
)
program, folder = sys.argv[1], sys.argv[2]


def records():
    """Names in no order, and prices from 0 to 999."""
    chance = random.Random(1)
    return [("n%06d" % chance.randrange(1_000_000), str(chance.randrange(1000))) for _ in range(RECORDS)]


def pyx(all_of_them):
    lines = ["(r"]
    for name, price in all_of_them:
        lines += ["(rec", "(name", "-" + name, ")name", "(price", "-" + price, ")price", ")rec"]
    return lines + [")r"]


def xml(all_of_them):
    inside = ("<rec><name>%s</name><price>%s</price></rec>" % one for one in all_of_them)
    return "<r>" + "".join(inside) + "</r>"


def script(lines, query):
    calls = ["SESSION", "BEGIN", "LOAD 'd'"] + lines + ["."] + ([query] if query else []) + ["COMMIT"]
    return ("\n".join(calls) + "\n").encode()


def one_run(words, given):
    """Seconds and the peak of memory in bytes."""
    with tempfile.TemporaryFile() as file:
        file.write(given)
        file.seek(0)
        start = time.perf_counter()
        child = subprocess.Popen(words, stdin=file, stdout=subprocess.DEVNULL)
        _, status, used = os.wait4(child.pid, 0)
        if status:
            sys.exit("%s failed" % words[0])
        return time.perf_counter() - start, used.ru_maxrss * 1024


def least(words, given):
    runs = [one_run(words, given) for _ in range(RUNS)]
    return min(seconds for seconds, _ in runs), min(peak for _, peak in runs)


def beside(query, path):
    """The seconds that BaseX takes for the query alone, as it says itself, or nothing where it is not installed."""
    if not shutil.which("basex"):
        return ""
    words = ["basex", "-V", "-i", path, query.replace("doc('d')", ".")]
    ran = subprocess.run(words, capture_output=True, text=True)
    told = ran.stdout + ran.stderr
    spent = [line for line in told.split("\n") if line.startswith(("Evaluating:", "Compiling:", "Printing:")) and line.endswith("ms")]
    return "| basex " + " ".join(spent)


made = records()
lines = pyx(made)
path = os.path.join(folder, "d.xml")
with open(path, "w") as file:
    file.write(xml(made))
alone, ground = least([program, folder, "play"], script(lines, ""))
print("LOAD alone: %.2f s, %.1f MiB" % (alone, ground / 2**20))
for query in QUERIES:
    seconds, peak = least([program, folder, "play"], script(lines, query))
    print("%-80s %6.2f s %7.1f MiB %s" % (query, seconds - alone, (peak - ground) / 2**20, beside(query, path)))
PY
