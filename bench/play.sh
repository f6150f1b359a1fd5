#!/usr/bin/env bash
# Times `xdb . play` over scripts of 100,000 calls in 64 sessions, with its peak memory, and over twice and four times as
# many calls; and over scripts of up to as many calls that make a new document in each transaction. Run at the top of the
# repository.
set -eu
cd "$(dirname "$0")/.."
folder=$(mktemp -d)
trap 'rm -rf "$folder"' EXIT

python3 - "$folder" <<'PY'
import random
import sys

SESSIONS = 64
folder = sys.argv[1]


def turn(s, k):
    """Five calls of a session: it makes a document anew, reads it, and drops it every second time."""
    change = ["LOAD 'd%d'" % s, "(order", "Aid %d" % k, "-some text", ")order", "."] if k % 2 == 0 else ["DROP DOCUMENT 'd%d'" % s]
    return ["BEGIN"] + change + ["EXPORT 'd%d'" % s, "COMMIT", "CHECKPOINT"]


def apart(calls):
    """Each session works on a document of its own, and the calls of all come in turn."""
    rounds = calls // (SESSIONS * 5)
    lines = []
    for s in range(1, SESSIONS + 1):
        lines.append("SESSION")
        for k in range(rounds):
            lines += turn(s, k)
    lines.append("ORDER " + " ".join(str(s) for _ in range(rounds * 5) for s in range(1, SESSIONS + 1)))
    return lines


def shared(calls):
    """All sessions ask for the locks of the same eight documents, in an order drawn at random."""
    draw = random.Random(1)
    each = calls // SESSIONS
    lines = []
    for s in range(1, SESSIONS + 1):
        lines.append("SESSION")
        for k in range(each // 5):
            name = draw.randrange(8)
            lines += ["BEGIN", "EXPORT 'd%d'" % name, "CREATE DOCUMENT 'd%d'" % draw.randrange(8), "DROP DOCUMENT 'd%d'" % name, "COMMIT"]
    order = [s for s in range(1, SESSIONS + 1) for _ in range(each // 5 * 5)]
    draw.shuffle(order)
    lines.append("ORDER " + " ".join(map(str, order)))
    return lines


def growing(calls):
    """Each transaction makes a document of a new name, so there are as many documents as commits."""
    each = calls // (SESSIONS * 4)
    lines = []
    for s in range(1, SESSIONS + 1):
        lines.append("SESSION")
        for k in range(each):
            lines += ["BEGIN", "CREATE DOCUMENT 'd%d-%d'" % (s, k), "EXPORT 'd%d-%d'" % (s, k), "COMMIT"]
    lines.append("ORDER " + " ".join(str(s) for _ in range(each * 4) for s in range(1, SESSIONS + 1)))
    return lines


for name, lines_of, calls, factors in (
    ("apart", apart, 100000, (1, 2, 4)),
    ("shared", shared, 100000, (1, 2, 4)),
    ("growing", growing, 5000, (1, 2, 4, 8, 20)),
):
    for factor in factors:
        with open("%s/%s-%d" % (folder, name, factor * calls), "w") as out:
            out.write("\n".join(lines_of(factor * calls)) + "\n")
PY

./xdb . play </dev/null   # builds the program where that is needed

measure() {
    python3 - "$@" <<'PY'
import resource, subprocess, sys, time
source, words = sys.argv[1], sys.argv[2:]
with open(source, "rb") as data:
    begin = time.monotonic()
    done = subprocess.run(words, stdin=data, stdout=subprocess.PIPE)
    took = time.monotonic() - begin
peak = resource.getrusage(resource.RUSAGE_CHILDREN).ru_maxrss / 1024
commits = done.stdout.count(b" committed ")
print("%-16s %6.2f s  %6.0f MiB  %8d lines  %6d commits  status %d" % (source.rsplit("/", 1)[1], took, peak, done.stdout.count(b"\n"), commits, done.returncode))
PY
}

for script in apart-100000 apart-200000 apart-400000 shared-100000 shared-200000 shared-400000 \
    growing-5000 growing-10000 growing-20000 growing-40000 growing-100000; do
    measure "$folder/$script" ./crates/xdb/out/xdb . play
done
