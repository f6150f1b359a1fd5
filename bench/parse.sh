#!/usr/bin/env bash
# Times how long `xdb . play` takes to read one call: a text of 65,536 bytes of `1+1+..`, one of 64 nested brackets, and one long
# path, as the time of 100 sessions with that call less the time of 100 sessions with the call `1`, over 100. Run at the
# top of the repository, on a machine that does nothing else.
set -eu
cd "$(dirname "$0")/.."
folder=$(mktemp -d)
trap 'rm -rf "$folder"' EXIT
./xdb . play </dev/null   # builds the program where that is needed

python3 - "$PWD/crates/xdb/out/xdb" "$folder" <<'PY'
import subprocess
import sys
import time

CALLS = 100
TEXT_BYTES = 65536
program, folder = sys.argv[1], sys.argv[2]


def script(text):
    """As many transactions with this call, each of two calls more."""
    lines = ["SESSION"]
    for _ in range(CALLS):
        lines += ["BEGIN", text, "COMMIT"]
    return ("\n".join(lines) + "\n").encode()


def seconds(given):
    """The least time of five runs, each over a new store."""
    times = []
    for _ in range(5):
        start = time.perf_counter()
        subprocess.run([program, folder, "play"], input=given, stdout=subprocess.DEVNULL, check=True)
        times.append(time.perf_counter() - start)
    return min(times)


short = seconds(script("1"))
for name, text in (
    ("65,536 bytes of 1+1+..", "1+" * (TEXT_BYTES // 2 - 1) + "1 "),
    ("64 nested brackets", "(" * 64 + "1" + ")" * 64),
    ("one long path", "a" + "/a" * (TEXT_BYTES // 2 - 1)),
):
    each = (seconds(script(text)) - short) / CALLS
    print(f"{name:24} {len(text):6} bytes {each * 1000:8.2f} ms")
PY
