#!/usr/bin/env bash
# Times `xdb . pyx` over documents of 64 MiB less one byte, with its peak memory, beside `cat` and, where it is
# installed, `xmlstarlet pyx` over the same tree as XML; and over one element of four million attributes, with its names
# in order and shuffled. Run at the top of the repository.
set -eu
cd "$(dirname "$0")/.."
folder=$(mktemp -d)
trap 'rm -rf "$folder"' EXIT

python3 - "$folder" <<'PY'
import random
import sys
from xml.sax.saxutils import escape, quoteattr

SIZE = 64 * 1024 * 1024 - 1
ATTRIBUTES = 4_000_000
folder = sys.argv[1]


def nested(pyx, xml):
    """Elements alone: shelves of books."""
    line = "(shelf\n" + "(book-of-the-house\n(title\n)title\n)book-of-the-house\n" * 20 + ")shelf\n"
    tree = "<shelf>" + "<book-of-the-house><title></title></book-of-the-house>" * 20 + "</shelf>"
    fill(pyx, xml, line, tree)


def mixed(pyx, xml):
    """Attributes, texts and instructions beside elements."""
    line, tree = "(order\nAid 4711\n?print draft\n", "<order id=\"4711\"><?print draft?>"
    for k in range(10):
        text = "a line of text with a tab\\t and a newline\\n, number %d" % k
        line += "(item\nAsku A%d\n(qty\n-%s\n)qty\n)item\n" % (k, text)
        tree += "<item sku=\"A%d\"><qty>%s</qty></item>" % (k, escape(text.replace("\\t", "\t").replace("\\n", "\n")))
    fill(pyx, xml, line + ")order\n", tree + "</order>")


def fill(pyx, xml, line, tree):
    """Repeats the lines, and fills what is left with one text."""
    head, tail = "(root\n", ")root\n"
    count = (SIZE - len(head) - len(tail) - 2) // len(line)
    text = "x" * (SIZE - len(head) - len(tail) - 2 - count * len(line))
    with open(pyx, "w") as out:
        out.write(head + line * count + "-" + text + "\n" + tail)
    with open(xml, "w") as out:
        out.write("<root>" + tree * count + text + "</root>")


def attributes(pyx, numbers):
    """One element with an attribute of each of these numbers."""
    with open(pyx, "w") as out:
        out.write("(a\n" + "".join("Ax%d v\n" % number for number in numbers) + ")a\n")


nested(folder + "/nested.pyx", folder + "/nested.xml")
mixed(folder + "/mixed.pyx", folder + "/mixed.xml")
numbers = list(range(ATTRIBUTES))
attributes(folder + "/in_order.pyx", numbers)
random.Random(1).shuffle(numbers)
attributes(folder + "/shuffled.pyx", numbers)
PY

./xdb . pyx </dev/null   # builds the program where that is needed

measure() {
    python3 - "$@" <<'PY'
import resource, subprocess, sys, time
source, words = sys.argv[1], sys.argv[2:]
with open(source, "rb") as data:
    begin = time.monotonic()
    done = subprocess.run(words, stdin=data, stdout=subprocess.DEVNULL)
    took = time.monotonic() - begin
peak = resource.getrusage(resource.RUSAGE_CHILDREN).ru_maxrss / 1024
print("%-40s %6.2f s  %7.0f MiB  status %d" % (" ".join(words)[-40:], took, peak, done.returncode))
PY
}

for name in nested mixed in_order shuffled; do
    bytes=$(wc -c <"$folder/$name.pyx")
    echo "$name: $bytes bytes"
    measure "$folder/$name.pyx" cat
    measure "$folder/$name.pyx" ./crates/xdb/out/xdb . pyx
    if [ -f "$folder/$name.xml" ] && command -v xmlstarlet >/dev/null 2>&1; then
        measure "$folder/$name.xml" xmlstarlet pyx
    fi
done
