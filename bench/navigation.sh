#!/usr/bin/env bash
# Makes documents of 250,000 elements, times `TreeNav::of` and a walk over all their nodes by `first`, `next` and `parent`,
# and weighs the rows. The documents: elements alone, side by side; elements that nest in one another; and elements with
# an attribute and a text each. The least time of five runs counts. Run at the top of the repository, on a machine that
# does nothing else. The program is proved before it is built, which takes some minutes where nothing has been proved yet.
set -eu
cd "$(dirname "$0")/.."
folder=$(mktemp -d)
trap 'rm -rf "$folder"' EXIT
bench="$folder/crates/nav_bench"
mkdir -p "$bench/src"
cp -r crates/xml_model crates/xq_ast crates/doc_locks "$folder/crates/"
grep -E '^(xml_model|xq_ast|doc_locks):' crates.txt > "$folder/crates.txt"
echo 'nav_bench: xml_model xq_ast' >> "$folder/crates.txt"

cat > "$bench/src/main.rt" <<'PROGRAM'
//! Makes a document of the kind that the first word says. With a second word it makes its rows, walks over them, and
//! prints the microseconds of both and how many nodes there were; without one it only makes the document.
#![tactic(auto)]

use std::alloc::Global;
use std::env;
use std::io;
use std::time::Instant;
use xml_model::{Attr, AttrList, Doc, DocMap, Id, Nav, NoFault, Node, NodeList, TreeNav};
use xq_ast::{Items, NoMemory, Sequence, Str, is_document_name};

const ELEMENTS: u32 = 250_000;
const NESTED: u32 = 500;
const TURNS: u64 = 100_000_000;

fn attributes(alloc: Global, how: &str) -> Result<AttrList, NoMemory> {
    let mut attrs = Sequence::new(alloc);
    if how == "mixed" {
        attrs.push(Attr {
            name: Str::of(alloc, "id")?,
            value: Str::of(alloc, "4711")?,
        })?;
    }
    Ok(attrs)
}

fn texts(alloc: Global, how: &str) -> Result<NodeList, NoMemory> {
    let mut kids = Items::new(alloc);
    if how == "mixed" {
        kids.push(Node::Text {
            value: Str::of(alloc, "a text")?,
        })?;
    }
    Ok(kids)
}

fn element(alloc: Global, how: &str, kids: NodeList) -> Result<Node, NoMemory> {
    Ok(Node::Element {
        name: Str::of(alloc, "item")?,
        attrs: attributes(alloc, how)?,
        kids,
    })
}

/// Elements that nest in one another.
fn tower(alloc: Global, how: &str, height: u32) -> Result<Node, NoMemory> {
    let mut node = element(alloc, how, texts(alloc, how)?)?;
    for _ in 1..height {
        let mut kids = Items::new(alloc);
        kids.push(node)?;
        node = element(alloc, how, kids)?;
    }
    Ok(node)
}

fn document(alloc: Global, how: &str) -> Result<Doc, NoMemory> {
    let height = if how == "nested" { NESTED } else { 1 };
    let mut kids = Items::new(alloc);
    for _ in 0..ELEMENTS / height {
        kids.push(tower(alloc, how, height)?)?;
    }
    Ok(Doc { kids })
}

/// The next node that is not in this one, in document order.
fn past(nav: &TreeNav, n: Id) -> Result<Option<Id>, NoFault> {
    let mut at = n;
    for _ in 0..TURNS {
        if let Some(next) = nav.next(at)? {
            return Ok(Some(next));
        }
        match nav.parent(at)? {
            Some(parent) => at = parent,
            None => return Ok(None),
        }
    }
    Ok(None)
}

fn walk(nav: &TreeNav, root: Id) -> Result<u64, NoFault> {
    let mut at = root;
    for count in 1..TURNS {
        let onward = match nav.first(at)? {
            Some(first) => Some(first),
            None => past(nav, at)?,
        };
        match onward {
            Some(node) => at = node,
            None => return Ok(count),
        }
    }
    Ok(0)
}

fn micros(rt: &HostRuntime, start: Instant) -> io::Result<u64> {
    Ok(u64::try_from(start.elapsed(rt)?.as_micros()).unwrap_or(u64::MAX))
}

fn measure(rt: &HostRuntime, docs: &DocMap, name: &Str) -> io::Result<()> {
    let start = Instant::now(rt)?;
    let Ok(nav) = TreeNav::of(docs) else {
        return Ok(());
    };
    let making = micros(rt, start)?;
    let start = Instant::now(rt)?;
    let Ok(Some(root)) = nav.root(name) else {
        return Ok(());
    };
    let Ok(count) = walk(&nav, root) else {
        return Ok(());
    };
    println!(rt; "{making} {} {count}", micros(rt, start)?)?;
    Ok(())
}

fn kept(alloc: Global, how: &str) -> Result<DocMap, NoMemory> {
    let mut docs = DocMap::new(alloc);
    let doc = document(alloc, how)?;
    let name = Str::of(alloc, "d")?;
    if is_document_name(name.as_str()) && doc.is_valid() {
        docs.insert(name, doc)?;
    }
    Ok(docs)
}

fn main(rt: HostRuntime) -> io::Result<()> {
    let alloc = rt.alloc();
    let mut how = String::new(alloc);
    let mut measured = false;
    for (at, word) in env::args(&rt)?.enumerate() {
        if at == 1 {
            how = word;
        } else if at == 2 {
            measured = true;
        }
    }
    let Ok(docs) = kept(alloc, how.as_str()) else {
        return Ok(());
    };
    let Ok(name) = Str::of(alloc, "d") else {
        return Ok(());
    };
    if measured {
        measure(&rt, &docs, &name)?;
    }
    Ok(())
}
PROGRAM
(cd "$bench" && "${RT:-rt}" "${HOW:-run}" -- flat >"$folder/log" 2>&1) || { cat "$folder/log"; exit 1; }

python3 - "$bench/out/nav_bench" <<'PY'
import os
import subprocess
import sys

RUNS = 5


def run(words):
    """The least of each number that the program prints, and the least peak of memory in bytes."""
    done = [one_run([sys.argv[1]] + words) for _ in range(RUNS)]
    return [min(numbers) for numbers in zip(*(numbers for numbers, _ in done))], min(peak for _, peak in done)


def one_run(words):
    child = subprocess.Popen(words, stdout=subprocess.PIPE)
    numbers = [int(word) for word in child.stdout.read().split()]
    _, status, used = os.wait4(child.pid, 0)
    if status != 0:
        sys.exit("the program failed")
    return numbers, used.ru_maxrss * 1024


for how in ("flat", "nested", "mixed"):
    _, alone = run([how])
    (making, walking, nodes), peak = run([how, "measured"])
    print("%-6s %7d nodes | TreeNav::of %6.1f ms | a walk %6.1f ms | %5.1f bytes a node"
          % (how, nodes, making / 1000, walking / 1000, (peak - alone) / nodes))
PY
