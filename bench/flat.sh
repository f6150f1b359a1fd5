#!/usr/bin/env bash
# Times `put_flat` and `get_flat` over a document whose text has 64 MiB, and weighs what they hold. Each stands beside what it rests
# on: `put_flat` beside `write_doc` into a vector and the same number of pages without a text, `get_flat` beside the reader alone,
# over the same lines and in the same heap. The least of five runs counts. Run at the top of the repository, on a machine that does
# nothing else. The program is proved before it is built.
set -eu
cd "$(dirname "$0")/.."
folder=$(mktemp -d)
trap 'rm -rf "$folder"' EXIT
bench="$folder/crates/flat_bench"
mkdir -p "$bench/src"
below="byte_edge xq_ast doc_locks xml_model pyx_text page_bytes flat_doc"
for crate in $below; do
    cp -r "crates/$crate" "$folder/crates/"
    grep "^$crate:" crates.txt >> "$folder/crates.txt"
done
echo 'flat_bench: byte_edge xq_ast xml_model pyx_text page_bytes flat_doc' >> "$folder/crates.txt"

cat > "$bench/src/main.rt" <<'PROGRAM'
//! Reads a document of 64 MiB from its lines. Then, as the first word says, no more (`read`); or writes it into a vector (`write`);
//! or makes as many pages as it takes (`pages`); or puts it on pages (`put`), and then gets another from there (`get`) or reads
//! another from its lines (`again`), while the first stays. Prints the microseconds of what the word names.
#![tactic(auto)]

use byte_edge::MemSink;
use flat_doc::{get_flat, put_flat};
use page_bytes::{PageEnd, PageId, PageSet, Space, Workspace};
use pyx_text::{PyxReader, write_doc};
use std::alloc::Global;
use std::time::Instant;
use std::{env, io};
use xml_model::Doc;
use xq_ast::Str;

const SPACE: Space = Space {
    commit: 1,
    ordinal: 0,
};

/// How often the four lines stand in the document. They have 83 bytes with their newlines.
const COUNT: u64 = 808540;

/// How many pages the document takes.
const PAGES: u64 = 16388;

fn filled(reader: &mut PyxReader, lines: &[Str]) -> Result<(), PageEnd> {
    for line in lines {
        if reader.line(line).is_err() {
            return Err(PageEnd::NoMemory);
        }
    }
    Ok(())
}

fn four_lines(alloc: Global) -> Result<Vec<Str>, PageEnd> {
    let mut lines = Vec::new(alloc);
    for text in [
        "(item",
        "Asku A1",
        "-a line of text with a tab\\t and a newline\\n, and more words..",
        ")item",
    ] {
        let Ok(line) = Str::of(alloc, text) else {
            return Err(PageEnd::NoMemory);
        };
        if lines.push(line).is_err() {
            return Err(PageEnd::NoMemory);
        }
    }
    Ok(lines)
}

fn document(alloc: Global, lines: &[Str]) -> Result<Doc, PageEnd> {
    let mut reader = PyxReader::new(alloc);
    for _ in 0..COUNT {
        filled(&mut reader, lines)?;
    }
    match reader.end() {
        Ok(doc) => Ok(doc),
        Err(_) => Err(PageEnd::NoMemory),
    }
}

fn micros(rt: &HostRuntime, start: Instant) -> io::Result<u64> {
    Ok(u64::try_from(start.elapsed(rt)?.as_micros()).unwrap_or(u64::MAX))
}

fn written(rt: &HostRuntime, doc: &Doc) -> io::Result<u64> {
    let start = Instant::now(rt)?;
    let mut sink = MemSink::of(rt.alloc(), Vec::new(rt.alloc()));
    if write_doc(doc, &mut sink).is_err() {
        return Ok(0);
    }
    micros(rt, start)
}

fn paged(rt: &HostRuntime, work: &mut Workspace) -> io::Result<u64> {
    let start = Instant::now(rt)?;
    if work.open_space(SPACE).is_err() {
        return Ok(0);
    }
    for number in 0..PAGES {
        let id = PageId {
            space: SPACE,
            number,
        };
        if work.edit(id).is_err() {
            return Ok(0);
        }
    }
    micros(rt, start)
}

fn again(rt: &HostRuntime, lines: &[Str]) -> io::Result<u64> {
    let start = Instant::now(rt)?;
    if document(rt.alloc(), lines).is_err() {
        return Ok(0);
    }
    micros(rt, start)
}

fn put(rt: &HostRuntime, doc: &Doc, work: &mut Workspace) -> io::Result<u64> {
    let start = Instant::now(rt)?;
    if put_flat(rt.alloc(), doc, SPACE, work).is_err() {
        return Ok(0);
    }
    micros(rt, start)
}

fn got(rt: &HostRuntime, work: &Workspace) -> io::Result<u64> {
    let start = Instant::now(rt)?;
    if get_flat(rt.alloc(), work, SPACE).is_err() {
        return Ok(0);
    }
    micros(rt, start)
}

fn measure(rt: &HostRuntime, way: &str) -> io::Result<()> {
    let Ok(lines) = four_lines(rt.alloc()) else {
        return Ok(());
    };
    let start = Instant::now(rt)?;
    let Ok(doc) = document(rt.alloc(), lines.as_slice()) else {
        return Ok(());
    };
    let reading = micros(rt, start)?;
    if way == "read" {
        return println!(rt; "{reading}");
    }
    if way == "write" {
        return println!(rt; "{}", written(rt, &doc)?);
    }
    let mut work = Workspace::over(rt.alloc(), PageSet::new(rt.alloc()));
    if way == "pages" {
        return println!(rt; "{}", paged(rt, &mut work)?);
    }
    let putting = put(rt, &doc, &mut work)?;
    if way == "put" {
        return println!(rt; "{putting}");
    }
    if way == "again" {
        return println!(rt; "{}", again(rt, lines.as_slice())?);
    }
    println!(rt; "{}", got(rt, &work)?)
}

fn main(rt: HostRuntime) -> io::Result<()> {
    let mut way = String::new(rt.alloc());
    for (at, word) in env::args(&rt)?.enumerate() {
        if at == 1 {
            way = word;
        }
    }
    measure(&rt, way.as_str())
}
PROGRAM
(cd "$bench" && "${RT:-rt}" run -- read >"$folder/log" 2>&1) || { cat "$folder/log"; exit 1; }

python3 - "$bench/out/flat_bench" <<'PY'
import os
import subprocess
import sys

RUNS = int(os.environ.get("RUNS", "5"))


def run(way):
    """The least time of the runs in milliseconds, and the least peak of memory, in MiB."""
    done = [one_run([sys.argv[1], way]) for _ in range(RUNS)]
    return min(time for time, _ in done), min(peak for _, peak in done)


def one_run(words):
    child = subprocess.Popen(words, stdout=subprocess.PIPE)
    time = int(child.stdout.read()) / 1000
    _, status, used = os.wait4(child.pid, 0)
    if status != 0 or time == 0:
        sys.exit("the program failed")
    return time, used.ru_maxrss / 1024


# each way, with the one that it is compared with
done = {}
for way, other in (("read", "read"), ("write", "read"), ("pages", "read"), ("put", "pages"), ("again", "again"), ("get", "again")):
    time, peak = done[way] = run(way)
    print("%-5s %8.1f ms, peak %7.1f MiB, which is that of %-5s and %6.1f MiB" % (way, time, peak, other, peak - done[other][1]))
PY
