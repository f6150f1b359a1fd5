#!/usr/bin/env bash
# Times `Workspace::copy` with 10,000 changed pages, and weighs the copies: a copy has the tables' entries of its own, and
# shares all pages. The pages have changed in three ways: by an edit of a page that was given, by an edit of a page that was
# absent, and by `fresh`. The least time of five runs counts. Run at the top of the repository, on a machine that does
# nothing else. The program is proved before it is built, which takes a minute.
set -eu
cd "$(dirname "$0")/.."
folder=$(mktemp -d)
trap 'rm -rf "$folder"' EXIT
bench="$folder/crates/copy_bench"
mkdir -p "$bench/src"
cp -r crates/page_bytes "$folder/crates/"
printf '%s\n' 'page_bytes: byteorder thiserror' 'copy_bench: page_bytes' > "$folder/crates.txt"

cat > "$bench/src/main.rt" <<'PROGRAM'
//! Changes pages of a workspace in the way that the first word says, makes as many copies of it as the second says, edits
//! each page of as many of them as the third says, and prints the microseconds of the three.
#![tactic(auto)]

use page_bytes::{Draft, Page, PageEnd, PageId, PageSet, Space, Workspace};
use std::alloc::Global;
use std::env;
use std::io;
use std::time::Instant;

const PAGES: u64 = 10000;
const SPACE: Space = Space {
    commit: 1,
    ordinal: 0,
};
const HEAD_KIND: u8 = 2;
const NEXT_PAGE_AT: usize = 2;

fn id(number: u64) -> PageId {
    PageId {
        space: SPACE,
        number,
    }
}

/// The pages that the workspace is given, each in the form of a head.
fn given(alloc: Global, count: u64) -> Result<PageSet, PageEnd> {
    let mut set = PageSet::new(alloc);
    for number in 0..count {
        let mut draft = Draft::zero(alloc)?;
        draft.write_u8(0, HEAD_KIND);
        draft.write_u64(NEXT_PAGE_AT, 1);
        set.put(id(number), Page::of(alloc, draft)?)?;
    }
    Ok(set)
}

/// Writes to each page.
fn edit_all(work: &mut Workspace) -> Result<(), PageEnd> {
    for number in 0..PAGES {
        work.edit(id(number))?.write_u64(16, number);
    }
    Ok(())
}

fn make_all(work: &mut Workspace) -> Result<(), PageEnd> {
    for number in 1..PAGES {
        let page = work.fresh(SPACE)?;
        work.edit(page)?.write_u64(16, number);
    }
    Ok(())
}

/// A workspace with changed pages: pages that were given, pages that were absent, or fresh ones.
fn changed(alloc: Global, way: &str) -> Result<Workspace, PageEnd> {
    if way == "given" {
        let mut work = Workspace::over(alloc, given(alloc, PAGES)?);
        edit_all(&mut work)?;
        return Ok(work);
    }
    if way == "absent" {
        let mut work = Workspace::over(alloc, PageSet::new(alloc));
        work.open_space(SPACE)?;
        edit_all(&mut work)?;
        return Ok(work);
    }
    let mut work = Workspace::over(alloc, given(alloc, 1)?);
    make_all(&mut work)?;
    Ok(work)
}

fn copies(alloc: Global, work: &Workspace, count: u64) -> Result<Vec<Workspace>, PageEnd> {
    let mut kept = Vec::new(alloc);
    for _ in 0..count {
        if kept.push(work.copy()?).is_err() {
            return Err(PageEnd::NoMemory);
        }
    }
    Ok(kept)
}

fn edit_first(copies: &mut Vec<Workspace>, count: usize) -> Result<(), PageEnd> {
    for work in copies.iter_mut().take(count) {
        edit_all(work)?;
    }
    Ok(())
}

fn micros(rt: &HostRuntime, start: Instant) -> io::Result<u64> {
    Ok(u64::try_from(start.elapsed(rt)?.as_micros()).unwrap_or(u64::MAX))
}

fn measure(rt: &HostRuntime, way: &str, count: u64, edited: usize) -> io::Result<()> {
    let start = Instant::now(rt)?;
    let Ok(work) = changed(rt.alloc(), way) else {
        return Ok(());
    };
    let changing = micros(rt, start)?;
    let start = Instant::now(rt)?;
    let Ok(mut kept) = copies(rt.alloc(), &work, count) else {
        return Ok(());
    };
    let copying = micros(rt, start)?;
    let start = Instant::now(rt)?;
    if edit_first(&mut kept, edited).is_ok() {
        println!(rt; "{changing} {copying} {}", micros(rt, start)?)?;
    }
    Ok(())
}

fn main(rt: HostRuntime) -> io::Result<()> {
    let mut way = String::new(rt.alloc());
    let mut count = 0;
    let mut edited = 0;
    for (at, word) in env::args(&rt)?.enumerate() {
        if at == 1 {
            way = word;
        } else if at == 2 {
            count = word.as_str().parse::<u64>().unwrap_or(0);
        } else if at == 3 {
            edited = word.as_str().parse::<usize>().unwrap_or(0);
        }
    }
    measure(&rt, way.as_str(), count, edited)
}
PROGRAM
(cd "$bench" && "${RT:-rt}" run -- given 0 0 >"$folder/log" 2>&1) || { cat "$folder/log"; exit 1; }

python3 - "$bench/out/copy_bench" <<'PY'
import os
import subprocess
import sys

COPIES = 10
RUNS = 5


def run(way, copies, edited):
    """The least times of the runs in milliseconds, and the least peak of memory, in MiB."""
    done = [one_run([sys.argv[1], way, str(copies), str(edited)]) for _ in range(RUNS)]
    return [min(times) for times in zip(*(times for times, _ in done))], min(peak for _, peak in done)


def one_run(words):
    child = subprocess.Popen(words, stdout=subprocess.PIPE)
    times = [int(word) / 1000 for word in child.stdout.read().split()]
    _, status, used = os.wait4(child.pid, 0)
    if status != 0 or len(times) != 3:
        sys.exit("the program failed")
    return times, used.ru_maxrss / 1024


for way in ("given", "absent", "fresh"):
    (changing, _, _), alone = run(way, 0, 0)
    (_, copying, _), copied = run(way, COPIES, 0)
    (_, _, editing), edited = run(way, COPIES, 1)
    print("%-7s changes %6.1f ms %6.1f MiB | a copy %7.3f ms %6.2f MiB | its first edits %6.1f ms %6.1f MiB"
          % (way, changing, alone, copying / COPIES, (copied - alone) / COPIES, editing, edited - copied))
PY
