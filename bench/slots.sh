#!/usr/bin/env bash
# Counts the device calls and the bytes of a checkpoint of 1,000 changed pages over a table of 100,000 pages. The device counts and
# keeps nothing, and says of each first byte that it is 1, so the old gate is closed too. The program is run and not proved: what it
# counts does not hang on time. Run at the top of the repository.
set -eu
cd "$(dirname "$0")/.."
folder=$(mktemp -d)
trap 'rm -rf "$folder"' EXIT
bench="$folder/crates/slots_bench"
mkdir -p "$bench/src"
for crate in page_device page_bytes xq_ast redo_log page_versions slot_store; do
    mkdir -p "$folder/crates/$crate"
    for part in src specs proofs; do
        [ -d "crates/$crate/$part" ] && cp -r "crates/$crate/$part" "$folder/crates/$crate/"
    done
    grep "^$crate:" crates.txt >> "$folder/crates.txt"
done
echo 'slots_bench: page_device page_bytes xq_ast redo_log page_versions slot_store' >> "$folder/crates.txt"

cat > "$bench/src/main.rt" <<'PROGRAM'
//! Makes a checkpoint of 1,000 changed pages over a table of 100,000, on a device that counts.
#![tactic(auto)]

mod counting;

use counting::Counting;
use page_bytes::{ChangeList, DocEntry, Draft, NoMemory, Page, PageChange, PageId, Space};
use page_versions::{Image, SpaceList, Versions};
use redo_log::{LogName, LogNameList};
use slot_store::{Log, PageTable, Row, SlotState, checkpoint, plan};
use std::alloc::Global;
use std::io;
use xq_ast::Str;

const PAGES: u64 = 100_000;

const CHANGED: u64 = 1_000;

fn id(number: u64) -> PageId {
    let space = Space {
        commit: 1,
        ordinal: 0,
    };
    PageId { space, number }
}

// A commit of every hundredth page.
fn changes(alloc: Global) -> Result<ChangeList, NoMemory> {
    let mut changes = Vec::new(alloc);
    for number in 0..CHANGED {
        let change = PageChange {
            id: id(number * 100),
            page: Some(Page::of(alloc, Draft::zero(alloc)?)?),
        };
        if changes.push(change).is_err() {
            return Err(NoMemory);
        }
    }
    Ok(ChangeList::of(changes))
}

fn versions(alloc: Global) -> Result<Versions, NoMemory> {
    let mut versions = Versions::new(alloc);
    for number in 0..PAGES {
        versions.start(id(number), 1, Image::Slot(number))?;
    }
    versions.stage(2, &changes(alloc)?, &SpaceList::of(Vec::new(alloc)))?;
    versions.publish();
    Ok(versions)
}

fn state(alloc: Global) -> Result<SlotState, NoMemory> {
    let mut table = PageTable::new(alloc);
    for number in 0..PAGES {
        table.push(Row {
            id: id(number),
            slot: number,
        })?;
    }
    Ok(SlotState {
        log: Log::A,
        generation: 1,
        table,
        doubt: None,
    })
}

fn names(alloc: Global) -> Result<LogNameList, NoMemory> {
    let Ok(name) = Str::of(alloc, "a") else {
        return Err(NoMemory);
    };
    let entry = DocEntry {
        space: id(0).space,
        clustered: false,
    };
    let mut names = Vec::new(alloc);
    if names.push(LogName { name, entry: Some(entry) }).is_err() {
        return Err(NoMemory);
    }
    Ok(LogNameList::of(names))
}

fn count(alloc: Global) -> Result<Counting, NoMemory> {
    let mut state = state(alloc)?;
    let versions = versions(alloc)?;
    let names = names(alloc)?;
    let Ok(mut plan) = plan(alloc, &state, &versions, 2, &names) else {
        return Err(NoMemory);
    };
    let mut device = Counting::new();
    let _ = checkpoint(&mut device, &mut state, &mut plan);
    Ok(device)
}

fn main(rt: HostRuntime) -> io::Result<()> {
    let Ok(counted) = count(rt.alloc()) else {
        println!(rt; "no memory")?;
        return Ok(());
    };
    println!(rt; "writes {} of {} bytes, syncs {}, reads {}", counted.writes, counted.bytes, counted.syncs, counted.reads)?;
    Ok(())
}
PROGRAM

cat > "$bench/src/counting.rt" <<'PROGRAM'
// A device that counts its calls. It tells nothing, and each first byte that is read is 1.
use page_device::{Device, Failed, Which};

#[derive(Drop)]
pub struct Counting {
    pub reads: u64,
    pub writes: u64,
    pub syncs: u64,
    pub bytes: u64,
}

impl Counting {
    pub fn new() -> Counting {
        Counting {
            reads: 0,
            writes: 0,
            syncs: 0,
            bytes: 0,
        }
    }
}

impl Device for Counting {
    ghost use Rattle.std.specs.Prelude.{None};

    ghost contents = { λ _. None };

    ghost may_leave = { λ _ _. ⊥ };

    ghost moment = { λ _. 0 };

    ghost left_since = { λ _ _ _. ⊥ };

    ghost failures = { λ _. 0 };

    ghost told_now = { λ _ c is. Prim.cc is };

    ghost counts_now = { λ _ t c le now. absurd now };

    ghost only_now = { λ _ c left. absurd left };

    ghost later_less = { λ _ t u c le left. left };

    ghost bounded = { λ _ t c left. absurd left };

    fn read(&mut self, _file: Which, _at: u64, into: &mut [u8]) -> Result<usize, Failed> {
        self.reads += 1;
        if into.is_empty() {
            return Ok(0);
        }
        into[0] = 1;
        Ok(1)
    }

    fn write_at(&mut self, _file: Which, _at: u64, bytes: &[u8]) -> Result<(), Failed> {
        self.writes += 1;
        self.bytes += bytes.len() as u64;
        Ok(())
    }

    fn sync(&mut self, _file: Which) -> Result<(), Failed> {
        self.syncs += 1;
        Ok(())
    }

    fn len(&mut self, _file: Which) -> Result<u64, Failed> {
        Ok(0)
    }

    fn faults(&self) -> u64 {
        0
    }
}
PROGRAM

cd "$bench"
rt try
