#!/usr/bin/env bash
# Counts the sections a second under the history lock, with 1, 2 and 4 threads, beside a `Mutex` of std. Each section adds
# one entry to a journal: the workers are those of the lock's own test. Run at the top of the repository, on a machine that
# does nothing else. The program is proved before it is built, which takes some minutes.
set -eu
cd "$(dirname "$0")/.."
folder=$(mktemp -d)
trap 'rm -rf "$folder"' EXIT
bench="$folder/crates/lock_bench"
mkdir -p "$bench/src" "$bench/proofs"
cp -r crates/hist_lock "$folder/crates/"
cp HANDLES "$folder/"
printf '%s\n' 'hist_lock: atomic_table thiserror' 'lock_bench: hist_lock' > "$folder/crates.txt"

# the workers, in a crate of their own
cp crates/store_tests/src/hist_lock_calls/*.rt "$bench/src/"
cp -r crates/store_tests/proofs/hist_lock_calls/* "$bench/proofs/"
find "$bench" -name '*.rt' -o -name '*.antt' | xargs sed -i \
    -e 's/Rattle\.store_tests\.specs\.declared\.hist_lock_calls/Rattle.lock_bench.specs.declared/g' \
    -e 's/Rattle\.store_tests\.proofs\.hist_lock_calls/Rattle.lock_bench.proofs/g' \
    -e 's/use super::/use crate::/'

cat > "$bench/src/main.rt" <<'PROGRAM'
//! Times sections under the history lock, and under a `Mutex`.
#![tactic(auto)]

mod journal;
mod run;
mod worker;

use journal::{Entry, Journal};
use run::run_all;
use std::alloc::Global;
use std::io;
use std::sync::{Mutex, Wait};
use std::thread;
use std::thread::Threads;
use std::time::Instant;

const SECTIONS: u32 = 4000000;

fn under_history<R: Threads + Wait + Sync>(rt: &R, alloc: Global, threads: usize, each: u32) -> usize {
    if threads >= 64 {
        return 0;
    }
    match run_all(rt, alloc, Journal::new(alloc, 0), threads, each) {
        Ok((journal, _)) => journal.entries().len(),
        Err(_) => 0,
    }
}

fn work<R: Wait>(rt: &R, shared: &Mutex<Journal>, said: &mut Vec<Entry>, each: u32) {
    for what in 0..each {
        let entry = Entry { session: 0, what };
        let added = shared.lock(rt).add(entry);
        if !added || said.push(entry).is_err() {
            return;
        }
    }
}

fn under_mutex<R: Threads + Wait + Sync>(rt: &R, alloc: Global, threads: usize, each: u32) -> usize {
    let shared = Mutex::new(Journal::new(alloc, 0));
    let mut said = Vec::new(alloc);
    for _ in 0..threads {
        if said.push(Vec::new(alloc)).is_err() {
            return 0;
        }
    }
    thread::for_each_mut(rt, said.as_mut_slice(), threads.max(1), &|_, mine: &mut Vec<Entry>| work(rt, &shared, mine, each));
    shared.into_inner().entries().len()
}

fn a_second(made: usize, took: u64) -> u64 {
    (made as u64).saturating_mul(1000000) / took.max(1)
}

fn main(rt: HostRuntime) -> io::Result<()> {
    let alloc = rt.alloc();
    for threads in [1, 2, 4] {
        let each = SECTIONS / (threads as u32).max(1);
        let start = Instant::now(&rt)?;
        let made = under_history(&rt, alloc, threads, each);
        let history = a_second(made, u64::try_from(start.elapsed(&rt)?.as_micros()).unwrap_or(u64::MAX));
        let start = Instant::now(&rt)?;
        let made = under_mutex(&rt, alloc, threads, each);
        let mutex = a_second(made, u64::try_from(start.elapsed(&rt)?.as_micros()).unwrap_or(u64::MAX));
        println!(rt; "threads {threads}: history lock {history} sections a second, Mutex {mutex}")?;
    }
    Ok(())
}
PROGRAM
cd "$bench"
"${RT:-rt}" "${1:-run}"
