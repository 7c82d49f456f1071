//! The plain Rust twin of the benchmark of the voter store: a map of outlines over a pipe of records, a file system in memory
//! and tables of vectors.
#![allow(dead_code)] // of what is shared some is called

#[path = "../common/batch.rs"]
mod batch;
#[path = "../common/frame.rs"]
mod frame;
#[path = "../common/outline.rs"]
mod outline;
#[path = "../common/pipe.rs"]
mod pipe;
#[path = "../common/place.rs"]
mod place;
#[path = "../common/record.rs"]
mod record;
#[path = "../common/store.rs"]
mod store;
#[path = "../common/window.rs"]
mod window;

use outline::{Outline, Request};
use pipe::Files;
use record::{read_block, CompressionType, Error, Result};
use std::collections::{BTreeMap, HashMap};
use std::time::Instant;
use store::{append, commit, matched, refused, Store, Table, Tables};
use window::{check_block, next_batch, open, Window};

const GROUPS: u64 = 1_000;
const APPENDS: u64 = 64_000;
const HEARTBEATS: u64 = 999_936;
const ROUND: usize = 256;
const OPENED_GROUPS: u64 = 10_000;
const OPENED_ENTRIES: u64 = 1_000_000;
const BROUGHT: u64 = 10;
const READ_BLOCK: usize = 16 << 10;

/// The files of a log by number, oldest first: the number, and the bytes.
fn found(files: &Files) -> Vec<(u64, &[u8])> {
    let mut found: Vec<(u64, &[u8])> = Vec::new();
    for (path, file) in &files.paths {
        let name = &path[path.rfind('/').map_or(0, |at| at + 1)..];
        if let (true, Some(stored)) = (name.ends_with(".raftlog"), &files.files[*file]) {
            if let Ok(seq) = name[..16].parse() {
                found.push((seq, &stored.content));
            }
        }
    }
    found.sort_by_key(|(seq, _)| *seq);
    found
}

/// The tables of a log, of which the last file is checked whole.
fn recover(files: &mut Files) -> Result<Tables> {
    let mut tables = Tables::new();
    let mut window = Window { bytes: Vec::new(), start: 0, block: READ_BLOCK };
    let all = found(files);
    let last = all.last().map_or(0, |(seq, _)| *seq);
    for (seq, file) in all {
        let (opened, mut at) = open(&mut window, file, seq)?;
        while let Some((items, block, end)) = next_batch(&mut window, file, &opened, at)? {
            at = end;
            if seq == last {
                check_block(&mut window, file, block)?;
            }
            commit(&mut tables, items, block)?;
        }
    }
    let ids: Vec<usize> = files.paths.values().copied().collect();
    for id in ids {
        files.sync(id).map_err(refused)?;
    }
    Ok(tables)
}

fn number_at(bytes: &[u8], at: usize) -> Result<u64> {
    let front = bytes.get(at..at + 8).ok_or(Error::EntryNotFound)?;
    Ok(u64::from_be_bytes(front.try_into().map_err(refused)?))
}

/// A voter's outline, of its state and the terms of its entries.
fn read_outline(files: &HashMap<u64, &[u8]>, table: &Table) -> Result<Outline> {
    let mut outline = Outline::at_base(number_at(&table.state, 1)?, number_at(&table.state, 18)?, number_at(&table.state, 26)?);
    let mut kept: Option<(u64, u64, &[u8])> = None;
    for place in &table.places {
        let block = match kept {
            Some((file, offset, block)) if (file, offset) == (place.file, place.offset) => block,
            _ => {
                let file = files.get(&place.file).ok_or(Error::EntryNotFound)?;
                let bytes = &file[place.offset as usize..place.offset as usize + place.len];
                read_block(bytes, CompressionType::None)?
            }
        };
        kept = Some((place.file, place.offset, block));
        outline.push(number_at(block, place.entry_offset as usize + 9)?);
    }
    Ok(outline)
}

/// The outlines of all voters of a log.
fn read_outlines(files: &Files, tables: &Tables) -> Result<BTreeMap<u64, Outline>> {
    let files: HashMap<u64, &[u8]> = found(files).into_iter().collect();
    let mut outlines = BTreeMap::new();
    for (group, table) in tables {
        outlines.insert(*group, read_outline(&files, table)?);
    }
    Ok(outlines)
}

/// One-entry Appends of all groups by turns.
fn appends() -> Vec<(u64, Request)> {
    (0..APPENDS).map(|number| (number % GROUPS + 1, append(number / GROUPS, 1, number / GROUPS))).collect()
}

/// Heartbeats of all groups by turns, to logs of so many entries; some of the first ones come again behind the last.
fn heartbeats(last: u64) -> Vec<(u64, Request)> {
    (0..GROUPS + ROUND as u64).map(|number| (number % GROUPS + 1, append(last, 0, last - 1))).collect()
}

fn report(work: &str, count: u64, start: Instant, check: u64) {
    let nanos = start.elapsed().as_nanos().max(1);
    println!("{work} {} {check}", count as u128 * 1_000_000 / nanos);
}

fn serve_all(store: &mut Store, requests: &[(u64, Request)], size: usize) -> Result<u64> {
    let mut check = 0;
    for round in requests.chunks(size) {
        check += matched(&store.serve(round)?);
    }
    Ok(check)
}

fn beat_all(store: &mut Store, requests: &[(u64, Request)]) -> Result<u64> {
    let (mut check, mut at) = (0, 0);
    for _ in 0..HEARTBEATS as usize / ROUND {
        check += matched(&store.serve(&requests[at..at + ROUND])?);
        at = (at + ROUND) % GROUPS as usize;
    }
    Ok(check)
}

/// The files of a store whose voters got all entries.
fn filled() -> Result<Files> {
    let mut store = Store::new()?;
    for number in 0..OPENED_ENTRIES / BROUGHT / 100 {
        let round: Vec<(u64, Request)> = (0..100)
            .map(|place| number * 100 + place)
            .map(|at| (at % OPENED_GROUPS + 1, append(at / OPENED_GROUPS * BROUGHT, BROUGHT, 0)))
            .collect();
        store.serve(&round)?;
    }
    store.close()
}

fn main() -> Result<()> {
    let requests = appends();
    let mut store = Store::new()?;
    for size in [1, 16, 256] {
        store = Store::new()?;
        let start = Instant::now();
        let check = serve_all(&mut store, &requests, size)?;
        report(&format!("append-{size}"), APPENDS, start, check);
    }
    let beats = heartbeats(APPENDS / GROUPS);
    let start = Instant::now();
    let check = beat_all(&mut store, &beats)?;
    report("heartbeat-256", HEARTBEATS, start, check);
    let mut files = filled()?;
    let start = Instant::now();
    let tables = recover(&mut files)?;
    report("open-engine", OPENED_ENTRIES, start, tables.len() as u64);
    drop(tables);
    let start = Instant::now();
    let tables = recover(&mut files)?;
    let recovered = Instant::now();
    let outlines = read_outlines(&files, &tables)?;
    report("open-store", OPENED_ENTRIES, start, outlines.values().map(Outline::last_index).sum());
    report("outlines", OPENED_GROUPS, recovered, outlines.len() as u64);
    Ok(())
}
