//! The plain Rust twin of the benchmark of tables: the same types, and room made before anything shows.
#![allow(dead_code)]
#[path = "../common/place.rs"]
mod place;

use place::Place;
use std::collections::{BTreeMap, TryReserveError, VecDeque};
use std::time::Instant;

const GROUPS: usize = 1_000;
const BATCHES: u64 = 100_000;
const IN_BATCH: usize = 10;
const ENTRIES: u64 = 1_000;

#[derive(Clone, Copy, PartialEq, Eq)]
enum LogQueue {
    Append,
    Rewrite,
}

#[derive(Clone, Copy)]
struct FileId {
    queue: LogQueue,
    seq: u64,
}

#[derive(Clone, Copy)]
struct FileBlockHandle {
    id: FileId,
    offset: u64,
    len: usize,
}

#[derive(Clone, Copy)]
enum CompressionType {
    None = 0,
    Lz4 = 1,
}

#[derive(Clone, Copy)]
struct EntryIndex {
    index: u64,
    entries: Option<FileBlockHandle>,
    compression_type: CompressionType,
    entry_offset: u32,
    entry_len: u32,
}

enum Error {
    Hole,
    Memory,
    EntryNotFound,
    EntryCompacted,
}

impl From<TryReserveError> for Error {
    fn from(_: TryReserveError) -> Error {
        Error::Memory
    }
}

struct HeldValue {
    bytes: Vec<u8>,
    appended: bool,
    file: u64,
}

struct KeySlot {
    held: Option<HeldValue>,
    deleted: bool,
}

#[derive(Clone, Copy)]
struct Ends {
    first: u64,
    end: u64,
}

impl Ends {
    fn after_run(self, entries: &[EntryIndex]) -> Option<Ends> {
        let Some(front) = entries.first() else {
            return Some(self);
        };
        let stands = self.first < self.end;
        if stands && self.end < front.index {
            return None;
        }
        let first = if stands { self.first.min(front.index) } else { front.index };
        Some(Ends { first, end: front.index + entries.len() as u64 })
    }
}

/// The first and the last file of atomic groups that still hold something.
#[derive(Clone, Copy)]
struct GroupFiles {
    from: u64,
    to: u64,
}

struct MemTable {
    first: u64,
    places: VecDeque<Place>,
    wanted: usize,
    moves: usize,
    rewritten: usize,
    ahead: Ends,
    keys: BTreeMap<Vec<u8>, KeySlot>,
    cleaned: bool,
    compacted: bool,
    noted: Option<GroupFiles>,
    /// The greatest index of a Compact that was read, and the least start of a run.
    low: u64,
    high: Option<u64>,
}

fn place_of(entry: &EntryIndex) -> Place {
    let (file, offset, len) = match entry.entries {
        Some(block) => (block.id.seq, block.offset, block.len),
        None => (0, 0, 0),
    };
    Place { file, offset, len, entry_offset: entry.entry_offset, entry_len: entry.entry_len }
}

fn entry_of(queue: LogQueue, index: u64, place: Place) -> EntryIndex {
    EntryIndex {
        index,
        entries: Some(FileBlockHandle {
            id: FileId { queue, seq: place.file },
            offset: place.offset,
            len: place.len,
        }),
        compression_type: CompressionType::None,
        entry_offset: place.entry_offset,
        entry_len: place.entry_len,
    }
}

impl MemTable {
    fn new() -> MemTable {
        MemTable {
            first: 0,
            places: VecDeque::new(),
            wanted: 0,
            moves: 0,
            rewritten: 0,
            ahead: Ends { first: 0, end: 0 },
            keys: BTreeMap::new(),
            cleaned: false,
            compacted: false,
            noted: None,
            low: 0,
            high: None,
        }
    }

    fn last_index(&self) -> Option<u64> {
        if self.places.is_empty() {
            return None;
        }
        Some(self.first + (self.places.len() as u64 - 1))
    }

    fn take_back(&mut self) {
        self.wanted = 0;
        self.moves = 0;
        self.ahead = Ends { first: self.first, end: self.first + self.places.len() as u64 };
    }

    fn prepare_append(&mut self, entries: &[EntryIndex]) -> Result<(), Error> {
        let Some(ahead) = self.ahead.after_run(entries) else {
            return Err(Error::Hole);
        };
        let wanted = self.wanted + entries.len();
        self.places.try_reserve(wanted)?;
        self.wanted = wanted;
        self.ahead = ahead;
        Ok(())
    }

    fn append(&mut self, entries: &[EntryIndex]) {
        let Some(front) = entries.first() else {
            return;
        };
        let keep = front.index.saturating_sub(self.first) as usize;
        if self.first >= front.index || self.places.is_empty() {
            self.first = front.index;
        }
        self.rewritten = self.rewritten.min(keep);
        self.places.truncate(keep);
        for entry in entries {
            self.places.push_back(place_of(entry));
            self.wanted -= 1;
        }
    }

    #[inline(never)]
    fn replay_append(&mut self, entries: &[EntryIndex]) -> Result<(), Error> {
        self.take_back();
        self.prepare_append(entries)?;
        self.append(entries);
        if let Some(front) = entries.first() {
            self.high = Some(self.high.map_or(front.index, |high| high.min(front.index)));
        }
        Ok(())
    }

    fn entry_there(&self, position: usize) -> EntryIndex {
        let queue = if position < self.rewritten { LogQueue::Rewrite } else { LogQueue::Append };
        entry_of(queue, self.first + position as u64, self.places[position])
    }

    #[inline(never)]
    fn fetch_entries_to(
        &self,
        begin: u64,
        end: u64,
        max_size: Option<u64>,
        entries: &mut Vec<EntryIndex>,
    ) -> Result<usize, Error> {
        if begin >= end {
            return Ok(0);
        }
        if self.places.is_empty() {
            return Err(Error::EntryNotFound);
        }
        if begin < self.first {
            return Err(Error::EntryCompacted);
        }
        if end > self.first + self.places.len() as u64 {
            return Err(Error::EntryNotFound);
        }
        let position = (begin - self.first) as usize;
        let mut count = (end - begin) as usize;
        if let Some(max) = max_size {
            let mut sum = 0;
            for i in 0..count {
                sum += self.places[position + i].entry_len as u64;
                if i > 0 && sum > max {
                    count = i;
                    break;
                }
            }
        }
        entries.try_reserve(count)?;
        for i in 0..count {
            entries.push(self.entry_there(position + i));
        }
        Ok(count)
    }

    #[inline(never)]
    fn prepare_key(&mut self, key: &[u8]) {
        if self.keys.contains_key(key) {
            return;
        }
        self.keys.insert(key.to_vec(), KeySlot { held: None, deleted: false });
    }

    #[inline(never)]
    fn put(&mut self, key: &[u8], bytes: Vec<u8>, file: u64) {
        if let Some(slot) = self.keys.get_mut(key) {
            slot.held = Some(HeldValue { bytes, appended: true, file });
        }
    }

    fn get(&self, key: &[u8]) -> Option<&HeldValue> {
        self.keys.get(key)?.held.as_ref()
    }
}

fn entry(index: u32, batch: u64) -> EntryIndex {
    EntryIndex {
        index: index as u64,
        entries: Some(FileBlockHandle {
            id: FileId { queue: LogQueue::Append, seq: batch >> 10 },
            offset: batch << 8,
            len: 160,
        }),
        compression_type: CompressionType::None,
        entry_offset: 16,
        entry_len: 16,
    }
}

fn groups(tables: &mut [MemTable], batch: u64) -> &mut [MemTable] {
    let from = (batch as usize % (GROUPS / IN_BATCH)) * IN_BATCH;
    &mut tables[from..from + IN_BATCH]
}

fn appends(tables: &mut [MemTable]) -> Result<u64, Error> {
    for batch in 0..BATCHES {
        let index = (batch / (GROUPS / IN_BATCH) as u64) as u32;
        for table in groups(tables, batch) {
            table.replay_append(&[entry(index, batch)])?;
        }
    }
    Ok(tables.iter().map(|table| table.last_index().unwrap_or(0)).sum())
}

fn fetches(tables: &[MemTable]) -> Result<u64, Error> {
    let mut entries = Vec::new();
    let mut check: u64 = 0;
    for table in tables {
        entries.clear();
        table.fetch_entries_to(0, 1_000, None, &mut entries)?;
        for entry in &entries {
            check = check.wrapping_add(entry.index);
        }
    }
    Ok(check)
}

fn puts(tables: &mut [MemTable]) -> u64 {
    for batch in 0..BATCHES {
        let value = batch.to_le_bytes();
        for table in groups(tables, batch) {
            let value = value.to_vec();
            table.prepare_key(b"state");
            table.put(b"state", value, batch);
        }
    }
    tables.iter().map(|table| table.get(b"state").map_or(0, |value| value.file)).sum()
}

fn report(work: &str, start: Instant, check: u64) {
    let nanos = start.elapsed().as_nanos().max(1);
    println!("{work} {} {check}", 1_000_000u128 * 1_000_000 / nanos);
}

/// So many entries from this index on, one behind another, of 16 bytes each or of 10 to 22.
fn run_of(first: u64, count: u64, uneven: bool) -> Vec<EntryIndex> {
    let mut entry_offset = 0;
    let mut entries = Vec::new();
    for i in 0..count {
        let entry_len = if uneven { (i % 13) as u32 + 10 } else { 16 };
        entries.push(EntryIndex { index: first + i, entries: None, compression_type: CompressionType::None, entry_offset, entry_len });
        entry_offset += entry_len;
    }
    entries
}

/// What a group gets: batches of so many entries, up to a thousand in all.
fn runs_of(size: u64, uneven: bool) -> Vec<Vec<EntryIndex>> {
    (0..ENTRIES / size).map(|number| run_of(number * size, size, uneven)).collect()
}

/// Each group gets the first batch, then each the next one, and so on, each batch in a block of its own.
fn appends_of(tables: &mut [MemTable], runs: &mut [Vec<EntryIndex>]) -> Result<u64, Error> {
    let mut number: u64 = 0;
    for run in runs {
        for table in tables.iter_mut() {
            let id = FileId { queue: LogQueue::Append, seq: number >> 10 };
            for entry in run.iter_mut() {
                entry.entries = Some(FileBlockHandle { id, offset: number << 8, len: 32_000 });
            }
            table.replay_append(run)?;
            number += 1;
        }
    }
    Ok(tables.iter().map(|table| table.last_index().unwrap_or(0)).sum())
}

fn tables_of() -> Vec<MemTable> {
    (0..GROUPS).map(|_| MemTable::new()).collect()
}

/// Batches of so many entries come to the tables of all groups, and then a thousand entries of each are read at once.
fn batches(size: u64, uneven: bool) {
    let kind = if uneven { "-uneven" } else { "" };
    let mut runs = runs_of(size, uneven);
    let mut tables = tables_of();
    let start = Instant::now();
    let check = appends_of(&mut tables, &mut runs).unwrap_or(0);
    report(&format!("append-{size}{kind}"), start, check);
    let start = Instant::now();
    let check = fetches(&tables).unwrap_or(0);
    report(&format!("fetch-{size}{kind}"), start, check);
}

fn main() {
    let mut tables = tables_of();
    let start = Instant::now();
    let check = appends(&mut tables).unwrap_or(0);
    report("append", start, check);
    let start = Instant::now();
    let check = fetches(&tables).unwrap_or(0);
    report("fetch", start, check);
    let start = Instant::now();
    let check = puts(&mut tables);
    report("put", start, check);
    for size in [10, 1_000] {
        batches(size, false);
        batches(size, true);
    }
}
