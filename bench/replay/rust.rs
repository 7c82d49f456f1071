//! The plain Rust twin of the benchmark of reading records into tables: the same types, checks and order of workers.
#![allow(dead_code)]
#[path = "../common/batch.rs"]
mod batch;
#[path = "../common/frame.rs"]
mod frame;
#[path = "../common/place.rs"]
mod place;
#[path = "../common/record.rs"]
mod record;

use batch::Batch;
use frame::report;
use place::Place;
use record::{
    read_footer, read_header, Command, Content, EntryIndex, Error, FileBlockHandle, FileId, Item, KeyValue, LogQueue, OpType, Result, HEADER,
};
use std::collections::{BTreeMap, HashMap, VecDeque};
use std::time::Instant;

const GROUPS: u64 = 1_000;
const RECORDS: u64 = 500_000;
const IN_RECORD: usize = 16;
const SIZE: usize = 128;
/// How many keys the lesser and the greater log of one group have, before a tenth as many Cleans; and how many begins of atomic
/// groups without end two others have.
const HOSTILE: [u64; 2] = [50_000, 200_000];

struct HeldValue {
    bytes: Vec<u8>,
    appended: bool,
    file: u64,
}

#[derive(Default)]
struct KeySlot {
    held: Option<HeldValue>,
    deleted: bool,
}

/// A table of one group, as it is read of a part of Append.
#[derive(Default)]
struct MemTable {
    first: u64,
    places: VecDeque<Place>,
    rewritten: usize,
    keys: BTreeMap<Vec<u8>, KeySlot>,
    cleaned: bool,
    compacted: bool,
    low: u64,
    high: Option<u64>,
}

fn hole() -> Error {
    Error::Corruption("a hole".to_string())
}

fn place_of(entry: &EntryIndex) -> Place {
    let (file, offset, len) = match entry.entries {
        Some(block) => (block.id.seq, block.offset, block.len),
        None => (0, 0, 0),
    };
    Place { file, offset, len, entry_offset: entry.entry_offset, entry_len: entry.entry_len }
}

impl MemTable {
    fn end(&self) -> u64 {
        self.first + self.places.len() as u64
    }

    fn replay_append(&mut self, entries: &[EntryIndex]) -> Result<()> {
        let Some(front) = entries.first() else { return Ok(()) };
        if !self.places.is_empty() && self.end() < front.index {
            return Err(hole());
        }
        self.places.try_reserve(entries.len()).map_err(|_| Error::Full)?;
        let keep = front.index.saturating_sub(self.first) as usize;
        if self.first >= front.index || self.places.is_empty() {
            self.first = front.index;
        }
        self.rewritten = self.rewritten.min(keep);
        self.places.truncate(keep);
        for entry in entries {
            self.places.push_back(place_of(entry));
        }
        self.high = Some(self.high.map_or(front.index, |high| high.min(front.index)));
        Ok(())
    }

    fn replay_command(&mut self, command: Command) {
        match command {
            Command::Clean => {
                self.places.truncate(0);
                self.first = 0;
                self.rewritten = 0;
                self.keys.clear();
                self.cleaned = true;
                self.compacted = false;
            }
            Command::Compact { index } => {
                let count = (index.saturating_sub(self.first) as usize).min(self.places.len());
                self.places.drain(..count);
                self.first += count as u64;
                self.rewritten = self.rewritten.saturating_sub(count);
                self.compacted = true;
                self.low = self.low.max(index);
            }
        }
    }

    fn replay_key(&mut self, key_value: KeyValue, file: u64) {
        let slot = self.keys.entry(key_value.key).or_default();
        match key_value.op_type {
            OpType::Put => slot.held = Some(HeldValue { bytes: key_value.value.unwrap_or_default(), appended: true, file }),
            OpType::Del => *slot = KeySlot { held: None, deleted: true },
        }
    }

    fn narrow(&mut self, low: u64, high: Option<u64>) {
        let count = (low.saturating_sub(self.first) as usize).min(self.places.len());
        self.rewritten = self.rewritten.saturating_sub(count);
        self.first += count as u64;
        self.places.drain(..count);
        if let Some(high) = high {
            let keep = high.saturating_sub(self.first) as usize;
            self.rewritten = self.rewritten.min(keep);
            self.places.truncate(keep);
        }
    }

    /// The table of the next part comes behind this one.
    fn merge_newer_neighbor(&mut self, mut newer: MemTable) -> Result<()> {
        if newer.cleaned {
            *self = newer;
            return Ok(());
        }
        self.places.try_reserve(newer.places.len()).map_err(|_| Error::Full)?;
        self.narrow(newer.low, newer.high);
        if !newer.places.is_empty() {
            if !self.places.is_empty() && self.end() < newer.first {
                return Err(hole());
            }
            let keep = newer.first.saturating_sub(self.first) as usize;
            if self.first >= newer.first || self.places.is_empty() {
                self.first = newer.first;
            }
            self.places.truncate(keep);
        }
        self.places.append(&mut newer.places);
        self.compacted |= newer.compacted;
        self.low = self.low.max(newer.low);
        self.high = match (self.high, newer.high) {
            (Some(a), Some(b)) => Some(a.min(b)),
            (a, b) => a.or(b),
        };
        for (key, slot) in newer.keys {
            let own = self.keys.entry(key).or_default();
            if slot.deleted {
                *own = KeySlot { held: None, deleted: true };
            }
            if slot.held.is_some() {
                own.held = slot.held;
            }
        }
        Ok(())
    }
}

/// A table, and whether its group counts.
#[derive(Default)]
struct GroupTable {
    table: MemTable,
    counts: bool,
}

type Tables = BTreeMap<u64, GroupTable>;

/// The parts of atomic groups of Rewrite whose end wasn't read, by their numbers.
type Pending = HashMap<Vec<u8>, Vec<Item>>;

/// Whether an item is a mark of an atomic group, which says nothing of a group.
fn is_mark(item: &Item) -> bool {
    match &item.content {
        Content::KeyValue(key_value) => match key_value.op_type {
            OpType::Put => item.group == 0 && key_value.key == [b'_', b'_', 1],
            OpType::Del => false,
        },
        _ => false,
    }
}

fn replay(tables: &mut Tables, items: Vec<Item>, file: u64) -> Result<()> {
    for item in items {
        if is_mark(&item) {
            continue;
        }
        let found = tables.entry(item.group).or_default();
        found.counts = true;
        match item.content {
            Content::Entries(entries) => found.table.replay_append(&entries)?,
            Content::Command(command) => {
                found.counts = !matches!(command, Command::Clean);
                found.table.replay_command(command);
            }
            Content::KeyValue(key_value) => found.table.replay_key(key_value, file),
        }
    }
    Ok(())
}

/// The number of the atomic group that a record begins, if it begins one.
fn number_of(items: &[Item]) -> Option<Vec<u8>> {
    match items.first() {
        Some(Item { content: Content::KeyValue(KeyValue { value: Some(value), .. }), .. }) if is_mark(&items[0]) => Some(value[..8].to_vec()),
        _ => None,
    }
}

fn items_of(record: &[u8], id: FileId) -> Result<Vec<Item>> {
    let mut source = record;
    let (offset, _, len) = read_header(&mut source)?;
    if offset < HEADER || len < offset || record.len() < len {
        return Ok(Vec::new());
    }
    let place = FileBlockHandle { id, offset: HEADER as u64, len: offset - HEADER };
    read_footer(&record[offset..len], place, None)
}

/// The tables of these records, and what is told of each.
fn read_part(records: &[Vec<u8>], from: usize) -> Result<(Tables, Vec<usize>)> {
    let mut tables = Tables::new();
    let mut pending = Pending::new();
    let mut endings = Vec::new();
    for (i, record) in records.iter().enumerate() {
        let id = FileId { queue: LogQueue::Append, seq: ((from + i) >> 12) as u64 };
        let items = items_of(record, id)?;
        match number_of(&items) {
            Some(number) => pending.entry(number).or_default().extend(items),
            None => replay(&mut tables, items, id.seq)?,
        }
        endings.push(from + i);
    }
    Ok((tables, endings))
}

fn read_by(records: &[Vec<u8>], workers: usize) -> Result<u64> {
    let size = records.len().div_ceil(workers).max(1);
    let parts: Vec<Result<(Tables, Vec<usize>)>> = std::thread::scope(|scope| {
        let running: Vec<_> =
            records.chunks(size).enumerate().map(|(i, part)| scope.spawn(move || read_part(part, i * size))).collect();
        running.into_iter().map(|worker| worker.join().unwrap()).collect()
    });
    let mut tables = Tables::new();
    let mut endings = Vec::new();
    for part in parts {
        let (newer, mut more) = part?;
        for (group, table) in newer {
            match tables.get_mut(&group) {
                Some(found) => {
                    let counts = table.counts || (found.counts && !table.table.cleaned);
                    found.table.merge_newer_neighbor(table.table)?;
                    found.counts = counts;
                }
                None => {
                    tables.insert(group, table);
                }
            }
        }
        endings.append(&mut more);
    }
    assert_eq!(endings.len(), records.len());
    Ok((0..GROUPS)
        .filter_map(|group| tables.get(&group))
        .filter(|found| found.counts && !found.table.places.is_empty())
        .map(|found| found.table.end() - 1)
        .sum())
}

/// All records, the groups in turn.
fn records_of() -> Result<Vec<Vec<u8>>> {
    let mut batch = Batch::new();
    let mut old = Vec::new();
    let entries: Vec<Vec<u8>> = (0..IN_RECORD).map(|_| vec![7u8; SIZE]).collect();
    let mut records = Vec::new();
    for number in 0..RECORDS {
        batch.drain(&mut old);
        old.clear();
        let first = number / GROUPS * IN_RECORD as u64;
        let indexes = (0..IN_RECORD as u64).map(|i| EntryIndex::new(first + i, 0)).collect();
        batch.add(number % GROUPS, indexes, &entries)?;
        batch.populate()?;
        batch.sign(None);
        records.push(batch.buf.clone());
    }
    Ok(records)
}

/// The record of one item.
fn record_of(batch: &mut Batch, item: Item) -> Result<Vec<u8>> {
    batch.drain(&mut Vec::new());
    batch.items.push(item);
    batch.populate()?;
    batch.sign(None);
    Ok(batch.buf.clone())
}

fn put_of(batch: &mut Batch, group: u64, key: &[u8], value: &[u8]) -> Result<Vec<u8>> {
    let key_value = KeyValue { op_type: OpType::Put, key: key.to_vec(), value: Some(value.to_vec()), file_id: None };
    record_of(batch, Item { group, content: Content::KeyValue(key_value) })
}

/// So many keys of one group, and then a tenth as many Cleans.
fn cleans_of(count: u64) -> Result<Vec<Vec<u8>>> {
    let mut batch = Batch::new();
    let mut records = Vec::new();
    for number in 0..count {
        records.push(put_of(&mut batch, 1, &number.to_be_bytes(), b"1")?);
    }
    for _ in 0..count / 10 {
        records.push(record_of(&mut batch, Item { group: 1, content: Content::Command(Command::Clean) })?);
    }
    Ok(records)
}

/// So many begins of atomic groups without end.
fn begins_of(count: u64) -> Result<Vec<Vec<u8>>> {
    let mut batch = Batch::new();
    let mut mark = vec![0; 9];
    (0..count)
        .map(|number| {
            mark[..8].copy_from_slice(&number.to_le_bytes());
            put_of(&mut batch, 0, &[b'_', b'_', 1], &mark)
        })
        .collect()
}

/// Reads records by so many workers.
fn measure(work: &str, records: &[Vec<u8>], workers: usize) -> Result<()> {
    let bytes = records.iter().map(|record| record.len() as u64).sum();
    let start = Instant::now();
    let check = read_by(records, workers)?;
    report(&format!("{work}-{workers}"), bytes, start, check);
    Ok(())
}

fn main() -> Result<()> {
    for count in HOSTILE {
        measure(&format!("cleans-{count}"), &cleans_of(count)?, 1)?;
        measure(&format!("begins-{count}"), &begins_of(count)?, 1)?;
    }
    let records = records_of()?;
    for workers in [1, 2, 4] {
        measure("workers", &records, workers)?;
    }
    Ok(())
}
