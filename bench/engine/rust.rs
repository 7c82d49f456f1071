//! The plain Rust twin of the benchmark of an engine: the same records, pipe, file system in memory and tables, of vectors.
#[path = "../common/batch.rs"]
mod batch;
#[path = "../common/frame.rs"]
mod frame;
#[path = "../common/pipe.rs"]
mod pipe;
#[path = "../common/place.rs"]
mod place;
#[path = "../common/record.rs"]
mod record;
#[path = "../common/window.rs"]
mod window;

use batch::Batch;
use frame::{next, report};
use pipe::{Files, Pipe, TARGET_SIZE};
use place::Place;
use record::{read_block, Command, CompressionType, Content, EntryIndex, Error, FileBlockHandle, FileId, Item, LogQueue, Result, HEADER};
use std::collections::{HashMap, VecDeque};
use std::time::Instant;
use window::{check_block, next_batch, open, Window, MAGIC};

const BATCHES: u64 = 60_000;
const GROUPS: u64 = 100;
const SIZE: usize = 2_118;
const FETCHED: u64 = 1_000;
const ROUNDS: u64 = 20;
const READ_BLOCK: usize = 16 << 10;
const MAX_COPIED_LEN: u64 = 128 << 10;
const SHORT: usize = 16;
const MANY: u64 = 1_000_000;
const PURGED_FROM: usize = 10 << 30;
const REWRITTEN_FROM: usize = PURGED_FROM / 10;
/// How many files are kept for use where they aren't deleted.
const KEPT: usize = PURGED_FROM / TARGET_SIZE * 3 / 2;
/// Rewrite has a file too, from the first open on.
const REWRITE_FILES: usize = 1;

/// Where a group's entries lie.
#[derive(Default)]
struct Table {
    first: u64,
    places: VecDeque<Place>,
    rewritten: usize,
}

fn place_of(entry: &EntryIndex, block: FileBlockHandle) -> Place {
    Place { file: block.id.seq, offset: block.offset, len: block.len, entry_offset: entry.entry_offset, entry_len: entry.entry_len }
}

impl Table {
    fn end(&self) -> u64 {
        self.first + self.places.len() as u64
    }

    /// Makes room for a run that starts no later than the index after the last.
    fn prepare(&mut self, entries: &[EntryIndex]) -> Result<()> {
        let Some(front) = entries.first() else { return Ok(()) };
        if !self.places.is_empty() && self.end() < front.index {
            return Err(Error::Corruption("a hole".to_string()));
        }
        self.places.try_reserve(entries.len()).map_err(|_| Error::Full)
    }

    fn append(&mut self, entries: &[EntryIndex], block: FileBlockHandle) {
        let Some(front) = entries.first() else { return };
        if self.first >= front.index || self.places.is_empty() {
            self.first = front.index;
        }
        self.places.truncate((front.index - self.first) as usize);
        self.rewritten = self.rewritten.min(self.places.len());
        self.places.extend(entries.iter().map(|entry| place_of(entry, block)));
    }

    fn compact_to(&mut self, index: u64) {
        let gone = index.saturating_sub(self.first).min(self.places.len() as u64);
        self.places.drain(..gone as usize);
        self.rewritten = self.rewritten.saturating_sub(gone as usize);
        self.first += gone;
    }

    /// Takes the entries of a newer part of the log.
    fn take_newer(&mut self, mut newer: Table) -> Result<()> {
        if newer.places.is_empty() {
            return Ok(());
        }
        if self.places.is_empty() || newer.first <= self.first {
            *self = newer;
            return Ok(());
        }
        if self.end() < newer.first {
            return Err(Error::Corruption("a hole".to_string()));
        }
        self.places.truncate((newer.first - self.first) as usize);
        self.places.append(&mut newer.places);
        Ok(())
    }
}

type Tables = HashMap<u64, Table>;

/// The entry block that was read last.
#[derive(Default)]
struct Kept {
    place: Option<(u64, u64)>,
    bytes: Vec<u8>,
}

struct Engine {
    files: Files,
    pipe: Pipe,
    rewrite_files: Files,
    rewrite: Pipe,
    tables: Tables,
    kept: Kept,
    standing: usize,
    garbage: usize,
}

fn refused<E: std::fmt::Debug>(error: E) -> Error {
    Error::Corruption(format!("{error:?}"))
}

fn header_of() -> Vec<u8> {
    let mut bytes = MAGIC.to_vec();
    bytes.extend_from_slice(&2u64.to_be_bytes());
    bytes.extend_from_slice(&0u64.to_be_bytes());
    bytes
}

impl Engine {
    /// An engine of an empty log, which keeps so many files for use.
    fn new(capacity: usize) -> Result<Engine> {
        let mut files = Files::default();
        let pipe = Pipe::begin(&mut files, capacity, header_of()).map_err(refused)?;
        let mut rewrite_files = Files::default();
        let rewrite = Pipe::begin(&mut rewrite_files, 0, header_of()).map_err(refused)?;
        Ok(Engine { files, pipe, rewrite_files, rewrite, tables: Tables::new(), kept: Kept::default(), standing: 0, garbage: 0 })
    }

    fn prepare(&mut self, items: &[Item]) -> Result<()> {
        for item in items {
            if let Content::Entries(entries) = &item.content {
                self.tables.entry(item.group).or_default().prepare(entries)?;
            }
        }
        Ok(())
    }

    fn commit(&mut self, items: &[Item], block: FileBlockHandle) {
        for item in items {
            if let Some(table) = self.tables.get_mut(&item.group) {
                match &item.content {
                    Content::Entries(entries) => table.append(entries, block),
                    Content::Command(Command::Compact { index }) => table.compact_to(*index),
                    _ => {}
                }
            }
        }
    }

    /// Writes a batch and syncs it; answers how many bytes its record has.
    fn write(&mut self, batch: &mut Batch) -> Result<u64> {
        let len = self.append(batch)?;
        self.pipe.sync(&mut self.files).map_err(refused)?;
        Ok(len)
    }

    /// Writes a batch; answers how many bytes its record has.
    fn append(&mut self, batch: &mut Batch) -> Result<u64> {
        let len = batch.populate()?;
        self.prepare(&batch.items)?;
        let seq = self.pipe.next_file(&mut self.files).map_err(refused)?;
        batch.sign(Some(seq as u32));
        let (seq, at, _) = self.pipe.append(&mut self.files, &batch.buf).map_err(refused)?;
        let block = batch.buf.len().min(HEADER + batch.entries_len + 4) - HEADER;
        let id = FileId { queue: LogQueue::Append, seq };
        let items = std::mem::take(&mut batch.items);
        self.commit(&items, FileBlockHandle { id, offset: at + HEADER as u64, len: block });
        batch.drain(&mut Vec::new());
        Ok(len as u64)
    }

    /// The bytes of a file of the log.
    fn file(&self, seq: u64) -> &[u8] {
        let position = (seq - self.pipe.first) as usize;
        let file = self.pipe.earlier.get(position).unwrap_or(&self.pipe.active);
        self.files.files[file.file].as_ref().map_or(&[], |stored| &stored.content)
    }

    fn read_entry(&mut self, place: Place) -> Result<Vec<u8>> {
        if self.kept.place != Some((place.file, place.offset)) {
            let at = place.offset as usize;
            let bytes = self.file(place.file)[at..at + place.len].to_vec();
            read_block(&bytes, CompressionType::None)?;
            self.kept = Kept { place: Some((place.file, place.offset)), bytes };
        }
        let at = place.entry_offset as usize;
        Ok(self.kept.bytes[at..at + place.entry_len as usize].to_vec())
    }

    fn fetch(&mut self, group: u64, begin: u64, end: u64) -> Result<Vec<Vec<u8>>> {
        let table = self.tables.get(&group).ok_or(Error::EntryNotFound)?;
        if begin < table.first {
            return Err(Error::EntryCompacted);
        }
        if end > table.end() {
            return Err(Error::EntryNotFound);
        }
        let from = (begin - table.first) as usize;
        let places: Vec<Place> = table.places.range(from..from + (end - begin) as usize).copied().collect();
        places.into_iter().map(|place| self.read_entry(place)).collect()
    }

    /// Writes what a batch has to Rewrite; answers where its entry block lies there.
    fn append_to_rewrite(&mut self, batch: &mut Batch) -> Result<FileBlockHandle> {
        batch.populate()?;
        let seq = self.rewrite.next_file(&mut self.rewrite_files).map_err(refused)?;
        batch.sign(Some(seq as u32));
        let (seq, at, _) = self.rewrite.append(&mut self.rewrite_files, &batch.buf).map_err(refused)?;
        let block = batch.buf.len().min(HEADER + batch.entries_len + 4) - HEADER;
        let id = FileId { queue: LogQueue::Rewrite, seq };
        Ok(FileBlockHandle { id, offset: at + HEADER as u64, len: block })
    }

    /// Writes the marks of all groups to Rewrite, synced.
    fn carry_marks(&mut self) -> Result<()> {
        self.pipe.sync(&mut self.files).map_err(refused)?;
        let mut batch = Batch::new();
        for group in 1..=GROUPS {
            batch.items.push(Item { group, content: Content::Command(Command::Compact { index: u64::MAX }) });
        }
        self.append_to_rewrite(&mut batch)?;
        self.rewrite.sync(&mut self.rewrite_files).map_err(refused)
    }

    /// Carries the marks, goes on in the next files, and deletes those in which nothing lives.
    fn purge(&mut self) -> Result<()> {
        self.carry_marks()?;
        self.rewrite.rotate(&mut self.rewrite_files).map_err(refused)?;
        let last = self.rewrite.active.seq;
        self.rewrite.purge_to(&mut self.rewrite_files, last).map_err(refused)?;
        self.pipe.rotate(&mut self.files).map_err(refused)?;
        let least = self.tables.values().filter_map(|table| table.places.front()).map(|place| place.file).min();
        let seq = least.unwrap_or(self.pipe.active.seq);
        self.pipe.purge_to(&mut self.files, seq).map_err(refused)
    }

    /// Counts what stands in Rewrite, and what of it stands no more.
    fn count_standing(&mut self) {
        let standing = self.tables.values().map(|table| table.rewritten).sum();
        self.garbage += self.standing.saturating_sub(standing);
        self.standing = standing;
    }

    /// Syncs Append, and purges both queues where they are past their thresholds, which none is here.
    fn purge_expired(&mut self) -> Result<Vec<u64>> {
        self.count_standing();
        self.pipe.sync(&mut self.files).map_err(refused)?;
        if is_past(&self.rewrite, &self.rewrite_files, REWRITTEN_FROM) && self.garbage > self.standing {
            return Err(Error::Full);
        }
        if is_past(&self.pipe, &self.files, PURGED_FROM) {
            return Err(Error::Full);
        }
        self.count_standing();
        Ok(Vec::new())
    }

    /// Copies all entries of all groups to Rewrite, and deletes all files of Append but the last.
    fn rewrite(&mut self) -> Result<u64> {
        self.pipe.rotate(&mut self.files).map_err(refused)?;
        let (mut copied, mut unsynced) = (0, 0);
        let mut batch = Batch::new();
        for group in 1..=GROUPS {
            let (first, end) = self.tables.get(&group).map_or((0, 0), |table| (table.first, table.end()));
            let mut next = first;
            while next < end {
                let count = (end - next).min(MAX_COPIED_LEN / SIZE as u64);
                let entries = self.fetch(group, next, next + count)?;
                let indexes = (next..next + count).map(|index| EntryIndex::new(index, SIZE as u32)).collect();
                batch.add(group, indexes, &entries)?;
                let block = self.append_to_rewrite(&mut batch)?;
                let items = std::mem::take(&mut batch.items);
                self.move_copies(&items, block);
                batch.drain(&mut Vec::new());
                copied += count * SIZE as u64;
                unsynced += count * SIZE as u64;
                if unsynced >= 4 * MAX_COPIED_LEN {
                    self.rewrite.sync(&mut self.rewrite_files).map_err(refused)?;
                    unsynced = 0;
                }
                next += count;
            }
        }
        self.rewrite.sync(&mut self.rewrite_files).map_err(refused)?;
        let last = self.pipe.active.seq;
        self.pipe.purge_to(&mut self.files, last).map_err(refused)?;
        Ok(copied)
    }

    /// The tables say that entries lie where their copies are.
    fn move_copies(&mut self, items: &[Item], block: FileBlockHandle) {
        for item in items {
            if let (Content::Entries(entries), Some(table)) = (&item.content, self.tables.get_mut(&item.group)) {
                for entry in entries {
                    let position = (entry.index - table.first) as usize;
                    if let Some(place) = table.places.get_mut(position) {
                        *place = place_of(entry, block);
                        table.rewritten = position + 1;
                    }
                }
            }
        }
    }

    fn close(mut self) -> Result<Files> {
        self.pipe.writer.close(&mut self.files).map_err(refused)?;
        Ok(self.files)
    }
}

/// Whether a queue has more than one file, and is larger than this.
fn is_past(pipe: &Pipe, files: &Files, threshold: usize) -> bool {
    let size = || pipe.earlier.iter().chain([&pipe.active]).map(|file| files.size(file.file)).sum::<usize>();
    pipe.first < pipe.active.seq && threshold < size()
}

/// The files of a log by number, oldest first: the number, and the bytes.
fn found(files: &Files) -> Vec<(u64, &[u8])> {
    let mut found: Vec<(u64, &[u8])> = Vec::new();
    for (path, file) in &files.paths {
        let name = &path[path.rfind('/').map_or(0, |at| at + 1)..];
        if let (true, Some(stored)) = (name.ends_with(".raftlog"), &files.files[*file]) {
            if let Ok(seq) = name[..16].parse() {
                found.push((seq, &stored.content));
            }
        }
    }
    found.sort_by_key(|(seq, _)| *seq);
    found
}

/// The tables of a part of the log, of which the last file is checked whole if it is the log's last one.
fn read_files(part: &[(u64, &[u8])], last: u64) -> Result<Tables> {
    let mut tables = Tables::new();
    let mut window = Window { bytes: Vec::new(), start: 0, block: READ_BLOCK };
    for (seq, file) in part {
        let (opened, mut at) = open(&mut window, file, *seq)?;
        while let Some((items, block, end)) = next_batch(&mut window, file, &opened, at)? {
            at = end;
            if *seq == last {
                check_block(&mut window, file, block)?;
            }
            for item in items {
                if let Content::Entries(entries) = item.content {
                    let table = tables.entry(item.group).or_default();
                    table.prepare(&entries)?;
                    table.append(&entries, block);
                }
            }
        }
    }
    Ok(tables)
}

/// How many of so many workers read Append: its share by the number of files, as Rewrite has files too.
fn share(workers: usize, append: usize, rewrite: usize) -> usize {
    let all = workers.min(append + rewrite);
    (all * append / (append + rewrite)).max(1)
}

fn recover(files: &mut Files, workers: usize) -> Result<Tables> {
    let found = found(files);
    let last = found.last().map_or(0, |(seq, _)| *seq);
    let size = found.len().div_ceil(share(workers, found.len(), REWRITE_FILES));
    let parts: Vec<Result<Tables>> = std::thread::scope(|scope| {
        let running: Vec<_> = found.chunks(size.max(1)).map(|part| scope.spawn(move || read_files(part, last))).collect();
        running.into_iter().map(|worker| worker.join().unwrap()).collect()
    });
    let mut tables = Tables::new();
    for part in parts {
        for (group, newer) in part? {
            tables.entry(group).or_default().take_newer(newer)?;
        }
    }
    let ids: Vec<usize> = files.paths.values().copied().collect();
    for id in ids {
        files.sync(id).map_err(refused)?;
    }
    Ok(tables)
}

/// The sum of the groups of all items of all files, their footers checked.
fn scanned(files: &Files) -> Result<u64> {
    let mut window = Window { bytes: Vec::new(), start: 0, block: READ_BLOCK };
    let mut sum = 0;
    for (seq, file) in found(files) {
        let (opened, mut at) = open(&mut window, file, seq)?;
        while let Some((items, _block, end)) = next_batch(&mut window, file, &opened, at)? {
            at = end;
            sum += items.iter().map(|item| item.group).sum::<u64>();
        }
    }
    Ok(sum)
}

fn entries_of() -> Vec<Vec<u8>> {
    let mut state = 88172645463325252u64;
    let mut byte = || {
        state = next(state);
        state as u8
    };
    (0..16).map(|_| (0..SIZE).map(|_| byte()).collect()).collect()
}

fn write_all(engine: &mut Engine, entries: &[Vec<u8>]) -> Result<u64> {
    let mut ends = vec![1u64; GROUPS as usize];
    let mut batch = Batch::new();
    let mut written = 0;
    for number in 0..BATCHES {
        let count = (number % 16) as usize + 1;
        let end = &mut ends[(number % GROUPS) as usize];
        let indexes = (*end..*end + count as u64).map(|index| EntryIndex::new(index, SIZE as u32)).collect();
        *end += count as u64;
        batch.add(number % GROUPS + 1, indexes, &entries[..count])?;
        written += engine.write(&mut batch)?;
    }
    Ok(written)
}

fn fetch_all(engine: &mut Engine) -> Result<u64> {
    let mut len = 0;
    for group in 1..=GROUPS {
        len += engine.fetch(group, 1, FETCHED + 1)?.iter().map(|entry| entry.len() as u64).sum::<u64>();
    }
    Ok(len)
}

/// Fetches the first entries of each group so many times.
fn fetch_rounds(engine: &mut Engine) -> Result<u64> {
    let mut len = 0;
    for _ in 0..ROUNDS {
        len += fetch_all(engine)?;
    }
    Ok(len)
}

/// Compacts each group to half of its entries.
fn compact_all(engine: &mut Engine) -> Result<()> {
    let mut batch = Batch::new();
    for group in 1..=GROUPS {
        let index = engine.tables.get(&group).map_or(0, |table| (table.first + table.end()) / 2);
        batch.items.push(Item { group, content: Content::Command(Command::Compact { index }) });
        engine.append(&mut batch)?;
    }
    Ok(())
}

/// Half of all that a log has is compacted, and its files are kept for use or deleted; then all that is left is
/// rewritten.
fn collect(entries: &[Vec<u8>], keeps: bool) -> Result<()> {
    let (capacity, purge, rewrite) = if keeps { (KEPT, "purge", "rewrite") } else { (0, "purge-deleting", "rewrite-deleting") };
    let mut engine = Engine::new(capacity)?;
    let written = write_all(&mut engine, entries)?;
    compact_all(&mut engine)?;
    let start = Instant::now();
    engine.purge()?;
    report(purge, written / 2, start, engine.pipe.first);
    let start = Instant::now();
    let copied = engine.rewrite()?;
    report(rewrite, copied, start, engine.pipe.first);
    Ok(())
}

/// A log of so many groups is purged so many times, with nothing to do: purges a second.
fn idle(entry: &[u8], groups: u64, times: u64) -> Result<()> {
    let mut engine = Engine::new(KEPT)?;
    let mut batch = Batch::new();
    for group in 1..=groups {
        batch.add(group, vec![EntryIndex::new(1, SHORT as u32)], &[&entry[..SHORT]])?;
        engine.write(&mut batch)?;
    }
    let mut asked = 0;
    let start = Instant::now();
    for _ in 0..times {
        asked += engine.purge_expired()?.len() as u64;
    }
    report(&format!("idle-{groups}"), times * 1_000_000, start, asked);
    Ok(())
}

/// How many bytes a short entry has: all as many, or 10 to 22.
fn short_len(number: usize, uneven: bool) -> usize {
    if uneven { 10 + number % 13 } else { SHORT }
}

/// Writes and syncs batches of short entries, the groups in turn; answers how many bytes their records have.
fn write_short(engine: &mut Engine, entries: &[Vec<u8>]) -> Result<u64> {
    let size = entries.len() as u64;
    let mut batch = Batch::new();
    let mut written = 0;
    for number in 0..MANY / size {
        let first = number / GROUPS * size + 1;
        let indexes = entries.iter().zip(first..).map(|(entry, index)| EntryIndex::new(index, entry.len() as u32)).collect();
        batch.add(number % GROUPS + 1, indexes, entries)?;
        written += engine.write(&mut batch)?;
    }
    Ok(written)
}

/// Short entries are written in batches of one size, the first thousand of each group are fetched, and the log is opened.
fn short(entry: &[u8], size: usize, uneven: bool) -> Result<()> {
    let kind = if uneven { "-uneven" } else { "" };
    let entries: Vec<Vec<u8>> = (0..size).map(|number| entry[..short_len(number, uneven)].to_vec()).collect();
    let mut engine = Engine::new(KEPT)?;
    let start = Instant::now();
    let written = write_short(&mut engine, &entries)?;
    report(&format!("write-{size}{kind}"), written, start, written);
    let start = Instant::now();
    let fetched = fetch_rounds(&mut engine)?;
    report(&format!("fetch-{size}{kind}"), fetched, start, fetched);
    let mut files = engine.close()?;
    let start = Instant::now();
    let tables = recover(&mut files, 1)?;
    let sum = tables.values().map(|table| table.end() - 1).sum();
    report(&format!("open-{size}{kind}"), written, start, sum);
    Ok(())
}

fn main() -> Result<()> {
    // (an open of the engine starts a thread, and from a program's first thread on each call of the heap takes a lock)
    std::thread::scope(|scope| scope.spawn(|| {}).join().unwrap());
    let entries = entries_of();
    idle(&entries[0], 10, 100_000)?;
    idle(&entries[0], 100_000, 20)?;
    for size in [10, 1_000] {
        short(&entries[0], size, false)?;
        short(&entries[0], size, true)?;
    }
    collect(&entries, true)?;
    collect(&entries, false)?;
    let mut engine = Engine::new(KEPT)?;
    let start = Instant::now();
    let written = write_all(&mut engine, &entries)?;
    report("write", written, start, written);
    let start = Instant::now();
    let fetched = fetch_rounds(&mut engine)?;
    report("fetch", fetched, start, fetched);
    let mut files = engine.close()?;
    let start = Instant::now();
    let sum = scanned(&files)?;
    report("footers", written, start, sum);
    for workers in [1, 2, 3, 4] {
        let start = Instant::now();
        let tables = recover(&mut files, workers)?;
        let sum = tables.values().map(|table| table.end() - 1).sum();
        report(&format!("open-{workers}"), written, start, sum);
    }
    Ok(())
}
