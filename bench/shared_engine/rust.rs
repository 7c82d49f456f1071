//! The plain Rust twin of the benchmark of the shared engine: records, a pipe or a file, and tables of vectors behind a `Mutex`, a
//! queue of batches that wait, and a `Condvar`. A leader writes all batches that wait, and makes one sync.
#![allow(dead_code)] // of what is shared some is called

#[path = "../common/batch.rs"]
mod batch;
#[path = "../common/frame.rs"]
mod frame;
#[path = "../common/outline.rs"]
mod outline;
#[path = "../common/pipe.rs"]
mod pipe;
#[path = "../common/place.rs"]
mod place;
#[path = "../common/record.rs"]
mod record;
#[path = "../common/store.rs"]
mod store;
#[path = "../common/window.rs"]
mod window;

use batch::Batch;
use pipe::{Files, Pipe, AHEAD};
use record::{EntryIndex, Error, FileBlockHandle, FileId, LogQueue, Result, HEADER};
use std::collections::VecDeque;
use std::fs::{self, File, OpenOptions};
use std::os::unix::fs::FileExt;
use std::sync::{Condvar, Mutex};
use std::thread;
use std::time::Instant;
use store::{commit, refused, Tables};
use window::MAGIC;

const WRITES: u64 = 65_536;

/// A file is filled ahead by pieces as long as those of the other program's (`PIECE` of `FileDevice`).
const PIECE: usize = 1 << 16;

fn header_of() -> Vec<u8> {
    let mut bytes = MAGIC.to_vec();
    bytes.extend_from_slice(&2u64.to_be_bytes());
    bytes.extend_from_slice(&0u64.to_be_bytes());
    bytes
}

/// Where records go.
trait Log: Send {
    /// The number of the file that takes the next record.
    fn next_file(&mut self) -> Result<u64>;
    /// Writes a record; answers where.
    fn append(&mut self, bytes: &[u8]) -> Result<u64>;
    fn sync(&mut self) -> Result<()>;
}

struct MemoryLog {
    files: Files,
    pipe: Pipe,
}

impl MemoryLog {
    fn new() -> Result<MemoryLog> {
        let mut files = Files::default();
        let pipe = Pipe::begin(&mut files, 0, header_of()).map_err(refused)?;
        Ok(MemoryLog { files, pipe })
    }
}

impl Log for MemoryLog {
    fn next_file(&mut self) -> Result<u64> {
        self.pipe.next_file(&mut self.files).map_err(refused)
    }

    fn append(&mut self, bytes: &[u8]) -> Result<u64> {
        let (_, at, _) = self.pipe.append(&mut self.files, bytes).map_err(refused)?;
        Ok(at)
    }

    fn sync(&mut self) -> Result<()> {
        self.pipe.sync(&mut self.files).map_err(refused)
    }
}

/// One file of a real directory, filled with zeros ahead.
struct DirectoryLog {
    file: File,
    written: u64,
    capacity: u64,
}

impl DirectoryLog {
    fn new() -> Result<DirectoryLog> {
        fs::create_dir_all("d").map_err(refused)?;
        let file = OpenOptions::new().write(true).create_new(true).open("d/0000000000000001.raftlog").map_err(refused)?;
        let mut log = DirectoryLog { file, written: 0, capacity: 0 };
        log.append(&header_of())?;
        log.file.sync_all().map_err(refused)?;
        Ok(log)
    }
}

impl Log for DirectoryLog {
    fn next_file(&mut self) -> Result<u64> {
        Ok(1)
    }

    fn append(&mut self, bytes: &[u8]) -> Result<u64> {
        let at = self.written;
        if self.capacity < at + bytes.len() as u64 {
            let end = self.capacity + AHEAD as u64;
            while self.capacity < end {
                self.file.write_all_at(&[0; PIECE], self.capacity).map_err(refused)?;
                self.capacity += PIECE as u64;
            }
        }
        self.file.write_all_at(bytes, at).map_err(refused)?;
        self.written += bytes.len() as u64;
        Ok(at)
    }

    fn sync(&mut self) -> Result<()> {
        self.file.sync_data().map_err(refused)
    }
}

/// A batch that waits.
struct Job {
    number: u64,
    batch: Batch,
    sync: bool,
}

/// What became of it.
struct Done {
    number: u64,
    batch: Batch,
    result: Result<usize>,
}

#[derive(Default)]
struct Hall {
    count: u64,
    jobs: Vec<Job>,
    done: VecDeque<Done>,
    is_led: bool,
}

struct Desk<L> {
    log: L,
    tables: Tables,
    together: usize,
}

struct Shared<L> {
    hall: Mutex<Hall>,
    moved: Condvar,
    desk: Mutex<Desk<L>>,
}

fn poisoned<T>(_: T) -> Error {
    Error::Full
}

fn fetch(done: &mut VecDeque<Done>, number: u64) -> Option<Done> {
    let place = done.iter().position(|one| one.number == number)?;
    done.swap_remove_back(place)
}

impl<L: Log> Desk<L> {
    /// Writes a batch without a sync; answers how long its record is.
    fn write(&mut self, batch: &mut Batch) -> Result<usize> {
        let len = batch.populate()?;
        let seq = self.log.next_file()?;
        batch.sign(Some(seq as u32));
        let at = self.log.append(&batch.buf)?;
        let block = batch.buf.len().min(HEADER + batch.entries_len + 4) - HEADER;
        let id = FileId { queue: LogQueue::Append, seq };
        let mut items = Vec::new();
        batch.drain(&mut items);
        commit(&mut self.tables, items, FileBlockHandle { id, offset: at + HEADER as u64, len: block })?;
        Ok(len)
    }

    /// Writes batches, makes one sync if a caller waits for one, and answers each.
    fn serve(&mut self, jobs: Vec<Job>) -> Vec<Done> {
        self.together = jobs.len();
        let mut parts = Vec::with_capacity(jobs.len());
        for Job { number, mut batch, sync } in jobs {
            let result = self.write(&mut batch);
            parts.push((sync, Done { number, batch, result }));
        }
        let waits = |sync: bool, done: &Done| sync && done.result.is_ok();
        let failed = parts.iter().any(|(sync, done)| waits(*sync, done)) && self.log.sync().is_err();
        let answer = |(sync, mut done): (bool, Done)| {
            if failed && waits(sync, &done) {
                done.result = Err(Error::Full);
            }
            done
        };
        parts.into_iter().map(answer).collect()
    }
}

impl<L: Log> Shared<L> {
    fn write(&self, batch: Batch, sync: bool) -> Result<Done> {
        let mut hall = self.hall.lock().map_err(poisoned)?;
        let number = hall.count;
        hall.count += 1;
        hall.jobs.push(Job { number, batch, sync });
        drop(hall);
        loop {
            let answer = match self.wait(number)? {
                None => self.lead(number)?,
                found => found,
            };
            if let Some(done) = answer {
                return Ok(done);
            }
        }
    }

    fn wait(&self, number: u64) -> Result<Option<Done>> {
        let is_here = |hall: &Hall| hall.done.iter().any(|one| one.number == number);
        let hall = self.hall.lock().map_err(poisoned)?;
        let mut hall = self.moved.wait_while(hall, |hall| hall.is_led && !is_here(hall)).map_err(poisoned)?;
        let found = fetch(&mut hall.done, number);
        hall.is_led |= found.is_none();
        Ok(found)
    }

    fn lead(&self, number: u64) -> Result<Option<Done>> {
        let mut desk = self.desk.lock().map_err(poisoned)?;
        if desk.together > 1 {
            thread::yield_now();
        }
        let jobs = std::mem::take(&mut self.hall.lock().map_err(poisoned)?.jobs);
        let mut done = if jobs.is_empty() { VecDeque::new() } else { VecDeque::from(desk.serve(jobs)) };
        let mine = fetch(&mut done, number);
        let mut hall = self.hall.lock().map_err(poisoned)?;
        hall.done.append(&mut done);
        hall.is_led = false;
        drop(hall);
        self.moved.notify_all();
        Ok(mine)
    }
}

/// Writes one batch after another, each with a sync.
fn write_part<L: Log>(shared: &Shared<L>, group: u64, count: u64) -> Result<u64> {
    let (mut batch, mut check) = (Batch::new(), 0);
    for index in 1..=count {
        batch.add(group, vec![EntryIndex::new(index, 16)], &[[7u8; 16]])?;
        let done = shared.write(batch, true)?;
        batch = done.batch;
        check += done.result? as u64;
    }
    Ok(check)
}

/// The writes of so many threads; a line tells of them.
fn measure<L: Log>(log: L, threads: u64, writes: u64) -> Result<()> {
    let desk = Desk { log, tables: Tables::new(), together: 0 };
    let shared = Shared { hall: Mutex::new(Hall::default()), moved: Condvar::new(), desk: Mutex::new(desk) };
    let each = writes / threads;
    let start = Instant::now();
    let ends: Vec<Result<u64>> = thread::scope(|scope| {
        let lent = &shared;
        let started: Vec<_> = (1..=threads).map(|group| scope.spawn(move || write_part(lent, group, each))).collect();
        started.into_iter().map(|handle| handle.join().unwrap_or(Err(Error::Full))).collect()
    });
    let nanos = start.elapsed().as_nanos().max(1);
    let check = ends.into_iter().sum::<Result<u64>>()?;
    println!("shared-engine-{threads} {} {check}", (each * threads) as u128 * 1_000_000_000 / nanos);
    Ok(())
}

fn main() -> Result<()> {
    let words: Vec<String> = std::env::args().skip(1).collect();
    let number = |place: usize, usual: u64| words.get(place).and_then(|word| word.parse().ok()).unwrap_or(usual);
    let (threads, writes) = (number(0, 0), number(1, WRITES));
    if threads > 0 {
        return measure(DirectoryLog::new()?, threads, writes);
    }
    for threads in [1, 2, 4, 8, 16] {
        measure(MemoryLog::new()?, threads, writes)?;
    }
    Ok(())
}
