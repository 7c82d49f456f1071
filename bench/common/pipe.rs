//! What the plain Rust twins of pipes and of the engine share: a pipe of numbered files over a file system in memory.
#![allow(dead_code)] // a twin calls some of it

use std::collections::{BTreeMap, VecDeque};

/// From this size on a file is rotated.
pub const TARGET_SIZE: usize = 128 << 20;
/// How many bytes are allocated at once.
pub const AHEAD: usize = 2 << 20;

#[derive(Debug, Clone, Copy, PartialEq)]
#[allow(dead_code)]
pub enum Fault {
    NotFound,
    AlreadyExists,
    Stopped,
    Other,
}

pub type Result<T> = std::result::Result<T, Fault>;

#[allow(dead_code)]
pub enum Change {
    Write { offset: usize, bytes: Vec<u8> },
    Shortening { size: usize },
    Growth { size: usize },
}

#[allow(dead_code)]
pub struct Stamped {
    pub stamp: u64,
    pub change: Change,
}

#[derive(Default)]
pub struct Stored {
    pub content: Vec<u8>,
    pub synced: Vec<u8>,
    pub changes: Vec<Stamped>,
}

impl Change {
    pub fn touched(&self) -> (usize, usize) {
        match self {
            Change::Write { offset, bytes } => (*offset, offset + bytes.len()),
            Change::Shortening { size } => (*size, usize::MAX),
            Change::Growth { .. } => (0, 0),
        }
    }

    pub fn carry_out(&self, content: &mut Vec<u8>) {
        match self {
            Change::Write { offset, bytes } => {
                let end = offset + bytes.len();
                if content.len() < end {
                    content.resize(end, 0);
                }
                content[*offset..end].copy_from_slice(bytes);
            }
            Change::Shortening { size } => content.truncate(*size),
            Change::Growth { size } => {
                if content.len() < *size {
                    content.resize(*size, 0);
                }
            }
        }
    }
}

impl Stored {
    pub fn flush(&mut self) {
        let size = self.synced.len();
        if size < self.content.len() {
            self.synced.extend_from_slice(&self.content[size..]);
        } else {
            self.synced.truncate(self.content.len());
        }
        for stamped in &self.changes {
            let (start, end) = stamped.change.touched();
            let end = end.min(self.content.len());
            if start < end {
                self.synced[start..end].copy_from_slice(&self.content[start..end]);
            }
        }
        self.changes.clear();
    }
}

#[derive(Default)]
pub struct Files {
    pub paths: BTreeMap<String, usize>,
    pub files: Vec<Option<Stored>>,
    pub made: u64,
    pub refusals: Vec<u64>,
    pub stop: u64,
    pub stopped: bool,
}

impl Files {
    pub fn begin(&mut self) -> Result<()> {
        if self.stopped {
            return Err(Fault::Stopped);
        }
        if self.stop > 0 {
            self.stop -= 1;
            self.stopped = self.stop == 0;
        }
        let refused = self.refusals.contains(&1);
        self.refusals.retain(|n| *n > 1);
        for n in &mut self.refusals {
            *n -= 1;
        }
        if refused || self.stopped { Err(Fault::Other) } else { Ok(()) }
    }

    pub fn create(&mut self, path: &str) -> Result<usize> {
        if self.paths.contains_key(path) {
            return Err(Fault::AlreadyExists);
        }
        self.begin()?;
        self.files.push(Some(Stored::default()));
        self.paths.insert(path.to_string(), self.files.len() - 1);
        Ok(self.files.len() - 1)
    }

    pub fn open(&self, path: &str) -> Result<usize> {
        self.paths.get(path).copied().ok_or(Fault::NotFound)
    }

    pub fn delete(&mut self, path: &str) -> Result<()> {
        let id = self.open(path)?;
        self.begin()?;
        self.paths.remove(path);
        self.files[id] = None;
        Ok(())
    }

    pub fn rename(&mut self, from: &str, to: &str) -> Result<()> {
        let id = self.open(from)?;
        self.begin()?;
        self.paths.remove(from);
        if let Some(gone) = self.paths.insert(to.to_string(), id) {
            self.files[gone] = None;
        }
        Ok(())
    }

    pub fn change(&mut self, file: usize, make: impl FnOnce() -> Change) -> Result<()> {
        if self.files[file].is_none() {
            return Err(Fault::NotFound);
        }
        self.begin()?;
        let stamp = self.made;
        self.made += 1;
        let stored = self.files[file].as_mut().ok_or(Fault::NotFound)?;
        let change = make();
        change.carry_out(&mut stored.content);
        stored.changes.push(Stamped { stamp, change });
        Ok(())
    }

    pub fn write_at(&mut self, file: usize, offset: usize, bytes: &[u8]) -> Result<()> {
        self.change(file, || Change::Write { offset, bytes: bytes.to_vec() })
    }

    pub fn truncate(&mut self, file: usize, size: usize) -> Result<()> {
        self.change(file, || Change::Shortening { size })
    }

    pub fn allocate(&mut self, file: usize, offset: usize, size: usize) -> Result<()> {
        self.change(file, || Change::Growth { size: offset + size })
    }

    pub fn sync(&mut self, file: usize) -> Result<()> {
        if self.files[file].is_none() {
            return Err(Fault::NotFound);
        }
        self.begin()?;
        self.files[file].as_mut().ok_or(Fault::NotFound)?.flush();
        Ok(())
    }

    pub fn size(&self, file: usize) -> usize {
        self.files[file].as_ref().map_or(0, |stored| stored.content.len())
    }
}

pub struct Writer {
    pub file: usize,
    pub written: usize,
    pub capacity: usize,
}

impl Writer {
    pub fn open(files: &mut Files, file: usize, header: &[u8]) -> Result<Writer> {
        let mut writer = Writer { file, written: 0, capacity: files.size(file) };
        writer.write(files, header, 0)?;
        files.sync(file)?;
        Ok(writer)
    }

    pub fn write(&mut self, files: &mut Files, bytes: &[u8], target_size: usize) -> Result<()> {
        let end = self.written + bytes.len();
        if end > self.capacity {
            let ahead = AHEAD.min(target_size.saturating_sub(self.capacity));
            let size = (end - self.capacity).max(ahead);
            let _ = files.allocate(self.file, self.capacity, size);
            self.capacity += size;
        }
        files.write_at(self.file, self.written, bytes)?;
        self.written = end;
        Ok(())
    }

    pub fn close(&mut self, files: &mut Files) -> Result<()> {
        if self.written < self.capacity {
            files.truncate(self.file, self.written)?;
            self.capacity = self.written;
        }
        files.sync(self.file)
    }
}

#[derive(Clone, Copy)]
pub struct File {
    pub seq: u64,
    pub file: usize,
}

pub struct Pipe {
    pub first: u64,
    pub earlier: VecDeque<File>,
    pub active: File,
    pub writer: Writer,
    pub recycled: VecDeque<File>,
    pub header: Vec<u8>,
    pub capacity: usize,
    pub failed: bool,
}

pub fn path_of(seq: u64) -> String {
    format!("d/{seq:016}.raftlog")
}

impl Pipe {
    pub fn begin(files: &mut Files, capacity: usize, header: Vec<u8>) -> Result<Pipe> {
        let file = files.create(&path_of(1))?;
        let writer = Writer::open(files, file, &header)?;
        Ok(Pipe {
            first: 1,
            earlier: VecDeque::new(),
            active: File { seq: 1, file },
            writer,
            recycled: VecDeque::new(),
            header,
            capacity,
            failed: false,
        })
    }

    pub fn rotate(&mut self, files: &mut Files) -> Result<()> {
        let seq = self.active.seq + 1;
        let to = path_of(seq);
        self.writer.close(files)?;
        let file = match self.recycled.front().copied() {
            Some(kept) => {
                files.rename(&path_of(kept.seq), &to)?;
                self.recycled.pop_front();
                kept.file
            }
            None => files.create(&to)?,
        };
        self.writer = Writer::open(files, file, &self.header)?;
        self.earlier.push_back(self.active);
        self.active = File { seq, file };
        Ok(())
    }

    /// Rotates where the file is full, and answers which file takes the next record.
    pub fn next_file(&mut self, files: &mut Files) -> Result<u64> {
        if self.failed {
            return Err(Fault::Stopped);
        }
        if self.writer.written >= TARGET_SIZE {
            self.rotate(files)?;
        }
        Ok(self.active.seq)
    }

    pub fn append(&mut self, files: &mut Files, bytes: &[u8]) -> Result<(u64, u64, usize)> {
        self.next_file(files)?;
        let at = self.writer.written as u64;
        if let Err(fault) = self.writer.write(files, bytes, TARGET_SIZE) {
            self.failed = self.writer.close(files).is_err();
            return Err(fault);
        }
        Ok((self.active.seq, at, bytes.len()))
    }

    pub fn sync(&mut self, files: &mut Files) -> Result<()> {
        if self.failed {
            return Err(Fault::Stopped);
        }
        files.sync(self.writer.file)
    }

    pub fn purge_to(&mut self, files: &mut Files, seq: u64) -> Result<()> {
        let remaining = (self.active.seq - seq + 1) as usize;
        let mut room = self.capacity.saturating_sub(remaining).saturating_sub(self.recycled.len());
        while self.first < seq {
            let Some(file) = self.earlier.pop_front() else { break };
            if room > 0 {
                room -= 1;
                self.recycled.push_back(file);
            } else {
                files.delete(&path_of(file.seq))?;
            }
            self.first += 1;
        }
        Ok(())
    }
}

