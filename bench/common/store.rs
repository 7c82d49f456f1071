//! What the plain Rust twins of the voter store and of the shared store have: a map of outlines over a pipe of records, a
//! file system in memory and tables of vectors.
#![allow(dead_code)] // a twin takes some of it

use crate::batch::Batch;
use crate::outline::{Answer, Change, Decision, Outline, Reply, Request, VoterState, Write};
use crate::pipe::{Files, Pipe};
use crate::place::Place;
use crate::record::{Content, EntryIndex, Error, FileBlockHandle, FileId, Item, KeyValue, LogQueue, OpType, Result, HEADER};
use crate::window::MAGIC;
use std::collections::{BTreeMap, HashMap, VecDeque};

/// Where a group's entries lie, and its state.
#[derive(Default)]
pub struct Table {
    pub first: u64,
    pub places: VecDeque<Place>,
    pub state: Vec<u8>,
}

impl Table {
    /// Makes room for a run that starts no later than the index after the last.
    fn prepare(&mut self, entries: &[EntryIndex]) -> Result<()> {
        let Some(front) = entries.first() else { return Ok(()) };
        if !self.places.is_empty() && self.first + (self.places.len() as u64) < front.index {
            return Err(Error::Corruption("a hole".to_string()));
        }
        self.places.try_reserve(entries.len()).map_err(|_| Error::Full)
    }

    fn append(&mut self, entries: &[EntryIndex], block: FileBlockHandle) {
        let Some(front) = entries.first() else { return };
        if self.first >= front.index || self.places.is_empty() {
            self.first = front.index;
        }
        self.places.truncate((front.index - self.first) as usize);
        self.places.extend(entries.iter().map(|entry| Place {
            file: block.id.seq,
            offset: block.offset,
            len: block.len,
            entry_offset: entry.entry_offset,
            entry_len: entry.entry_len,
        }));
    }
}

pub type Tables = HashMap<u64, Table>;

pub fn refused<E: std::fmt::Debug>(error: E) -> Error {
    Error::Corruption(format!("{error:?}"))
}

/// What items say goes into the tables.
pub fn commit(tables: &mut Tables, items: Vec<Item>, block: FileBlockHandle) -> Result<()> {
    for item in items {
        let table = tables.entry(item.group).or_default();
        match item.content {
            Content::Entries(entries) => {
                table.prepare(&entries)?;
                table.append(&entries, block);
            }
            Content::KeyValue(KeyValue { value: Some(value), .. }) => table.state = value,
            _ => {}
        }
    }
    Ok(())
}

pub struct Store {
    files: Files,
    pipe: Pipe,
    tables: Tables,
    outlines: BTreeMap<u64, Outline>,
}

fn header_of() -> Vec<u8> {
    let mut bytes = MAGIC.to_vec();
    bytes.extend_from_slice(&2u64.to_be_bytes());
    bytes.extend_from_slice(&0u64.to_be_bytes());
    bytes
}

fn state_bytes(state: &VoterState) -> Vec<u8> {
    let mut bytes = vec![2];
    bytes.extend_from_slice(&state.term.to_be_bytes());
    bytes.push(u8::from(state.vote.is_some()));
    for number in [state.vote.unwrap_or(0), state.base_index, state.base_term, state.commit] {
        bytes.extend_from_slice(&number.to_be_bytes());
    }
    bytes
}

fn entry_bytes(index: u64, term: u64, own: &[u8]) -> Vec<u8> {
    let mut bytes = Vec::with_capacity(own.len() + 17);
    bytes.push(1);
    bytes.extend_from_slice(&index.to_be_bytes());
    bytes.extend_from_slice(&term.to_be_bytes());
    bytes.extend_from_slice(own);
    bytes
}

/// What is written of a change: the entries that go in, and the state.
fn fill(batch: &mut Batch, group: u64, change: &Change, request: &Request) -> Result<()> {
    if let (Write::Entries { skipped, index }, Request::Append { entries, .. }) = (change.write, request) {
        let brought: Vec<Vec<u8>> = entries[skipped..].iter().zip(index..).map(|((term, own), at)| entry_bytes(at, *term, own)).collect();
        let indexes = brought.iter().zip(index..).map(|(entry, at)| EntryIndex::new(at, entry.len() as u32)).collect();
        batch.add(group, indexes, &brought)?;
    }
    let put = KeyValue { op_type: OpType::Put, key: b"voter".to_vec(), value: Some(state_bytes(&change.state)), file_id: None };
    batch.items.push(Item { group, content: Content::KeyValue(put) });
    Ok(())
}

impl Store {
    pub fn new() -> Result<Store> {
        let mut files = Files::default();
        let pipe = Pipe::begin(&mut files, 0, header_of()).map_err(refused)?;
        Ok(Store { files, pipe, tables: Tables::new(), outlines: BTreeMap::new() })
    }

    fn append(&mut self, batch: &mut Batch) -> Result<()> {
        batch.populate()?;
        for item in &batch.items {
            if let Content::Entries(entries) = &item.content {
                self.tables.entry(item.group).or_default().prepare(entries)?;
            }
        }
        let seq = self.pipe.next_file(&mut self.files).map_err(refused)?;
        batch.sign(Some(seq as u32));
        let (seq, at, _) = self.pipe.append(&mut self.files, &batch.buf).map_err(refused)?;
        let block = batch.buf.len().min(HEADER + batch.entries_len + 4) - HEADER;
        let id = FileId { queue: LogQueue::Append, seq };
        commit(&mut self.tables, std::mem::take(&mut batch.items), FileBlockHandle { id, offset: at + HEADER as u64, len: block })
    }

    fn take(&mut self, group: u64, request: &Request, wrote: &mut bool) -> Result<Reply> {
        let fresh = Outline::new();
        let Decision { answer, change } = self.outlines.get(&group).unwrap_or(&fresh).decide(request);
        if let Some(change) = change {
            let mut batch = Batch::new();
            fill(&mut batch, group, &change, request)?;
            self.outlines.entry(group).or_insert(fresh).reserve(&change, request);
            self.append(&mut batch)?;
            if let Some(outline) = self.outlines.get_mut(&group) {
                outline.apply(&change, request);
            }
            *wrote = true;
        }
        match answer {
            Answer::Told(reply) => Ok(reply),
            Answer::Entries { .. } => Err(Error::EntryNotFound),
        }
    }

    /// Takes a round, and syncs it where something was written.
    pub fn serve(&mut self, round: &[(u64, Request)]) -> Result<Vec<Reply>> {
        let mut replies = Vec::with_capacity(round.len());
        let mut wrote = false;
        for (group, request) in round {
            replies.push(self.take(*group, request, &mut wrote)?);
        }
        if wrote {
            self.pipe.sync(&mut self.files).map_err(refused)?;
        }
        Ok(replies)
    }

    pub fn close(mut self) -> Result<Files> {
        self.pipe.writer.close(&mut self.files).map_err(refused)?;
        Ok(self.files)
    }
}

/// An Append of term 1 behind this index, with so many entries of 16 bytes, all before it committed.
pub fn append(prev_index: u64, count: u64, commit: u64) -> Request {
    let entries = (0..count).map(|_| (1, vec![7; 16])).collect();
    Request::Append { term: 1, prev_index, prev_term: prev_index.min(1), commit, entries }
}

/// The sum of the indexes up to which logs match.
pub fn matched(replies: &[Reply]) -> u64 {
    replies.iter().map(|reply| if let Reply::Matched(index) = reply { *index } else { 0 }).sum()
}
