//! The plain Rust twin of the benchmark of batches: the same format, with the same types, states, checks and refusals.
#[path = "../common/batch.rs"]
mod batch;
#[path = "../common/frame.rs"]
mod frame;
#[path = "../common/record.rs"]
mod record;

use batch::Batch;
use frame::{next, report};
use record::{read_block, read_footer, read_header, Content, EntryIndex, FileBlockHandle, FileId, Item, LogQueue, Result, HEADER};
use std::time::Instant;

const SIGNATURE: Option<u32> = Some(7);
const FILE: FileId = FileId { queue: LogQueue::Append, seq: 7 };

/// Empties the batch, fills it, makes its record and signs it.
fn encode(batch: &mut Batch, old: &mut Vec<Item>, first: u64, entries: &[Vec<u8>]) -> Result<usize> {
    batch.drain(old);
    old.clear();
    let mut indexes = Vec::with_capacity(entries.len());
    for i in 0..entries.len() as u64 {
        indexes.push(EntryIndex::new(first + i, 0));
    }
    batch.add(1, indexes, entries)?;
    let len = batch.populate()?;
    batch.sign(SIGNATURE);
    Ok(len)
}

/// Fills and signs the batch that often, and answers how many bytes were made, and the sum of the records' last bytes.
fn encoded_often(batch: &mut Batch, rounds: u64, entries: &[Vec<u8>]) -> Result<(u64, u64)> {
    let mut old = Vec::new();
    let mut written = 0u64;
    let mut check = 0u64;
    for round in 0..rounds {
        written += encode(batch, &mut old, round + 1, entries)? as u64;
        check += *batch.buf.last().unwrap() as u64;
    }
    Ok((written, check))
}

/// The record of the entries.
fn record_of(batch: &mut Batch, entries: &[Vec<u8>]) -> Result<Vec<u8>> {
    encode(batch, &mut Vec::new(), 1, entries)?;
    Ok(batch.buf.clone())
}

/// Reads a record with the places of its entries, and answers the sum of its lengths, of its entries' first index, and of
/// its last entry's place.
fn decode(record: &[u8]) -> Result<u64> {
    let mut source = record;
    let (offset, compression, len) = read_header(&mut source)?;
    let mut check = 0;
    if HEADER <= offset && offset <= len && len <= record.len() {
        let block = &record[HEADER..offset];
        let entries = read_block(block, compression)?;
        let place = FileBlockHandle { id: FILE, offset: HEADER as u64, len: block.len() };
        let items = read_footer(&record[offset..len], place, SIGNATURE)?;
        check = items.len() as u64 + entries.len() as u64;
        if let Some(Content::Entries(entries)) = items.first().map(|item| &item.content) {
            check += entries.first().map_or(0, |first| first.index);
            if let Some(last) = entries.last() {
                check += last.entry_offset as u64 + last.entries.map_or(0, |block| block.offset);
            }
        }
    }
    Ok(check)
}

/// Reads the record that often. Another byte stands behind it in each round, so that no round is left out.
fn decoded_often(record: &mut [u8], rounds: u64) -> Result<u64> {
    let mut check = 0u64;
    for _ in 0..rounds {
        check = check.wrapping_add(decode(record)?);
        if let Some(last) = record.last_mut() {
            *last = last.wrapping_add(1);
        }
    }
    Ok(check)
}

fn main() -> Result<()> {
    // How many bytes each work takes in all.
    const TOTAL: usize = 128 << 20;
    let mut state = 88172645463325252u64;
    let mut batch = Batch::new();
    for (count, size) in [(1, 128), (16, 128), (256, 128), (1, 4096), (16, 4096), (256, 4096)] {
        let mut entries = Vec::with_capacity(count);
        for _ in 0..count {
            let mut entry = Vec::with_capacity(size);
            for _ in 0..size {
                state = next(state);
                entry.push(state as u8);
            }
            entries.push(entry);
        }
        let rounds = (TOTAL / (size * count)) as u64;
        let start = Instant::now();
        let (written, check) = encoded_often(&mut batch, rounds, &entries)?;
        report(&format!("encode-{count}x{size}"), written, start, check);

        let mut record = record_of(&mut batch, &entries)?;
        record.push(0);
        let start = Instant::now();
        let check = decoded_often(&mut record, rounds)?;
        report(&format!("decode-{count}x{size}"), (record.len() as u64 - 1) * rounds, start, check);
    }
    Ok(())
}
