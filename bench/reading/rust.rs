//! The plain Rust twin of the benchmark of reading: a loop over the same bytes, read in the same pieces into one buffer that
//! is kept, which checks the same checksums, makes items of the same kinds, and refuses with the same texts.
#[path = "../common/frame.rs"]
mod frame;
#[path = "../common/record.rs"]
mod record;
#[path = "../common/window.rs"]
mod window;

use frame::{append_var_u64, crc32, next, report};
use record::{Result, HEADER};
use window::{check_block, next_batch, open, Window, MAGIC};
use std::collections::BTreeMap;
use std::time::Instant;

const TOTAL: usize = 4 << 20;

fn header_of() -> Vec<u8> {
    let mut bytes = MAGIC.to_vec();
    bytes.extend_from_slice(&1u64.to_be_bytes());
    bytes
}

fn record_of(count: usize, entry: &[u8]) -> Vec<u8> {
    let mut record = vec![0; HEADER];
    for _ in 0..count {
        record.extend_from_slice(entry);
    }
    let checksum = crc32(&record[HEADER..]);
    record.extend_from_slice(&checksum.to_le_bytes());
    let footer = record.len();
    append_var_u64(&mut record, 1);
    append_var_u64(&mut record, 1);
    record.push(1);
    append_var_u64(&mut record, count as u64);
    append_var_u64(&mut record, 1);
    for _ in 0..count {
        append_var_u64(&mut record, entry.len() as u64);
    }
    let checksum = crc32(&record[footer..]);
    record.extend_from_slice(&checksum.to_le_bytes());
    let len = record.len() as u64;
    record[..8].copy_from_slice(&(256 * len).to_be_bytes());
    record[8..16].copy_from_slice(&(footer as u64).to_be_bytes());
    record
}

fn entry_of(size: usize) -> Vec<u8> {
    let mut state: u64 = 88172645463325252;
    (0..size)
        .map(|_| {
            state = next(state);
            state as u8
        })
        .collect()
}

fn end_of(file: &[u8], read_block_size: usize, whole: bool) -> Result<usize> {
    let mut window = Window { bytes: Vec::new(), start: 0, block: read_block_size };
    let (open, mut at) = open(&mut window, file, 1)?;
    while let Some((_items, block, end)) = next_batch(&mut window, file, &open, at)? {
        at = end;
        if whole {
            check_block(&mut window, file, block)?;
        }
    }
    Ok(at)
}

/// The sum of the groups of the items of all files of a directory.
fn scanned(names: &BTreeMap<String, usize>, files: &[Vec<u8>]) -> Result<u64> {
    let mut found: Vec<(u64, String)> = Vec::new();
    for path in names.keys() {
        let name = &path[path.rfind('/').unwrap() + 1..];
        if name.len() > 16 && name.ends_with(".raftlog") {
            if let Ok(seq) = name[..16].parse::<u64>() {
                found.push((seq, format!("d/{name}")));
            }
        }
    }
    found.sort_by_key(|(seq, _)| *seq);
    let mut window = Window { bytes: Vec::new(), start: 0, block: 65_536 };
    let mut sum = 0;
    for (seq, path) in found {
        let file = &files[names[&path]];
        let (open, mut at) = open(&mut window, file, seq)?;
        while let Some((items, _block, end)) = next_batch(&mut window, file, &open, at)? {
            at = end;
            for item in items {
                sum += item.group;
            }
        }
    }
    Ok(sum)
}

fn main() {
    for (name, count, size) in [("1x128", 1, 128), ("16x1024", 16, 1_024), ("1x65536", 1, 65_536)] {
        let record = record_of(count, &entry_of(size));
        let mut file = header_of();
        for _ in 0..TOTAL / (size * count) {
            file.extend_from_slice(&record);
        }
        let start = Instant::now();
        let end = end_of(&file, 16_384, false).unwrap();
        report(&format!("footers-{name}"), file.len() as u64, start, end as u64);
        let start = Instant::now();
        let end = end_of(&file, 65_536, true).unwrap();
        report(&format!("blocks-{name}"), file.len() as u64, start, end as u64);
    }
    let record = record_of(1, &entry_of(128));
    for (name, count) in [("files-1000", 1_000), ("files-10000", 10_000)] {
        let mut names = BTreeMap::new();
        let mut files = Vec::new();
        for i in 0..count {
            let mut file = header_of();
            file.extend_from_slice(&record);
            names.insert(format!("d/{:016}.raftlog", i + 1), files.len());
            files.push(file);
        }
        let bytes = files.iter().map(|file| file.len() as u64).sum();
        let start = Instant::now();
        let sum = scanned(&names, &files).unwrap();
        report(name, bytes, start, sum);
    }
}
