//! The plain Rust twin of the benchmark of pipes: the same pipe over the same file system in memory, of vectors.
#[allow(dead_code)]
#[path = "../common/frame.rs"]
mod frame;
#[path = "../common/pipe.rs"]
mod pipe;

use pipe::{Files, Pipe, Result, AHEAD, TARGET_SIZE};
use std::time::Instant;

const TOTAL: u64 = 1_000_000_000;
const AROUND: usize = 34;

fn records_of(size: usize) -> Vec<Vec<u8>> {
    (1..17).map(|count| vec![7u8; count * size + AROUND]).collect()
}

fn write_all(records: &[Vec<u8>], capacity: usize) -> Result<u64> {
    let mut files = Files::default();
    let mut pipe = Pipe::begin(&mut files, capacity, vec![1u8; 69])?;
    let (mut written, mut check) = (0u64, 0u64);
    while written < TOTAL {
        for record in records {
            let (seq, at, len) = pipe.append(&mut files, record)?;
            pipe.sync(&mut files)?;
            written += len as u64;
            check = check.wrapping_mul(31).wrapping_add(at).wrapping_add(seq);
            if pipe.active.seq - pipe.first > 1 {
                pipe.purge_to(&mut files, pipe.active.seq - 1)?;
            }
        }
    }
    Ok(check)
}

fn write_files(records: &[Vec<u8>]) -> Result<u64> {
    let mut files = Files::default();
    let file = files.create("d/file")?;
    let (mut written, mut check) = (0u64, 0u64);
    let (mut at, mut reach) = (69usize, 69usize);
    while written < TOTAL {
        for bytes in records {
            let end = at + bytes.len();
            if end > reach {
                let ahead = AHEAD.min(TARGET_SIZE.saturating_sub(reach)).max(end - reach);
                files.allocate(file, reach, ahead)?;
                reach += ahead;
            }
            files.write_at(file, at, bytes)?;
            files.sync(file)?;
            check = check.wrapping_mul(31).wrapping_add(at as u64);
            written += bytes.len() as u64;
            at = if end >= TARGET_SIZE { 69 } else { end };
        }
    }
    Ok(check)
}

fn main() -> Result<()> {
    for size in [128, 4096] {
        let records = records_of(size);
        for capacity in [0, 4] {
            let start = Instant::now();
            let check = write_all(&records, capacity)?;
            frame::report(&format!("append-{size}-{capacity}"), TOTAL, start, check);
        }
        let start = Instant::now();
        let check = write_files(&records)?;
        frame::report(&format!("files-{size}-0"), TOTAL, start, check);
    }
    Ok(())
}
