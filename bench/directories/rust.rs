// The plainest programs that there are, by the words of the other program. Appends: the same entries' bytes and 64 more a batch,
// behind each other into a file whose blocks were written before, a data sync a batch. An open: the bytes of the files of the log
// that the other program filled, read whole into memory that is kept, by one thread or by several, each one file after another.
use std::fs::{self, OpenOptions};
use std::os::unix::fs::FileExt;
use std::path::PathBuf;
use std::sync::atomic::{AtomicUsize, Ordering};
use std::time::Instant;

const MORE: usize = 64;

// The file is filled by pieces as long as those of the other program's files (`PIECE` of `FileDevice`). What a longer write leaves
// in the system's memory may be one long piece there: each short write into it, and each sync behind it, goes over all of it.
const PIECE: usize = 1 << 16;

fn report(work: &str, bytes: u64, start: Instant, check: u64) {
    println!("{work} {} {check}", bytes as u128 * 1_000_000 / start.elapsed().as_nanos().max(1));
}

// How many entries the batch of a number has.
fn entries_of(number: u64, given: u64) -> u64 {
    if given == 0 { number % 16 + 1 } else { given }
}

fn append(size: usize, batches: u64, given: u64) {
    let file = OpenOptions::new().write(true).create(true).truncate(true).open("plain").unwrap();
    let all: u64 = (0..batches).map(|number| entries_of(number, given) * size as u64 + MORE as u64).sum();
    for at in (0..all).step_by(PIECE) {
        file.write_all_at(&[0; PIECE], at).unwrap();
    }
    file.sync_all().unwrap();
    let bytes = vec![7u8; given.max(16) as usize * size + MORE];
    let start = Instant::now();
    let (mut at, mut written) = (0, 0);
    for number in 0..batches {
        let len = entries_of(number, given) as usize * size;
        file.write_all_at(&bytes[..len + MORE], at).unwrap();
        file.sync_data().unwrap();
        at += (len + MORE) as u64;
        written += len as u64;
    }
    report("append", written, start, written);
}

fn read_by(threads: usize, paths: &[PathBuf]) -> Vec<Vec<u8>> {
    let next = AtomicUsize::new(0);
    std::thread::scope(|scope| {
        let reader = || {
            let mut kept = Vec::new();
            while let Some(path) = paths.get(next.fetch_add(1, Ordering::Relaxed)) {
                kept.push(fs::read(path).unwrap());
            }
            kept
        };
        let readers: Vec<_> = (0..threads).map(|_| scope.spawn(reader)).collect();
        readers.into_iter().flat_map(|reader| reader.join().unwrap()).collect()
    })
}

fn open(size: u64, batches: u64, threads: usize) {
    let bytes = (0..batches).map(|number| (number % 16 + 1) * size).sum();
    // (group 1 has the batches whose number is a multiple of 100)
    let last = (0..batches).step_by(100).map(|number| number % 16 + 1).sum();
    let mut paths: Vec<PathBuf> = fs::read_dir("log").unwrap().map(|entry| entry.unwrap().path()).collect();
    paths.sort();
    let start = Instant::now();
    let kept = read_by(threads, &paths);
    report("open", bytes, start, last);
    drop(kept);
}

fn main() {
    let words: Vec<String> = std::env::args().skip(1).collect();
    let number = |place: usize| words[place].parse::<u64>().unwrap();
    match words[0].as_str() {
        "open" => open(number(1), number(2), number(4) as usize),
        _ => append(number(1) as usize, number(2), words.get(3).map_or(0, |word| word.parse().unwrap())),
    }
}
