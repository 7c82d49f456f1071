//! Measures a log in a directory. Each line has the work and a number: `append-1` and `append-8` are appends a second, each
//! with a sync, by one and by eight threads; `get` is the nanoseconds of a read of a small key. The best of some rounds.

use std::time::{Duration, Instant};

use dafirondo::{Config, Engine, LogBatch, Result};

const ROUNDS: usize = 3;
const SECONDS: u64 = 2;
const READS: u32 = 1_000_000;

/// Appends entries of 100 bytes to a group, with a sync each, for some seconds. Returns how many.
fn append(engine: &Engine, group: u64) -> Result<u64> {
    let (start, mut count) = (Instant::now(), 0);
    let mut next = engine.last_index(group)?.unwrap_or(0) + 1;
    while start.elapsed() < Duration::from_secs(SECONDS) {
        let mut batch = LogBatch::default();
        batch.add_raw_entries(group, next, &[vec![7; 100]])?;
        engine.write(&mut batch, true)?;
        next += 1;
        count += 1;
    }
    Ok(count)
}

/// Appends by so many threads, each to its own group. Returns how many entries a second.
fn rate(engine: &Engine, threads: u64) -> Result<u64> {
    let counts: Result<Vec<u64>> = std::thread::scope(|scope| {
        let running: Vec<_> = (1..=threads).map(|group| scope.spawn(move || append(engine, group))).collect();
        running.into_iter().map(|thread| thread.join().expect("a thread panicked")).collect()
    });
    Ok(counts?.iter().sum::<u64>() / SECONDS)
}

/// Reads a key many times. Returns the nanoseconds of one read.
fn read(engine: &Engine) -> Result<u128> {
    let start = Instant::now();
    for _ in 0..READS {
        assert_eq!(engine.get(1, b"key")?.map(|value| value.len()), Some(20));
    }
    Ok(start.elapsed().as_nanos() / u128::from(READS))
}

fn main() -> Result<()> {
    let dir = std::env::args().nth(1).expect("one argument: the directory");
    let engine = Engine::open(Config { dir, ..Config::default() })?;
    let mut batch = LogBatch::default();
    batch.put(1, b"key".to_vec(), vec![7; 20])?;
    engine.write(&mut batch, true)?;
    let (mut appends, mut get) = ([0; 2], u128::MAX);
    for _ in 0..ROUNDS {
        get = get.min(read(&engine)?);
        for (best, threads) in appends.iter_mut().zip([1, 8]) {
            *best = rate(&engine, threads)?.max(*best);
        }
    }
    println!("append-1 {}\nappend-8 {}\nget {get}", appends[0], appends[1]);
    engine.close()
}
