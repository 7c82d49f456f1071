//! A key-value store of three Raft groups over one log. Eight threads append entries; each append is one record with a
//! sync, and is printed when it is durable.
//!
//! `store DIR check FILE`: opens the log in a directory, and checks that it has what the lines of a file confirm.
//! `store DIR run COUNT`: checks what is in the log, appends COUNT entries by each thread, and closes the log.

use std::collections::BTreeMap;
use std::error::Error;
use std::io::Write;
use std::sync::Mutex;

use dafirondo::{Command, Config, Engine, LogBatch, MessageExt, RawEntries, ReadableSize};

const GROUPS: u64 = 3;
const THREADS: u64 = 8;
const APPLIED: &[u8] = b"applied";

type Fault = Box<dyn Error + Send + Sync>;

/// A group: the index of its last entry, and the store that its entries make.
#[derive(Default)]
struct Group {
    last: u64,
    store: BTreeMap<String, u64>,
}

/// The entry that sets a key.
fn encode(index: u64, key: &str, value: u64) -> Vec<u8> {
    format!("{index} {key} {value}").into_bytes()
}

/// What an entry sets. Fails if the entry isn't that of this index.
fn decode(index: u64, entry: &[u8]) -> Result<(String, u64), Fault> {
    let text = std::str::from_utf8(entry)?;
    let words: Vec<&str> = text.split(' ').collect();
    match words[..] {
        [at, key, value] if at.parse::<u64>()? == index => Ok((key.to_string(), value.parse()?)),
        _ => Err(format!("entry {index} is {text:?}").into()),
    }
}

/// Reads a group back: all entries are there, from the first that wasn't compacted on, and none is another's.
fn load(engine: &Engine, id: u64) -> Result<Group, Fault> {
    let mut group = Group::default();
    let first = engine.first_index(id)?.unwrap_or(1);
    group.last = engine.last_index(id)?.unwrap_or(0);
    let mut entries: Vec<<RawEntries as MessageExt>::Entry> = Vec::new();
    let mut next = first;
    while next <= group.last {
        next += engine.fetch_entries_to::<RawEntries>(id, next, group.last + 1, Some(4096), &mut entries)? as u64;
    }
    for (index, entry) in (first..).zip(&entries) {
        let (key, value) = decode(index, entry)?;
        group.store.insert(key, value);
    }
    match engine.get(id, APPLIED)? {
        Some(applied) if applied != group.last.to_le_bytes() => Err(format!("group {id}: another last index").into()),
        None if group.last > 0 => Err(format!("group {id}: no last index").into()),
        _ => Ok(group),
    }
}

/// Appends one entry, with the group's last index under a key, and prints it when it is durable. A group takes one entry at
/// a time, and groups share syncs.
fn append(engine: &Engine, id: u64, group: &Mutex<Group>, thread: u64, number: u64) -> Result<(), Fault> {
    let mut group = group.lock().map_err(|_| "a thread failed")?;
    let index = group.last + 1;
    let key = format!("key{}", (thread * 31 + number) % 16);
    let mut batch = LogBatch::default();
    batch.add_raw_entries(id, index, &[encode(index, &key, number)])?;
    batch.put(id, APPLIED.to_vec(), index.to_le_bytes().to_vec())?;
    if index % 64 == 0 {
        batch.add_command(id, Command::Compact { index: index - 32 });
    }
    engine.write(&mut batch, true)?;
    group.last = index;
    group.store.insert(key, number);
    let line = format!("{id} {index}\n");
    std::io::stdout().write_all(line.as_bytes())?;
    Ok(())
}

/// Appends by each thread to all groups in turn, and purges.
fn run(engine: &Engine, groups: &[Mutex<Group>], count: u64) -> Result<(), Fault> {
    std::thread::scope(|scope| {
        let threads: Vec<_> = (0..THREADS)
            .map(|thread| {
                scope.spawn(move || {
                    for number in 0..count {
                        let id = (thread + number) % GROUPS;
                        append(engine, id + 1, &groups[id as usize], thread, number)?;
                        if thread == 0 && number % 50 == 49 {
                            engine.purge_expired_files()?;
                        }
                    }
                    Ok(())
                })
            })
            .collect();
        threads.into_iter().try_for_each(|thread| thread.join().map_err(|_| Fault::from("a thread failed"))?)
    })
}

/// Checks that the groups have all that the lines confirm.
fn check(groups: &[Mutex<Group>], lines: &str) -> Result<(), Fault> {
    let whole = lines.rfind('\n').map_or("", |end| &lines[..end]);
    for line in whole.lines() {
        let Some((id, index)) = line.split_once(' ') else {
            return Err(format!("no confirmation: {line:?}").into());
        };
        let group = groups[id.parse::<usize>()? - 1].lock().map_err(|_| "a thread failed")?;
        if group.last < index.parse()? {
            return Err(format!("group {id}: entry {index} was confirmed and is lost; the last is {}", group.last).into());
        }
    }
    Ok(())
}

fn main() -> Result<(), Fault> {
    let args: Vec<String> = std::env::args().collect();
    let [_, dir, task, word] = &args[..] else {
        return Err("usage: store DIR run COUNT | store DIR check FILE".into());
    };
    let engine = Engine::open(Config {
        dir: dir.clone(),
        target_file_size: ReadableSize::kb(64),
        purge_threshold: ReadableSize::kb(256),
        ..Config::default()
    })?;
    let groups: Vec<Mutex<Group>> =
        (1..=GROUPS).map(|id| load(&engine, id).map(Mutex::new)).collect::<Result<_, _>>()?;
    match task.as_str() {
        "run" => run(&engine, &groups, word.parse()?)?,
        "check" => check(&groups, &std::fs::read_to_string(word)?)?,
        _ => return Err(format!("no task: {task}").into()),
    }
    engine.close()?;
    Ok(())
}
