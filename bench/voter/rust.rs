//! The plain Rust twin of the benchmark of decisions: the same types, and the same rules for an Append, over the same runs of
//! terms.
#[path = "../common/outline.rs"]
mod outline;

use outline::{Answer, Decision, Outline, Reply, Request};
use std::time::Instant;

const GROUPS: u64 = 1_000;
const ROUNDS: u64 = 1_000;

fn take(outline: &mut Outline, request: &Request) -> u64 {
    let Decision { answer, change } = outline.decide(request);
    if let Some(change) = change {
        outline.reserve(&change, request);
        outline.apply(&change, request);
    }
    match answer {
        Answer::Told(Reply::Matched(index)) => index,
        _ => 0,
    }
}

fn append(prev_index: u64, count: u64) -> Request {
    let entries = (0..count).map(|_| (1, vec![7; 16])).collect();
    Request::Append { term: 1, prev_index, prev_term: prev_index.min(1), commit: prev_index, entries }
}

fn take_all(outlines: &mut [Outline], request: &Request) -> u64 {
    outlines.iter_mut().fold(0, |check, outline| check.wrapping_add(take(outline, request)))
}

fn report(work: &str, start: Instant, check: u64) {
    let nanos = start.elapsed().as_nanos().max(1);
    println!("{work} {} {check}", (GROUPS * ROUNDS) as u128 * 1_000_000 / nanos);
}

fn main() {
    let mut outlines: Vec<Outline> = (0..GROUPS).map(|_| Outline::new()).collect();
    let start = Instant::now();
    let check = (0..ROUNDS).fold(0u64, |check, round| check.wrapping_add(take_all(&mut outlines, &append(round, 1))));
    report("one-entry-append", start, check);
    let start = Instant::now();
    let heartbeat = append(ROUNDS, 0);
    let check = (0..ROUNDS).fold(0u64, |check, _| check.wrapping_add(take_all(&mut outlines, &heartbeat)));
    report("heartbeat", start, check);
}
