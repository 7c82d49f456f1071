//! The plain Rust twin of the benchmark of the shared store: the twin of the voter store behind a `Mutex`, with a queue of
//! rounds that wait and are served together, a journal of the rounds, and a receipt for each.
#![allow(dead_code)] // of what is shared some is called

#[path = "../common/batch.rs"]
mod batch;
#[path = "../common/frame.rs"]
mod frame;
#[path = "../common/outline.rs"]
mod outline;
#[path = "../common/pipe.rs"]
mod pipe;
#[path = "../common/place.rs"]
mod place;
#[path = "../common/record.rs"]
mod record;
#[path = "../common/store.rs"]
mod store;
#[path = "../common/window.rs"]
mod window;

use outline::{Reply, Request};
use record::{Error, Result};
use std::collections::VecDeque;
use std::sync::{Condvar, Mutex};
use std::thread;
use std::time::Instant;
use store::{append, matched, Store};

const GROUPS: u64 = 1_008;
const BROUGHT: u64 = 64;

/// A round of the journal.
struct Round {
    requests: Vec<(u64, Request)>,
    refused: Vec<usize>,
    replies: Vec<Reply>,
}

/// What a seat is told of a round.
struct Receipt {
    seat: u64,
    turn: u64,
    place: usize,
    requests: Vec<(u64, Request)>,
    replies: Vec<Reply>,
}

/// A round that waits: whose and which, its requests, and how many they are.
struct Job {
    seat: u64,
    turn: u64,
    requests: Vec<(u64, Request)>,
}

/// Its answer: the place and the replies.
struct Done {
    seat: u64,
    turn: u64,
    told: Result<(usize, Vec<Reply>)>,
}

/// What waits, and what was served and isn't fetched yet.
#[derive(Default)]
struct Hall {
    jobs: VecDeque<Job>,
    done: Vec<Done>,
    is_led: bool,
}

/// What the leader alone works with.
struct Desk {
    store: Store,
    journal: Vec<Round>,
    together: usize,
    calls: u64,
}

/// The most requests that are served together.
const MOST: usize = 4_096;

struct Shared {
    hall: Mutex<Hall>,
    moved: Condvar,
    desk: Mutex<Desk>,
}

fn poisoned<E>(_: E) -> Error {
    Error::EntryNotFound
}

fn fetch(done: &mut Vec<Done>, seat: u64, turn: u64) -> Option<Done> {
    let index = done.iter().position(|one| one.seat == seat && one.turn == turn)?;
    Some(done.swap_remove(index))
}

impl Hall {
    /// The rounds at the front that may be served together.
    fn next(&mut self) -> Vec<Job> {
        let (mut jobs, mut count) = (Vec::new(), 0);
        while let Some(job) = self.jobs.front() {
            count += job.requests.len();
            if count > MOST && !jobs.is_empty() {
                break;
            }
            jobs.extend(self.jobs.pop_front());
        }
        jobs
    }
}

impl Desk {
    /// Serves rounds together, and answers each.
    fn serve(&mut self, jobs: Vec<Job>) -> Vec<Done> {
        self.together = jobs.len();
        self.calls += 1;
        self.journal.reserve(jobs.len());
        let mut done = Vec::with_capacity(jobs.len());
        let (mut asked, mut counts) = (Vec::new(), Vec::with_capacity(jobs.len()));
        for mut job in jobs {
            counts.push((job.seat, job.turn, job.requests.len()));
            asked.append(&mut job.requests);
        }
        let Ok(mut replies) = self.store.serve(&asked) else {
            done.extend(counts.into_iter().map(|(seat, turn, _)| Done { seat, turn, told: Err(Error::EntryNotFound) }));
            return done;
        };
        let mut handed = replies.clone().into_iter();
        let (mut replies, mut asked) = (replies.drain(..), asked.into_iter());
        for (seat, turn, count) in counts {
            let requests: Vec<_> = asked.by_ref().take(count).collect();
            let own: Vec<Reply> = replies.by_ref().take(count).collect();
            let told: Vec<Reply> = handed.by_ref().take(count).collect();
            let refused = own.iter().enumerate().filter(|(_, reply)| matches!(reply, Reply::Refused)).map(|(place, _)| place).collect();
            let place = self.journal.len();
            self.journal.push(Round { requests, refused, replies: own });
            done.push(Done { seat, turn, told: Ok((place, told)) });
        }
        done
    }
}

impl Shared {
    fn serve(&self, seat: u64, turn: &mut u64, requests: &[(u64, Request)]) -> Result<Receipt> {
        let asked = requests.to_vec();
        let job = Job { seat, turn: *turn, requests: requests.to_vec() };
        self.hall.lock().map_err(poisoned)?.jobs.push_back(job);
        loop {
            let answer = match self.wait(seat, *turn)? {
                None => self.lead(seat, *turn)?,
                found => found,
            };
            if let Some(done) = answer {
                let (place, replies) = done.told?;
                *turn += 1;
                return Ok(Receipt { seat, turn: *turn - 1, place, requests: asked, replies });
            }
        }
    }

    fn wait(&self, seat: u64, turn: u64) -> Result<Option<Done>> {
        let is_here = |hall: &Hall| hall.done.iter().any(|one| one.seat == seat && one.turn == turn);
        let hall = self.hall.lock().map_err(poisoned)?;
        let mut hall = self.moved.wait_while(hall, |hall| hall.is_led && !is_here(hall)).map_err(poisoned)?;
        let found = fetch(&mut hall.done, seat, turn);
        hall.is_led |= found.is_none();
        Ok(found)
    }

    fn lead(&self, seat: u64, turn: u64) -> Result<Option<Done>> {
        let mut desk = self.desk.lock().map_err(poisoned)?;
        if desk.together > 1 {
            thread::yield_now();
        }
        let jobs = self.hall.lock().map_err(poisoned)?.next();
        let mut done = if jobs.is_empty() { Vec::new() } else { desk.serve(jobs) };
        let mine = fetch(&mut done, seat, turn);
        let mut hall = self.hall.lock().map_err(poisoned)?;
        hall.done.append(&mut done);
        hall.is_led = false;
        drop(hall);
        self.moved.notify_all();
        Ok(mine)
    }
}

/// What each of so many threads asks for: Appends of its groups by turns.
fn requests(threads: u64, number: u64) -> Vec<(u64, Request)> {
    let count = GROUPS / threads;
    (0..BROUGHT * count).map(|turn| (turn % count * threads + number + 1, append(turn / count, 1, turn / count))).collect()
}

fn serve_plain(store: &mut Store, requests: &[(u64, Request)], size: usize) -> Result<u64> {
    let mut check = 0;
    for round in requests.chunks(size) {
        check += matched(&store.serve(round)?);
    }
    Ok(check)
}

fn serve_part(shared: &Shared, seat: u64, requests: Vec<(u64, Request)>, size: usize) -> Result<(u64, u64)> {
    let (mut turn, mut check) = (0, 0);
    for round in requests.chunks(size) {
        let receipt = shared.serve(seat, &mut turn, round)?;
        check += matched(&receipt.replies);
    }
    Ok((turn, check))
}

fn report(work: &str, size: usize, nanos: u128, check: u64) {
    let rounds = GROUPS * BROUGHT / size as u64;
    println!("{work}-{size} {} {check}", rounds as u128 * 1_000_000_000 / nanos.max(1));
}

/// So many threads serve all rounds at one store, and as many stand in the journal then.
fn share(threads: u64, size: usize) -> Result<()> {
    let desk = Desk { store: Store::new()?, journal: Vec::new(), together: 0, calls: 0 };
    let shared = Shared { hall: Mutex::new(Hall::default()), moved: Condvar::new(), desk: Mutex::new(desk) };
    let parts: Vec<_> = (0..threads).map(|number| requests(threads, number)).collect();
    let start = Instant::now();
    let ends: Vec<Result<(u64, u64)>> = thread::scope(|scope| {
        let lent = &shared;
        let started: Vec<_> = parts.into_iter().zip(0..).map(|(part, seat)| scope.spawn(move || serve_part(lent, seat, part, size))).collect();
        started.into_iter().map(|handle| handle.join().unwrap_or(Err(Error::EntryNotFound))).collect()
    });
    let nanos = start.elapsed().as_nanos();
    let (mut turns, mut check) = (0, 0);
    for end in ends {
        let (turn, sum) = end?;
        turns += turn;
        check += sum;
    }
    let desk = shared.desk.into_inner().map_err(poisoned)?;
    assert_eq!(turns, desk.journal.len() as u64);
    report(&format!("shared-{threads}"), size, nanos, check);
    let rounds = GROUPS * BROUGHT / size as u64;
    println!("sharing-{threads}-{size} {} {rounds}", rounds * 100 / desk.calls.max(1));
    Ok(())
}

fn main() -> Result<()> {
    for size in [1, 16] {
        let requests = requests(1, 0);
        let mut store = Store::new()?;
        let start = Instant::now();
        let check = serve_plain(&mut store, &requests, size)?;
        report("plain", size, start.elapsed().as_nanos(), check);
        for threads in [1, 2, 4, 8, 16] {
            share(threads, size)?;
        }
    }
    Ok(())
}
