//! What the plain Rust twins of decisions and of the voter store share: requests, replies, and an outline that decides an
//! Append by the same rules as the crate's, over the same runs of terms.
#![allow(dead_code)] // a twin takes some of it

const BOUND: u64 = 1 << 63;

#[derive(Clone)]
pub enum Request {
    Vote { term: u64, candidate: u64, last_index: u64, last_term: u64 },
    Append { term: u64, prev_index: u64, prev_term: u64, commit: u64, entries: Vec<(u64, Vec<u8>)> },
    Compact { index: u64 },
    Install { term: u64, index: u64, entry_term: u64 },
    Read { from: u64, to: u64 },
    Status,
    Retire,
}

fn fits(number: u64) -> bool {
    number < BOUND
}

fn entries_fit(prev_index: u64, entries: &[(u64, Vec<u8>)]) -> bool {
    entries.len() <= 1024
        && fits(prev_index)
        && entries.iter().all(|(term, bytes)| fits(*term) && bytes.len() <= 65_535)
        && fits(prev_index + entries.len() as u64)
        && entries.iter().map(|(_, bytes)| bytes.len()).sum::<usize>() <= 1_048_576
}

impl Request {
    pub fn in_range(&self) -> bool {
        match self {
            Request::Append { term, prev_index, prev_term, commit, entries } => {
                [*term, *prev_term, *commit].into_iter().all(fits) && entries_fit(*prev_index, entries)
            }
            _ => true,
        }
    }
}

#[derive(Clone)]
pub struct Entry {
    pub index: u64,
    pub term: u64,
    pub bytes: Vec<u8>,
}

#[derive(Clone, Copy, PartialEq, Eq)]
pub struct VoterState {
    pub term: u64,
    pub vote: Option<u64>,
    pub base_index: u64,
    pub base_term: u64,
    pub last_index: u64,
    pub last_term: u64,
    pub commit: u64,
}

#[derive(Clone)]
pub enum Reply {
    Granted(u64),
    Denied(u64),
    Matched(u64),
    Mismatch(u64),
    Stale(u64),
    Base(u64),
    Entries(Vec<Entry>),
    Gone(u64),
    Unknown(u64),
    Status(VoterState),
    Retired,
    Refused,
}

pub enum Answer {
    Told(Reply),
    Entries { from: u64, to: u64 },
}

#[derive(Clone, Copy)]
pub enum Write {
    StateAlone,
    Entries { skipped: usize, index: u64 },
    CompactTo { index: u64 },
    Clean,
}

#[derive(Clone, Copy)]
pub struct Change {
    pub state: VoterState,
    pub write: Write,
}

pub struct Decision {
    pub answer: Answer,
    pub change: Option<Change>,
}

struct Plan {
    reply: Reply,
    state: VoterState,
    write: Write,
}

#[derive(Clone, Copy)]
pub struct Run {
    pub last: u64,
    pub term: u64,
}

pub struct Outline {
    pub term: u64,
    pub vote: Option<u64>,
    pub base_term: u64,
    pub commit: u64,
    pub base: u64,
    pub runs: Vec<Run>,
}

fn state_alone(reply: Reply, state: VoterState) -> Plan {
    Plan { reply, state, write: Write::StateAlone }
}

impl Outline {
    pub fn new() -> Outline {
        Outline { term: 0, vote: None, base_term: 0, commit: 0, base: 0, runs: Vec::new() }
    }

    /// An outline without entries, of this term and this base.
    pub fn at_base(term: u64, base: u64, base_term: u64) -> Outline {
        Outline { term, base_term, base, ..Outline::new() }
    }

    /// One more entry stands behind the last.
    pub fn push(&mut self, term: u64) {
        let last = self.last_index() + 1;
        match self.runs.last_mut() {
            Some(run) if run.term == term => run.last = last,
            _ => self.runs.push(Run { last, term }),
        }
    }

    fn stored_state(&self) -> VoterState {
        VoterState {
            term: self.term,
            vote: self.vote,
            base_index: self.base,
            base_term: self.base_term,
            last_index: self.base,
            last_term: self.base_term,
            commit: self.commit,
        }
    }

    pub fn last_index(&self) -> u64 {
        self.runs.last().map_or(self.base, |run| run.last)
    }

    fn run_term(&self, index: u64) -> Option<u64> {
        let place = self.runs.partition_point(|run| run.last < index);
        self.runs.get(place).map(|run| run.term)
    }

    fn term_at(&self, index: u64) -> Option<u64> {
        if index == self.base {
            return Some(self.base_term);
        }
        if index < self.base {
            return None;
        }
        self.run_term(index)
    }

    fn settle(&self, plan: Plan) -> Decision {
        let stays = matches!(plan.write, Write::StateAlone) && plan.state == self.stored_state();
        let Plan { reply, state, write } = plan;
        let change = if stays { None } else { Some(Change { state, write }) };
        Decision { answer: Answer::Told(reply), change }
    }

    fn append(&self, term: u64, prev_index: u64, prev_term: u64, commit: u64, entries: &[(u64, Vec<u8>)]) -> Plan {
        let mut state = self.stored_state();
        if term < state.term {
            return state_alone(Reply::Stale(state.term), state);
        }
        if state.term < term {
            state = VoterState { term, vote: None, ..state };
        }
        if prev_index < state.base_index {
            return state_alone(Reply::Base(state.base_index), state);
        }
        if self.term_at(prev_index) != Some(prev_term) {
            let below = prev_index.saturating_sub(1);
            return state_alone(Reply::Mismatch(self.last_index().min(below)), state);
        }
        let last = prev_index + entries.len() as u64;
        let commit = state.commit.max(commit.min(last));
        let mut skipped = 0;
        while skipped < entries.len() && self.run_term(prev_index + 1 + skipped as u64) == Some(entries[skipped].0) {
            skipped += 1;
        }
        let write = if skipped == entries.len() {
            Write::StateAlone
        } else {
            Write::Entries { skipped, index: prev_index + 1 + skipped as u64 }
        };
        Plan { reply: Reply::Matched(last), state: VoterState { commit, ..state }, write }
    }

    pub fn decide(&self, request: &Request) -> Decision {
        if !request.in_range() {
            return Decision { answer: Answer::Told(Reply::Refused), change: None };
        }
        match request {
            Request::Append { term, prev_index, prev_term, commit, entries } => {
                self.settle(self.append(*term, *prev_index, *prev_term, *commit, entries))
            }
            _ => Decision { answer: Answer::Told(Reply::Retired), change: None },
        }
    }

    pub fn reserve(&mut self, change: &Change, request: &Request) {
        if let (Write::Entries { skipped, .. }, Request::Append { entries, .. }) = (change.write, request) {
            let mut count = 0;
            let mut before = None;
            for (term, _) in &entries[skipped..] {
                count += usize::from(before != Some(*term));
                before = Some(*term);
            }
            self.runs.reserve(count);
        }
    }

    pub fn apply(&mut self, change: &Change, request: &Request) {
        if let (Write::Entries { skipped, index }, Request::Append { entries, .. }) = (change.write, request) {
            let place = self.runs.partition_point(|run| run.last < index - 1);
            if index - 1 == self.base {
                self.runs.clear();
            } else if place < self.runs.len() {
                let term = self.runs[place].term;
                self.runs.truncate(place);
                self.runs.push(Run { last: index - 1, term });
            }
            for (term, _) in &entries[skipped..] {
                self.push(*term);
            }
        }
        self.term = change.state.term;
        self.vote = change.state.vote;
        self.base_term = change.state.base_term;
        self.commit = change.state.commit;
    }
}
