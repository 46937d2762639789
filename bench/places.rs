//! The places of a ring of transfers, each visited once: what `bench/explore` sets `stmrun explore` beside. Hand-written, nothing is proved.
//!
//! places RUNNERS LIMIT LEVEL: runner i moves 1 from account i to account i + 1, after it has read both.
use std::collections::{HashMap, HashSet};
use std::time::Instant;

/// An account: its value, and the revision of its last put.
type Account = (i64, u32);

#[derive(Clone, PartialEq, Eq, Hash)]
enum End {
    Running,
    Committed,
    GaveUp(usize),
}

/// An attempt: its base, what it has read, and how many commits failed before.
#[derive(Clone, PartialEq, Eq, Hash)]
struct Runner {
    end: End,
    failures: u8,
    base: u32,
    read: Vec<Account>,
}

/// The puts so far, the newest last, and the runners. The revision is that of the last put.
#[derive(Clone, PartialEq, Eq, Hash)]
struct Place {
    puts: Vec<(u32, usize, i64)>,
    runners: Vec<Runner>,
}

#[derive(Clone, Copy, PartialEq)]
enum Level {
    ReadCommitted,
    RepeatableReads,
    Serializable,
}

const FIRST: Account = (2, 2);

impl Place {
    fn revision(&self) -> u32 {
        self.puts.last().map_or(FIRST.1, |put| put.0)
    }

    fn account(&self, account: usize, at: u32) -> Account {
        let put = self.puts.iter().rev().find(|put| put.1 == account && put.0 <= at);
        put.map_or(FIRST, |put| (put.2, put.0))
    }

    /// One step of a runner: a read of its next account, or its commit.
    fn step(&mut self, i: usize, limit: u8, level: Level) {
        let accounts = [i, (i + 1) % self.runners.len()];
        let now = self.revision();
        let read = self.runners[i].read.len();
        if read < accounts.len() {
            if read == 0 && level == Level::Serializable {
                self.runners[i].base = now;
            }
            let at = if level == Level::Serializable { self.runners[i].base } else { now };
            let answer = self.account(accounts[read], at);
            self.runners[i].read.push(answer);
            return;
        }
        let changed = accounts.iter().zip(&self.runners[i].read).find(|(account, read)| self.account(**account, now).1 != read.1);
        if let (true, Some((account, _))) = (level != Level::ReadCommitted, changed) {
            self.fail(i, *account, accounts, limit, level);
            return;
        }
        let [from, to] = [self.runners[i].read[0].0 - 1, self.runners[i].read[1].0 + 1];
        self.puts.extend([(now + 1, accounts[0], from), (now + 1, accounts[1], to)]);
        self.runners[i] = Runner { end: End::Committed, failures: 0, base: 0, read: vec![] };
    }

    /// A commit that failed: the next attempt begins with the answers of now where the level is serializable.
    fn fail(&mut self, i: usize, account: usize, accounts: [usize; 2], limit: u8, level: Level) {
        let now = self.revision();
        let failures = self.runners[i].failures + 1;
        if failures >= limit {
            self.runners[i] = Runner { end: End::GaveUp(account), failures: 0, base: 0, read: vec![] };
        } else if level == Level::Serializable {
            let read = accounts.iter().map(|account| self.account(*account, now)).collect();
            self.runners[i] = Runner { end: End::Running, failures, base: now, read };
        } else {
            self.runners[i] = Runner { end: End::Running, failures, base: 0, read: vec![] };
        }
    }
}

fn main() {
    let words: Vec<String> = std::env::args().collect();
    let (runners, limit) = (words[1].parse::<usize>().unwrap(), words[2].parse::<u8>().unwrap());
    let level = match &words[3][..] {
        "ReadCommitted" => Level::ReadCommitted,
        "RepeatableReads" => Level::RepeatableReads,
        _ => Level::Serializable,
    };
    let begun = Instant::now();
    let runner = Runner { end: End::Running, failures: 0, base: 0, read: vec![] };
    let mut layer = vec![Place { puts: vec![], runners: vec![runner; runners] }];
    let (mut moves, mut places, mut length, mut broken) = (0u64, 1usize, 0, None);
    let mut outcomes = HashSet::new();
    while !layer.is_empty() {
        let mut next: HashMap<Place, ()> = HashMap::new();
        for place in &layer {
            let sum: i64 = (0..runners).map(|account| place.account(account, u32::MAX).0).sum();
            if sum != 2 * runners as i64 && broken.is_none() {
                broken = Some(length);
            }
            let mut is_whole = true;
            for i in 0..runners {
                if place.runners[i].end == End::Running {
                    let mut after = place.clone();
                    after.step(i, limit, level);
                    next.insert(after, ());
                    moves += 1;
                    is_whole = false;
                }
            }
            if is_whole {
                let values: Vec<i64> = (0..runners).map(|account| place.account(account, u32::MAX).0).collect();
                outcomes.insert((values, place.runners.iter().map(|runner| runner.end.clone()).collect::<Vec<_>>()));
            }
        }
        layer = next.into_keys().collect();
        places += layer.len();
        length += 1;
    }
    println!("longest {} broken {broken:?} places {places} moves {moves} outcomes {} seconds {:.3}", length - 1, outcomes.len(), begun.elapsed().as_secs_f64());
}
