// A plain loop to measure by: 1,000,000 transfers between eight accounts, one after the other, on a store in memory that keeps every
// version of each key. Each transfer reads two texts as numbers, compares the two versions that it read, and writes two texts.
//
//   rustc -O transfers.rs && ./transfers
use std::collections::HashMap;

const ACCOUNTS: usize = 8;
const TRANSFERS: usize = 1_000_000;
const OPENING: i64 = 100_000_000;

struct Version {
    revision: u64,
    value: String,
}

struct Answer {
    key: String,
    value: String,
    revision: u64,
}

#[derive(Default)]
struct Store {
    revision: u64,
    chains: HashMap<String, Vec<Version>>,
}

impl Store {
    /// What a key has at a revision, with the revision that put it there.
    fn read(&self, key: &str, at: u64) -> Answer {
        let chain = &self.chains[key];
        let newer = chain.partition_point(|version| version.revision <= at);
        let version = &chain[newer - 1];
        Answer { key: key.to_string(), value: version.value.clone(), revision: version.revision }
    }

    fn stands(&self, answer: &Answer) -> bool {
        self.chains[&answer.key].last().unwrap().revision == answer.revision
    }

    fn put(&mut self, writes: Vec<(String, String)>) {
        self.revision += 1;
        for (key, value) in writes {
            let version = Version { revision: self.revision, value };
            self.chains.entry(key).or_default().push(version);
        }
    }
}

fn balance(answer: &Answer) -> i64 {
    answer.value.parse().unwrap()
}

fn transfer(store: &mut Store, from: &str, to: &str) {
    let at = store.revision;
    let mut reads = Vec::new();
    let mut writes = Vec::new();
    for (key, more) in [(from, -1), (to, 1)] {
        let answer = store.read(key, at);
        writes.push((key.to_string(), (balance(&answer) + more).to_string()));
        reads.push(answer);
    }
    assert!(reads.iter().all(|answer| store.stands(answer)));
    store.put(writes);
}

fn main() {
    let accounts: Vec<String> = (0..ACCOUNTS).map(|number| format!("account/{number}")).collect();
    let mut store = Store::default();
    store.put(accounts.iter().map(|key| (key.clone(), OPENING.to_string())).collect());
    for number in 0..TRANSFERS {
        transfer(&mut store, &accounts[number % ACCOUNTS], &accounts[(number + 1) % ACCOUNTS]);
    }
    let total: i64 = accounts.iter().map(|key| balance(&store.read(key, store.revision))).sum();
    println!("{TRANSFERS} transfers, {total} in all");
}
