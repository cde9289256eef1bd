//! Document 02, Papers 4 to 6, and document 01, 'What demand 3 counts', by running: over random runs with many reads and loads among the calls each
//! committed transaction read its snapshot, no span was cut, and where every committed one that wrote or held also wrote or held what it read, all are
//! as if run one after the other. Every value is within its cap in the table in force, and every wait carries the number of the sessions in the way.

use reference::generate::Shape;
use reference::random::Random;
use reference::runs::{self, Next};
use reference::store::{Answer, Buffers, Call, ManyAnswer, ManyReads, PUBLISHING, SESSIONS};
use reference::waits::miscounted;
use reference::within_caps::{above_its_cap, got, is_within};
use std::collections::{BTreeMap, BTreeSet};

const SEED: u64 = 1;
const RUNS: u64 = 20_000;

type Values = BTreeMap<u32, u32>;

/// A transaction as its calls and answers tell it; the values found are the store's where the cells are entered.
#[derive(Default)]
struct Transaction {
    found: Values,
    read: Values,
    last_written: Values,
    held: BTreeSet<u32>,
    /// Whether many reads gave it a value from the store.
    many: bool,
    snapshot: usize,
    moved: usize,
    commit: Option<usize>,
}

impl Transaction {
    /// The cells that count as written, with their values: the held ones and the changed ones.
    fn wrote(&self) -> Values {
        let current = |cell: &u32| *self.last_written.get(cell).unwrap_or(&self.found[cell]);
        let counts = |cell: &u32| self.held.contains(cell) || current(cell) != self.found[cell];
        self.found.keys().filter(|cell| counts(cell)).map(|cell| (*cell, current(cell))).collect()
    }

    /// Adds a value that was got, and tells whether it is a read from the store.
    fn got(&mut self, cell: u32, value: u32, stored: u32) -> bool {
        self.found.entry(cell).or_insert(stored);
        if self.last_written.contains_key(&cell) {
            return false;
        }
        assert_eq!(*self.read.entry(cell).or_insert(value), value, "cell {} is read again", cell);
        true
    }

    /// Whether it wrote and held nothing, or wrote or held all that it read.
    fn covers_its_reads(&self) -> bool {
        let wrote = self.wrote();
        wrote.is_empty() || self.read.keys().all(|cell| wrote.contains_key(cell))
    }
}

/// The transactions of one run, and for each session the one that is open.
#[derive(Default)]
struct History {
    all: Vec<Transaction>,
    open: [Option<usize>; SESSIONS],
    /// The loads answered 100. They are of no session, and have a place.
    loads: usize,
    /// The waits for two others or more.
    waits_for_several: usize,
}

impl History {
    /// Adds a call with its answer. The values are the store's before it.
    fn add(&mut self, place: usize, call: Call, answer: Answer, values: &[u32]) {
        let session = match call.session() {
            Some(session) if answer.number >= 100 || answer.number == 6 => session as usize,
            _ => return,
        };
        if matches!(call, Call::Begin { .. }) {
            self.open[session] = Some(self.all.len());
            self.all.push(Transaction::default());
            return;
        }
        let transaction = &mut self.all[self.open[session].expect("a call within a transaction")];
        match (call, answer.number) {
            (Call::Read { cell, .. }, 101) => {
                transaction.got(cell, answer.value, values[cell as usize]);
            }
            (Call::Hold { cell, .. }, 101) => {
                transaction.got(cell, answer.value, values[cell as usize]);
                transaction.held.insert(cell);
            }
            (Call::Write { cell, value, .. }, 100) => {
                transaction.found.entry(cell).or_insert(values[cell as usize]);
                transaction.last_written.insert(cell, value);
            }
            (Call::Seal { .. }, number) => {
                transaction.snapshot = place;
                assert_eq!(number == 105, transaction.wrote().is_empty());
                transaction.commit = Some(place).filter(|_| number == 105);
            }
            (Call::Advance { .. }, 103) => {
                transaction.moved += 1;
                if transaction.moved == transaction.wrote().len() {
                    transaction.commit = Some(place);
                }
            }
            _ => (),
        }
        if matches!((call, answer.number), (_, 6) | (_, 105) | (Call::Abandon { .. }, 100)) {
            self.open[session] = None;
        }
    }

    /// Adds many reads, which have one place, with their answer and the values that they got.
    fn add_many(&mut self, many: &ManyReads, answer: ManyAnswer, values: &[u32]) {
        let open = match self.open.get_mut(many.session as usize) {
            Some(open) => open,
            None => return,
        };
        for (cell, value) in many.cells.iter().zip(&many.words).take(answer.count as usize) {
            let transaction = &mut self.all[open.expect("a value within a transaction")];
            transaction.many |= transaction.got(*cell, *value, values[*cell as usize]);
        }
        if answer.number == 6 {
            *open = None;
        }
    }

    /// The committed transactions by commit place.
    fn committed(&self) -> Vec<(usize, &Transaction)> {
        let mut committed: Vec<_> = self.all.iter().filter_map(|transaction| Some((transaction.commit?, transaction))).collect();
        committed.sort_by_key(|(commit, _)| *commit);
        committed
    }
}

/// One random run.
fn random_run(random: &Random, covering: bool) -> (Vec<u32>, History, Buffers) {
    let (shape, mut buffers) = runs::start(random);
    let start = buffers.values.clone();
    let mut history = History::default();
    for place in 1..random.range(40, 200) {
        let values = buffers.values.clone();
        match next_call(random, &shape, &buffers, covering) {
            Next::One(call) => {
                let answer = buffers.call(call);
                history.add(place, call, answer, &values);
                assert!(
                    got(call, answer).map_or(true, |(cell, value)| is_within(&buffers, cell, value)),
                    "a value above its cap"
                );
                assert_eq!(miscounted(&buffers, call, answer), None, "the call at {}", place);
                history.waits_for_several += (answer.number == 104 && answer.value > 1) as usize;
            }
            Next::Load(new_caps) => history.loads += (buffers.load_caps(&new_caps).number == 100) as usize,
            Next::Many(mut many) => {
                let answer = buffers.read_many(many.session, &many.cells, &mut many.words[..many.lent]);
                history.add_many(&many, answer, &values);
                let mut got = many.cells.iter().zip(&many.words).take(answer.count as usize);
                assert!(got.all(|(cell, value)| is_within(&buffers, *cell, *value)), "a value above its cap");
            }
        }
        assert_eq!(above_its_cap(&buffers), None, "after the call at {}", place);
    }
    (start, history, buffers)
}

/// The next call of a run. With `covering`, a session that writes or holds reads by holds alone, and the others neither write nor hold.
fn next_call(random: &Random, shape: &Shape, buffers: &Buffers, covering: bool) -> Next {
    let only_reads = |session: u8| session % 3 == 2;
    loop {
        match runs::next(random, shape, buffers) {
            next if !covering => return next,
            Next::One(Call::Read { session, cell }) if !only_reads(session) => return Next::One(Call::Hold { session, cell }),
            Next::One(Call::Hold { session, cell } | Call::Write { session, cell, .. }) if only_reads(session) => {
                return Next::One(Call::Read { session, cell })
            }
            Next::Many(many) if !only_reads(many.session) => (),
            next => return next,
        }
    }
}

/// Each read is the last commit before the snapshot, or the starting value; no commit to a cell that a transaction wrote lies in its span.
fn keeps_snapshots(start: &[u32], committed: &[(usize, &Transaction)]) {
    for (commit, transaction) in committed {
        for (cell, value) in &transaction.read {
            let before = committed.iter().rev().filter(|other| other.0 < transaction.snapshot);
            let expected = before.filter_map(|other| other.1.wrote().get(cell).copied()).next();
            assert_eq!(*value, expected.unwrap_or(start[*cell as usize]), "cell {} read by the commit at {}", cell, commit);
        }
        let wrote = transaction.wrote();
        let cut = |other: &Transaction| other.wrote().keys().any(|cell| wrote.contains_key(cell));
        let within = committed.iter().filter(|other| transaction.snapshot < other.0 && other.0 < *commit);
        assert!(!within.into_iter().any(|other| cut(other.1)), "a span cut before the commit at {}", commit);
    }
}

/// Whether running the committed transactions whole by commit place gives the same reads; and the values that it leaves.
fn one_after_the_other(start: &[u32], committed: &[(usize, &Transaction)]) -> (bool, Vec<u32>) {
    let mut values = start.to_vec();
    let mut same = true;
    for (_, transaction) in committed {
        let alike = transaction.read.iter().all(|(cell, value)| values[*cell as usize] == *value);
        assert!(alike || !transaction.covers_its_reads(), "who covers its reads read in order, whatever the others do");
        same &= alike;
        transaction.wrote().into_iter().for_each(|(cell, value)| values[cell as usize] = value);
    }
    (same, values)
}

#[test]
fn committed_transactions_that_hold_what_they_read_run_one_after_the_other() {
    let (mut covered, mut skewed, mut held, mut settled) = (0, 0, 0, 0);
    let (mut many_covered, mut many_skewed) = (0, 0);
    let (mut loads, mut loaded_and_covered, mut loaded_and_skewed) = (0, 0, 0);
    let mut waits_for_several = 0;
    for case in 0..RUNS {
        let random = Random::for_case(SEED, case);
        let covering = case % 2 == 0;
        let (start, history, buffers) = random_run(&random, covering);
        let committed = history.committed();
        keeps_snapshots(&start, &committed);
        let (same, values) = one_after_the_other(&start, &committed);
        let count = |wanted: fn(&Transaction) -> bool| committed.iter().filter(|(_, transaction)| wanted(transaction)).count();
        let uncovered = count(|transaction| !transaction.covers_its_reads());
        assert!(!covering || uncovered == 0, "seed {}, case {}: who reads by holds alone covers its reads", SEED, case);
        loads += history.loads;
        waits_for_several += history.waits_for_several;
        if uncovered == 0 {
            assert!(same, "seed {}, case {}", SEED, case);
            covered += 1;
            loaded_and_covered += (history.loads > 0) as usize;
            held += count(|transaction| !transaction.held.is_empty());
            many_covered += count(|transaction| transaction.many);
        } else if !same {
            skewed += 1;
            loaded_and_skewed += (history.loads > 0) as usize;
            many_skewed += count(|transaction| transaction.many);
        }
        if buffers.sessions.iter().all(|record| record.phase != PUBLISHING) {
            assert_eq!(values, buffers.values, "seed {}, case {}", SEED, case);
            settled += 1;
        }
    }
    println!("seed {}: {} runs covered, {} skewed, {} settled", SEED, covered, skewed, settled);
    println!("commits covered that hold {}, with many reads {}; skewed with many reads {}", held, many_covered, many_skewed);
    println!("loads {}; runs with loads: {} covered, {} skewed", loads, loaded_and_covered, loaded_and_skewed);
    println!("waits for several {}", waits_for_several);
    assert!(loads >= 10_000 && loaded_and_covered >= 2_000 && loaded_and_skewed >= 20);
    assert!(covered >= 10_000 && held >= 10_000 && skewed >= 100 && settled >= 10_000);
    assert!(many_covered >= 1_000 && many_skewed >= 100);
    assert!(waits_for_several >= 10_000);
}
