//! Calls on arbitrary buffers and in runs, and single fields on arbitrary bytes, beside the libraries that are linked in.

use crate::{close, stop, Run};
use reference::arbitrary::{self, Numbers, REQUIRED, REQUIRED_FIELDS};
use reference::boundary::{Fields, Reference, Store};
use reference::caps;
use reference::holds;
use reference::loads;
use reference::look_ups::{self, LookUps};
use reference::many_reads;
use reference::own_caps::{self, LastLoad};
use reference::random::Random;
use reference::runs::{self, Next};
use reference::store::{Answer, Buffers, Call, ManyAnswer, ManyReads, Part, Table, MAX_LIST, SHORT_TARGET, VALUE, WRONG_LIST};
use reference::waits;
use reference::within_caps;
use reference::written_back;
use std::fmt::{self, Debug, Display, Formatter};
use std::process::exit;

/// The stores that are linked in, at least one.
fn linked_stores() -> Vec<Box<dyn Store>> {
    let stores: Vec<Box<dyn Store>> = vec![
        #[cfg(feature = "plain")]
        Box::new(reference::plain::Plain),
    ];
    if stores.is_empty() {
        stop("no store is linked: build with --features plain");
    }
    stores
}

/// The field functions that are linked in.
fn linked_fields() -> Vec<Box<dyn Fields>> {
    vec![
        #[cfg(feature = "plain")]
        Box::new(reference::plain::Plain),
    ]
}

/// What the calls met.
#[derive(Default)]
struct Counted {
    numbers: Numbers,
    look_ups: LookUps,
    /// The last load on the same buffers.
    last_load: LastLoad,
}

impl Display for Counted {
    fn fmt(&self, f: &mut Formatter) -> fmt::Result {
        write!(f, "{}{}", self.numbers, self.look_ups)
    }
}

/// At least `count` calls, a few on end on each set of buffers.
pub fn compare_calls(run: &Run) {
    let mut stores = linked_stores();
    let mut counted = Counted::default();
    let mut made = 0;
    let mut case = run.from;
    while made < run.count {
        let random = Random::for_case(run.seed, case);
        let (mut buffers, focus) = arbitrary::buffers(&random);
        counted.last_load = LastLoad::default();
        for _ in 0..random.range(1, 6) {
            let next = if random.percent(arbitrary::loads(&buffers)) {
                Next::Load(caps::to_load(&random, &buffers))
            } else if random.percent(16) {
                Next::Many(many_reads::on_buffers(&random, &buffers, focus))
            } else {
                Next::One(arbitrary::call(&random, &buffers, focus))
            };
            compare_next(&mut stores, case, &mut buffers, next, &mut counted);
            made += 1;
        }
        case += 1;
    }
    for store in &stores {
        println!("reference beside {}: {} calls on {} sets of buffers", store.name(), made, case - run.from);
    }
    print!("{}", counted);
    let Counted { numbers, look_ups, .. } = counted;
    let of_papers = [
        numbers.missing(&written_back::REQUIRED),
        holds::missing_on_buffers(&numbers),
        own_caps::missing_on_buffers(&numbers),
        waits::missing_on_buffers(&numbers),
    ];
    close(run, [numbers.missing(&REQUIRED), of_papers.concat(), look_ups.missing_on_buffers()].concat());
}

/// `count` runs, each from a store that is set up.
pub fn compare_runs(run: &Run) {
    let mut stores = linked_stores();
    let mut counted = Counted::default();
    let mut made = 0;
    for case in run.cases() {
        let random = Random::for_case(run.seed, case);
        let (shape, mut buffers) = runs::start(&random);
        counted.last_load = LastLoad::default();
        let table = if shape.own_caps { Table::InForce } else { Table::Ours };
        let mut next = Next::One(Call::SetUp { table });
        for _ in 0..random.range(20, 150) {
            let told = compare_next(&mut stores, case, &mut buffers, next, &mut counted);
            keeps_caps(case, &told.got, &buffers);
            keeps_numbers(case, told.single, &buffers);
            next = runs::next(&random, &shape, &buffers);
            made += 1;
        }
    }
    for store in &stores {
        println!("reference beside {}: {} calls in {} runs", store.name(), made, run.count);
    }
    print!("{}", counted);
    let Counted { numbers, look_ups, .. } = counted;
    let of_papers = [
        numbers.missing(&written_back::REQUIRED),
        holds::missing_in_runs(&numbers),
        own_caps::missing_in_runs(&numbers),
        waits::missing_in_lists(&numbers),
    ];
    close(run, [numbers.missing(&runs::REQUIRED), of_papers.concat(), look_ups.missing_in_runs()].concat());
}

/// What a call of a run told.
#[derive(Default)]
struct Told {
    /// The cells of which values were got, with these values.
    got: Vec<(u32, u32)>,
    /// A single call and its answer.
    single: Option<(Call, Answer)>,
}

/// One call, many reads or a load on every store, counted.
fn compare_next(stores: &mut [Box<dyn Store>], case: u64, buffers: &mut Buffers, next: Next, counted: &mut Counted) -> Told {
    let Counted { numbers, look_ups, last_load } = counted;
    match next {
        Next::One(call) => {
            let of_papers = [written_back::kinds(buffers, call), holds::kinds(buffers, call)];
            let kinds = [of_papers.concat(), own_caps::kinds(buffers, last_load, call)].concat();
            let (look_up, wait) = (look_ups::of_call(buffers, call), waits::kinds(buffers, call));
            let answer = compare_call(stores, case, buffers, call);
            numbers.add(arbitrary::kind(call), answer.number);
            kinds.into_iter().for_each(|kind| numbers.add(kind, answer.number));
            look_ups.add(look_up, answer.number);
            waits::count(numbers, wait, answer);
            Told { got: within_caps::got(call, answer).into_iter().collect(), single: Some((call, answer)) }
        }
        Next::Many(many) => {
            let look_up = look_ups::of_many(buffers, &many);
            let (answer, words) = compare_many(stores, case, buffers, &many);
            many_reads::count(numbers, &many, answer);
            look_ups.add_many(look_up, answer);
            Told { got: many.cells.iter().copied().zip(words).take(answer.count as usize).collect(), single: None }
        }
        Next::Load(new_caps) => {
            let (old, kinds) = (buffers.caps.clone(), loads::kinds(buffers, &new_caps));
            let number = compare_load(stores, case, buffers, &new_caps).number;
            numbers.add(loads::LOAD, number);
            kinds.into_iter().for_each(|kind| numbers.add(kind, number));
            *last_load = LastLoad::new(old, &new_caps, number);
            Told::default()
        }
    }
}

/// In a run every value is within its cap in force: those of the store, of the logs' written entries, and those got.
fn keeps_caps(case: u64, got: &[(u32, u32)], buffers: &Buffers) {
    let told = got.iter().find(|(cell, value)| !within_caps::is_within(buffers, *cell, *value));
    let told = told.map(|(cell, _)| format!("a value above its cap was got of cell {}", cell));
    if let Some(told) = told.or(within_caps::above_its_cap(buffers)) {
        stop_case(case, &told);
    }
}

/// In a run 104 carries the number of the sessions in the way.
fn keeps_numbers(case: u64, single: Option<(Call, Answer)>, buffers: &Buffers) {
    if let Some(told) = single.and_then(|(call, answer)| waits::miscounted(buffers, call, answer)) {
        stop_case(case, &told);
    }
}

/// Ends a comparison at a case that is not as it must be.
fn stop_case(case: u64, told: &str) -> ! {
    println!("case {}: {}", case, told);
    exit(1)
}

/// One call on every store: the answer, the part and every lent word and record afterwards.
fn compare_call(stores: &mut [Box<dyn Store>], case: u64, buffers: &mut Buffers, call: Call) -> Answer {
    let before = buffers.clone();
    let expected: (Answer, Part) = Reference.call(buffers, call);
    if !waits::fits(expected.0) {
        stop_case(case, &format!("{:?} is answered {:?}", call, expected.0));
    }
    for store in stores {
        let mut other = before.clone();
        let got = store.call(&mut other, call);
        if got != expected || other != *buffers {
            println!("case {} differs on {:?} with {} cells", case, call, before.values.len());
            show("before", &"", &before, call.session());
            show("reference", &expected, buffers, call.session());
            show(&store.name(), &got, &other, call.session());
            exit(1);
        }
    }
    expected.0
}

/// Many reads on every store: the answer, every lent word, record and word of the target afterwards, and the word after it. Each store's own
/// single reads must give the same.
fn compare_many(stores: &mut [Box<dyn Store>], case: u64, buffers: &mut Buffers, many: &ManyReads) -> (ManyAnswer, Vec<u32>) {
    let before = buffers.clone();
    let mut after = many.clone();
    let expected = Reference.read_many(buffers, &mut after);
    for store in stores {
        for single in [false, true] {
            let (mut other, mut words) = (before.clone(), many.clone());
            let got =
                if single { single_reads(&mut **store, &mut other, &mut words) } else { store.read_many(&mut other, &mut words) };
            if got != expected || other != *buffers || words != after {
                let name = if single { store.name() + ", single reads" } else { store.name() };
                println!("case {} differs on {:?} with {} cells", case, many, before.values.len());
                show("before", &"", &before, Some(many.session));
                show("reference", &(expected, &after.words), buffers, Some(many.session));
                show(&name, &(got, words.words), &other, Some(many.session));
                exit(1);
            }
        }
    }
    (expected, after.words)
}

/// A load on every store: the answer, every lent word, both tables and all records afterwards.
fn compare_load(stores: &mut [Box<dyn Store>], case: u64, buffers: &mut Buffers, new_caps: &[u32]) -> Answer {
    let before = buffers.clone();
    let expected = Reference.load_caps(buffers, &mut new_caps.to_vec());
    for store in stores {
        let (mut other, mut table) = (before.clone(), new_caps.to_vec());
        let got = store.load_caps(&mut other, &mut table);
        if got != expected || other != *buffers || table != new_caps {
            println!("case {} differs on a load of {:?} with {} cells", case, new_caps, before.values.len());
            show("before", &"", &before, None);
            show("reference", &expected, buffers, None);
            show(&store.name(), &(got, table), &other, None);
            exit(1);
        }
    }
    expected
}

/// What many reads stand for, by single reads of the same store.
fn single_reads(store: &mut dyn Store, buffers: &mut Buffers, many: &mut ManyReads) -> ManyAnswer {
    let length = many.cells.len();
    if length == 0 || length > MAX_LIST {
        return ManyAnswer { number: WRONG_LIST, count: 0 };
    }
    if many.lent < length {
        return ManyAnswer { number: SHORT_TARGET, count: 0 };
    }
    for index in 0..length {
        let (answer, _) = store.call(buffers, Call::Read { session: many.session, cell: many.cells[index] });
        if answer.number != VALUE {
            return ManyAnswer { number: answer.number, count: index as u32 };
        }
        many.words[index] = answer.value;
    }
    ManyAnswer { number: VALUE, count: length as u32 }
}

/// Prints the table in force, the session's record and log, and the locks and values of the cells in it, as far as they are there.
fn show(name: &str, outcome: &dyn Debug, buffers: &Buffers, session: Option<u8>) {
    println!("{}: {:?}\n  caps {:?}", name, outcome, buffers.caps);
    let session = match session {
        Some(session) => session,
        None => return,
    };
    let record = match buffers.sessions.get(session as usize) {
        Some(record) => record,
        None => return,
    };
    println!("  {:?}", record);
    let log = buffers.logs.iter().skip(128 * session as usize).copied().collect::<Vec<u32>>();
    for entry in log.chunks(4).take(record.count.min(32) as usize) {
        let cell = entry[0] as usize;
        let lock = (buffers.readers.get(cell), buffers.claimants.get(cell), buffers.exclusives.get(cell));
        println!("  entry {:?}, value {:?}, readers, claimant and mark {:?}", entry, buffers.values.get(cell), lock);
    }
}

/// The field reader and the field writer on arbitrary bytes.
pub fn compare_fields(run: &Run) {
    let mut others = linked_fields();
    if others.is_empty() {
        stop("no field functions are linked: build with --features plain");
    }
    let mut numbers = Numbers::default();
    for case in run.cases() {
        let random = Random::for_case(run.seed, case);
        numbers.add("read field", compare_read(&mut others, case, &random));
        numbers.add("write field", compare_write(&mut others, case, &random));
    }
    for other in &others {
        println!("reference beside {}", other.name());
    }
    print!("{}", numbers);
    close(run, numbers.missing(&REQUIRED_FIELDS));
}

fn compare_read(others: &mut [Box<dyn Fields>], case: u64, random: &Random) -> u32 {
    let (bytes, place) = arbitrary::bytes(random);
    let expected = Reference.read(&bytes, place);
    for other in others {
        let got = other.read(&bytes, place);
        if got != expected {
            println!("case {} differs: reading {:02x?} at {}", case, bytes, place);
            println!("reference: {:?}\n{}: {:?}", expected, other.name(), got);
            exit(1);
        }
    }
    expected.number
}

fn compare_write(others: &mut [Box<dyn Fields>], case: u64, random: &Random) -> u32 {
    let (field, target) = arbitrary::field(random);
    let mut written = target.clone();
    let expected = Reference.write(&mut written, &field);
    for other in others {
        let mut after = target.clone();
        let got = other.write(&mut after, &field);
        if got != expected || after != written {
            println!("case {} differs: writing {:?} over {:02x?}", case, field, target);
            println!("reference: {:?} {:02x?}\n{}: {:?} {:02x?}", expected, written, other.name(), got, after);
            exit(1);
        }
    }
    expected.0
}
