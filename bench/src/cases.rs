//! The calls that are timed: each by the library and by both baselines, on the same input. The baselines differ in what a
//! table needs; the calls of one drive, an exchange but for its table and the table from n and t are the same in both.

use crate::baseline::{exchange, runs, tables, verdicts, Answer, Method, Plain, Tuned};
use crate::inputs::{self, Input, Start, OWN_NUMBER};
use crate::library;
use std::hint::black_box;
use std::time::Instant;

const ROUNDS: usize = 3;
const BATCH_SECONDS: f64 = 0.002;

/// The lent memory of a call.
#[derive(PartialEq)]
struct Lent {
    sets: Vec<u64>,
    bytes: Vec<u8>,
}

impl Lent {
    fn new() -> Lent {
        Lent { sets: vec![7; 1024], bytes: vec![7; 4096] }
    }

    /// Puts sets into the first places; how many.
    fn put(&mut self, sets: &[u64]) -> u64 {
        self.sets[..sets.len()].copy_from_slice(sets);
        sets.len() as u64
    }
}

type Call = Box<dyn FnMut() -> Answer<u64>>;

pub struct Case {
    pub name: String,
    /// Seconds a call: the library, the plain baseline, the tuned one.
    pub least: [f64; 3],
    result: Answer<u64>,
    batches: [(Call, u32); 3],
}

fn time(call: &mut Call, calls: u32) -> f64 {
    let start = Instant::now();
    for _ in 0..calls {
        let _ = black_box(call());
    }
    start.elapsed().as_secs_f64() / f64::from(calls)
}

/// A call with how many of it fill a batch.
fn batch(mut call: Call) -> (Call, u32) {
    let mut calls = 1;
    while time(&mut call, calls) * f64::from(calls) < BATCH_SECONDS {
        calls *= 2;
    }
    (call, calls)
}

type Theirs = Box<dyn Fn(&mut Lent) -> Answer<u64>>;

impl Case {
    /// Three calls that give the same: the library's, that of the plain baseline and that of the tuned one.
    fn new(name: String, ours: impl Fn(&mut Lent) -> Answer<u64> + 'static, theirs: [Theirs; 2]) -> Case {
        let mut lent = Lent::new();
        let result = ours(&mut lent);
        for call in &theirs {
            let mut other = Lent::new();
            let same = result == call(&mut other) && lent == other;
            assert!(same, "{name}: the library and a baseline differ");
        }
        let [plain, tuned] = theirs;
        let calls: [Theirs; 3] = [Box::new(ours), plain, tuned];
        let batches = calls.map(|call| {
            let mut lent = Lent::new();
            batch(Box::new(move || call(&mut lent)))
        });
        Case { name, least: [f64::MAX; 3], result, batches }
    }

    pub fn pass(&mut self) {
        for _ in 0..ROUNDS {
            for (least, (call, calls)) in self.least.iter_mut().zip(&mut self.batches) {
                *least = least.min(time(call, *calls));
            }
        }
    }

    /// A count, the positions of a verdict that is a no, a byte each with the first lowest, or a refusal.
    pub fn shown(&self) -> String {
        match self.result {
            Err(number) => format!("refused {number}"),
            Ok(result) if result < 1 << 16 => result.to_string(),
            Ok(positions) => format!("no {positions:x}"),
        }
    }
}

fn cores_by<M: Method>(n: u8, sets: Vec<u64>) -> Theirs {
    Box::new(move |lent| tables::accept::<M>(n, black_box(&sets)).map(|table| lent.put(&table.cores)))
}

fn cores(input: Input) -> Case {
    let Input { name, n, sets } = input;
    let theirs = [cores_by::<Plain>(n, sets.clone()), cores_by::<Tuned>(n, sets.clone())];
    Case::new(format!("cores, {name}"), move |lent| library::cores(n, black_box(&sets), &mut lent.sets), theirs)
}

fn back_by<M: Method>(n: u8, groups: Vec<u64>) -> Theirs {
    Box::new(move |lent| tables::back::<M>(n, black_box(&groups)).map(|sets| lent.put(&sets)))
}

/// From the cores of a table.
fn back(input: Input) -> Case {
    let Input { name, n, sets } = input;
    let groups = tables::accept::<Plain>(n, &sets).expect("a table").cores;
    let theirs = [back_by::<Plain>(n, groups.clone()), back_by::<Tuned>(n, groups.clone())];
    Case::new(format!("back, {name}"), move |lent| library::back(n, black_box(&groups), &mut lent.sets), theirs)
}

fn threshold(n: u8, t: u8) -> Case {
    let theirs = || Box::new(move |lent: &mut Lent| tables::threshold_sets(black_box(n), t).map(|sets| lent.put(&sets)));
    Case::new(
        format!("table from n {n}, t {t}"),
        move |lent| library::threshold(black_box(n), t, &mut lent.sets),
        [theirs(), theirs()],
    )
}

fn verdict_by<M: Method>(n: u8, sets: Vec<u64>) -> Theirs {
    Box::new(move |_| verdicts::verdict::<M>(4, n, black_box(&sets)))
}

fn verdict(what: &str, input: Input) -> Case {
    let Input { n, sets, .. } = input;
    let theirs = [verdict_by::<Plain>(n, sets.clone()), verdict_by::<Tuned>(n, sets.clone())];
    Case::new(format!("verdict on 4, {what}"), move |_| library::verdict(4, n, black_box(&sets)), theirs)
}

fn write_by<M: Method>(n: u8, sets: Vec<u64>) -> Theirs {
    Box::new(move |lent| tables::write::<M>(n, black_box(&sets), &mut lent.bytes, 5).map(|size| size as u64))
}

fn write(input: Input) -> Case {
    let Input { name, n, sets } = input;
    let theirs = [write_by::<Plain>(n, sets.clone()), write_by::<Tuned>(n, sets.clone())];
    let ours = move |lent: &mut Lent| library::write_table(n, black_box(&sets), &mut lent.bytes, 5);
    Case::new(format!("write a table, {name}"), ours, theirs)
}

fn read_by<M: Method>(file: Vec<u8>) -> Theirs {
    Box::new(move |lent| tables::read::<M>(black_box(&file)).map(|table| lent.put(&table.sets)))
}

fn read(input: Input) -> Case {
    let file = inputs::table_bytes(input.n, &input.sets);
    let theirs = [read_by::<Plain>(file.clone()), read_by::<Tuned>(file.clone())];
    let ours = move |lent: &mut Lent| library::read_table(black_box(&file), &mut lent.sets);
    Case::new(format!("read a table, {}", input.name), ours, theirs)
}

fn run_by<M: Method>(file: Vec<u8>) -> Theirs {
    Box::new(move |lent| Ok(runs::listing::<M>(black_box(&file), &mut lent.bytes) as u64))
}

/// The run program's text for a core of 64.
fn run(name: &str, stops: bool) -> Case {
    let file = inputs::whole_exchange(stops);
    let theirs = [run_by::<Plain>(file.clone()), run_by::<Tuned>(file.clone())];
    Case::new(name.to_string(), move |lent| library::run_listing(black_box(&file), &mut lent.bytes), theirs)
}

// The calls of one drive, each on the same state again and again: the library's is copied into the call and out of it,
// as a controller has it.

fn open_by<M: Method>(start: Start) -> Theirs {
    Box::new(move |_| {
        let start = black_box(&start);
        exchange::open::<M>(start.n, &start.sets, start.own, OWN_NUMBER).map(|state| state.round.into())
    })
}

/// The opening; its result is the round.
fn open(start: Start) -> Case {
    let theirs = [open_by::<Plain>(start.clone()), open_by::<Tuned>(start.clone())];
    let ours = move |_: &mut Lent| {
        let start = black_box(&start);
        library::open(start.n, &start.sets, start.own, OWN_NUMBER).map(|state| state.round.into())
    };
    Case::new("opening, core of 64".to_string(), ours, theirs)
}

/// The states of a drive that was opened and handed all messages but the last so many.
fn begun(start: &Start, left: usize) -> (library::State, exchange::Exchange) {
    let mut ours = library::open(start.n, &start.sets, start.own, OWN_NUMBER).expect("an opening");
    let mut theirs = exchange::open::<Tuned>(start.n, &start.sets, start.own, OWN_NUMBER).expect("an opening");
    for bytes in start.messages.chunks(start.size).take(start.count - left) {
        ours = ours.message(bytes).expect("a message");
        theirs.message(bytes).expect("a message");
    }
    (ours, theirs)
}

/// The last message; its result is how many senders are heard.
fn message(start: Start) -> Case {
    let (ours, theirs) = begun(&start, 1);
    let bytes = start.messages[start.messages.len() - start.size..].to_vec();
    let same = bytes.clone();
    let theirs = move |_: &mut Lent| {
        let mut state = black_box(&theirs).clone();
        state.message(black_box(&same))?;
        Ok(black_box(&state).heard.count_ones().into())
    };
    Case::new(
        "one message of 64 numbers, all known".to_string(),
        move |_| black_box(&ours).message(black_box(&bytes)).map(|state| state.heard.count_ones().into()),
        [Box::new(theirs.clone()), Box::new(theirs)],
    )
}

/// The close after all messages; its result is the round.
fn close(start: Start) -> Case {
    let (ours, theirs) = begun(&start, 0);
    let mut closed = theirs.clone();
    closed.close().expect("a close");
    let same = (closed.decision, closed.halted) == ours.close().expect("a close").end();
    assert!(same, "a close: the library and the baseline differ");
    let theirs = move |_: &mut Lent| {
        let mut state = black_box(&theirs).clone();
        state.close()?;
        Ok(black_box(&state).round.into())
    };
    Case::new(
        "one close of a listener that goes on".to_string(),
        move |_| black_box(&ours).close().map(|state| state.round.into()),
        [Box::new(theirs.clone()), Box::new(theirs)],
    )
}

/// The send of the round after that.
fn send(start: Start) -> Case {
    let (ours, mut theirs) = begun(&start, 0);
    let ours = ours.close().expect("a close");
    theirs.close().expect("a close");
    let theirs = move |lent: &mut Lent| black_box(&theirs).send(&mut lent.bytes, 5).map(|size| size as u64);
    Case::new(
        "one send of 64 numbers".to_string(),
        move |lent| black_box(&ours).send(&mut lent.bytes, 5),
        [Box::new(theirs.clone()), Box::new(theirs)],
    )
}

/// In the last three each KW tells all numbers. Core drive 1 has heard only one sender, so it is undecided and sends all
/// 64. Listener 64 has heard one of 16 core drives, so it goes on.
pub fn all() -> Vec<Case> {
    let mut cases = vec![
        cores(inputs::all_but_one(45)),
        cores(inputs::all_but_two(16)),
        cores(inputs::one_of_each_pair(false)),
    ];
    cases.extend(inputs::hard_tables().into_iter().map(cores));
    cases.extend([
        back(inputs::all_but_one(45)),
        threshold(45, 1),
        verdict("128 sets that share a drive", inputs::one_of_each_pair(true)),
        verdict("120 sets, 14 of 16", inputs::all_but_two(16)),
        verdict("128 sets, 7 pairs", inputs::one_of_each_pair(false)),
        write(inputs::one_of_each_pair(false)),
        read(inputs::one_of_each_pair(false)),
        run("whole exchange, core of 64", false),
        run("whole exchange, core of 64, 63 stops", true),
        open(inputs::single_drives(64, 1, 0)),
        message(inputs::single_drives(64, 1, 2)),
        send(inputs::single_drives(64, 1, 1)),
        close(inputs::single_drives(16, 64, 1)),
    ]);
    cases
}
