//! Times the proved library beside two baselines: the same calls on the same inputs in one process. What a call gives is
//! compared first, of a state the part that its case names, of a verdict the positions; then short batches of all three
//! alternate, in many passes over all calls, and the least time of a call counts. The arguments, if any, are the number
//! of passes and a part of the names of the calls to time. With `climb` as the first it looks for hard tables instead.

mod baseline;
mod cases;
mod climb;
mod inputs;
mod library;

use cases::Case;

const PASSES: usize = 20;

fn print(case: &Case) {
    let [ours, plain, tuned] = case.least.map(|seconds| seconds * 1e6);
    let ratio = |theirs: f64| format!("{theirs:>11.3} {:>6.2}", ours / theirs);
    println!("{:<42} {:>11} {ours:>11.3} {} {}", case.name, case.shown(), ratio(plain), ratio(tuned));
}

fn main() {
    let mut arguments = std::env::args().skip(1).peekable();
    if arguments.next_if(|first| first == "climb").is_some() {
        return climb::main(arguments);
    }
    let passes = arguments.next().and_then(|passes| passes.parse().ok()).unwrap_or(PASSES);
    let part = arguments.next().unwrap_or_default();
    let mut cases = cases::all();
    cases.retain(|case| case.name.contains(&part));
    for _ in 0..passes {
        cases.iter_mut().for_each(Case::pass);
    }
    print!("{:<42} {:>11} {:>11}", "call", "result", "library us");
    println!(" {:>11} {:>6} {:>11} {:>6}", "plain us", "ratio", "tuned us", "ratio");
    cases.iter().for_each(print);
}
