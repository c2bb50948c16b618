//! Prints the tables of docs/BENCHMARKS.md, section by section: see bench/run.
mod by_hand;
mod convert;
mod goals;
mod growth;
mod harness;
mod inputs;
mod library;
mod lines;
mod markdown;
mod moves;
mod pocket;
mod quartz;
mod query;
mod read;
mod rescue;
mod stack;
mod strings;
mod text;
mod tokens;
mod worst;
mod write;

use goals::Goals;
use harness::Plan;

/// What every section is handed: how thoroughly to measure, and where to note what the goals are judged by.
pub struct Bench {
    pub plan: Plan,
    pub goals: Goals,
}

type Section = (&'static str, fn(&mut Bench));

const SECTIONS: [Section; 12] = [
    ("strings", strings::section),
    ("read", read::section),
    ("write", write::section),
    ("pocket", pocket::section),
    ("convert", convert::section),
    ("rescue", rescue::section),
    ("lines", lines::section),
    ("moves", moves::section),
    ("text", text::section),
    ("tokens", tokens::section),
    ("query", query::section),
    ("stack", stack::section),
];

/// Both sides parse by recursion; neither is to be short of stack.
const STACK: usize = 256 << 20;

fn run(quick: bool, wanted: Vec<String>) {
    let mut bench = Bench { plan: Plan::new(quick), goals: Goals::default() };
    for (name, section) in SECTIONS {
        if wanted.is_empty() || wanted.iter().any(|w| w == name) {
            section(&mut bench);
        }
    }
    bench.goals.print();
}

fn main() {
    let (options, sections): (Vec<String>, Vec<String>) = std::env::args().skip(1).partition(|a| a.starts_with("--"));
    let quick = options.iter().any(|o| o == "--quick");
    std::thread::Builder::new().stack_size(STACK).spawn(move || run(quick, sections)).unwrap().join().unwrap();
}
