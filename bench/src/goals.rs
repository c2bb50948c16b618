//! The goals that docs/BENCHMARKS.md names, each with the worst that was measured.
use crate::harness::Spread;
use crate::markdown;

#[derive(Clone, Copy)]
pub enum Wanted {
    AtLeast(f64),
    AtMost(f64),
}

impl Wanted {
    fn met(self, x: f64) -> bool {
        match self {
            Wanted::AtLeast(bound) => x >= bound,
            Wanted::AtMost(bound) => x <= bound,
        }
    }

    fn worse(self, x: f64, than: f64) -> bool {
        match self {
            Wanted::AtLeast(_) => x < than,
            Wanted::AtMost(_) => x > than,
        }
    }

    fn words(self) -> String {
        match self {
            Wanted::AtLeast(bound) => format!("at least {bound}"),
            Wanted::AtMost(bound) => format!("at most {bound}"),
        }
    }
}

#[derive(Clone, Copy, PartialEq)]
pub enum Goal {
    Strings,
    ReadTiles,
    ReadNeverSlower,
    ReadGrowthSorted,
    ReadGrowthRandom,
    WriteTiles,
    WriteArrays,
    PocketBesideJava,
    Rescue,
    RescueGrowth,
    WriteLines,
    ReadLines,
    LinesGrowth,
    MovesGrowth,
    TextTiles,
    TextGrowth,
    QueryAnywhere,
    QueryPath,
    QueryWorst,
    QueryDepth,
    QueryStack,
}

/// The bound of the texts' growth, and the tenth over a copy, are what "linear" and "at the speed of" are taken for here.
const GOALS: [(Goal, &str, Wanted); 21] = [
    (Goal::Strings, "string checks, throughput over from_utf8's", Wanted::AtLeast(0.8)),
    (Goal::ReadTiles, "reading tiles, the crate's time over ours", Wanted::AtLeast(10.0)),
    (Goal::ReadNeverSlower, "reading anything, the crate's time over ours", Wanted::AtLeast(1.0)),
    (Goal::ReadGrowthSorted, "reading one compound in sorted order, time a record at 10^6 over 10^3", Wanted::AtMost(3.0)),
    (Goal::ReadGrowthRandom, "the same in random order", Wanted::AtMost(8.0)),
    (Goal::WriteTiles, "writing tiles, the crate's time over ours", Wanted::AtLeast(5.0)),
    (Goal::WriteArrays, "writing long arrays, time over a copy's", Wanted::AtMost(1.1)),
    (Goal::PocketBesideJava, "the pocket edition's form read and written, time over Java's form's", Wanted::AtMost(1.1)),
    (Goal::Rescue, "rescuing many records, time over a read of the same bytes", Wanted::AtMost(4.0)),
    (Goal::RescueGrowth, "rescuing tiles and one compound in sorted order, time a record at 10^6 over 10^3", Wanted::AtMost(3.0)),
    (Goal::WriteLines, "writing lines, Rust's own formatting's time over ours", Wanted::AtLeast(1.0)),
    (Goal::ReadLines, "reading lines, Rust's own parsing's time over ours", Wanted::AtLeast(1.0)),
    (Goal::LinesGrowth, "lines written and read, time a record at 10^6 over 10^3", Wanted::AtMost(3.0)),
    (Goal::MovesGrowth, "lines moved up and down, time a record at 10^6 over 10^3", Wanted::AtMost(3.0)),
    (Goal::TextTiles, "texts of tiles, the crate's time over ours", Wanted::AtLeast(3.0)),
    (Goal::TextGrowth, "texts, time a byte at 10^6 bytes over 10^4", Wanted::AtMost(3.0)),
    (Goal::QueryAnywhere, "asking tiles for `root/**/name`, room for every record, ns a record", Wanted::AtMost(35.0)),
    (Goal::QueryPath, "the same without `**`, for `root/Tiles/*/name`", Wanted::AtMost(25.0)),
    (Goal::QueryWorst, "each of the five queries that cost most, at any depth, ns a record", Wanted::AtMost(100.0)),
    (Goal::QueryDepth, "queries that cost most, time a record on a path of 512 over one of 32", Wanted::AtMost(2.0)),
    (Goal::QueryStack, "asking a document 512 deep, KiB of stack", Wanted::AtMost(128.0)),
];

struct Found {
    goal: Goal,
    spread: Spread,
    place: String,
}

/// What was measured for the goals so far.
#[derive(Default)]
pub struct Goals(Vec<Found>);

impl Goals {
    pub fn note(&mut self, goal: Goal, spread: Spread, place: &str) {
        self.0.push(Found { goal, spread, place: place.into() });
    }

    pub fn print(&self) {
        markdown::heading("Goals");
        markdown::caption("Each with the worst that this run measured; the median decides.");
        markdown::head(&["goal", "wanted", "the worst", "where", "rows that meet it", ""]);
        for (goal, words, wanted) in GOALS {
            self.print_one(goal, words, wanted);
        }
    }

    fn print_one(&self, goal: Goal, words: &str, wanted: Wanted) {
        let found: Vec<&Found> = self.0.iter().filter(|f| f.goal == goal).collect();
        let met = found.iter().filter(|f| wanted.met(f.spread.median)).count();
        let worst = found.iter().copied().reduce(|a, b| if wanted.worse(b.spread.median, a.spread.median) { b } else { a });
        let mut cells = vec![words.to_string(), wanted.words()];
        match worst {
            None => cells.extend(["".into(), "".into(), "".into(), "not measured in this run".into()]),
            Some(worst) => cells.extend([
                worst.spread.to_string(),
                worst.place.clone(),
                format!("{met} of {}", found.len()),
                if met == found.len() { "met" } else { "**missed**" }.into(),
            ]),
        }
        markdown::row(&cells);
    }
}
