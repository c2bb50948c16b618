//! The queries that cost most, on the tables where they do.
use crate::goals::Goal;
use crate::harness::{figure, Plan};
use crate::library::{self, WORDS};
use crate::markdown::{self, grouped};
use crate::Bench;

/// The containers that may stand in each other.
const DEPTH: usize = 512;

/// The document that every span lies in: all names are x, so that a name is compared wherever there is one.
pub const DOC: &[u8] = b"x";

/// Which records a query of sixteen steps lists: those eight levels or more below the root are far.
#[derive(Clone, Copy)]
enum Matches {
    None,
    Far,
    All,
}

/// A table of records as words, with what is known of it.
#[derive(Default)]
pub struct Words {
    pub words: Vec<u32>,
    records: usize,
    far: usize,
}

impl Words {
    /// A compound of so many entries or a string, so many levels below the root, whose subtree ends at `end`, in this parent.
    fn put(&mut self, kind: u32, level: usize, count: usize, end: usize, parent: usize) {
        self.words.extend([kind, 0, 1, 0, 0, count as u32, 0, end as u32, parent as u32]);
        self.records += 1;
        self.far += (level >= 8) as usize;
    }

    /// So many compounds in each other, the first an entry of the root; the last holds n strings.
    fn column(&mut self, deep: usize, n: usize) {
        let (end, mut parent) = (self.records + deep + n, 0);
        for i in 1..=deep {
            let record = self.records;
            self.put(10, i, if i < deep { 1 } else { n }, end, parent);
            parent = record;
        }
        for _ in 0..n {
            self.put(8, deep + 1, 0, self.records + 1, parent);
        }
    }

    /// One path: each compound is the one entry of the one before.
    pub fn path(n: usize) -> Words {
        let mut t = Words::default();
        t.put(10, 0, 1, n, 0);
        t.column(n - 1, 0);
        t
    }

    /// Strings in the root.
    fn wide(n: usize) -> Words {
        let mut t = Words::default();
        t.put(10, 0, n - 1, n, 0);
        for i in 1..n {
            t.put(8, 1, 0, i + 1, 0);
        }
        t
    }

    /// Paths of 512 containers beside each other.
    fn nested(n: usize) -> Words {
        let mut t = Words::default();
        let columns = n / (DEPTH - 1);
        t.put(10, 0, columns, 1 + columns * (DEPTH - 1), 0);
        for _ in 0..columns {
            t.column(DEPTH - 1, 0);
        }
        t
    }

    /// One path of 512 containers, and strings in the last of them.
    fn deepest(n: usize) -> Words {
        let mut t = Words::default();
        t.put(10, 0, 1, n, 0);
        t.column(DEPTH - 1, n - DEPTH);
        t
    }

    fn ask(&self, asked: &Asked, list: &mut [u32]) {
        let answer = library::query(DOC, &self.words, &asked.query, list);
        let wanted = match asked.matches {
            Matches::None => 0,
            Matches::Far => self.far,
            Matches::All => self.records,
        };
        assert_eq!((answer[0], answer[2]), (0, wanted as u64));
    }
}

/// A query of sixteen steps.
struct Asked {
    what: &'static str,
    matches: Matches,
    query: Vec<u8>,
    /// Whether it is one of the five that the goal bounds.
    bounded: bool,
}

fn asked() -> [Asked; 6] {
    let of_five = |what, matches, query| Asked { what, matches, query, bounded: true };
    let name = [1, 0, 1, b'y'];
    [
        of_five("04 03, eight times", Matches::Far, [4, 3].repeat(8)),
        of_five("04, sixteen times", Matches::All, [4].repeat(16)),
        of_five("04 01 x, eight times", Matches::Far, [4, 1, 0, 1, b'x'].repeat(8)),
        of_five("04 01 y, eight times", Matches::None, [4, 1, 0, 1, b'y'].repeat(8)),
        of_five("04, 03 fourteen times, 01 y", Matches::None, [vec![4], vec![3; 14], name.to_vec()].concat()),
        Asked { what: "04, 01 y fifteen times", matches: Matches::None, query: [vec![4], name.repeat(15)].concat(), bounded: false },
    ]
}

struct Shape {
    name: &'static str,
    build: fn(usize) -> Words,
    few: usize,
    many: usize,
}

/// The name of the shape that shows what a level costs.
const PATH: &str = "one path";

/// Each with few records and with many, and the path with few levels and with as many as may be.
fn shapes(plan: Plan) -> [Shape; 4] {
    let shape = |name, build, few, many| Shape { name, build, few, many };
    [
        shape(PATH, Words::path as fn(usize) -> Words, 32, DEPTH),
        shape("wide", Words::wide, 10_000, plan.size(1_000_000, 100_000)),
        shape("nested", Words::nested, plan.size(5_200, 1_100), plan.size(500_000, 4_100)),
        shape("deepest", Words::deepest, plan.size(2_000, 1_000), plan.size(100_000, 2_000)),
    ]
}

/// The longest name, as the document and in each step: a table that no reader made may give it to every record.
pub fn longest_names(bench: &mut Bench) {
    const LONGEST: usize = u16::MAX as usize;
    let (doc, mut deep) = (vec![b'x'; LONGEST], Words::deepest(1_000));
    deep.words.chunks_exact_mut(WORDS).for_each(|record| record[2] = LONGEST as u32);
    let step = [&[1, 0xFF, 0xFF], &doc[..]].concat();
    let (query, mut list) = ([vec![4], step.repeat(15)].concat(), vec![0; deep.records]);
    let mut ask = || {
        let answer = library::query(&doc, &deep.words, &query, &mut list);
        // all but those nearer to the root than fifteen levels
        assert_eq!((answer[0], answer[2]), (0, deep.records as u64 - 15));
    };
    let times = bench.plan.measure(&mut [&mut ask]);
    markdown::caption("The longest name in every record of a table that no reader made, and fifteen times in the query:");
    markdown::head(&["table", "query", "records", "ns a record"]);
    let time = figure(times.each(0, deep.records).median);
    markdown::row(&["deepest", "04, 01 and 65,535 bytes fifteen times", &deep.records.to_string(), &time].map(String::from));
}

pub fn queries(bench: &mut Bench) {
    markdown::caption("The queries that cost most:");
    markdown::head(&["table", "query", "records", "ns a record", "records", "ns a record", "growth"]);
    for shape in shapes(bench.plan) {
        let tables = [(shape.build)(shape.few), (shape.build)(shape.many)];
        for asked in asked() {
            row(bench, shape.name, &asked, &tables);
        }
    }
}

fn row(bench: &mut Bench, shape: &str, asked: &Asked, tables: &[Words; 2]) {
    let [few, many] = tables;
    let (mut few_list, mut many_list) = (vec![0; few.records], vec![0; many.records]);
    let times = bench.plan.measure(&mut [&mut || few.ask(asked, &mut few_list), &mut || many.ask(asked, &mut many_list)]);
    let growth = times.ratio(1, 0).times(few.records as f64 / many.records as f64);
    if shape == PATH {
        bench.goals.note(Goal::QueryDepth, growth, asked.what);
    }
    let mut cells = vec![shape.to_string(), asked.what.to_string()];
    for (i, table) in tables.iter().enumerate() {
        let time = times.each(i, table.records);
        cells.extend([table.records.to_string(), figure(time.median)]);
        if asked.bounded {
            bench.goals.note(Goal::QueryWorst, time, &format!("{shape}, {}, {} records", asked.what, grouped(table.records)));
        }
    }
    cells.push(growth.to_string());
    markdown::row(&cells);
}
