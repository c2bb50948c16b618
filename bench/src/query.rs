//! Queries: plain ones as tables grow, beside what a user would write by hand, and those that cost most. The crate beside which the other
//! sections stand has no query.
use crate::goals::Goal;
use crate::growth::{self, Call};
use crate::harness::figure;
use crate::inputs::{tiles, tiles_of_records, wide, Doc, Order};
use crate::library;
use crate::markdown::{self, grouped};
use crate::{by_hand, worst, Bench};
use std::hint::black_box;
use tikfazrul::{Node, Table};

pub fn section(bench: &mut Bench) {
    markdown::section("Asking", "query");
    growing(bench);
    beside(bench);
    worst::queries(bench);
    worst::longest_names(bench);
}

/// The step to an entry.
fn entry(name: &str) -> Vec<u8> {
    [&[1, 0, name.len() as u8], name.as_bytes()].concat()
}

/// `root/**/name`.
fn anywhere(name: &str) -> Vec<u8> {
    [vec![4], entry(name)].concat()
}

/// `root/Tiles/*/name`.
fn in_tiles(name: &str) -> Vec<u8> {
    [entry("Tiles"), vec![3], entry(name)].concat()
}

fn growing(bench: &mut Bench) {
    markdown::caption(
        "Growth, ns a record, of `root/**/name`, which is 04, 01 name, and of `root/Tiles/*/name`, which is 01 Tiles, 03, 01 name:",
    );
    let sizes = growth::sizes(bench);
    growth::head("records", &sizes);
    let one: fn(usize) -> Doc = |n| wide(n - 1, 0, 0, Order::Random);
    grows(bench, "`**`, tiles, a name in each", &sizes, tiles_of_records, anywhere("SceneId"), Some(Goal::QueryAnywhere));
    grows(bench, "`**`, tiles, a name in none", &sizes, tiles_of_records, anywhere("SceneIx"), Some(Goal::QueryAnywhere));
    grows(bench, "`**`, one compound, one of its names", &sizes, one, anywhere("0000500"), None);
    grows(bench, "`Tiles/*`, tiles, a name in each", &sizes, tiles_of_records, in_tiles("SceneId"), Some(Goal::QueryPath));
    grows(bench, "`Tiles/*`, tiles, a name in none", &sizes, tiles_of_records, in_tiles("SceneIx"), Some(Goal::QueryPath));
}

fn grows(bench: &mut Bench, what: &str, sizes: &[usize], make: fn(usize) -> Doc, query: Vec<u8>, goal: Option<Goal>) {
    let calls = sizes.iter().map(|&n| asking(make(n), query.clone())).collect();
    let times = growth::row(bench, what, calls, None);
    let Some(goal) = goal else { return };
    for (&n, time) in sizes.iter().zip(times) {
        bench.goals.note(goal, time, &format!("{what}, {}", grouped(n)));
    }
}

/// A query whose list has room for every record, so that one walk suffices.
fn asking(doc: Doc, query: Vec<u8>) -> Call {
    let (table, mut list) = (doc.table(), vec![0; doc.tags]);
    Call { pieces: doc.tags, call: Box::new(move || assert_eq!(library::query(black_box(&doc.bytes), &table, &query, &mut list)[0], 0)) }
}

/// The name that each tile has once.
const NAME: &str = "SceneId";

type Hand = (&'static str, fn(&Node, &str, &mut Vec<u32>));

/// A query for the name in each tile, and what finds the same by hand.
struct Asked {
    path: &'static str,
    query: Vec<u8>,
    hands: &'static [Hand],
}

fn asked() -> [Asked; 2] {
    const STRINGS: &str = "by hand, over `Node`, names as strings";
    [
        Asked { path: "`root/**/SceneId`", query: anywhere(NAME), hands: &[(STRINGS, by_hand::anywhere)] },
        Asked {
            path: "`root/Tiles/*/SceneId`",
            query: in_tiles(NAME),
            hands: &[(STRINGS, by_hand::in_tiles), ("by hand, by `Node::get`, up to the first so named", by_hand::got_in_tiles)],
        },
    ]
}

type Find<'a> = dyn Fn(&mut Vec<u32>) + 'a;

/// A way to find what a query lists, and the list that it is lent.
struct Way<'a> {
    what: &'static str,
    list: Vec<u32>,
    find: Box<Find<'a>>,
}

impl<'a> Way<'a> {
    /// The query, whose list has this room.
    fn query(what: &'static str, doc: &'a Doc, table: &'a Table, asked: &'a Asked, room: usize, matches: usize) -> Way<'a> {
        let find = move |list: &mut Vec<u32>| {
            let answer = library::query(black_box(&doc.bytes), table.words(), &asked.query, list);
            assert_eq!(answer[..3], [0, 0, matches as u64]);
        };
        Way { what, list: vec![0; room], find: Box::new(find) }
    }

    fn by_hand(hand: Hand, doc: &'a Doc, table: &'a Table, matches: usize) -> Way<'a> {
        let find = move |list: &mut Vec<u32>| {
            list.clear();
            hand.1(&table.root(black_box(&doc.bytes)).unwrap(), NAME, list);
            assert_eq!(list.len(), matches);
        };
        Way { what: hand.0, list: Vec::with_capacity(matches), find: Box::new(find) }
    }
}

fn beside(bench: &mut Bench) {
    markdown::caption(
        "The name in each tile, asked for and found by hand; with room for the matches alone, a walk of its own counts them first:",
    );
    markdown::head(&["document", "records", "path", "found by", "ns a record", "time over the query's with room for every record"]);
    for n in [10, 1_000, bench.plan.size(50_000, 5_000)] {
        let doc = tiles(n);
        let table = tikfazrul::read(&doc.bytes).unwrap();
        for asked in asked() {
            let mut ways = vec![
                Way::query("query, room for every record", &doc, &table, &asked, doc.tags, n),
                Way::query("query, room for the matches", &doc, &table, &asked, n, n),
            ];
            ways.extend(asked.hands.iter().map(|&hand| Way::by_hand(hand, &doc, &table, n)));
            agree(&mut ways, n);
            rows(bench, &[format!("tiles, {}", grouped(n)), doc.tags.to_string(), asked.path.into()], doc.tags, &mut ways);
        }
    }
}

/// Every way is to list the same.
fn agree(ways: &mut [Way], matches: usize) {
    for way in ways.iter_mut() {
        (way.find)(&mut way.list);
    }
    for way in &ways[1..] {
        assert!(way.list[..matches] == ways[0].list[..matches], "{}", way.what);
    }
}

fn rows(bench: &mut Bench, left: &[String], records: usize, ways: &mut [Way]) {
    let mut calls: Vec<_> = ways.iter_mut().map(|way| || (way.find)(&mut way.list)).collect();
    let mut sides: Vec<&mut dyn FnMut()> = Vec::new();
    for call in &mut calls {
        sides.push(call);
    }
    let times = bench.plan.measure(&mut sides);
    for (i, way) in ways.iter().enumerate() {
        let ratio = if i == 0 { "".into() } else { times.ratio(i, 0).to_string() };
        markdown::row(&[left, &[way.what.into(), figure(times.each(i, records).median), ratio]].concat());
    }
}
