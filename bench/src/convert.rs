//! Conversion from one form into the other (02, [2]) beside a plain write of the same table over the same bytes. All memory is lent and used again.
use crate::harness::each;
use crate::inputs::{changing, Doc};
use crate::library::{self, WORDS};
use crate::markdown;
use crate::pocket::{documents, turned, JAVA, POCKET};
use crate::Bench;
use std::hint::black_box;

pub fn section(bench: &mut Bench) {
    markdown::section("Conversion", "convert");
    markdown::caption("Strings that are the same bytes in both forms:");
    head();
    for (what, doc) in documents(bench) {
        let pair = Pair::of(&doc);
        assert!(pair.pocket == turned(&doc.bytes), "{what}");
        row(bench, &what, &pair);
    }
    markdown::caption("Strings whose characters take another number of bytes:");
    head();
    for (what, doc) in changing() {
        row(bench, what, &Pair::of(&doc));
    }
}

/// A document in both forms, with its tables.
struct Pair<'a> {
    java: &'a [u8],
    java_table: Vec<u32>,
    pocket: Vec<u8>,
    pocket_table: Vec<u32>,
    tags: usize,
}

impl Pair<'_> {
    /// No character takes more bytes in the pocket edition's form than in Java's.
    fn of(doc: &Doc) -> Pair<'_> {
        let (mut java_table, mut pocket) = (doc.table(), vec![0; doc.bytes.len()]);
        let answer = library::convert(JAVA, POCKET, &doc.bytes, &mut java_table, &mut pocket);
        assert_eq!(answer[0], 0);
        pocket.truncate(answer[2] as usize);
        let mut pocket_table = vec![0; WORDS * doc.tags];
        assert_eq!(library::read_in(POCKET, &pocket, &mut pocket_table)[..3], [0, 0, pocket.len() as u64]);
        Pair { java: &doc.bytes, java_table, pocket, pocket_table, tags: doc.tags }
    }
}

fn head() {
    markdown::head(&[
        "document",
        "bytes, Java",
        "bytes, pocket",
        "tags",
        "Java written, ns a tag",
        "Java to pocket",
        "converted / written",
        "pocket written, ns a tag",
        "pocket to Java",
        "converted / written",
    ]);
}

fn row(bench: &mut Bench, what: &str, pair: &Pair) {
    let Pair { java, pocket, tags, .. } = pair;
    let (mut java_table, mut pocket_table) = (pair.java_table.clone(), pair.pocket_table.clone());
    let (mut there, mut back) = (pair.java_table.clone(), pair.pocket_table.clone());
    let (mut plain, mut as_java) = (vec![0; java.len()], vec![0; java.len()]);
    let (mut other, mut as_pocket) = (vec![0; pocket.len()], vec![0; pocket.len()]);
    let times = bench.plan.measure(&mut [
        &mut || assert_eq!(library::write_in(JAVA, black_box(java), &mut java_table, &mut plain)[0], 0),
        &mut || assert_eq!(library::convert(JAVA, POCKET, black_box(java), &mut there, &mut as_pocket)[0], 0),
        &mut || assert_eq!(library::write_in(POCKET, black_box(pocket), &mut pocket_table, &mut other)[0], 0),
        &mut || assert_eq!(library::convert(POCKET, JAVA, black_box(pocket), &mut back, &mut as_java)[0], 0),
    ]);
    assert!(plain == *java && as_java == *java && other == *pocket && as_pocket == *pocket, "{what}");
    markdown::row(&[
        what.into(),
        java.len().to_string(),
        pocket.len().to_string(),
        tags.to_string(),
        each(times.of(0), *tags),
        each(times.of(1), *tags),
        times.ratio(1, 0).to_string(),
        each(times.of(2), *tags),
        each(times.of(3), *tags),
        times.ratio(3, 2).to_string(),
    ]);
}
