//! The documents and texts that the sections share.
use crate::library::{self, WORDS};
use crate::markdown::grouped;
use std::fmt::Write;

/// In which order the names of one compound come.
#[derive(Clone, Copy)]
pub enum Order {
    Sorted,
    Reversed,
    Random,
}

pub const ORDERS: [Order; 3] = [Order::Sorted, Order::Reversed, Order::Random];

impl Order {
    pub fn name(self) -> &'static str {
        match self {
            Order::Sorted => "sorted",
            Order::Reversed => "reversed",
            Order::Random => "random",
        }
    }

    /// The numbers below n in this order; the random one is the same in each run.
    fn numbers(self, n: usize) -> Vec<usize> {
        let mut numbers: Vec<usize> = (0..n).collect();
        match self {
            Order::Sorted => {}
            Order::Reversed => numbers.reverse(),
            Order::Random => shuffle(&mut numbers),
        }
        numbers
    }
}

fn shuffle(numbers: &mut [usize]) {
    let mut random = random();
    for i in (1..numbers.len()).rev() {
        numbers.swap(i, (random() % (i as u64 + 1)) as usize);
    }
}

/// Random numbers of 64 bits, one at each call; the same in each run.
fn random() -> impl FnMut() -> u64 {
    let mut seed: u64 = 88172645463325252;
    move || {
        seed ^= seed << 13;
        seed ^= seed >> 7;
        seed ^= seed << 17;
        seed
    }
}

/// So many random words.
pub fn random_words(n: usize) -> Vec<u32> {
    let mut random = random();
    (0..n).map(|_| random() as u32).collect()
}

/// A document and the number of its tags, which is that of its records.
pub struct Doc {
    pub bytes: Vec<u8>,
    pub tags: usize,
}

impl Doc {
    fn new() -> Doc {
        Doc { bytes: vec![10, 0, 0], tags: 1 }
    }

    fn head(&mut self, kind: u8, name: &[u8]) {
        self.bytes.push(kind);
        self.string(name);
        self.tags += 1;
    }

    fn string(&mut self, s: &[u8]) {
        self.bytes.extend((s.len() as u16).to_be_bytes());
        self.bytes.extend(s);
    }

    fn list(&mut self, name: &[u8], kind: u8, n: usize) {
        self.head(9, name);
        self.bytes.push(kind);
        self.bytes.extend((n as u32).to_be_bytes());
    }

    fn end(mut self) -> Doc {
        self.bytes.push(0);
        self
    }

    /// The table that reading fills.
    pub fn table(&self) -> Vec<u32> {
        let mut table = vec![0; WORDS * self.tags];
        let answer = library::read(&self.bytes, &mut table);
        assert_eq!((answer[0], answer[2], answer[3]), (0, self.bytes.len() as u64, self.tags as u64));
        table
    }
}

/// Tiles: compounds of a dozen small tags with ordinary names, thirteen records each.
pub fn tiles(n: usize) -> Doc {
    let mut d = Doc::new();
    d.list(b"Tiles", 10, n);
    for i in 0..n {
        tile(&mut d, i);
    }
    d.end()
}

/// Tiles of n records or a few less.
pub fn tiles_of_records(n: usize) -> Doc {
    tiles((n - 2) / 13)
}

fn tile(d: &mut Doc, i: usize) {
    d.tags += 1;
    d.head(8, b"SceneId");
    d.string(format!("S2B_{i:07}").as_bytes());
    for name in ["OriginLon", "OriginLat", "Width", "Height"] {
        d.head(3, name.as_bytes());
        d.bytes.extend((i as u32).to_be_bytes());
    }
    d.head(1, b"Level");
    d.bytes.push(7);
    d.head(2, b"Epsg");
    d.bytes.extend([0x10, 0xE6]);
    d.head(6, b"CloudCover");
    d.bytes.extend(0.25f64.to_be_bytes());
    d.head(11, b"Footprint");
    d.bytes.extend([0, 0, 0, 8]);
    d.bytes.extend([1u8; 32]);
    d.head(10, b"Sensor");
    d.head(8, b"Name");
    d.string(b"MSI");
    d.head(4, b"Taken");
    d.bytes.extend([0; 8]);
    d.bytes.extend([0, 0]);
}

fn arrays(n: usize, elements: usize) -> Doc {
    let mut d = Doc::new();
    for i in 0..n {
        d.head(12, format!("a{i}").as_bytes());
        d.bytes.extend((elements as u32).to_be_bytes());
        d.bytes.extend(vec![3u8; 8 * elements]);
    }
    d.end()
}

fn strings(n: usize, length: usize, each: &[u8]) -> Doc {
    let mut d = Doc::new();
    let text = each.repeat(length / each.len());
    for i in 0..n {
        d.head(8, format!("s{i}").as_bytes());
        d.string(&text);
    }
    d.end()
}

/// A list of n elements of this kind, each with this payload.
pub fn list_of(kind: u8, n: usize, payload: &[u8]) -> Doc {
    let mut d = Doc::new();
    d.list(b"l", kind, n);
    d.bytes.extend(payload.repeat(n));
    d.tags += n;
    d.end()
}

/// One compound of n entries, whose names are seven digits between bytes that all have in common.
pub fn wide(n: usize, before: usize, after: usize, order: Order) -> Doc {
    let mut d = Doc::new();
    for i in order.numbers(n) {
        let name = format!("{}{i:07}{}", "p".repeat(before), "s".repeat(after));
        d.head(1, name.as_bytes());
        d.bytes.push(7);
    }
    d.end()
}

/// Paths of compounds in each other, beside each other in the root; each is `deep` levels with the root.
pub fn nested(paths: usize, deep: usize) -> Doc {
    let mut d = Doc::new();
    for i in 0..paths {
        d.head(10, i.to_string().as_bytes());
        for _ in 2..deep {
            d.head(10, b"x");
        }
        d.bytes.extend(vec![0; deep - 1]);
    }
    d.end()
}

/// Documents whose bytes are nearly all payload.
pub fn payloads() -> [(&'static str, Doc); 4] {
    [
        ("100 arrays of 1,000 longs", arrays(100, 1_000)),
        ("10 arrays of 200,000 longs", arrays(10, 200_000)),
        ("100 strings of 60,000 bytes, ASCII", strings(100, 60_000, b"a scene over the reef, ")),
        ("100 strings of 60,000 bytes, mixed", strings(100, 60_000, "Größe und Höhe über dem Riff, ".as_bytes())),
    ]
}

/// Documents with characters that take another number of bytes in the pocket edition's form: U+0000 two and one, U+1F600 six and four.
pub fn changing() -> [(&'static str, Doc); 3] {
    [
        ("100 strings of 60,000 bytes, ASCII, each 23rd character U+0000", strings(100, 60_000, b"a scene over the reef,\xC0\x80")),
        ("100 strings of 60,000 bytes, U+0000", strings(100, 60_000, b"\xC0\x80")),
        ("100 strings of 60,000 bytes, U+1F600", strings(100, 60_000, b"\xED\xA0\xBD\xED\xB8\x80")),
    ]
}

/// Hostile documents that are not one wide compound: paths, and lists of n elements of the shortest kinds.
pub fn odd_shapes(n: usize) -> [(String, Doc); 3] {
    [
        ("100 paths of compounds, 512 deep".into(), nested(100, 512)),
        (format!("list of {} empty lists", grouped(n)), list_of(9, n, &[0; 5])),
        (format!("list of {} empty compounds", grouped(n)), list_of(10, n, &[0])),
    ]
}

/// A text like a tile's record: n tiles with a scene, an origin and a footprint.
pub fn tile_text(n: usize) -> String {
    let mut s = String::from("{DataVersion: 3465, Tiles: [");
    for i in 0..n {
        let comma = if i == 0 { "" } else { ", " };
        let (lon, part, lat, cloud) = (i % 180, i % 1000, i % 90, i % 100);
        let origin = format!("OriginLon: {lon}.{part:03}d, OriginLat: -{lat}.25d");
        let footprint = format!("Footprint: [I; {i}, {}, 7, -{i}]", i * 3);
        write!(s, "{comma}{{SceneId: \"LC08_{i:06}\", {origin}, {footprint}, Cloud: {cloud}b, Name: reef_{i}}}").unwrap();
    }
    s + "]}"
}

/// One compound with n keys in this order.
pub fn keys_text(n: usize, order: Order) -> String {
    let entries: Vec<String> = order.numbers(n).into_iter().map(|i| format!("k{i:06}:1")).collect();
    format!("{{{}}}", entries.join(","))
}

/// A list of n times this element.
pub fn list_text(n: usize, element: &str) -> String {
    format!("{{a:[{}]}}", vec![element; n].join(","))
}

/// A list of n random whole numbers of a range, each with d.
pub fn doubles_text(n: usize, range: std::ops::Range<u64>) -> String {
    let mut random = random();
    let numbers: Vec<String> = (0..n).map(|_| format!("{}d", range.start + random() % (range.end - range.start))).collect();
    format!("{{a:[{}]}}", numbers.join(","))
}

/// An opening piece so many times, then a closing one as often.
pub fn around(n: usize, open: &str, close: &str) -> String {
    open.repeat(n) + &close.repeat(n)
}
