//! Views of tags: kinds, names, values, ways up and down.
use std::path::PathBuf;
use std::time::Instant;
use tikfazrul::{read, Kind, Link, Node, Query, Table, Trail};

/// A document written by hand, tag by tag.
#[derive(Default)]
struct Doc(Vec<u8>);

impl Doc {
    fn tag(mut self, kind: u8, name: &[u8], payload: &[u8]) -> Doc {
        self.0.push(kind);
        self.0.extend((name.len() as u16).to_be_bytes());
        self.0.extend(name);
        self.0.extend(payload);
        self
    }

    fn end(mut self) -> Vec<u8> {
        self.0.push(0);
        self.0
    }
}

/// Every kind once; the list holds two compounds of a string each.
fn kinds() -> Vec<u8> {
    Doc::default()
        .tag(10, b"all", b"")
        .tag(1, b"byte", &(-1i8).to_be_bytes())
        .tag(2, b"short", &i16::MIN.to_be_bytes())
        .tag(3, b"int", &i32::MAX.to_be_bytes())
        .tag(4, b"long", &i64::MIN.to_be_bytes())
        .tag(5, b"float", &1.5f32.to_be_bytes())
        .tag(6, b"double", &(-0.1f64).to_be_bytes())
        .tag(7, b"bytes", &[0, 0, 0, 3, 1, 0x80, 0x7F])
        .tag(8, b"string", b"\0\x05reef!")
        .tag(9, b"list", b"\x0A\0\0\0\x02\x08\0\x01s\0\x01A\0\x08\0\x01s\0\x01B\0")
        .tag(11, b"ints", &[0, 0, 0, 2, 0, 0, 0, 7, 0xFF, 0xFF, 0xFF, 0xFF])
        .tag(12, b"longs", &[0, 0, 0, 1, 0x80, 0, 0, 0, 0, 0, 0, 0])
        .tag(9, b"empty", &[0, 0, 0, 0, 0])
        .end()
}

/// Compounds in lists in a list, so that an index is counted in each.
fn nested() -> Vec<u8> {
    tikfazrul::parse(b"{t: [[{a: 1b}, {a: 2b}], [{a: 3b}, {a: 4b}, {a: 5b, b: [{}]}]]}").unwrap().document
}

fn sample(name: &str) -> Vec<u8> {
    std::fs::read(PathBuf::from(env!("CARGO_MANIFEST_DIR")).join("../samples").join(name)).expect(name)
}

#[test]
fn every_kind_has_its_value() {
    let doc = kinds();
    let table = read(&doc).unwrap();
    let root = table.root(&doc).unwrap();
    let get = |name| root.get(name).unwrap();
    assert_eq!(get("byte").as_i8(), Some(-1));
    assert_eq!(get("short").as_i16(), Some(i16::MIN));
    assert_eq!(get("int").as_i32(), Some(i32::MAX));
    assert_eq!(get("long").as_i64(), Some(i64::MIN));
    assert_eq!(get("float").as_f32(), Some(1.5));
    assert_eq!(get("double").as_f64(), Some(-0.1));
    assert_eq!(get("string").as_str().unwrap(), "reef!");
    assert_eq!(get("bytes").byte_array().unwrap().collect::<Vec<_>>(), [1, -128, 127]);
    assert_eq!(get("ints").int_array().unwrap().collect::<Vec<_>>(), [7, -1]);
    assert_eq!(get("longs").long_array().unwrap().collect::<Vec<_>>(), [i64::MIN]);
    assert_eq!(get("list").len(), 2);
    assert_eq!(get("list").list_kind(), Some(Kind::Compound));
    assert_eq!(get("empty").list_kind(), None);
}

#[test]
fn a_getter_of_another_kind_has_nothing() {
    let doc = kinds();
    let table = read(&doc).unwrap();
    for (_, node) in table.root(&doc).unwrap().walk() {
        let kind = node.kind();
        assert_eq!(node.as_i8().is_some(), kind == Kind::Byte);
        assert_eq!(node.as_i16().is_some(), kind == Kind::Short);
        assert_eq!(node.as_i32().is_some(), kind == Kind::Int);
        assert_eq!(node.as_i64().is_some(), kind == Kind::Long);
        assert_eq!(node.as_f32().is_some(), kind == Kind::Float);
        assert_eq!(node.as_f64().is_some(), kind == Kind::Double);
        assert_eq!(node.as_str().is_some(), kind == Kind::String);
        assert_eq!(node.byte_array().is_some(), kind == Kind::ByteArray);
        assert_eq!(node.int_array().is_some(), kind == Kind::IntArray);
        assert_eq!(node.long_array().is_some(), kind == Kind::LongArray);
        assert_eq!(node.as_whole().is_some(), (1..=4).contains(&kind.id()));
        assert_eq!(node.wholes().is_some(), matches!(kind.id(), 7 | 11 | 12));
        assert_eq!(node.children().count(), if kind.is_container() { node.len() } else { 0 });
        assert_eq!(Kind::from_id(kind.id()), Some(kind));
    }
    assert_eq!((Kind::from_id(0), Kind::from_id(13), Kind::from_id(255)), (None, None, None));
}

#[test]
fn a_walk_passes_every_record_once_and_paths_lead_back() {
    let doc = kinds();
    let table = read(&doc).unwrap();
    let root = table.root(&doc).unwrap();
    let mut number = 0;
    for (depth, node) in root.walk() {
        assert_eq!(node.record(), number);
        assert_eq!(node.lineage().len(), depth + 1);
        let query: Query = node.path().parse().unwrap();
        let found = table.find(&doc, &query).unwrap();
        assert_eq!(found.iter().map(|n| n.record()).collect::<Vec<_>>(), [number], "{}", node.path());
        assert_eq!(found[0].link(), node.link());
        number += 1;
    }
    assert_eq!(number, table.len());
}

#[test]
fn ways_up_and_down() {
    let doc = kinds();
    let table = read(&doc).unwrap();
    let root = table.root(&doc).unwrap();
    let second = root.get("list").unwrap().element(1).unwrap();
    let string = second.get("s").unwrap();
    assert_eq!((string.path().as_str(), string.as_str().unwrap().as_ref()), ("root/list[1]/s", "B"));
    assert_eq!(string.parent().unwrap().record(), second.record());
    assert_eq!((second.link(), string.link(), root.link()), (Link::Element(1), Link::Entry, Link::Root));
    assert_eq!((second.name(), root.name().unwrap().as_ref()), (None, "all"));
    assert!(root.parent().is_none());
    assert!(root.contains_key("ints") && !root.contains_key("Ints"));
    assert!(root.get("list").unwrap().element(2).is_none());
    assert!(root.get("list").unwrap().get("s").is_none());
    assert!(root.element(0).is_none());
}

/// A record's last word is the number of the record that it stands in, and 0 in the root (02, [7]).
#[test]
fn the_parents_of_two_samples_by_hand() {
    // scene, origin and footprint hang on the root
    let reef = vec![0; 5];
    // the root's two entries; then in each of five tiles itself, its Scene, the SceneId and Clouds in that, and its OriginLon
    let tiles = [[2, 3, 4, 4, 3], [2, 8, 9, 9, 8], [2, 13, 14, 14, 13], [2, 18, 19, 19, 18], [2, 23, 24, 24, 23]];
    let mosaic = [&[0, 0, 0][..], &tiles.concat()].concat();
    for (name, wanted) in [("reef.nbt", reef), ("mosaic.nbt", mosaic)] {
        let doc = sample(name);
        let table = read(&doc).unwrap();
        let words: Vec<u32> = table.words().chunks(9).map(|record| record[8]).collect();
        assert_eq!(words, wanted, "{name}");
        let above = |node: Node| node.parent().map(|parent| parent.record() as u32);
        let climbed: Vec<Option<u32>> = table.root(&doc).unwrap().walk().map(|(_, node)| above(node)).collect();
        assert_eq!((climbed[0], climbed[1..].to_vec()), (None, wanted[1..].iter().copied().map(Some).collect()), "{name}");
    }
}

/// What a walk down from a tag by its children tells of each below it: the tags above, from the root down, and the path.
fn down<'a>(node: Node<'a>, above: &[Node<'a>], path: &str, told: &mut Vec<(Vec<Node<'a>>, String)>) {
    let line = [above, &[node]].concat();
    told.push((line.clone(), path.to_owned()));
    for (index, child) in node.children().enumerate() {
        let step = match node.kind() {
            Kind::List => format!("[{index}]"),
            _ => format!("/{}", tikfazrul::quoted(&child.name().unwrap())),
        };
        down(child, &line, &format!("{path}{step}"), told);
    }
}

/// What can be told of a tag without its parent's word.
fn told(node: &Node) -> (usize, Kind, usize) {
    (node.record(), node.kind(), node.end())
}

#[test]
fn climbing_finds_what_a_walk_down_finds() {
    for doc in [kinds(), nested(), sample("reef.nbt"), sample("mosaic.nbt"), sample("kinds.nbt"), sample("smallest.nbt")] {
        let table = read(&doc).unwrap();
        let mut walked = Vec::new();
        down(table.root(&doc).unwrap(), &[], "root", &mut walked);
        assert_eq!(walked.len(), table.len());
        let found = table.find(&doc, &"**".parse().unwrap()).unwrap();
        assert_eq!(found.len(), table.len());
        for (node, (line, path)) in found.iter().zip(&walked) {
            let (last, above) = line.split_last().unwrap();
            assert_eq!((told(node), node.link(), node.name()), (told(last), last.link(), last.name()));
            assert_eq!((node.path(), last.path()), (path.clone(), path.clone()));
            assert_eq!(node.parent().as_ref().map(told), above.last().map(told));
            assert_eq!(node.ancestors().map(|tag| told(&tag)).collect::<Vec<_>>(), above.iter().rev().map(told).collect::<Vec<_>>());
            assert_eq!(node.lineage().iter().map(told).collect::<Vec<_>>(), line.iter().map(told).collect::<Vec<_>>());
            // a tag that was climbed to says what one that was walked to says
            for (climbed, above) in node.ancestors().zip(above.iter().rev()) {
                assert_eq!((climbed.link(), climbed.name(), climbed.path()), (above.link(), above.name(), above.path()));
            }
            assert_eq!(node.ancestors().last().map(|tag| tag.record()), (node.record() > 0).then_some(0), "the root is the last");
        }
    }
}

/// A trail is for any tags in any order, and best in file order.
#[test]
fn a_trail_gives_the_paths_in_any_order() {
    for doc in [kinds(), nested(), sample("mosaic.nbt"), sample("kinds.nbt")] {
        let table = read(&doc).unwrap();
        let mut walked = Vec::new();
        down(table.root(&doc).unwrap(), &[], "root", &mut walked);
        let found = table.find(&doc, &"**".parse().unwrap()).unwrap();
        let count = found.len();
        // strides over the records, there and back: in order, with gaps, and every one more than once
        for stride in 1..count {
            let mut trail = Trail::new();
            let there = (0..2 * count).map(|n| n * stride % count);
            for record in there.clone().chain(there.rev()) {
                assert_eq!(trail.step(&found[record]), walked[record].1, "{record} by {stride}");
            }
        }
    }
}

/// A list of so many compounds of one byte each.
fn compounds(count: u32) -> Vec<u8> {
    let list = [b"\x0A", &count.to_be_bytes()[..], &b"\x01\0\0\x07\0".repeat(count as usize)].concat();
    Doc::default().tag(10, b"", b"").tag(9, b"", &list).end()
}

/// The paths of many matches in a long list cost little more by climbing than by walking, where the indices are known. A trail that counts
/// from the list's first element each time takes a hundred times as long.
#[test]
fn a_trail_counts_no_element_twice() {
    let doc = compounds(5_000);
    let table = read(&doc).unwrap();
    let walked: Vec<Node> = table.root(&doc).unwrap().walk().map(|(_, node)| node).collect();
    let found = table.find(&doc, &"**".parse().unwrap()).unwrap();
    let lengths = |nodes: &[Node]| {
        let start = Instant::now();
        let mut trail = Trail::new();
        let length: usize = nodes.iter().map(|node| trail.step(node).len()).sum();
        (start.elapsed(), length)
    };
    let best = |nodes: &[Node]| (0..3).map(|_| lengths(nodes)).min().unwrap();
    let ((climbing, climbed), (walking, known)) = (best(&found), best(&walked));
    assert_eq!(climbed, known);
    assert!(climbing < 20 * walking, "{climbing:?} by climbing, {walking:?} by walking");
}

#[test]
fn rare_names_are_found_by_their_text() {
    let doc = Doc::default().tag(10, b"", b"").tag(1, b"a\xC0\x80\xED\xA0\xBD\xED\xB8\x80", &[1]).tag(1, b"", &[2]).end();
    let table = read(&doc).unwrap();
    let root = table.root(&doc).unwrap();
    let name = "a\0\u{1F600}";
    assert_eq!(root.get(name).unwrap().name().unwrap(), name);
    assert_eq!(root.get(name).unwrap().path(), "root/\"a\\u0000\u{1F600}\"");
    assert_eq!(root.get("").unwrap().path(), "root/\"\"");
    assert_eq!(root.get("").unwrap().as_i8(), Some(2));
}

#[test]
fn a_document_comes_back_as_it_was() {
    let doc = kinds();
    let mut table = read(&doc).unwrap();
    let before = table.clone();
    assert_eq!(tikfazrul::write(&doc, &mut table).unwrap(), doc);
    assert_eq!(table, before);
}

#[test]
fn a_table_grows_and_is_used_again() {
    // a list of so many bytes: a record each, and the most that a document can make of its bytes
    let wide = |count: u32| {
        let mut payload = vec![1];
        payload.extend(count.to_be_bytes());
        payload.extend(vec![7; count as usize]);
        Doc::default().tag(10, b"", b"").tag(9, b"", &payload).end()
    };
    let mut table = Table::new();
    table.read(&wide(100_000)).unwrap();
    assert_eq!(table.len(), 100_002);
    table.read(&kinds()).unwrap();
    assert_eq!((table.len(), table.consumed()), (17, kinds().len()));
    table.read(&wide(1_048_574)).unwrap();
    assert_eq!(table.len(), tikfazrul::MAX_RECORDS);
    let full = table.read(&wide(1_048_575)).unwrap_err();
    assert_eq!((full.number(), full.place().number()), (8, 1_048_585));
    assert!(table.is_empty());
}
