//! Every sample cut at every byte: what is rescued is the whole document's own records, every one that came whole, and no other.
use std::path::PathBuf;
use tikfazrul::{read, rescue, Kind, Node, Refusal, Table};

/// A record of the whole document, by places in its bytes.
struct Span {
    /// The fewest bytes of the document in which it is kept.
    kept: usize,
    /// Where it ends.
    end: usize,
    /// The numbers of its children.
    children: Vec<usize>,
}

/// The spans of a tag whose payload begins at `at`, and of all below it, each at its record's number. Answers where it ends.
fn lay(node: Node, at: usize, spans: &mut Vec<Span>) -> usize {
    let size = node.payload().len();
    let number = spans.len();
    assert_eq!(number, node.record());
    let named = node.name_bytes().is_some();
    let (head, kept) = match node.kind() {
        Kind::List => (5, at + 5),
        // an entry by its name, an element by one byte of it
        Kind::Compound => (0, if named { at } else { at + 1 }),
        Kind::String => (2, at + 2 + size),
        Kind::ByteArray | Kind::IntArray | Kind::LongArray => (4, at + 4 + size),
        _ => (0, at + size),
    };
    spans.push(Span { kept, end: 0, children: Vec::new() });
    let mut end = at + head + size;
    for child in node.children() {
        spans[number].children.push(child.record());
        let name = child.name_bytes().map_or(0, |name| 3 + name.len());
        end = lay(child, end + name, spans);
    }
    // a compound's end byte
    end += usize::from(node.kind() == Kind::Compound);
    spans[number].end = end;
    end
}

fn nodes<'a>(table: &'a Table, doc: &'a [u8]) -> Vec<Node<'a>> {
    table.root(doc).unwrap().walk().map(|(_, node)| node).collect()
}

/// What is rescued of the first bytes of a document is what its spans say.
fn as_the_whole_says(doc: &[u8], whole: &[Node], spans: &[Span], cut: usize) {
    let rescued = rescue(&doc[..cut]).unwrap();
    let kept = spans.iter().filter(|span| span.kept <= cut).count();
    assert!(spans[..kept].iter().all(|span| span.kept <= cut), "what is kept comes first");
    assert_eq!(rescued.table, read(&rescued.document).unwrap());
    assert_eq!((rescued.table.len(), rescued.table.consumed()), (kept, rescued.document.len()));
    let mut changes = rescued.changes();
    for node in nodes(&rescued.table, &rescued.document) {
        let (was, span) = (&whole[node.record()], &spans[node.record()]);
        assert_eq!((node.kind(), node.name_bytes(), node.payload()), (was.kind(), was.name_bytes(), was.payload()));
        let came = span.children.iter().filter(|&&child| child < kept).count();
        if node.kind().is_container() && cut < span.end {
            let change = changes.next().unwrap();
            let promised = if node.kind() == Kind::List { was.len() } else { 0 };
            assert_eq!((change.record, change.kind, change.promised, change.kept), (node.record(), node.kind(), promised, came));
            assert_eq!(change.path, node.path());
            assert_eq!((node.len(), node.end()), (came, kept));
            assert_eq!(node.list_kind(), was.list_kind().filter(|_| came > 0));
        } else {
            assert_eq!((node.len(), node.end(), node.list_kind()), (was.len(), was.end(), was.list_kind()));
        }
    }
    assert_eq!(changes.next(), None);
}

/// What is refused otherwise than with 1 is refused so by the rescue, and what can be rescued is read again.
fn as_the_read_says(doc: &[u8]) {
    match (read(doc), rescue(doc)) {
        (Ok(_), Err(Refusal::NotCut(_))) => {}
        (Err(Refusal::DataEnds(_)), Ok(rescued)) => {
            assert_eq!(rescued.table, read(&rescued.document).unwrap());
            assert_eq!(rescue(&rescued.document), Err(Refusal::NotCut(tikfazrul::Place::Whole)));
        }
        (Err(Refusal::DataEnds(place)), Err(Refusal::RootCut(at))) => assert_eq!(place, at),
        (Err(refusal), Err(same)) => assert_eq!(refusal, same),
        (read, rescued) => panic!("{read:?} and {rescued:?}"),
    }
}

fn samples() -> Vec<Vec<u8>> {
    let folder = PathBuf::from(env!("CARGO_MANIFEST_DIR")).join("../samples");
    let files = std::fs::read_dir(folder).unwrap().map(|entry| entry.unwrap().path());
    let documents: Vec<Vec<u8>> =
        files.filter(|path| path.extension().is_some_and(|end| end == "nbt")).map(|path| std::fs::read(path).unwrap()).collect();
    assert!(documents.len() >= 10);
    documents
}

#[test]
fn every_sample_cut_at_every_byte() {
    let mut accepted = 0;
    for doc in samples() {
        if let Ok(table) = read(&doc) {
            let root = nodes(&table, &doc);
            let first = 3 + root[0].name_bytes().unwrap().len();
            let mut spans = Vec::new();
            assert_eq!(lay(root[0], first, &mut spans), table.consumed());
            for cut in first..table.consumed() {
                as_the_whole_says(&doc, &root, &spans, cut);
            }
            accepted += 1;
        }
        for cut in 0..=doc.len() {
            as_the_read_says(&doc[..cut]);
        }
    }
    assert!(accepted >= 5);
}

#[test]
fn any_byte_changed_and_cut_behind_it() {
    let doc = b"\x0A\0\x04tile\x09\0\x01l\x0A\0\0\0\x01\x08\0\x01s\0\x02ab\0\x0B\0\x01i\0\0\0\x01\0\0\0\x07\0";
    for at in 0..doc.len() {
        for value in 0..=255 {
            let mut changed = doc.to_vec();
            changed[at] = value;
            for cut in [at + 1, at + 2, at + 5, doc.len() - 1] {
                as_the_read_says(&changed[..cut.min(doc.len())]);
            }
        }
    }
}
