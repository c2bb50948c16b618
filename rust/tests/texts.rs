//! Texts: tokens, contents, whole documents, and what is refused.
use tikfazrul::{content, parse, read, token, Place, Refusal, Stops, Token};

fn refused(text: &[u8]) -> (u64, Place) {
    let refusal = parse(text).expect_err(&String::from_utf8_lossy(text));
    (refusal.number(), refusal.place())
}

#[test]
fn tokens_of_every_sort() {
    let of = |text: &str| token(text.as_bytes(), 0, Stops::Default).map(|found| found.token);
    assert_eq!(of(" \n"), Ok(Token::End));
    for (text, wanted) in [
        ("{", Token::OpenCurly),
        ("}", Token::ClosedCurly),
        ("[", Token::OpenSquare),
        ("]", Token::ClosedSquare),
        (",", Token::Comma),
        (":", Token::Colon),
        (";", Token::Semicolon),
        ("-1b", Token::Byte(-1)),
        ("2S", Token::Short(2)),
        ("3", Token::Int(3)),
        ("-9223372036854775808l", Token::Long(i64::MIN)),
        ("1.f", Token::Float(1.0)),
        ("0.1", Token::Double(0.1)),
        ("9007199254740993d", Token::Double(9007199254740992.0)),
        ("+5", Token::String { start: 0, end: 2, quoted: false }),
        ("'it'", Token::String { start: 1, end: 3, quoted: true }),
    ] {
        assert_eq!(of(text), Ok(wanted), "{text}");
    }
    assert_eq!(of("1e5"), Err(Refusal::InvalidNumber(Place::Text(0))));
    assert_eq!(of("9007199254740993.0"), Err(Refusal::UnheldDecimal(Place::Text(0))));
    assert_eq!(of("\"open"), Err(Refusal::UnmatchedQuote(Place::Text(0))));
}

#[test]
fn places_of_tokens() {
    let text = "  é\u{1F600} ,".as_bytes();
    let found = token(text, 0, Stops::Default).unwrap();
    assert_eq!((found.index, found.char_width, found.next), (2, 2, 9));
    let comma = token(text, found.next, Stops::Default).unwrap();
    assert_eq!((comma.token, comma.index), (Token::Comma, 9));
    let end = token(text, comma.next, Stops::Default).unwrap();
    assert_eq!((end.token, end.index, end.next), (Token::End, text.len(), text.len()));
    assert_eq!(token(b"a:b,c", 0, Stops::Key).unwrap().next, 1);
    assert_eq!(token(b"a:b,c", 0, Stops::Value).unwrap().next, 3);
}

#[test]
fn starts_that_are_none() {
    let text = "é".as_bytes();
    for start in [1, 3, usize::MAX] {
        assert_eq!(token(text, start, Stops::Default), Err(Refusal::NotUtf8(Place::Whole)), "{start}");
    }
    assert_eq!(token(b"\xFF", 0, Stops::Default), Err(Refusal::NotUtf8(Place::Whole)));
    assert_eq!(token(b"", 0, Stops::Default).map(|found| found.token), Ok(Token::End));
}

#[test]
fn contents() {
    assert_eq!(content(br#"\"\u0000\n"#, 0, 10, true).unwrap(), b"\"\xC0\x80\n");
    assert_eq!(content("\u{1F600}".as_bytes(), 0, 4, false).unwrap(), b"\xED\xA0\xBD\xED\xB8\x80");
    assert_eq!(content("\0".as_bytes(), 0, 1, false).unwrap(), b"\xC0\x80");
    assert_eq!(content(b"", 0, 0, false).unwrap(), b"");
    for (start, end) in [(0, 9), (2, 1), (usize::MAX, usize::MAX), (0, usize::MAX)] {
        assert!(content(b"abc", start, end, true).is_err(), "{start} {end}");
    }
}

#[test]
fn documents() {
    let parsed = parse(b"{a:[1b,2b]} and more").unwrap();
    assert_eq!((parsed.consumed, parsed.document.len()), (11, 15));
    let text = "{\"a\\u0000\u{1F600}\": {x: -12.25, y: [I; 1, 2]}}".as_bytes();
    let doc = parse(text).unwrap().document;
    let table = read(&doc).unwrap();
    let inner = table.root(&doc).unwrap().get("a\0\u{1F600}").unwrap();
    assert_eq!(inner.get("x").unwrap().as_f64(), Some(-12.25));
    assert_eq!(inner.get("y").unwrap().int_array().unwrap().collect::<Vec<_>>(), [1, 2]);
}

#[test]
fn refusals_and_their_places() {
    assert_eq!(refused(b""), (20, Place::Text(0)));
    assert_eq!(refused(b"\xFF"), (15, Place::Whole));
    assert_eq!(refused(b"{a:1,a:2}"), (6, Place::Text(5)));
    assert_eq!(refused(b"{a:[L;1]}"), (11, Place::Text(6)));
    assert_eq!(refused(b"{a:1,}"), (21, Place::Text(4)));
    assert_eq!(refused(b"{a:[1"), (20, Place::Text(5)));
    assert_eq!(refused(b"{"), (22, Place::Text(0)));
    assert_eq!(refused(b"{a:'\\q'}"), (17, Place::Text(4)));
    assert_eq!(refused(b"[]"), (19, Place::Text(0)));
    assert_eq!(refused(&vec![b' '; tikfazrul::MAX_TEXT + 1]), (9, Place::Whole));
}

#[test]
fn depth() {
    let lists = |count: usize| format!("{{a:{}{}}}", "[".repeat(count), "]".repeat(count));
    let doc = parse(lists(511).as_bytes()).unwrap().document;
    assert_eq!(read(&doc).unwrap().len(), 512);
    assert_eq!(refused(lists(512).as_bytes()), (7, Place::Text(3 + 511)));
}

/// What makes most of its bytes: there is room for all of it.
#[test]
fn texts_that_grow_most() {
    for (element, bytes) in [("0d", 8), ("0l", 8), ("1", 4), ("[]", 5), ("[0d]", 13), ("'\0'", 4), ("{a:0d}", 13)] {
        let text = format!("{{a:[{}]}}", vec![element; 1000].join(","));
        let doc = parse(text.as_bytes()).unwrap().document;
        assert_eq!(doc.len(), 3 + 4 + 5 + 1000 * bytes + 1, "{element}");
    }
}

/// The longest texts want more stack than a small thread has.
#[test]
fn a_long_text_on_a_small_stack() {
    let entries: Vec<String> = (0..100_000).map(|n| format!("k{n}:1b")).collect();
    let text = format!("{{{}}}", entries.join(","));
    assert!(text.len() > 900_000 && text.len() < tikfazrul::MAX_TEXT);
    let small = std::thread::Builder::new().stack_size(256 << 10);
    let records = small.spawn(move || read(&parse(text.as_bytes()).unwrap().document).unwrap().len());
    assert_eq!(records.unwrap().join().unwrap(), 100_001);
}

/// A text cut anywhere, and every byte of it changed to every sort: answered, and never more is consumed than there is.
#[test]
fn texts_cut_anywhere_and_with_any_byte_changed() {
    let text = br#"{"a\n":[B;1b,,2b],b:{c:[1.5f,-2f]},d:'\u0041'}"#;
    assert_eq!(parse(text).unwrap().consumed, text.len());
    for cut in 0..text.len() {
        assert!(parse(&text[..cut]).is_err(), "{cut}");
    }
    for at in 0..text.len() {
        for value in *b"{}[],:;'\"\\ \n-.0bBLfu\0\x0B\x80\xC3\xF0\xFF" {
            let mut changed = text.to_vec();
            changed[at] = value;
            match parse(&changed) {
                Err(refusal) => assert!(refusal.place().number() <= text.len()),
                Ok(parsed) => assert!(parsed.consumed <= text.len() && read(&parsed.document).is_ok()),
            }
        }
    }
}

/// The deepest texts, short and long, on a small stack.
#[test]
fn deep_texts_on_a_small_stack() {
    let keys: Vec<String> = (0..60_000).map(|n| format!("k{n}:1b")).collect();
    let deep = |inner: &str| format!("{}{{{inner}}}{}", "{a:".repeat(511), "}".repeat(511));
    // the longest and deepest that is parsed on the caller's stack, and one brace or byte more
    let slight = |levels: usize, length: usize| {
        let braces = format!("{}{{{}", "{a:".repeat(levels - 1), "}".repeat(levels));
        format!("{}b:\"{}\",{}", &braces[..1], "x".repeat(length - braces.len() - 5), &braces[1..])
    };
    let edges = [slight(16, 4096), slight(17, 4096), slight(16, 4097)];
    let whole = ["{}".to_owned(), deep(""), deep(&keys.join(",")), format!("{{a:{}{}}}", "[".repeat(511), "]".repeat(511))];
    for text in whole.into_iter().chain(edges) {
        let small = std::thread::Builder::new().stack_size(128 << 10);
        let thread = small.spawn(move || parse(text.as_bytes()).map(|parsed| parsed.consumed == text.len()));
        assert_eq!(thread.unwrap().join().unwrap(), Ok(true));
    }
}
