//! Readable paths: the bytes that they make, and errors that point at the character.
use tikfazrul::{quoted, Fault, Query};

fn bytes(path: &str) -> Vec<u8> {
    path.parse::<Query>().unwrap_or_else(|e| panic!("{e}")).as_bytes().to_vec()
}

fn fault(path: &str) -> (Fault, usize) {
    let error = path.parse::<Query>().expect_err(path);
    (error.fault(), error.character().expect("a place"))
}

#[test]
fn each_step_has_its_bytes() {
    assert_eq!(bytes(""), b"");
    assert_eq!(bytes("root"), b"");
    assert_eq!(bytes("a"), b"\x01\0\x01a");
    assert_eq!(bytes("root/a"), bytes("a"));
    assert_eq!(bytes("root/root"), b"\x01\0\x04root");
    assert_eq!(bytes("\"root\""), b"\x01\0\x04root");
    assert_eq!(bytes("roots"), b"\x01\0\x05roots");
    assert_eq!(bytes("[2147483647]"), b"\x02\x7F\xFF\xFF\xFF");
    assert_eq!(bytes("root[0][1]"), b"\x02\0\0\0\0\x02\0\0\0\x01");
    assert_eq!(bytes("a/[0]"), bytes("a[0]"));
    assert_eq!(bytes("*"), b"\x03");
    assert_eq!(bytes("**/*[7]"), b"\x04\x03\x02\0\0\0\x07");
    assert_eq!(bytes("Tiles[*]/Scene"), bytes("Tiles/*/Scene"));
    assert_eq!(bytes("[*][*][2]"), b"\x03\x03\x02\0\0\0\x02");
    assert_eq!(bytes("é€"), b"\x01\0\x05\xC3\xA9\xE2\x82\xAC");
    assert_eq!(bytes("\u{1F600}"), b"\x01\0\x06\xED\xA0\xBD\xED\xB8\x80");
}

#[test]
fn odd_names_stand_in_quotes() {
    assert_eq!(bytes("\"\""), b"\x01\0\0");
    assert_eq!(bytes("'a/b'[1]"), b"\x01\0\x03a/b\x02\0\0\0\x01");
    assert_eq!(bytes(r#""it's \"x\" \\ \n\r\t\u0000""#), b"\x01\0\x10it's \"x\" \\ \n\r\t\xC0\x80");
    let plain = ["", "root", "a b", "a/b", "[0]", "*", "**", "\"", "'", "\\", "\\u0041"];
    let rare = ["\0", "\n\r\t", "\u{85}", "\u{1F600}", "\u{202E}x", "e\u{301}", "\u{FFFF}"];
    for name in plain.into_iter().chain(rare) {
        let path = format!("root/{}", quoted(name));
        assert_eq!(path.parse(), Query::new().name(name), "{path}");
    }
}

#[test]
fn what_would_hide_is_shown_as_an_escape() {
    assert_eq!(quoted("a\u{202E}b"), "\"a\\u202Eb\"");
    assert_eq!(quoted("a'b"), "\"a'b\"");
    assert_eq!(quoted("Länge€"), "Länge€");
}

#[test]
fn errors_point_at_the_character() {
    assert_eq!(fault("/a"), (Fault::Missing, 0));
    assert_eq!(fault("a/"), (Fault::Missing, 2));
    assert_eq!(fault("é//b"), (Fault::Missing, 2));
    assert_eq!(fault("\"a\"b"), (Fault::Follows, 3));
    assert_eq!(fault("***"), (Fault::Follows, 2));
    assert_eq!(fault("a[0]b"), (Fault::Follows, 4));
    assert_eq!(fault("é a"), (Fault::Odd(' '), 1));
    assert_eq!(fault("a*"), (Fault::Odd('*'), 1));
    assert_eq!(fault("a]"), (Fault::Odd(']'), 1));
    assert_eq!(fault("root/'a"), (Fault::Quote, 5));
    assert_eq!(fault("\"a\\\""), (Fault::Quote, 0));
    assert_eq!(fault("\"a\\x\""), (Fault::Escape, 2));
    assert_eq!(fault("\"\\"), (Fault::Escape, 1));
    assert_eq!(fault("\"\\u00é\""), (Fault::Escape, 1));
    assert_eq!(fault("\"\\u+041\""), (Fault::Escape, 1));
    assert_eq!(fault("\"\\uD800\""), (Fault::Escape, 1));
    assert_eq!(fault("a[1"), (Fault::Bracket, 1));
    for index in ["[]", "[**]", "[* ]", "[-1]", "[+1]", "[ 1]", "[x]", "[2147483648]", "[99999999999999999999]"] {
        assert_eq!(fault(index), (Fault::Index, 1), "{index}");
    }
}

#[test]
fn sixteen_steps_and_not_one_more() {
    let sixteen = ["*"; 16].join("/");
    assert_eq!(sixteen.parse::<Query>().unwrap().steps(), 16);
    assert_eq!(fault(&format!("{sixteen}/a")), (Fault::Steps, 32));
    assert_eq!(fault(&format!("{sixteen}[0]")), (Fault::Steps, 31));
    assert_eq!(fault(&format!("{sixteen}[*]")), (Fault::Steps, 31));
}

#[test]
fn a_name_has_65535_bytes_at_the_most() {
    let longest = "n".repeat(65_535);
    assert_eq!(bytes(&longest).len(), 65_538);
    assert_eq!(fault(&format!("a/{longest}n")), (Fault::LongName, 2));
    // a character above the basic plane takes six bytes
    assert_eq!(fault(&"\u{1F600}".repeat(10_923)), (Fault::LongName, 0));
}

#[test]
fn the_mark_stands_below_the_character() {
    let error = "é/\t/b".parse::<Query>().unwrap_err();
    let shown = error.to_string();
    let lines: Vec<&str> = shown.lines().collect();
    assert_eq!(lines[1..], ["  é/\u{FFFD}/b", "    ^"]);
}
