//! What docs/ROUNDING.md shows is so: its code is the library's, and its numbers are rounded as it says.
use tikfazrul::{parse, read, token, Stops, Token};

const PAGE: &str = include_str!("../../docs/ROUNDING.md");
const CODE: &str = include_str!("../../crates/snbt_floats/src/nearest.rt");

/// The whole numbers of a line, whose digits may have commas between them.
fn numbers(line: &str) -> Vec<i64> {
    line.split_whitespace().filter_map(|word| word.trim_matches([',', '.', ':']).replace(',', "").parse().ok()).collect()
}

/// The whole number, what is kept of it, what is dropped and the double, as the line has them that begins so.
fn row(beginning: &str) -> [i64; 4] {
    let line = PAGE.lines().find(|line| line.starts_with(beginning)).unwrap_or_else(|| panic!("no line begins with {beginning}"));
    numbers(line).try_into().unwrap_or_else(|found| panic!("four numbers in {line}, not {found:?}"))
}

/// The double that the library makes of a whole number with d: the same as a token and as a tag.
fn double(number: i64) -> f64 {
    let text = format!("{number}d");
    let Ok(Token::Double(x)) = token(text.as_bytes(), 0, Stops::Default).map(|found| found.token) else { panic!("{text} is no double") };
    let document = parse(format!("{{x:{text}}}").as_bytes()).expect(&text).document;
    let table = read(&document).expect(&text);
    let tag = table.root(&document).expect(&text).get("x").expect("x").as_f64().expect("a double");
    assert_eq!(tag.to_bits(), x.to_bits(), "{text}");
    x
}

/// A row that adds up, between two doubles that are neighbours, and rounded as it says, east and west.
fn rounded_as_told([number, kept, dropped, wanted]: [i64; 4]) {
    assert_eq!(number, kept * 8 + dropped);
    let lower = double(kept * 8);
    let upper = f64::from_bits(lower.to_bits() + 1);
    assert_eq!((lower as i64, upper as i64), (kept * 8, kept * 8 + 8));
    assert_eq!((double(number) as i64, double(-number) as i64), (wanted, -wanted), "{number}");
}

#[test]
fn the_code_is_the_librarys() {
    let shown: Vec<&str> = PAGE.split("```\n").collect();
    assert_eq!(shown.len(), 3, "one piece of code");
    let indented: String = shown[1].lines().map(|line| format!("    {line}\n")).collect();
    assert!(CODE.contains(&indented), "nearest.rt has other code");
}

#[test]
fn the_three_cases() {
    let [below, above, on] = ["| below the half |", "| above the half |", "| on the half |"].map(row);
    assert!(below[2] < 4 && 4 < above[2] && on[2] == 4);
    for case in [below, above, on] {
        assert_eq!(case[1] % 2, 0);
        rounded_as_told(case);
    }
    assert_eq!((below[3], above[3], on[3]), (on[1] * 8, on[1] * 8 + 8, on[1] * 8));
    assert!(PAGE.contains("256 times as large") && on[0].leading_zeros() == 8, "moved up by 8 bits");
}

#[test]
fn the_next_tie_goes_up() {
    let line = PAGE.lines().find(|line| line.contains("At the next tie")).expect("the next tie");
    let (_, tie) = line.split_once("goes up:").expect("where it goes");
    let tie: [i64; 4] = numbers(tie).try_into().expect("four numbers");
    assert_eq!((tie[1] % 2, tie[2]), (1, 4));
    rounded_as_told(tie);
    assert_eq!(tie[3], tie[1] * 8 + 8);
}

#[test]
fn whole_numbers_are_held_up_to_2_to_the_53rd() {
    let last: i64 = 9_007_199_254_740_992;
    assert!(PAGE.contains("2^53, which is 9,007,199,254,740,992."));
    for held in [1, last - 1, last, last + 2] {
        assert_eq!(double(held) as i64, held);
    }
    assert_ne!(double(last + 1) as i64, last + 1);
}
