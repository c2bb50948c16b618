//! Stands inside snbt.rs's module, so that it reaches the private lexer. Nothing of snbt.rs is changed.
use super::*;

/// The stop sets by the numbers of include/tikfazrul.h.
const STOPS: [Option<fn(char) -> bool>; 5] = [
    None,
    Some(|c| c == ':'),
    Some(|c| c == ',' || c == '}'),
    Some(|c| matches!(c, ',' | ']' | ';')),
    Some(|c| c == ',' || c == ']'),
];

/// Takes one token for each stop set, from the text's start on. The answer is where the last one ends, or none where a token is refused.
pub fn walk(text: &str, stops: &[u32]) -> Option<usize> {
    let mut lexer = Lexer::new(text);
    for &s in stops {
        std::hint::black_box(lexer.next(STOPS[s as usize])?.ok()?);
    }
    Some(lexer.index)
}
