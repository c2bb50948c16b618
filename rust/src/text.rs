//! Texts: tokens, their contents, and whole documents.
use crate::ffi::{self, Answer};
use crate::refusal::{Place, Refusal};

/// The most bytes that a text has.
pub const MAX_TEXT: usize = 1_048_576;

/// Which characters end an unquoted token.
#[derive(Clone, Copy, Debug, Default, PartialEq, Eq)]
pub enum Stops {
    /// `{}[],;`
    #[default]
    Default,
    /// `:`, for a key.
    Key,
    /// `,}`, for a value.
    Value,
    /// `,];`, for a list's first element.
    First,
    /// `,]`, for its later ones and an array's.
    Later,
}

/// What a token is.
#[derive(Clone, Copy, Debug, PartialEq)]
pub enum Token {
    /// Nothing but blanks is left.
    End,
    /// `{`
    OpenCurly,
    /// `}`
    ClosedCurly,
    /// `[`
    OpenSquare,
    /// `]`
    ClosedSquare,
    /// `,`
    Comma,
    /// `:`
    Colon,
    /// `;`
    Semicolon,
    /// A string, as the span of the text that [`content`] reads: without its quotes.
    String {
        /// Where the content begins.
        start: usize,
        /// Where it ends.
        end: usize,
        /// Whether it stands in quotes, and so may have escapes.
        quoted: bool,
    },
    /// A whole number with the suffix b.
    Byte(i64),
    /// A whole number with the suffix s.
    Short(i64),
    /// A whole number without a suffix.
    Int(i64),
    /// A whole number with the suffix l.
    Long(i64),
    /// A number with the suffix f.
    Float(f64),
    /// A number with the suffix d, or with a point.
    Double(f64),
}

/// A token and where it is.
#[derive(Clone, Copy, Debug, PartialEq)]
pub struct TokenData {
    /// What it is.
    pub token: Token,
    /// Its first byte in the text.
    pub index: usize,
    /// Its width in characters.
    pub char_width: usize,
    /// Where to look for the next one.
    pub next: usize,
}

/// 15 is the whole's; every other refusal has a place in the text.
fn checked(answer: &Answer) -> Result<(), Refusal> {
    let place: fn(usize) -> Place = if answer[0] == 15 { |_| Place::Whole } else { Place::Text };
    Refusal::check(answer, place)
}

/// The token at or after a place of the text.
///
/// ```
/// use tikfazrul::{token, Stops, Token};
/// let found = token(br"a\,b", 0, Stops::Later)?;
/// assert_eq!(found.token, Token::String { start: 0, end: 1, quoted: false });
/// assert_eq!((found.char_width, found.next), (1, 2));
/// # Ok::<(), tikfazrul::Refusal>(())
/// ```
pub fn token(text: &[u8], start: usize, stops: Stops) -> Result<TokenData, Refusal> {
    let a = ffi::token(text, start, stops as u32);
    checked(&a)?;
    let string = |quoted| Token::String { start: a[6] as usize, end: a[7] as usize, quoted };
    let token = match a[2] {
        1 => Token::OpenCurly,
        2 => Token::ClosedCurly,
        3 => Token::OpenSquare,
        4 => Token::ClosedSquare,
        5 => Token::Comma,
        6 => Token::Colon,
        7 => Token::Semicolon,
        8 => string(false),
        9 => string(true),
        10 => Token::Byte(a[6] as i64),
        11 => Token::Short(a[6] as i64),
        12 => Token::Int(a[6] as i64),
        13 => Token::Long(a[6] as i64),
        14 => Token::Float(f64::from_bits(a[6])),
        15 => Token::Double(f64::from_bits(a[6])),
        _ => Token::End,
    };
    let index = if token == Token::End { a[5] } else { a[3] };
    Ok(TokenData { token, index: index as usize, char_width: a[4] as usize, next: a[5] as usize })
}

/// What a string token's span stands for, in modified UTF-8 and without its escapes.
///
/// ```
/// let text = br#"{"\u0041\n": 1b}"#;
/// assert_eq!(tikfazrul::content(text, 2, 10, true)?, b"A\n");
/// # Ok::<(), tikfazrul::Refusal>(())
/// ```
pub fn content(text: &[u8], start: usize, end: usize, quoted: bool) -> Result<Vec<u8>, Refusal> {
    // a byte of text makes at most two
    let mut out = vec![0; 2 * end.saturating_sub(start).min(text.len())];
    let answer = ffi::content(text, start, end, quoted, &mut out);
    checked(&answer)?;
    out.truncate(answer[2] as usize);
    Ok(out)
}

/// A text read.
#[derive(Clone, Debug, PartialEq, Eq)]
pub struct Parsed {
    /// The bytes of the text through the closing brace.
    pub consumed: usize,
    /// The document, with an empty root name.
    pub document: Vec<u8>,
}

/// The document that a text stands for. A long text or a deep one is parsed on a thread of its own, for the stack that this takes; panics
/// where the system gives none.
///
/// ```
/// let parsed = tikfazrul::parse(b"{a:[1b,2b]}")?;
/// assert_eq!(parsed.consumed, 11);
/// assert_eq!(parsed.document, b"\x0A\0\0\x09\0\x01a\x01\0\0\0\x02\x01\x02\0");
/// # Ok::<(), tikfazrul::Refusal>(())
/// ```
pub fn parse(text: &[u8]) -> Result<Parsed, Refusal> {
    // `0d,` makes eight bytes of three, and nothing makes more
    let mut room = text.len().min(MAX_TEXT) * 3 + 64;
    loop {
        let mut out = vec![0; room];
        let answer = if is_slight(text) { ffi::parse(text, &mut out) } else { on_a_deep_stack(text, &mut out) };
        match checked(&answer) {
            Ok(()) => {
                out.truncate(answer[3] as usize);
                return Ok(Parsed { consumed: answer[2] as usize, document: out });
            }
            Err(Refusal::OutputFull(_)) if room < 16 * MAX_TEXT => room *= 2,
            Err(refusal) => return Err(refusal),
        }
    }
}

/// A short text with few braces takes little stack; a thread would cost it more than the parsing.
const SHORT: usize = 4096;
const FEW: usize = 16;

/// No text is deeper than it has opening braces, those in its strings counted too.
fn is_slight(text: &[u8]) -> bool {
    text.len() <= SHORT && text.iter().filter(|&&b| b == b'{' || b == b'[').count() <= FEW
}

/// The parser keeps open keys on the stack and recurses with each level: some 2 MiB at the worst, more than a thread may have left. So
/// other texts are parsed on a thread of their own.
const STACK: usize = 8 << 20;

fn on_a_deep_stack(text: &[u8], out: &mut [u8]) -> Answer {
    std::thread::scope(|scope| {
        let thread = std::thread::Builder::new().stack_size(STACK).spawn_scoped(scope, || ffi::parse(text, out));
        thread.expect("a thread to parse on").join().expect("the library does not panic")
    })
}
