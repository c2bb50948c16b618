//! Queries, and the readable paths that they are made from.
use crate::form::Form;
use std::borrow::Cow;
use std::fmt;
use std::str::FromStr;

/// The most steps that a query has.
pub const MAX_STEPS: usize = 16;
/// The most bytes that a name has, in the strings of its form.
pub const MAX_NAME: usize = 65_535;

/// The first byte of a step: which one it is.
mod sort {
    pub const NAME: u8 = 1;
    pub const INDEX: u8 = 2;
    pub const ANY: u8 = 3;
    pub const DEEP: u8 = 4;
}

/// How to come from the root to tags, step by step, in the library's bytes.
///
/// A path is read by `parse`. Steps are parted by `/`:
///
/// | in a path | means |
/// |---|---|
/// | `SceneId`, `"odd name"`, `'odd name'` | the entry of a compound so named |
/// | `[3]` | that element of a list, from 0; the `/` before it may be left out |
/// | `*`, `[*]` | any one child |
/// | `**` | zero or more levels, whatever they are |
///
/// A path may begin with `root`, the root tag itself, whatever its name: `root/Tiles[3]` and `Tiles[3]` are the same, and `root` or nothing at
/// all is the root alone. An entry of the root that is called root is `root/root` or `"root"`. A name with blanks, quotes, backslashes or
/// any of `/[]*` stands in quotes of either sort, with the escapes `\\ \" \' \n \r \t \uXXXX`.
///
/// ```
/// use tikfazrul::Query;
/// let query: Query = "root/Tiles[3]/**/SceneId".parse()?;
/// assert_eq!(query, Query::new().name("Tiles")?.index(3)?.deep()?.name("SceneId")?);
/// assert_eq!(query.as_bytes(), b"\x01\0\x05Tiles\x02\0\0\0\x03\x04\x01\0\x07SceneId");
/// # Ok::<(), tikfazrul::PathError>(())
/// ```
///
/// Its bytes have names in the strings of a form, Java's unless another is asked for. [`Table::find`](crate::Table::find) takes a query of
/// either form for a table of either:
///
/// ```
/// use tikfazrul::{Form, Query};
/// let query: Query = "reef\u{1F600}".parse()?;
/// assert_eq!(query.as_bytes(), b"\x01\0\x0Areef\xED\xA0\xBD\xED\xB8\x80");
/// let pocket = Query::parse_in(Form::Pocket, "reef\u{1F600}")?;
/// assert_eq!(pocket.as_bytes(), b"\x01\0\x08reef\xF0\x9F\x98\x80");
/// assert_eq!(query.in_form(Form::Pocket)?.as_ref(), &pocket);
/// # Ok::<(), tikfazrul::PathError>(())
/// ```
///
/// An error points at the character:
///
/// ```
/// let error = "root/Tiles[x]".parse::<tikfazrul::Query>().unwrap_err();
/// assert_eq!(error.to_string(), "\
/// an index is a number from 0 to 2147483647, at character 12
///   root/Tiles[x]
///              ^");
/// ```
#[derive(Clone, Debug, Default, PartialEq, Eq, Hash)]
pub struct Query {
    bytes: Vec<u8>,
    steps: usize,
    form: Form,
}

impl Query {
    /// No step: the root alone.
    pub fn new() -> Query {
        Query::default()
    }

    /// No step, and names in the strings of that form.
    pub fn new_in(form: Form) -> Query {
        Query { form, ..Query::default() }
    }

    /// The query that a path makes, with names in the strings of that form.
    pub fn parse_in(form: Form, path: &str) -> Result<Query, PathError> {
        Scan { path, at: 0 }.query(Query::new_in(form))
    }

    /// The same steps with names in the strings of that form, of which one may have more bytes there than a name has.
    pub fn in_form(&self, form: Form) -> Result<Cow<'_, Query>, PathError> {
        if form == self.form {
            return Ok(Cow::Borrowed(self));
        }
        let mut query = Query::new_in(form);
        let mut rest = &self.bytes[..];
        while let Some((&sort, more)) = rest.split_first() {
            (query, rest) = match (sort, more) {
                (sort::NAME, [high, low, more @ ..]) => {
                    let (name, more) = more.split_at(usize::from(u16::from_be_bytes([*high, *low])));
                    (query.name(&self.form.decode(name).expect("a name is made of a text"))?, more)
                }
                _ => {
                    let (index, more) = more.split_at(if sort == sort::INDEX { 4 } else { 0 });
                    (query.step(sort, &[index])?, more)
                }
            };
        }
        Ok(Cow::Owned(query))
    }

    /// Then to the entry of a compound so named.
    pub fn name(self, name: &str) -> Result<Query, PathError> {
        let name = self.form.encode(name);
        match u16::try_from(name.len()) {
            // 02, [2]: lengths and indices of a query are big-endian in each form
            Ok(length) => self.step(sort::NAME, &[&length.to_be_bytes(), &*name]),
            Err(_) => Err(PathError::bare(Fault::LongName)),
        }
    }

    /// Then to this element of a list, from 0.
    pub fn index(self, index: u32) -> Result<Query, PathError> {
        match i32::try_from(index) {
            Ok(index) => self.step(sort::INDEX, &[&index.to_be_bytes()]),
            Err(_) => Err(PathError::bare(Fault::Index)),
        }
    }

    /// Then to any one child.
    pub fn any(self) -> Result<Query, PathError> {
        self.step(sort::ANY, &[])
    }

    /// Then down zero or more levels.
    pub fn deep(self) -> Result<Query, PathError> {
        self.step(sort::DEEP, &[])
    }

    fn step(mut self, sort: u8, parts: &[&[u8]]) -> Result<Query, PathError> {
        if self.steps == MAX_STEPS {
            return Err(PathError::bare(Fault::Steps));
        }
        self.steps += 1;
        self.bytes.push(sort);
        self.bytes.extend(parts.concat());
        Ok(self)
    }

    /// The library's bytes.
    pub fn as_bytes(&self) -> &[u8] {
        &self.bytes
    }

    /// The number of steps.
    pub fn steps(&self) -> usize {
        self.steps
    }

    /// The form whose strings its names are in.
    pub fn form(&self) -> Form {
        self.form
    }
}

impl FromStr for Query {
    type Err = PathError;

    fn from_str(path: &str) -> Result<Query, PathError> {
        Query::parse_in(Form::Java, path)
    }
}

/// What is wrong with a path.
#[derive(Clone, Copy, Debug, PartialEq, Eq)]
pub enum Fault {
    /// A step is missing, before or after a `/`.
    Missing,
    /// Something other than `/` or `[` follows a step.
    Follows,
    /// A bare name has a character that wants quotes.
    Odd(char),
    /// A quote is opened and not closed.
    Quote,
    /// There is no such escape.
    Escape,
    /// What stands between brackets is no index.
    Index,
    /// A bracket is opened and not closed.
    Bracket,
    /// There are more than sixteen steps.
    Steps,
    /// A name has more than 65,535 bytes.
    LongName,
}

impl fmt::Display for Fault {
    fn fmt(&self, f: &mut fmt::Formatter) -> fmt::Result {
        match self {
            Fault::Missing => write!(f, "a step is missing: a name, [index], * or **"),
            Fault::Follows => write!(f, "a step ends here: / or [index] may follow"),
            Fault::Odd(c) => write!(f, "a name with {c:?} stands in quotes"),
            Fault::Quote => write!(f, "this quote is not closed"),
            Fault::Escape => write!(f, "there is no such escape: \\\\ \\\" \\' \\n \\r \\t \\uXXXX are"),
            Fault::Index => write!(f, "an index is a number from 0 to {}", i32::MAX),
            Fault::Bracket => write!(f, "this bracket is not closed"),
            Fault::Steps => write!(f, "a query has at most {MAX_STEPS} steps, and this is one more"),
            Fault::LongName => write!(f, "a name has at most {MAX_NAME} bytes"),
        }
    }
}

/// A path that can't be read, and where.
#[derive(Clone, Debug, PartialEq, Eq)]
pub struct PathError {
    fault: Fault,
    /// The path and a byte of it, where the fault is in a path.
    place: Option<(String, usize)>,
}

impl PathError {
    fn bare(fault: Fault) -> PathError {
        PathError { fault, place: None }
    }

    /// What is wrong.
    pub fn fault(&self) -> Fault {
        self.fault
    }

    /// The character at fault, counted from 0, where the error comes from a path.
    pub fn character(&self) -> Option<usize> {
        self.place.as_ref().map(|(path, at)| path[..*at].chars().count())
    }
}

impl fmt::Display for PathError {
    fn fmt(&self, f: &mut fmt::Formatter) -> fmt::Result {
        write!(f, "{}", self.fault)?;
        let (Some((path, _)), Some(character)) = (&self.place, self.character()) else {
            return Ok(());
        };
        // a control character would move the mark
        let shown: String = path.chars().map(|c| if c.is_control() { '\u{FFFD}' } else { c }).collect();
        write!(f, ", at character {}\n  {shown}\n  {}^", character + 1, " ".repeat(character))
    }
}

impl std::error::Error for PathError {}

/// Whether a character wants quotes around its name.
fn odd(c: char) -> bool {
    c.is_whitespace() || c.is_control() || matches!(c, '/' | '[' | ']' | '*' | '"' | '\'' | '\\')
}

/// Whether a character is better written as an escape: one that can't be seen, or that turns the text around it.
fn hidden(c: char) -> bool {
    c <= '\u{FFFF}' && !matches!(c, '"' | '\'' | '\\') && c.escape_debug().len() > 1
}

/// A name as a path has it: in quotes where it wants them.
///
/// ```
/// assert_eq!(tikfazrul::quoted("SceneId"), "SceneId");
/// assert_eq!(tikfazrul::quoted("reef\0[1]"), r#""reef\u0000[1]""#);
/// ```
pub fn quoted(name: &str) -> Cow<'_, str> {
    if !name.is_empty() && !name.chars().any(|c| odd(c) || hidden(c)) {
        return Cow::Borrowed(name);
    }
    let mut text = String::from("\"");
    for c in name.chars() {
        match c {
            '"' | '\\' => text.extend(['\\', c]),
            '\n' => text.push_str("\\n"),
            '\r' => text.push_str("\\r"),
            '\t' => text.push_str("\\t"),
            c if hidden(c) => text.push_str(&format!("\\u{:04X}", c as u32)),
            c => text.push(c),
        }
    }
    text.push('"');
    Cow::Owned(text)
}

/// A path that is being read, and how far.
struct Scan<'a> {
    path: &'a str,
    at: usize,
}

impl<'a> Scan<'a> {
    fn rest(&self) -> &'a str {
        &self.path[self.at..]
    }

    fn fault<T>(&self, at: usize, fault: Fault) -> Result<T, PathError> {
        Err(PathError { fault, place: Some((self.path.to_owned(), at)) })
    }

    /// Gives a builder's fault its place.
    fn placed(&self, at: usize, made: Result<Query, PathError>) -> Result<Query, PathError> {
        made.or_else(|error| self.fault(at, error.fault))
    }

    fn take(&mut self, wanted: &str) -> bool {
        let found = self.rest().starts_with(wanted);
        self.at += if found { wanted.len() } else { 0 };
        found
    }

    fn query(mut self, mut query: Query) -> Result<Query, PathError> {
        if self.rest().is_empty() {
            return Ok(query);
        }
        if !self.take_root() {
            query = self.step(query)?;
        }
        loop {
            query = self.indices(query)?;
            if self.rest().is_empty() {
                return Ok(query);
            }
            if !self.take("/") {
                return self.fault(self.at, Fault::Follows);
            }
            query = self.step(query)?;
        }
    }

    /// The word root, where it is the whole of the first step.
    fn take_root(&mut self) -> bool {
        let found = matches!(self.path.strip_prefix("root"), Some(rest) if rest.is_empty() || rest.starts_with(['/', '[']));
        self.at += if found { "root".len() } else { 0 };
        found
    }

    /// A name, `*` or `**`; or nothing, where an index follows at once.
    fn step(&mut self, query: Query) -> Result<Query, PathError> {
        let at = self.at;
        let made = match self.rest().chars().next() {
            None | Some('/') => return self.fault(at, Fault::Missing),
            Some('[') => return Ok(query),
            Some('*') => {
                if self.take("**") {
                    query.deep()
                } else {
                    self.at += 1;
                    query.any()
                }
            }
            Some(quote @ ('"' | '\'')) => query.name(&self.quoted_name(quote)?),
            Some(_) => query.name(self.bare_name()?),
        };
        self.placed(at, made)
    }

    /// Indices in brackets, or `[*]`, as many as there are.
    fn indices(&mut self, mut query: Query) -> Result<Query, PathError> {
        while self.rest().starts_with('[') {
            let at = self.at;
            let Some(length) = self.rest().find(']') else {
                return self.fault(at, Fault::Bracket);
            };
            let digits = &self.path[at + 1..at + length];
            if digits == "*" {
                query = self.placed(at, query.any())?;
                self.at += length + 1;
                continue;
            }
            if digits.is_empty() || !digits.bytes().all(|b| b.is_ascii_digit()) {
                return self.fault(at + 1, Fault::Index);
            }
            let Ok(index) = digits.parse::<u32>() else {
                return self.fault(at + 1, Fault::Index);
            };
            query = match query.index(index) {
                Err(error) if error.fault == Fault::Index => return self.fault(at + 1, Fault::Index),
                made => self.placed(at, made)?,
            };
            self.at += length + 1;
        }
        Ok(query)
    }

    fn bare_name(&mut self) -> Result<&'a str, PathError> {
        let rest = self.rest();
        let length = rest.find(['/', '[']).unwrap_or(rest.len());
        if let Some((at, c)) = rest[..length].char_indices().find(|&(_, c)| odd(c)) {
            return self.fault(self.at + at, Fault::Odd(c));
        }
        self.at += length;
        Ok(&rest[..length])
    }

    fn quoted_name(&mut self, quote: char) -> Result<String, PathError> {
        let opened = self.at;
        self.at += 1;
        let mut name = String::new();
        while let Some(c) = self.rest().chars().next() {
            if c == '\\' {
                name.push(self.escape()?);
                continue;
            }
            self.at += c.len_utf8();
            if c == quote {
                return Ok(name);
            }
            name.push(c);
        }
        self.fault(opened, Fault::Quote)
    }

    /// The character that an escape stands for.
    fn escape(&mut self) -> Result<char, PathError> {
        let at = self.at;
        let (c, length) = match self.rest().chars().nth(1) {
            Some(c @ ('\\' | '"' | '\'')) => (Some(c), 2),
            Some('n') => (Some('\n'), 2),
            Some('r') => (Some('\r'), 2),
            Some('t') => (Some('\t'), 2),
            Some('u') => (self.path.get(at + 2..at + 6).and_then(hex_character), 6),
            _ => (None, 0),
        };
        self.at += length;
        match c {
            Some(c) => Ok(c),
            None => self.fault(at, Fault::Escape),
        }
    }
}

/// The character of four hexadecimal digits, unless they name half of one.
fn hex_character(digits: &str) -> Option<char> {
    let all = digits.bytes().all(|b| b.is_ascii_hexdigit());
    char::from_u32(all.then(|| u32::from_str_radix(digits, 16).ok())??)
}
