//! Tables of records: read from a document, written as one, asked.
use crate::ffi::{self, Answer};
use crate::form::Form;
use crate::node::{Kind, Node};
use crate::path::{Query, MAX_NAME};
use crate::refusal::{Place, Refusal};

/// The words of a record.
pub const WORDS: usize = 9;
/// The most records that a table has.
pub const MAX_RECORDS: usize = 1_048_576;
/// The most bytes that a document has.
pub const MAX_DOCUMENT: usize = 16_777_216;

/// A string's kind, as a record has it.
const STRING: u32 = Kind::String as u32;

/// A record's words, by what they hold.
pub(crate) mod word {
    pub const KIND: usize = 0;
    pub const NAME: usize = 1;
    pub const NAME_LENGTH: usize = 2;
    pub const START: usize = 3;
    pub const LENGTH: usize = 4;
    pub const COUNT: usize = 5;
    pub const LIST_KIND: usize = 6;
    pub const END: usize = 7;
    // 02, [7]: the number of the record that it is a child of; 0 in the root too
    pub const PARENT: usize = 8;
}

/// A table that owns its words, nine for each record, in file order.
///
/// It holds spans of the document that it was read from, not the bytes: whoever walks or writes it hands the document in again. It remembers
/// the form of that document.
#[derive(Clone, Debug, Default, PartialEq, Eq)]
pub struct Table {
    words: Vec<u32>,
    consumed: usize,
    /// The length of a document over which the words are known to form a table; rule 7 asks for nothing else of it.
    over: Option<usize>,
    form: Form,
}

impl Table {
    /// A table of no records, to be read into.
    pub fn new() -> Table {
        Table::default()
    }

    /// A table of words from elsewhere. They may form none: then [`write()`], [`query`], [`Table::root`] and [`Table::to_lines`] refuse them
    /// with 10.
    pub fn from_words(words: Vec<u32>) -> Table {
        Table::from_words_in(Form::Java, words)
    }

    /// The same, of a document in that form: words don't tell it.
    ///
    /// ```
    /// use tikfazrul::{write, Form, Table};
    /// // a root without a name, and in it a list of which nothing came, called by the first byte of the document
    /// let words = [[10, 0, 0, 0, 0, 1, 0, 2, 0], [9, 0, 1, 0, 0, 0, 0, 2, 0]].concat();
    /// assert_eq!(write(b"l", &mut Table::from_words_in(Form::Pocket, words))?, b"\x0A\0\0\x09\x01\0l\0\0\0\0\0\0");
    /// # Ok::<(), tikfazrul::Refusal>(())
    /// ```
    pub fn from_words_in(form: Form, words: Vec<u32>) -> Table {
        Table { words, consumed: 0, over: None, form }
    }

    /// A table of words from elsewhere that are judged here: refused with 10 where they form none over a document of so many bytes.
    pub(crate) fn judged(form: Form, words: Vec<u32>, doc_len: usize) -> Result<Table, Refusal> {
        let mut table = Table::from_words_in(form, words);
        table.judge(doc_len)?;
        table.over = Some(doc_len);
        Ok(table)
    }

    fn judge(&self, doc_len: usize) -> Result<(), Refusal> {
        match self.is_table(doc_len)? {
            true => Ok(()),
            false => Err(Refusal::NoTable(Place::Whole)),
        }
    }

    /// Reads a document, and uses the memory of what was read before. After a refusal the table is empty. The table grows by itself: a read
    /// that finds it full (8) is tried again with more room, up to [`MAX_RECORDS`].
    pub fn read(&mut self, doc: &[u8]) -> Result<(), Refusal> {
        self.read_in(Form::Java, doc)
    }

    /// The same of a document in that form.
    pub fn read_in(&mut self, form: Form, doc: &[u8]) -> Result<(), Refusal> {
        self.consumed = 0;
        self.over = None;
        self.form = form;
        let mut room = (self.words.capacity() / WORDS).max(doc.len() / 16).clamp(16, MAX_RECORDS);
        loop {
            self.words.clear();
            self.words.resize(room * WORDS, 0);
            match read_in_into(form, doc, &mut self.words) {
                Ok(read) => {
                    self.words.truncate(read.records * WORDS);
                    self.consumed = read.consumed;
                    self.over = Some(doc.len());
                    return Ok(());
                }
                Err(Refusal::TableFull(_)) if room < MAX_RECORDS => room = (room * 4).min(MAX_RECORDS),
                Err(refusal) => {
                    self.words.clear();
                    return Err(refusal);
                }
            }
        }
    }

    /// The words, nine for each record.
    pub fn words(&self) -> &[u32] {
        &self.words
    }

    /// The words, for good.
    pub fn into_words(self) -> Vec<u32> {
        self.words
    }

    /// The number of whole records.
    pub fn len(&self) -> usize {
        self.words.len() / WORDS
    }

    /// Whether there is no whole record.
    pub fn is_empty(&self) -> bool {
        self.len() == 0
    }

    /// How many bytes of the document the root took, where the table was read from one; else 0.
    pub fn consumed(&self) -> usize {
        self.consumed
    }

    /// The form of the document that it is of.
    pub fn form(&self) -> Form {
        self.form
    }

    /// Whether the words form a table over a document of so many bytes, by rule 7. What a read fills in always does. Refused with 9 where
    /// there are more than nine words for each of [`MAX_RECORDS`], or the document is over [`MAX_DOCUMENT`].
    pub fn is_table(&self, doc_len: usize) -> Result<bool, Refusal> {
        let answer = ffi::is_table(doc_len, &self.words);
        Refusal::check(&answer, Place::Byte)?;
        Ok(answer[2] == 1)
    }

    /// The root tag, from which every other can be walked to. Refused with 10 where the words form no table over `doc`.
    ///
    /// ```
    /// let doc = b"\x0A\0\x01a\x01\0\x01b\xFF\0";
    /// let table = tikfazrul::read(doc)?;
    /// let root = table.root(doc)?;
    /// assert_eq!(root.name().unwrap(), "a");
    /// assert_eq!(root.get("b").unwrap().as_i8(), Some(-1));
    /// # Ok::<(), tikfazrul::Refusal>(())
    /// ```
    pub fn root<'a>(&'a self, doc: &'a [u8]) -> Result<Node<'a>, Refusal> {
        if self.over != Some(doc.len()) {
            self.judge(doc.len())?;
        }
        Ok(Node::root(doc, &self.words, self.form))
    }

    /// The tags that match a query, in file order. Each says where it is: [`Node::parent`], [`Node::path`], and for many a
    /// [`Trail`](crate::Trail). Names of the query are looked for in the table's form, whatever form it was made for.
    ///
    /// ```
    /// use tikfazrul::Query;
    /// let doc = b"\x0A\0\x01a\x01\0\x01b\xFF\0";
    /// let table = tikfazrul::read(doc)?;
    /// let found = table.find(doc, &"root/b".parse::<Query>()?)?;
    /// assert_eq!(found[0].path(), "root/b");
    /// # Ok::<(), Box<dyn std::error::Error>>(())
    /// ```
    pub fn find<'a>(&'a self, doc: &'a [u8], query: &Query) -> Result<Vec<Node<'a>>, Refusal> {
        let records = match query.in_form(self.form) {
            Ok(query) => self::query(doc, self, query.as_bytes())?,
            // no name of this form is so long; what else is wrong is asked all the same
            Err(_) => self::query(doc, self, &[]).map(|_| Vec::new())?,
        };
        let root = self.root(doc)?;
        Ok(records.into_iter().map(|record| root.at(record as usize)).collect())
    }
}

/// What an accepted read says.
#[derive(Clone, Copy, Debug, PartialEq, Eq)]
pub struct Read {
    /// The bytes that the root took.
    pub consumed: usize,
    /// The records filled in.
    pub records: usize,
}

/// Reads a document into a table of its own.
///
/// ```
/// use tikfazrul::{read, Place, Refusal};
/// let table = read(b"\x0A\0\0\0")?;
/// assert_eq!((table.len(), table.consumed()), (1, 4));
/// assert_eq!(read(b"\x0A\0\0"), Err(Refusal::DataEnds(Place::Byte(3))));
/// # Ok::<(), Refusal>(())
/// ```
pub fn read(doc: &[u8]) -> Result<Table, Refusal> {
    read_in(Form::Java, doc)
}

/// Reads a document in a form into a table of its own, which remembers the form.
///
/// ```
/// use tikfazrul::{read_in, Form, Place, Refusal};
/// // a short of 258, in the root tile
/// let doc = b"\x0A\x04\0tile\x02\x01\0s\x02\x01\0";
/// let table = read_in(Form::Pocket, doc)?;
/// assert_eq!(table.root(doc)?.get("s").unwrap().as_i16(), Some(258));
/// assert_eq!(read_in(Form::Java, doc), Err(Refusal::DataEnds(Place::Byte(3))));
/// # Ok::<(), Refusal>(())
/// ```
pub fn read_in(form: Form, doc: &[u8]) -> Result<Table, Refusal> {
    let mut table = Table::new();
    table.read_in(form, doc)?;
    Ok(table)
}

/// Reads a document into words that the caller lends, with room for one record for each nine. Accepted: no other word changes. Refused:
/// every word is 0.
///
/// ```
/// let mut words = [7; 24];
/// let read = tikfazrul::read_into(b"\x0A\0\0\0", &mut words)?;
/// assert_eq!((read.consumed, read.records), (4, 1));
/// assert_eq!(words[..10], [10, 3, 0, 0, 0, 0, 0, 1, 0, 7]);
/// # Ok::<(), tikfazrul::Refusal>(())
/// ```
pub fn read_into(doc: &[u8], words: &mut [u32]) -> Result<Read, Refusal> {
    read_in_into(Form::Java, doc, words)
}

/// The same of a document in a form.
pub fn read_in_into(form: Form, doc: &[u8], words: &mut [u32]) -> Result<Read, Refusal> {
    let answer = ffi::read_in(form.number(), doc, words);
    Refusal::check_in(form, &answer, Place::Byte)?;
    Ok(Read { consumed: answer[2] as usize, records: answer[3] as usize })
}

/// Writes the document that a table stands for, whose names and payloads lie in `doc`, in the form that the table has. A document that would
/// be over [`MAX_DOCUMENT`], and so could not be read again, is refused with 13; [`write_into`] writes longer ones. A name or string that
/// can't be read is refused with 4, at its broken character and with its record ([`Place::In`]). The table is used while the call lasts and
/// comes back as it was.
///
/// ```
/// let doc = b"\x0A\0\0\x09\0\x01l\x05\0\0\0\0\0";
/// let mut table = tikfazrul::read(doc)?;
/// // an empty list forgets its id
/// assert_eq!(tikfazrul::write(doc, &mut table)?, b"\x0A\0\0\x09\0\x01l\0\0\0\0\0\0");
/// # Ok::<(), tikfazrul::Refusal>(())
/// ```
pub fn write(doc: &[u8], table: &mut Table) -> Result<Vec<u8>, Refusal> {
    write_in(table.form, doc, table)
}

/// Writes into bytes that the caller lends, and says how many. Refused: the output is as it was.
pub fn write_into(doc: &[u8], table: &mut Table, out: &mut [u8]) -> Result<usize, Refusal> {
    write_in_into(table.form, doc, table, out)
}

/// Writes the document that a table stands for in a form, whatever form the table has: in its own as [`write()`] does, and in the other with
/// all values kept. A string keeps its characters, which may take more bytes or fewer, and a float its bits. Refused as [`write()`] is, and
/// with 12 also where a name or string has more than 65,535 bytes in the form that is written; strings are judged (4) by the table's.
///
/// ```
/// use tikfazrul::{read_in, write_in, Form};
/// let doc = b"\x0A\x01\0t\x03\x09\0OriginLon\xC0\xF2\xEA\x02\x08\x01\0s\x02\0a\0\0";
/// let mut table = read_in(Form::Pocket, doc)?;
/// // U+0000 is C0 80 in Java's form
/// let java = b"\x0A\0\x01t\x03\0\x09OriginLon\x02\xEA\xF2\xC0\x08\0\x01s\0\x03a\xC0\x80\0";
/// assert_eq!(write_in(Form::Java, doc, &mut table)?, java);
/// assert_eq!(write_in(Form::Pocket, doc, &mut table)?, doc);
/// # Ok::<(), tikfazrul::Refusal>(())
/// ```
pub fn write_in(form: Form, doc: &[u8], table: &mut Table) -> Result<Vec<u8>, Refusal> {
    let mut out = vec![0; bound(table, form).min(MAX_DOCUMENT)];
    let length = write_in_into(form, doc, table, &mut out)?;
    out.truncate(length);
    Ok(out)
}

/// Writes in a form into bytes that the caller lends, and says how many. Refused: the output is as it was.
pub fn write_in_into(form: Form, doc: &[u8], table: &mut Table, out: &mut [u8]) -> Result<usize, Refusal> {
    let own = table.form;
    let answer = match form == own {
        true => ffi::write_in(form.number(), doc, &mut table.words, out),
        false => ffi::convert(own.number(), form.number(), doc, &mut table.words, out),
    };
    match Refusal::check_in(own, &answer, |place| written_place(&answer, place)) {
        Ok(()) => Ok(answer[2] as usize),
        // strings grow in Java's form alone
        Err(Refusal::StringTooLong(Place::Record(record))) if !has_long_string(&table.words, record) => {
            Err(Refusal::StringTooLongInJava(Place::Record(record)))
        }
        Err(refusal) => Err(refusal),
    }
}

/// Converts a document from one form into another: it is read in the one and written in the other, as [`read_in`] and [`write_in`] do and
/// with their refusals, whose records are those of the table that [`read_in`] gives. There and back gives what [`write()`] gives for the first
/// document: an empty list forgets its id, and bytes that follow the root are left out.
///
/// ```
/// use tikfazrul::{convert, Form};
/// let java = b"\x0A\0\x06\xED\xA0\xBD\xED\xB8\x80\x02\0\x01s\x01\x02\0";
/// let pocket = b"\x0A\x04\0\xF0\x9F\x98\x80\x02\x01\0s\x02\x01\0";
/// assert_eq!(convert(Form::Java, Form::Pocket, java)?, pocket);
/// assert_eq!(convert(Form::Pocket, Form::Java, pocket)?, java);
/// # Ok::<(), tikfazrul::Refusal>(())
/// ```
pub fn convert(from: Form, to: Form, doc: &[u8]) -> Result<Vec<u8>, Refusal> {
    write_in(to, doc, &mut read_in(from, doc)?)
}

/// 13 is the whole's; 4 is at a byte of a record's name or string (02, [3]); every other refusal of the writer is a record's.
fn written_place(answer: &Answer, place: usize) -> Place {
    match answer[0] {
        4 => Place::In { byte: place, record: answer[2] as usize },
        13 => Place::Whole,
        _ => Place::Record(place),
    }
}

/// Whether a record's name or string is too long where it stands, before anything is converted.
fn has_long_string(words: &[u32], record: usize) -> bool {
    let words = &words[WORDS * record..][..WORDS];
    let long = |length: usize| words[length] as usize > MAX_NAME;
    long(word::NAME_LENGTH) || words[word::KIND] == STRING && long(word::LENGTH)
}

/// At least as many bytes as the table takes when written in a form: each record's id, name, list head or count or length, content and end
/// byte.
fn bound(table: &Table, form: Form) -> usize {
    // 02, [2]: U+0000 has one byte in the pocket edition's form and two in Java's, a character above U+FFFF four and six, any other the same
    let grows = table.form == Form::Pocket && form == Form::Java;
    let string = |length: usize| if grows { length.saturating_mul(2).min(MAX_NAME) } else { length };
    let most = |record: &[u32]| {
        let (name, content) = (record[word::NAME_LENGTH] as usize, record[word::LENGTH] as usize);
        9 + string(name) + if record[word::KIND] == STRING { string(content) } else { content }
    };
    table.words.chunks_exact(WORDS).map(most).fold(0, usize::saturating_add)
}

/// The records that match a query, by number, in file order and none twice. The query is given as the library's bytes, its names in the strings
/// of the table's form: [`Query`] makes them from a readable path.
///
/// ```
/// let doc = b"\x0A\0\x01a\x01\0\x01b\xFF\0";
/// let table = tikfazrul::read(doc)?;
/// assert_eq!(tikfazrul::query(doc, &table, &[4])?, [0, 1]);
/// assert_eq!(tikfazrul::query(doc, &table, &[3])?, [1]);
/// # Ok::<(), tikfazrul::Refusal>(())
/// ```
pub fn query(doc: &[u8], table: &Table, query: &[u8]) -> Result<Vec<u32>, Refusal> {
    // with room for every record the library walks once, and no more can match
    let mut list = vec![0; table.len()];
    let count = query_into(doc, table, query, &mut list)?;
    list.truncate(count);
    list.shrink_to_fit();
    Ok(list)
}

/// Asks into a list that the caller lends, and says how many match. Refused: the list is as it was, and 24 says how many there are.
pub fn query_into(doc: &[u8], table: &Table, query: &[u8], list: &mut [u32]) -> Result<usize, Refusal> {
    let answer = ffi::query_in(table.form.number(), doc, &table.words, query, list);
    let place = if answer[0] == 14 { Place::Query } else { Place::Record };
    Refusal::check(&answer, place)?;
    Ok(answer[2] as usize)
}
