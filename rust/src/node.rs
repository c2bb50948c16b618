//! Views of the tags of a table.
use crate::form::Form;
use crate::path;
use crate::table::{word, WORDS};
use std::borrow::Cow;
use std::ops::Range;
use std::{fmt, iter};

/// What a tag holds.
#[derive(Clone, Copy, Debug, PartialEq, Eq, Hash, PartialOrd, Ord)]
#[repr(u8)]
#[allow(missing_docs)]
pub enum Kind {
    Byte = 1,
    Short,
    Int,
    Long,
    Float,
    Double,
    ByteArray,
    String,
    List,
    Compound,
    IntArray,
    LongArray,
}

impl Kind {
    const ALL: [Kind; 12] = [
        Kind::Byte,
        Kind::Short,
        Kind::Int,
        Kind::Long,
        Kind::Float,
        Kind::Double,
        Kind::ByteArray,
        Kind::String,
        Kind::List,
        Kind::Compound,
        Kind::IntArray,
        Kind::LongArray,
    ];

    /// The kind with this id, 1 to 12.
    pub fn from_id(id: u8) -> Option<Kind> {
        Kind::ALL.get(usize::from(id).checked_sub(1)?).copied()
    }

    /// The tag's id, 1 to 12.
    pub fn id(self) -> u8 {
        self as u8
    }

    /// Its name, as quartz_nbt has it.
    pub fn tag_name(self) -> &'static str {
        match self {
            Kind::Byte => "Byte",
            Kind::Short => "Short",
            Kind::Int => "Int",
            Kind::Long => "Long",
            Kind::Float => "Float",
            Kind::Double => "Double",
            Kind::ByteArray => "ByteArray",
            Kind::String => "String",
            Kind::List => "List",
            Kind::Compound => "Compound",
            Kind::IntArray => "IntArray",
            Kind::LongArray => "LongArray",
        }
    }

    /// Whether it holds tags: a list or a compound.
    pub fn is_container(self) -> bool {
        matches!(self, Kind::List | Kind::Compound)
    }
}

impl fmt::Display for Kind {
    fn fmt(&self, f: &mut fmt::Formatter) -> fmt::Result {
        f.pad(self.tag_name())
    }
}

/// How a tag hangs on the one above it.
#[derive(Clone, Copy, Debug, PartialEq, Eq)]
pub enum Link {
    /// It is the root.
    Root,
    /// It is an entry of a compound, and has a name.
    Entry,
    /// It is this element of a list, from 0.
    Element(usize),
}

/// A tag: a record of a table, with the document that the table speaks of. A view, cheap to copy.
///
/// Made only where the words form a table (rule 7), so every span lies in the document and every record in the table.
#[derive(Clone, Copy)]
pub struct Node<'a> {
    doc: &'a [u8],
    words: &'a [u32],
    form: Form,
    record: usize,
    /// Its index in a list, where it is known: it stands in no word, and is counted where it is asked for.
    index: Option<usize>,
}

impl<'a> Node<'a> {
    /// The words must form a table over the document.
    pub(crate) fn root(doc: &'a [u8], words: &'a [u32], form: Form) -> Node<'a> {
        Node { doc, words, form, record: 0, index: None }
    }

    /// The tag of another record, which must be one of the table.
    pub(crate) fn at(self, record: usize) -> Node<'a> {
        Node { record, index: None, ..self }
    }

    fn word(&self, which: usize) -> usize {
        self.words[self.record * WORDS + which] as usize
    }

    /// The record's number in the table, from 0.
    pub fn record(&self) -> usize {
        self.record
    }

    /// The number of the first record outside its subtree.
    pub fn end(&self) -> usize {
        self.word(word::END)
    }

    /// What it holds.
    pub fn kind(&self) -> Kind {
        Kind::from_id(self.word(word::KIND) as u8).expect("rule 7: kinds are 1 to 12")
    }

    /// The form of the document that it is in.
    pub fn form(&self) -> Form {
        self.form
    }

    /// How it hangs on the tag above it. An element that was climbed to, or found by a query, counts those before it to know its index;
    /// one that was walked to knows it.
    pub fn link(&self) -> Link {
        match self.indexed(None).index {
            Some(index) => Link::Element(index),
            None if self.record == 0 => Link::Root,
            None => Link::Entry,
        }
    }

    /// The list that it is an element of.
    fn list(&self) -> Option<Node<'a>> {
        self.parent().filter(|parent| parent.kind() == Kind::List)
    }

    /// The same tag, with its index if it is a list's element. `beside` is a sibling, from which the index is counted if it can be.
    fn indexed(self, beside: Option<Node<'a>>) -> Node<'a> {
        match (self.index, self.list()) {
            (None, Some(list)) => Node { index: Some(self.counted(list, beside)), ..self },
            _ => self,
        }
    }

    /// Its index in its list, found by hopping from sibling to sibling.
    fn counted(&self, list: Node<'a>, beside: Option<Node<'a>>) -> usize {
        // where no element has tags of its own, they are numbered one after the other
        if list.end() == list.record + 1 + list.len() {
            return self.record - list.record - 1;
        }
        let siblings = match beside {
            Some(Node { record, index: Some(index), .. }) if record <= self.record => Children { parent: list, next: record, index },
            _ => list.children(),
        };
        siblings.index + siblings.take_while(|sibling| sibling.record < self.record).count()
    }

    /// Where in the document the name is, by its words: nowhere in a list's element.
    pub(crate) fn name_range(&self) -> Range<usize> {
        let start = self.word(word::NAME);
        start..start + self.word(word::NAME_LENGTH)
    }

    /// Where in the document the payload is: nowhere of a list or a compound.
    pub(crate) fn payload_range(&self) -> Range<usize> {
        let start = self.word(word::START);
        start..start + self.word(word::LENGTH)
    }

    /// The bytes that the name words speak of: none in a list's element.
    fn name_span(&self) -> &'a [u8] {
        &self.doc[self.name_range()]
    }

    /// The name's bytes as they stand in the document: in modified UTF-8, in the pocket edition's form in UTF-8. `None` for a list's element.
    pub fn name_bytes(&self) -> Option<&'a [u8]> {
        self.list().is_none().then(|| self.name_span())
    }

    /// The name as text, borrowed where UTF-8 writes it the same. `None` for a list's element, and for a name that is no string of its form,
    /// which no read table has.
    pub fn name(&self) -> Option<Cow<'a, str>> {
        self.form.decode(self.name_bytes()?).ok()
    }

    /// The payload's bytes as they stand in the document, without a length or a count. Empty for a list or a compound.
    pub fn payload(&self) -> &'a [u8] {
        &self.doc[self.payload_range()]
    }

    /// The number of children or of an array's elements; 0 for every other kind.
    pub fn len(&self) -> usize {
        self.word(word::COUNT)
    }

    /// Whether it has neither children nor elements.
    pub fn is_empty(&self) -> bool {
        self.len() == 0
    }

    /// The kind of a list's elements. `None` for an empty list and every other tag.
    pub fn list_kind(&self) -> Option<Kind> {
        Kind::from_id(self.word(word::LIST_KIND) as u8)
    }

    /// The payload, the highest byte first, if the tag is of that kind and its bytes are so many.
    fn fixed<const N: usize>(&self, kind: Kind) -> Option<[u8; N]> {
        if self.kind() != kind {
            return None;
        }
        self.payload().try_into().ok().map(|bytes| self.form.ordered(bytes))
    }

    /// The value of a byte.
    pub fn as_i8(&self) -> Option<i8> {
        self.fixed(Kind::Byte).map(i8::from_be_bytes)
    }

    /// The value of a short.
    pub fn as_i16(&self) -> Option<i16> {
        self.fixed(Kind::Short).map(i16::from_be_bytes)
    }

    /// The value of an int.
    pub fn as_i32(&self) -> Option<i32> {
        self.fixed(Kind::Int).map(i32::from_be_bytes)
    }

    /// The value of a long.
    pub fn as_i64(&self) -> Option<i64> {
        self.fixed(Kind::Long).map(i64::from_be_bytes)
    }

    /// The value of a float, bit for bit.
    pub fn as_f32(&self) -> Option<f32> {
        self.fixed(Kind::Float).map(f32::from_be_bytes)
    }

    /// The value of a double, bit for bit.
    pub fn as_f64(&self) -> Option<f64> {
        self.fixed(Kind::Double).map(f64::from_be_bytes)
    }

    /// The value of a byte, short, int or long.
    pub fn as_whole(&self) -> Option<i64> {
        match self.kind() {
            Kind::Byte => self.as_i8().map(i64::from),
            Kind::Short => self.as_i16().map(i64::from),
            Kind::Int => self.as_i32().map(i64::from),
            _ => self.as_i64(),
        }
    }

    /// The text of a string, borrowed where UTF-8 writes it the same. `None` too for one that is no string of its form, which no read table
    /// has.
    pub fn as_str(&self) -> Option<Cow<'a, str>> {
        if self.kind() != Kind::String {
            return None;
        }
        self.form.decode(self.payload()).ok()
    }

    /// An array's elements of `N` bytes each, the highest first, if the tag is an array of that kind.
    fn array<const N: usize>(&self, kind: Kind) -> Option<impl ExactSizeIterator<Item = [u8; N]> + 'a> {
        let (of_kind, form) = (self.kind() == kind, self.form);
        of_kind.then(|| self.payload().chunks_exact(N).map(move |chunk| form.ordered(chunk.try_into().expect("a chunk has N bytes"))))
    }

    /// The elements of a byte array.
    pub fn byte_array(&self) -> Option<impl ExactSizeIterator<Item = i8> + 'a> {
        Some(self.array(Kind::ByteArray)?.map(i8::from_be_bytes))
    }

    /// The elements of an int array.
    pub fn int_array(&self) -> Option<impl ExactSizeIterator<Item = i32> + 'a> {
        Some(self.array(Kind::IntArray)?.map(i32::from_be_bytes))
    }

    /// The elements of a long array.
    pub fn long_array(&self) -> Option<impl ExactSizeIterator<Item = i64> + 'a> {
        Some(self.array(Kind::LongArray)?.map(i64::from_be_bytes))
    }

    /// The elements of any array, each as a long.
    pub fn wholes(&self) -> Option<Box<dyn ExactSizeIterator<Item = i64> + 'a>> {
        match self.kind() {
            Kind::ByteArray => Some(Box::new(self.byte_array()?.map(i64::from))),
            Kind::IntArray => Some(Box::new(self.int_array()?.map(i64::from))),
            _ => Some(Box::new(self.long_array()?)),
        }
    }

    /// The children of a list or a compound, in file order; none of any other tag.
    pub fn children(&self) -> Children<'a> {
        Children { parent: *self, next: self.record + 1, index: 0 }
    }

    /// A compound's entry of this name. In a table that no read made there may be two: the first.
    pub fn get(&self, name: &str) -> Option<Node<'a>> {
        if self.kind() != Kind::Compound {
            return None;
        }
        let wanted = self.form.encode(name);
        self.children().find(|child| child.name_span() == &*wanted)
    }

    /// Whether a compound has an entry of this name.
    pub fn contains_key(&self, name: &str) -> bool {
        self.get(name).is_some()
    }

    /// A list's element, from 0.
    pub fn element(&self, index: usize) -> Option<Node<'a>> {
        if self.kind() != Kind::List {
            return None;
        }
        self.children().nth(index)
    }

    /// The tag and everything below it, in file order, with how many levels below this one each is.
    pub fn walk(&self) -> Walk<'a> {
        Walk { next: Some(*self), open: Vec::new() }
    }

    /// The tag that it is a child of, as its record says. `None` for the root.
    ///
    /// ```
    /// let doc = b"\x0A\0\0\x0A\0\x05Scene\x01\0\x06Clouds\x07\0\0";
    /// let table = tikfazrul::read(doc)?;
    /// let root = table.root(doc)?;
    /// let clouds = root.get("Scene").unwrap().get("Clouds").unwrap();
    /// assert_eq!(clouds.parent().unwrap().name().unwrap(), "Scene");
    /// assert!(root.parent().is_none());
    /// # Ok::<(), tikfazrul::Refusal>(())
    /// ```
    pub fn parent(&self) -> Option<Node<'a>> {
        let parent = self.word(word::PARENT);
        // rule 7 with 02, [7]: a parent stands before its children; the root's word is 0, and it has none
        (parent < self.record).then(|| self.at(parent))
    }

    /// The tags above it: its parent, the parent's parent, and so on up to the root. None for the root.
    ///
    /// ```
    /// // which scene does a match sit in?
    /// let doc = tikfazrul::parse(b"{Tiles: [{Footprint: [I; 1, 2]}, {SceneId: S2B, Shape: {Footprint: [I; 3, 4]}}]}")?.document;
    /// let table = tikfazrul::read(&doc)?;
    /// let found = table.find(&doc, &"**/Footprint".parse()?)?;
    /// let scenes: Vec<_> = found.iter().map(|node| node.ancestors().find_map(|above| above.get("SceneId"))).collect();
    /// assert!(scenes[0].is_none());
    /// assert_eq!(scenes[1].unwrap().as_str().unwrap(), "S2B");
    /// # Ok::<(), Box<dyn std::error::Error>>(())
    /// ```
    pub fn ancestors(&self) -> impl Iterator<Item = Node<'a>> {
        iter::successors(self.parent(), Node::parent)
    }

    /// The tags from the root down to this one, both included.
    pub fn lineage(&self) -> Vec<Node<'a>> {
        let mut line: Vec<Node> = iter::once(*self).chain(self.ancestors()).collect();
        line.reverse();
        line
    }

    /// Where it is, as a path that [`Query`](crate::Query) reads: `root/Tiles[3]/SceneId`. It is found by climbing to the root; on the way
    /// an index is counted as [`Node::link`] does. A name that is no string of its form, which no read table has, is shown as far as it can be.
    pub fn path(&self) -> String {
        let mut trail = Trail::new();
        trail.step(self);
        trail.path
    }

    /// Adds the step from the tag above to this one.
    fn push_step(&self, path: &mut String) {
        match self.link() {
            Link::Root => path.push_str("root"),
            Link::Element(index) => path.push_str(&format!("[{index}]")),
            Link::Entry => {
                let name = self.form.decode(self.name_span()).unwrap_or_else(|_| String::from_utf8_lossy(self.name_span()));
                path.push('/');
                path.push_str(&path::quoted(&name));
            }
        }
    }
}

impl fmt::Debug for Node<'_> {
    fn fmt(&self, f: &mut fmt::Formatter) -> fmt::Result {
        write!(f, "{} {} (record {})", self.kind(), self.path(), self.record)
    }
}

/// The children of a tag: see [`Node::children`].
#[derive(Clone)]
pub struct Children<'a> {
    parent: Node<'a>,
    next: usize,
    index: usize,
}

impl<'a> Iterator for Children<'a> {
    type Item = Node<'a>;

    fn next(&mut self) -> Option<Node<'a>> {
        if self.next >= self.parent.end() {
            return None;
        }
        let index = (self.parent.kind() == Kind::List).then_some(self.index);
        let child = Node { record: self.next, index, ..self.parent };
        self.next = child.end();
        self.index += 1;
        Some(child)
    }
}

/// A tag and everything below it: see [`Node::walk`].
pub struct Walk<'a> {
    next: Option<Node<'a>>,
    /// What is left of each container that the walk is in.
    open: Vec<Children<'a>>,
}

impl<'a> Iterator for Walk<'a> {
    type Item = (usize, Node<'a>);

    fn next(&mut self) -> Option<(usize, Node<'a>)> {
        let node = self.next.take()?;
        let depth = self.open.len();
        self.open.push(node.children());
        while let Some(children) = self.open.last_mut() {
            self.next = children.next();
            if self.next.is_some() {
                break;
            }
            self.open.pop();
        }
        Some((depth, node))
    }
}

/// The paths of many tags of a table, kept from one to the next: cheaper than [`Node::path`] where the tags come in file order, as from a
/// walk or a query. It climbs no higher than to what is kept, and counts no element of a list twice.
///
/// ```
/// use tikfazrul::Trail;
/// let doc = b"\x0A\0\x01a\x01\0\x01b\xFF\0";
/// let table = tikfazrul::read(doc)?;
/// let mut trail = Trail::new();
/// for node in table.find(doc, &"**".parse()?)? {
///     assert_eq!(trail.step(&node), node.path());
/// }
/// # Ok::<(), Box<dyn std::error::Error>>(())
/// ```
#[derive(Clone, Debug, Default)]
pub struct Trail<'a> {
    path: String,
    /// The last tag and those above it, from the root down, with how long the path is at each.
    kept: Vec<(Node<'a>, usize)>,
}

impl<'a> Trail<'a> {
    /// The trail of no tag yet.
    pub fn new() -> Trail<'a> {
        Trail::default()
    }

    /// The path of the next tag.
    pub fn step(&mut self, node: &Node<'a>) -> &str {
        let mut climbed = Vec::new();
        // what was left last: a sibling of the tag that the climb ends below
        let mut beside = None;
        for tag in iter::once(*node).chain(node.ancestors()) {
            while let Some((left, _)) = self.kept.pop_if(|(kept, _)| tag.record < kept.record) {
                beside = Some(left);
            }
            if self.kept.last().is_some_and(|(kept, _)| kept.record == tag.record) {
                break;
            }
            climbed.push(tag);
        }
        self.path.truncate(self.kept.last().map_or(0, |&(_, length)| length));
        for tag in climbed.into_iter().rev() {
            let tag = tag.indexed(beside.take());
            tag.push_step(&mut self.path);
            self.kept.push((tag, self.path.len()));
        }
        &self.path
    }
}
