//! How much stack each entry point takes: it is called on a thread whose stack was filled with a pattern, and what no longer has the pattern
//! was touched. A frame that is set aside but never written to does not count.
use crate::goals::Goal;
use crate::harness::Spread;
use crate::inputs::{around, list_text, nested, tile_text, wide, Doc, Order};
use crate::library::{self, Answer, LINE, MOST_TEXT, WORDS};
use crate::markdown::{self, grouped};
use crate::moves::Kept;
use crate::rescue::Cut;
use crate::Bench;
use std::ffi::{c_int, c_void};

/// Room for pthread_attr_t on every processor that Linux runs on.
type Attributes = [u64; 32];

extern "C" {
    fn pthread_attr_init(attributes: *mut Attributes) -> c_int;
    fn pthread_attr_setstack(attributes: *mut Attributes, stack: *mut c_void, size: usize) -> c_int;
    fn pthread_attr_destroy(attributes: *mut Attributes) -> c_int;
    fn pthread_create(
        thread: *mut usize,
        attributes: *const Attributes,
        start: extern "C" fn(*mut c_void) -> *mut c_void,
        with: *mut c_void,
    ) -> c_int;
    fn pthread_join(thread: usize, result: *mut *mut c_void) -> c_int;
}

const PATTERN: u64 = 0xA5C3_5A3C_96E1_1E69;
const PAGE: usize = 4096;
const STACK: usize = 16 << 20;

struct Job<'a> {
    call: &'a mut dyn FnMut() -> Answer,
    answer: Answer,
    /// Where the stack stood when the call was made.
    caller: usize,
}

extern "C" fn start(job: *mut c_void) -> *mut c_void {
    let job = unsafe { &mut *(job as *mut Job) };
    let here = 0usize;
    job.caller = std::hint::black_box(&here) as *const usize as usize;
    job.answer = (job.call)();
    std::ptr::null_mut()
}

/// The bytes of stack that a call takes, and its answer.
fn taken(call: &mut dyn FnMut() -> Answer) -> (usize, Answer) {
    let mut memory = vec![PATTERN; (STACK + PAGE) / 8];
    let skipped = memory.as_ptr().align_offset(PAGE);
    let stack = &mut memory[skipped..skipped + STACK / 8];
    let mut job = Job { call, answer: [0; 8], caller: 0 };
    on_thread(stack, &mut job);
    let untouched = stack.iter().take_while(|&&word| word == PATTERN).count();
    assert!(untouched > 0, "the stack was too small");
    (job.caller - (stack.as_ptr() as usize + 8 * untouched), job.answer)
}

fn on_thread(stack: &mut [u64], job: &mut Job) {
    let (mut attributes, mut thread): (Attributes, usize) = ([0; 32], 0);
    unsafe {
        assert_eq!(pthread_attr_init(&mut attributes), 0);
        assert_eq!(pthread_attr_setstack(&mut attributes, stack.as_mut_ptr().cast(), 8 * stack.len()), 0);
        assert_eq!(pthread_create(&mut thread, &attributes, start, job as *mut Job as *mut c_void), 0);
        assert_eq!(pthread_join(thread, std::ptr::null_mut()), 0);
        pthread_attr_destroy(&mut attributes);
    }
}

/// One call that is to end with this refusal, 0 for none. Answers the bytes of stack.
fn row(call: &str, input: &str, refusal: u64, mut f: impl FnMut() -> Answer) -> usize {
    let (bytes, answer) = taken(&mut f);
    assert_eq!(answer[0], refusal, "{call}, {input}");
    markdown::row(&[
        format!("`{call}`"),
        input.into(),
        if refusal == 0 { "accepted".into() } else { format!("refused, {refusal}") },
        grouped(bytes),
    ]);
    bytes
}

pub fn section(bench: &mut Bench) {
    markdown::section("Stack", "stack");
    markdown::head(&["call", "input", "answer", "bytes of stack"]);
    documents(bench);
    texts();
    strings();
}

fn documents(bench: &mut Bench) {
    let deep = nested(1, 512);
    read("a document 512 deep", &deep, 0);
    read("a document 513 deep", &nested(1, 513), 7);
    read("one compound of 100,000 in random order", &wide(100_000, 0, 0, Order::Random), 0);
    let table = deep.table();
    row("tikfazrul_is_table", "the table of one 512 deep", 0, || library::is_table(&deep.bytes, &table));
    write("the table of one 512 deep", &deep);
    write("one compound of 100,000 in random order", &wide(100_000, 0, 0, Order::Random));
    let mut cut = Cut::innermost(512);
    row("tikfazrul_rescue", "one 512 deep, cut in the innermost", 0, || cut.rescue());
    lines("the table of one 512 deep", &deep);
    for containers in [512, 100_000] {
        moves(&format!("the lines of {} compounds in each other", grouped(containers)), &Kept::path(containers));
    }
    let mut list = vec![0; deep.tags];
    for (what, query) in [("04 03, eight times", [4, 3].repeat(8)), ("04 01 x, eight times", [4, 1, 0, 1, b'x'].repeat(8))] {
        let bytes =
            row("tikfazrul_query", &format!("{what}, on one 512 deep"), 0, || library::query(&deep.bytes, &table, &query, &mut list));
        bench.goals.note(Goal::QueryStack, Spread::once(bytes as f64 / 1024.0), what);
    }
}

fn read(what: &str, doc: &Doc, refusal: u64) {
    let mut table = vec![0; WORDS * doc.tags];
    row("tikfazrul_read", what, refusal, || library::read(&doc.bytes, &mut table));
}

fn write(what: &str, doc: &Doc) {
    let (mut table, mut out) = (doc.table(), vec![0; doc.bytes.len()]);
    row("tikfazrul_write", what, 0, || library::write(&doc.bytes, &mut table, &mut out));
}

fn lines(what: &str, doc: &Doc) {
    let (mut table, mut out) = (doc.table(), vec![0; LINE * doc.tags]);
    row("tikfazrul_write_lines", what, 0, || library::write_lines(doc.bytes.len(), &table, &mut out));
    row("tikfazrul_read_lines", &format!("the lines of {what}"), 0, || library::read_lines(&out, &mut table));
}

fn moves(what: &str, kept: &Kept) {
    let (mut new, mut old) = (vec![0; kept.new.len()], vec![0; kept.old.len()]);
    row("tikfazrul_lines_up", what, 0, || library::lines_up(kept.doc_len, &kept.old, &mut new));
    row("tikfazrul_lines_down", what, 0, || library::lines_down(kept.doc_len, &kept.new, &mut old));
}

fn texts() {
    for bytes in [100, 3_000, 60_000] {
        let text = format!("{{a:\"{}\"}}", "x".repeat(bytes - 6));
        parse(&format!("one string, {} bytes", grouped(bytes)), &text, 0);
    }
    for n in [1, 20, 400, 6_000] {
        let text = tile_text(n);
        parse(&format!("tiles, {} bytes", grouped(text.len())), &text, 0);
    }
    parse("a list of numbers, 1 MiB", &format!("{}{}", list_text(349_000, "7b"), " ".repeat(MOST_TEXT - 1_047_005)), 0);
    for (deep, refusal) in [(512, 0), (513, 7)] {
        parse(&format!("lists, {deep} deep"), &format!("{{a:{}}}", around(deep - 1, "[", "]")), refusal);
        parse(&format!("compounds, {deep} deep"), &format!("{}{{}}{}", "{a:".repeat(deep - 1), "}".repeat(deep - 1)), refusal);
    }
    let keys: Vec<String> = (0..60_000).map(|n| format!("k{n}:1b")).collect();
    let most = format!("{}{{{}}}{}", "{a:".repeat(511), keys.join(","), "}".repeat(511));
    parse(&format!("compounds, 512 deep, 60,000 keys in the last, {} bytes", grouped(most.len())), &most, 0);
    let paths = list_text(1_025, &around(510, "[", "]"));
    parse(&format!("lists, 512 deep, {} bytes", grouped(paths.len())), &paths, 0);
}

fn parse(what: &str, text: &str, refusal: u64) {
    let mut out = vec![0; 8 * text.len() + 64];
    row("tikfazrul_parse", what, refusal, || library::parse(text, &mut out));
}

fn strings() {
    let text = format!("\"{}\"", "\\u00E9".repeat((MOST_TEXT - 2) / 6));
    let mut out = vec![0; 2 * text.len()];
    row("tikfazrul_token", "a quoted string of escapes, 1 MiB", 0, || library::token(&text, 0, 0));
    let braces = format!("x{}", around(MOST_TEXT / 2 - 1, "{", "}"));
    row("tikfazrul_token", "an unquoted string of nested braces, 1 MiB", 0, || library::token(&braces, 0, 2));
    row("tikfazrul_content", "a quoted string of escapes, 1 MiB", 0, || library::content(&text, 1, text.len() - 1, true, &mut out));
    row("tikfazrul_check_mutf8", "1 MiB", 0, || library::check_mutf8(text.as_bytes()));
    row("tikfazrul_check_utf8", "1 MiB", 0, || library::check_utf8(text.as_bytes()));
}
