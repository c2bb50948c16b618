//! The C calls, and the only module with `unsafe`. Each function here is safe for every argument: a slice is lent as its pointer and its
//! number of elements, the library is proved to touch nothing else, and the borrow checker keeps what is lent to be written to apart from
//! the rest.
// bench/ takes this file as it is, and neither it nor the crate calls every function
#![allow(unsafe_code, dead_code)]

/// What a call answers: number, place, and what the call adds.
pub type Answer = [u64; 8];

mod c {
    extern "C" {
        pub fn tikfazrul_read(doc: *const u8, doc_len: usize, table: *mut u32, table_len: usize, answer: *mut u64);
        pub fn tikfazrul_read_in(form: u32, doc: *const u8, doc_len: usize, table: *mut u32, table_len: usize, answer: *mut u64);
        pub fn tikfazrul_is_table(doc_len: usize, table: *const u32, table_len: usize, answer: *mut u64);
        pub fn tikfazrul_write(
            doc: *const u8,
            doc_len: usize,
            table: *mut u32,
            table_len: usize,
            out: *mut u8,
            out_len: usize,
            answer: *mut u64,
        );
        pub fn tikfazrul_write_in(
            form: u32,
            doc: *const u8,
            doc_len: usize,
            table: *mut u32,
            table_len: usize,
            out: *mut u8,
            out_len: usize,
            answer: *mut u64,
        );
        pub fn tikfazrul_convert(
            from: u32,
            to: u32,
            doc: *const u8,
            doc_len: usize,
            table: *mut u32,
            table_len: usize,
            out: *mut u8,
            out_len: usize,
            answer: *mut u64,
        );
        pub fn tikfazrul_rescue(
            form: u32,
            doc: *const u8,
            doc_len: usize,
            table: *mut u32,
            table_len: usize,
            out: *mut u8,
            out_len: usize,
            changes: *mut u32,
            changes_len: usize,
            answer: *mut u64,
        );
        pub fn tikfazrul_write_lines(doc_len: usize, table: *const u32, table_len: usize, out: *mut u8, out_len: usize, answer: *mut u64);
        pub fn tikfazrul_read_lines(lines: *const u8, lines_len: usize, table: *mut u32, table_len: usize, answer: *mut u64);
        pub fn tikfazrul_lines_up(doc_len: usize, lines: *const u8, lines_len: usize, out: *mut u8, out_len: usize, answer: *mut u64);
        pub fn tikfazrul_lines_down(doc_len: usize, lines: *const u8, lines_len: usize, out: *mut u8, out_len: usize, answer: *mut u64);
        pub fn tikfazrul_query(
            doc: *const u8,
            doc_len: usize,
            table: *const u32,
            table_len: usize,
            query: *const u8,
            query_len: usize,
            list: *mut u32,
            list_len: usize,
            answer: *mut u64,
        );
        pub fn tikfazrul_query_in(
            form: u32,
            doc: *const u8,
            doc_len: usize,
            table: *const u32,
            table_len: usize,
            query: *const u8,
            query_len: usize,
            list: *mut u32,
            list_len: usize,
            answer: *mut u64,
        );
        pub fn tikfazrul_check_mutf8(bytes: *const u8, len: usize, answer: *mut u64);
        pub fn tikfazrul_check_string(form: u32, bytes: *const u8, len: usize, answer: *mut u64);
        pub fn tikfazrul_check_utf8(bytes: *const u8, len: usize, answer: *mut u64);
        pub fn tikfazrul_token(text: *const u8, text_len: usize, start: usize, stops: u32, answer: *mut u64);
        pub fn tikfazrul_content(
            text: *const u8,
            text_len: usize,
            start: usize,
            end: usize,
            quoted: u8,
            out: *mut u8,
            out_len: usize,
            answer: *mut u64,
        );
        pub fn tikfazrul_parse(text: *const u8, text_len: usize, out: *mut u8, out_len: usize, answer: *mut u64);
    }
}

pub fn read(doc: &[u8], table: &mut [u32]) -> Answer {
    let mut answer = [0; 8];
    // SAFETY: both pointers stand for slices of the lengths given; the table and the answer are lent to be written to and overlap nothing.
    unsafe { c::tikfazrul_read(doc.as_ptr(), doc.len(), table.as_mut_ptr(), table.len(), answer.as_mut_ptr()) };
    answer
}

// 02, [2]: here and below, every number is answered as a form
pub fn read_in(form: u32, doc: &[u8], table: &mut [u32]) -> Answer {
    let mut answer = [0; 8];
    // SAFETY: both pointers stand for slices of the lengths given; the table and the answer are lent to be written to and overlap nothing.
    unsafe { c::tikfazrul_read_in(form, doc.as_ptr(), doc.len(), table.as_mut_ptr(), table.len(), answer.as_mut_ptr()) };
    answer
}

pub fn is_table(doc_len: usize, table: &[u32]) -> Answer {
    let mut answer = [0; 8];
    // SAFETY: the pointer stands for a slice of the length given; the document is given by its length alone.
    unsafe { c::tikfazrul_is_table(doc_len, table.as_ptr(), table.len(), answer.as_mut_ptr()) };
    answer
}

pub fn write(doc: &[u8], table: &mut [u32], out: &mut [u8]) -> Answer {
    let mut answer = [0; 8];
    let (words, room) = (table.len(), out.len());
    // SAFETY: the pointers stand for slices of the lengths given. The table is lent to be written to, since its words are used while the
    // call lasts, and so are the output and the answer; none overlaps another.
    unsafe { c::tikfazrul_write(doc.as_ptr(), doc.len(), table.as_mut_ptr(), words, out.as_mut_ptr(), room, answer.as_mut_ptr()) };
    answer
}

pub fn write_in(form: u32, doc: &[u8], table: &mut [u32], out: &mut [u8]) -> Answer {
    let mut answer = [0; 8];
    let (words, room) = (table.len(), out.len());
    // SAFETY: the pointers stand for slices of the lengths given. The table is lent to be written to, since its words are used while the
    // call lasts, and so are the output and the answer; none overlaps another.
    unsafe { c::tikfazrul_write_in(form, doc.as_ptr(), doc.len(), table.as_mut_ptr(), words, out.as_mut_ptr(), room, answer.as_mut_ptr()) };
    answer
}

pub fn convert(from: u32, to: u32, doc: &[u8], table: &mut [u32], out: &mut [u8]) -> Answer {
    let mut answer = [0; 8];
    // SAFETY: the pointers stand for slices of the lengths given. The table is lent to be written to, since its words are used while the
    // call lasts, and so are the output and the answer; none overlaps another.
    unsafe {
        c::tikfazrul_convert(
            from,
            to,
            doc.as_ptr(),
            doc.len(),
            table.as_mut_ptr(),
            table.len(),
            out.as_mut_ptr(),
            out.len(),
            answer.as_mut_ptr(),
        )
    };
    answer
}

pub fn rescue(doc: &[u8], table: &mut [u32], out: &mut [u8], changes: &mut [u32]) -> Answer {
    rescue_in(0, doc, table, out, changes)
}

pub fn rescue_in(form: u32, doc: &[u8], table: &mut [u32], out: &mut [u8], changes: &mut [u32]) -> Answer {
    let mut answer = [0; 8];
    // SAFETY: the pointers stand for slices of the lengths given; the table, the output, the changes and the answer are lent to be written
    // to and overlap nothing.
    unsafe {
        c::tikfazrul_rescue(
            form,
            doc.as_ptr(),
            doc.len(),
            table.as_mut_ptr(),
            table.len(),
            out.as_mut_ptr(),
            out.len(),
            changes.as_mut_ptr(),
            changes.len(),
            answer.as_mut_ptr(),
        )
    };
    answer
}

pub fn write_lines(doc_len: usize, table: &[u32], out: &mut [u8]) -> Answer {
    let mut answer = [0; 8];
    // SAFETY: the pointers stand for slices of the lengths given; the output and the answer are lent to be written to and overlap nothing;
    // the document is given by its length alone.
    unsafe { c::tikfazrul_write_lines(doc_len, table.as_ptr(), table.len(), out.as_mut_ptr(), out.len(), answer.as_mut_ptr()) };
    answer
}

pub fn read_lines(lines: &[u8], table: &mut [u32]) -> Answer {
    let mut answer = [0; 8];
    // SAFETY: the pointers stand for slices of the lengths given; the table and the answer are lent to be written to and overlap nothing.
    unsafe { c::tikfazrul_read_lines(lines.as_ptr(), lines.len(), table.as_mut_ptr(), table.len(), answer.as_mut_ptr()) };
    answer
}

pub fn lines_up(doc_len: usize, lines: &[u8], out: &mut [u8]) -> Answer {
    let mut answer = [0; 8];
    // SAFETY: the pointers stand for slices of the lengths given; the output and the answer are lent to be written to and overlap nothing;
    // the document is given by its length alone.
    unsafe { c::tikfazrul_lines_up(doc_len, lines.as_ptr(), lines.len(), out.as_mut_ptr(), out.len(), answer.as_mut_ptr()) };
    answer
}

pub fn lines_down(doc_len: usize, lines: &[u8], out: &mut [u8]) -> Answer {
    let mut answer = [0; 8];
    // SAFETY: the pointers stand for slices of the lengths given; the output and the answer are lent to be written to and overlap nothing;
    // the document is given by its length alone.
    unsafe { c::tikfazrul_lines_down(doc_len, lines.as_ptr(), lines.len(), out.as_mut_ptr(), out.len(), answer.as_mut_ptr()) };
    answer
}

pub fn query(doc: &[u8], table: &[u32], query: &[u8], list: &mut [u32]) -> Answer {
    let mut answer = [0; 8];
    // SAFETY: the pointers stand for slices of the lengths given; the list and the answer are lent to be written to and overlap nothing.
    unsafe {
        c::tikfazrul_query(
            doc.as_ptr(),
            doc.len(),
            table.as_ptr(),
            table.len(),
            query.as_ptr(),
            query.len(),
            list.as_mut_ptr(),
            list.len(),
            answer.as_mut_ptr(),
        )
    };
    answer
}

pub fn query_in(form: u32, doc: &[u8], table: &[u32], query: &[u8], list: &mut [u32]) -> Answer {
    let mut answer = [0; 8];
    // SAFETY: the pointers stand for slices of the lengths given; the list and the answer are lent to be written to and overlap nothing.
    unsafe {
        c::tikfazrul_query_in(
            form,
            doc.as_ptr(),
            doc.len(),
            table.as_ptr(),
            table.len(),
            query.as_ptr(),
            query.len(),
            list.as_mut_ptr(),
            list.len(),
            answer.as_mut_ptr(),
        )
    };
    answer
}

pub fn check_mutf8(bytes: &[u8]) -> Answer {
    let mut answer = [0; 8];
    // SAFETY: the pointer stands for a slice of the length given.
    unsafe { c::tikfazrul_check_mutf8(bytes.as_ptr(), bytes.len(), answer.as_mut_ptr()) };
    answer
}

pub fn check_string(form: u32, bytes: &[u8]) -> Answer {
    let mut answer = [0; 8];
    // SAFETY: the pointer stands for a slice of the length given.
    unsafe { c::tikfazrul_check_string(form, bytes.as_ptr(), bytes.len(), answer.as_mut_ptr()) };
    answer
}

pub fn check_utf8(bytes: &[u8]) -> Answer {
    let mut answer = [0; 8];
    // SAFETY: the pointer stands for a slice of the length given.
    unsafe { c::tikfazrul_check_utf8(bytes.as_ptr(), bytes.len(), answer.as_mut_ptr()) };
    answer
}

pub fn token(text: &[u8], start: usize, stops: u32) -> Answer {
    let mut answer = [0; 8];
    // SAFETY: the pointer stands for a slice of the length given; every start and every stop set is answered.
    unsafe { c::tikfazrul_token(text.as_ptr(), text.len(), start, stops, answer.as_mut_ptr()) };
    answer
}

pub fn content(text: &[u8], start: usize, end: usize, quoted: bool, out: &mut [u8]) -> Answer {
    let mut answer = [0; 8];
    let (room, quoted) = (out.len(), quoted as u8);
    // SAFETY: the pointers stand for slices of the lengths given; the output and the answer are lent to be written to and overlap nothing;
    // every span is answered.
    unsafe { c::tikfazrul_content(text.as_ptr(), text.len(), start, end, quoted, out.as_mut_ptr(), room, answer.as_mut_ptr()) };
    answer
}

pub fn parse(text: &[u8], out: &mut [u8]) -> Answer {
    let mut answer = [0; 8];
    // SAFETY: the pointers stand for slices of the lengths given; the output and the answer are lent to be written to and overlap nothing.
    unsafe { c::tikfazrul_parse(text.as_ptr(), text.len(), out.as_mut_ptr(), out.len(), answer.as_mut_ptr()) };
    answer
}
