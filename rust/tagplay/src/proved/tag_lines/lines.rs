// Made of crates/tag_lines/src/lines.rt, where the contracts are, by rust/generate.

//! Splits a text into lines, and a line into words.

/// The largest text that is read, in bytes: 16 MiB.
pub const MAX_INPUT: usize = 16_777_216;

/// The byte that ends a line.
pub const LINE_FEED: u8 = b'\n';

/// The byte that separates the words of a line.
const BLANK: u8 = b' ';

/// The first line of a text that isn't empty, without its line feed, and the text behind it.
pub fn cut_line(text: &[u8]) -> (&[u8], &[u8]) {
    let (line, rest) = cut(text, LINE_FEED);
    match rest {
        Some(rest) => (line, rest),
        None => (line, &[]),
    }
}

/// The first part of a line, and what follows the blank behind it, or `None` if it is the last part.
pub fn cut_word(line: &[u8]) -> (&[u8], Option<&[u8]>) {
    cut(line, BLANK)
}

/// Splits the text at the first byte `at` into what precedes and what follows it. Without one: all of it, and `None`.
fn cut(text: &[u8], at: u8) -> (&[u8], Option<&[u8]>) {
    match text.iter().position(|byte| *byte == at) {
        Some(end) => (&text[..end], Some(&text[end + 1..])),
        None => (text, None),
    }
}

/// Whether the line has an empty part: it is empty, starts or ends with a blank, or has two blanks in a row.
pub fn has_gap(line: &[u8]) -> bool {
    line.split(|byte| *byte == BLANK).any(|part| part.is_empty())
}
