//! The table of sentences: a record's proof written as text, by the three checkers.

use super::contenders::{assert_texts, byte_sum_of, plain_text, proved_text, second_text};
use super::files::{self, File};

/// A record, and the length of its proof's text; none where it is too long to be lent.
pub struct Text {
    name: &'static str,
    file: File,
    length: Option<usize>,
}

/// Each is first seen to give the same text, or, the last, to be refused by all three.
pub fn texts() -> Vec<Text> {
    let text = |name, file| Text { name, length: assert_texts(name, &file), file };
    let texts = vec![
        text("small: record A of 01", files::record_a()),
        text("typical: record, F 200, S 20, N 300", files::typical_record()),
        text("long lines: record, F 13, S 1, N 8,191", files::doubled_tree()),
        text("many lines: record, F 256, S 32, N 12,288", files::many_lines()),
        text("refused 16: record, F 41, S 1, N 41", files::doubled_record()),
    ];
    let last = texts.len() - 1;
    for (at, text) in texts.iter().enumerate() {
        let refused = text.length.is_none();
        assert_eq!(refused, at == last, "{}: only the last row has no text", text.name);
    }
    texts
}

pub fn line(text: &Text) -> String {
    let file = &text.file;
    let length = text.length.unwrap_or(0);
    let contenders =
        vec![proved_text(file), plain_text(file), second_text(file), byte_sum_of(length)];
    super::line(text.name, length, contenders)
}
