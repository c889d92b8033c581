//! Lines as text: ends, comments, lengths, and what was expected where.

use super::{before_comment, bytes, words, Tally};
use crate::lines::{Line, Text, Unreadable, LONGEST};

pub(super) const EXPECTED: [&str; 10] = [
    "word, tick, sheet or fresh",
    "hexadecimal digits",
    "a whole number",
    "a float",
    "a command",
    "at",
    "switches",
    "still or moving",
    "set1 or set2",
    "end of line",
];

/// Shapes of floats that are to be tried, accepted or not.
pub(super) const FLOAT_SHAPES: [&str; 12] = [
    "decimal with sign and point",
    "nine digits",
    "leading zeros",
    "pattern",
    "NaN pattern",
    "point without digit before",
    "point without digit behind",
    "two points",
    "ten digits",
    "pattern of seven digits",
    "pattern of nine digits",
    "sign alone",
];

fn float_shape(word: &[u8]) -> Option<&'static str> {
    let digits = word.iter().filter(|byte| byte.is_ascii_digit()).count();
    let points = word.iter().filter(|&&byte| byte == b'.').count();
    if let Some(pattern) = word.strip_prefix(b"x") {
        let value = std::str::from_utf8(pattern).ok().and_then(|text| u32::from_str_radix(text, 16).ok());
        return match (pattern.len(), value) {
            (7, Some(_)) => Some("pattern of seven digits"),
            (8, Some(bits)) if f32::from_bits(bits).is_nan() => Some("NaN pattern"),
            (8, Some(_)) => Some("pattern"),
            (9, _) => Some("pattern of nine digits"),
            _ => None,
        };
    }
    match word {
        b"-" => Some("sign alone"),
        _ if digits + points + usize::from(word.starts_with(b"-")) != word.len() => None,
        _ if points > 1 => Some("two points"),
        [b'.', ..] | [b'-', b'.', ..] => Some("point without digit before"),
        [.., b'.'] => Some("point without digit behind"),
        [b'-', ..] if points == 1 => Some("decimal with sign and point"),
        _ if digits == 10 => Some("ten digits"),
        [b'0', b'0', ..] => Some("leading zeros"),
        _ if digits == 9 => Some("nine digits"),
        _ => None,
    }
}

impl Tally {
    pub(super) fn saw_text(&mut self, raw: &[u8], text: &Text, read: &Result<Line, Unreadable>) {
        let (line, ends) = match raw.strip_suffix(b"\n") {
            Some(line) => (line, true),
            None => (raw, false),
        };
        self.saw_if(!ends, "text: last line without LF");
        self.saw_if(ends && line.ends_with(b"\r"), "text: CR LF");
        let length = line.len() - usize::from(line.ends_with(b"\r"));
        if (LONGEST - 1..=LONGEST + 2).contains(&length) {
            let with = if line.ends_with(b"\r") { "with" } else { "without" };
            self.saw(&format!("text: {length} bytes, {with} CR"));
        }
        self.saw_if(length > LONGEST && line.trim_ascii_start().starts_with(b"#"), "text: a comment too long");
        if let Some(bytes) = bytes(text) {
            self.saw_bytes(bytes, read);
        }
        match read {
            Err(Unreadable::TooLong) => self.saw("unreadable: line too long"),
            Err(unreadable @ Unreadable::Expected { column, what }) => {
                let before = before_comment(text);
                let how = if *column > before.len() { "missing" } else { "wrong" };
                self.saw(&format!("unreadable: {what}, {how}"));
                self.saw_unreadable_layout(before, unreadable);
                self.saw_unreadable_sheet(before, *column);
                self.saw_unreadable_rails(before, *column);
            }
            Ok(_) => {}
        }
    }

    fn saw_bytes(&mut self, bytes: &[u8], read: &Result<Line, Unreadable>) {
        let comment = bytes.iter().position(|&byte| byte == b'#');
        let before = &bytes[..comment.unwrap_or(bytes.len())];
        let behind = &bytes[comment.unwrap_or(bytes.len())..];
        let blank = matches!(read, Ok(Line::Blank));
        self.saw_if(bytes.is_empty(), "text: empty line");
        self.saw_if(blank && !bytes.is_empty() && comment.is_none(), "text: blank line");
        self.saw_if(blank && comment.is_some(), "text: only a comment");
        self.saw_if(read.is_ok() && !blank && before.contains(&b'\t'), "text: tabs between words");
        self.saw_if(read.is_ok() && !blank && comment.is_some(), "text: comment behind words");
        self.saw_if(read.is_err() && comment.is_some(), "text: unreadable before a comment");
        self.saw_if(behind.iter().any(|&byte| byte == 0 || byte >= 0x80), "text: any bytes in a comment");
        self.saw_if(before.contains(&0), "text: NUL in a word");
        self.saw_if(before.iter().any(|&byte| byte >= 0x80), "text: high byte in a word");
        self.saw_if(before.contains(&b'\r'), "text: CR in a word");
        let mut words = words(before);
        if words.any(|word| word == b"hybrid") {
            for shape in words.take(7).filter_map(float_shape) {
                self.saw(&format!("float: {shape}"));
            }
        }
    }
}
