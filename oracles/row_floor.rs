//! How few instructions a row takes: CSV without quotes as a table in the look `sharp`, byte for byte as `ruled`
//! prints it, in safe Rust without vectors. `tools/row-prices` counts it beside `ruled`; it isn't part of the gate.
//!
//!     rustc -O --edition 2021 oracles/row_floor.rs && ./row_floor FILE
//!
//! It tests less than `ruled`: a quote, a row of another length or a text that isn't UTF-8 ends it with status 2, and
//! control characters are printed as they are.
#![forbid(unsafe_code)]

use std::io::Write;
use std::process::exit;

/// Eight times one byte in a word.
const ONES: u64 = 0x0101_0101_0101_0101;
const HIGH_BITS: u64 = 0x8080_8080_8080_8080;

/// A field: where its text begins, how many bytes it has, and how many columns of a terminal.
struct Field {
    start: u32,
    len: u32,
    width: u32,
}

fn refuse(why: &str) -> ! {
    eprintln!("row_floor: {why}");
    exit(2)
}

/// Marks the bytes of a word that equal one byte, of which `eight` has eight.
fn marks(word: u64, eight: u64) -> u64 {
    let other = word ^ eight;
    other.wrapping_sub(ONES) & !other & HIGH_BITS
}

fn ends_field(byte: u8) -> bool {
    matches!(byte, b',' | b'\n' | b'\r')
}

/// How many bytes stand in front of the first one that ends a field.
fn field_len(bytes: &[u8]) -> usize {
    let mut len = 0;
    for chunk in bytes.chunks_exact(8) {
        let word = u64::from_le_bytes(chunk.try_into().unwrap());
        let ends = marks(word, 0x2c * ONES) | marks(word, 0x0a * ONES) | marks(word, 0x0d * ONES);
        if ends != 0 {
            return len + (ends.trailing_zeros() / 8) as usize;
        }
        len += 8;
    }
    let rest = &bytes[len..];
    len + rest.iter().position(|byte| ends_field(*byte)).unwrap_or(rest.len())
}

fn char_width(c: char) -> usize {
    match c as u32 {
        0x300..=0x36f => 0,
        0x1100..=0x115f | 0x2e80..=0x303e | 0x3041..=0xa4cf | 0xac00..=0xd7a3 | 0xf900..=0xfaff => 2,
        _ => 1,
    }
}

/// How many columns of a terminal a text takes.
fn width_of(text: &str) -> usize {
    if text.bytes().fold(true, |plain, byte| plain & byte.is_ascii()) {
        return text.len();
    }
    text.chars().map(char_width).sum()
}

/// Whether a text is a number or blank, so that its column may stand at the right: digits with at most one point
/// are enough for the inputs of this program.
fn is_numeric(text: &[u8]) -> bool {
    let points = text.iter().filter(|byte| **byte == b'.').count();
    let digits = text.iter().filter(|byte| byte.is_ascii_digit()).count();
    points <= 1 && points + digits == text.len() && text.last() != Some(&b'.')
}

struct Table<'a> {
    text: &'a str,
    fields: Vec<Field>,
    widths: Vec<usize>,
    numeric: Vec<bool>,
}

/// Reads all fields, and what their columns need.
fn read(text: &str) -> Table<'_> {
    let bytes = text.as_bytes();
    let mut table = Table { text, fields: Vec::new(), widths: Vec::new(), numeric: Vec::new() };
    let (mut at, mut column, mut is_header) = (0, 0, true);
    while at < bytes.len() {
        if column == 0 && matches!(bytes[at], b'\n' | b'\r') {
            at += 1;
            continue;
        }
        let len = field_len(&bytes[at..]);
        let field = &text[at..at + len];
        let width = width_of(field);
        if is_header {
            table.widths.push(0);
            table.numeric.push(true);
        } else if column >= table.widths.len() {
            refuse("a row has too many fields");
        } else if table.numeric[column] && !is_numeric(field.as_bytes()) {
            table.numeric[column] = false;
        }
        table.widths[column] = table.widths[column].max(width);
        table.fields.push(Field { start: at as u32, len: len as u32, width: width as u32 });
        at += len;
        column += 1;
        if bytes.get(at) != Some(&b',') {
            if column != table.widths.len() {
                refuse("a row has too few fields");
            }
            (is_header, column) = (false, 0);
        }
        at += 1;
    }
    table
}

impl Table<'_> {
    fn push_rule(&self, out: &mut Vec<u8>, [left, middle, right]: [&str; 3]) {
        for (column, width) in self.widths.iter().enumerate() {
            out.extend_from_slice(if column == 0 { left } else { middle }.as_bytes());
            out.extend_from_slice("─".repeat(width + 2).as_bytes());
        }
        out.extend_from_slice(right.as_bytes());
        out.push(b'\n');
    }

    /// A row without texts, and where the text of each column begins in it.
    fn blank_row(&self) -> (Vec<u8>, Vec<usize>) {
        let (mut row, mut places) = (Vec::new(), Vec::new());
        for width in &self.widths {
            row.extend_from_slice("│ ".as_bytes());
            places.push(row.len());
            row.resize(row.len() + width + 1, b' ');
        }
        row.extend_from_slice("│\n".as_bytes());
        (row, places)
    }

    /// A row whose texts all take a column a byte: a blank one, filled.
    fn push_plain_row(&self, out: &mut Vec<u8>, cells: &[Field], (row, places): &(Vec<u8>, Vec<usize>)) {
        let begin = out.len();
        out.extend_from_slice(row);
        let line = &mut out[begin..];
        for (column, cell) in cells.iter().enumerate() {
            let (start, len) = (cell.start as usize, cell.len as usize);
            let beside = if self.numeric[column] { self.widths[column] - len } else { 0 };
            let place = places[column] + beside;
            line[place..place + len].copy_from_slice(&self.text.as_bytes()[start..start + len]);
        }
    }

    fn push_row(&self, out: &mut Vec<u8>, cells: &[Field]) {
        for (column, cell) in cells.iter().enumerate() {
            let text = &self.text.as_bytes()[cell.start as usize..][..cell.len as usize];
            let rest = self.widths[column] - cell.width as usize;
            let (left, right) = if self.numeric[column] { (rest, 0) } else { (0, rest) };
            out.extend_from_slice("│ ".as_bytes());
            out.resize(out.len() + left, b' ');
            out.extend_from_slice(text);
            out.resize(out.len() + right + 1, b' ');
        }
        out.extend_from_slice("│\n".as_bytes());
    }

    fn push(&self, out: &mut Vec<u8>) {
        let blank = self.blank_row();
        self.push_rule(out, ["┌", "┬", "┐"]);
        for (row, cells) in self.fields.chunks_exact(self.widths.len()).enumerate() {
            if row == 1 {
                self.push_rule(out, ["├", "┼", "┤"]);
            }
            if cells.iter().all(|cell| cell.width == cell.len) {
                self.push_plain_row(out, cells, &blank);
            } else {
                self.push_row(out, cells);
            }
        }
        self.push_rule(out, ["└", "┴", "┘"]);
    }
}

fn main() {
    let Some(name) = std::env::args().nth(1) else { refuse("row_floor FILE") };
    let Ok(bytes) = std::fs::read(name) else { refuse("the file can't be read") };
    let Ok(text) = std::str::from_utf8(&bytes) else { refuse("not UTF-8") };
    if bytes.iter().fold(false, |found, byte| found | (*byte == b'"')) {
        refuse("quotes aren't read");
    }
    let table = read(text);
    let mut out = Vec::new();
    if !table.fields.is_empty() {
        table.push(&mut out);
    }
    if std::io::stdout().lock().write_all(&out).is_err() {
        exit(5);
    }
}
