//! Records of standard input, as keys and weights: by the crate `csv` where the feature `csv` is on, else by a loop with
//! the rules of its default reader.

use std::io::{self, BufRead};

/// A key with its weight.
pub type Item = (Box<[u8]>, u64);

/// All records, each key allocated.
pub fn items() -> Vec<Item> {
    let mut items = Vec::new();
    each_record(|key, weight| items.push((key.into(), weight)));
    items
}

/// Hands each record of standard input to the function.
pub fn each_record(take: impl FnMut(&[u8], u64)) {
    each_record_of(io::stdin().lock(), take);
}

/// A text in at most so many pieces of about equal length, cut before line feeds; none may stand in quotes.
pub fn pieces(text: &[u8], count: usize) -> Vec<&[u8]> {
    let (mut pieces, mut rest) = (Vec::new(), text);
    for left in (2..=count).rev() {
        let even = rest.len() / left;
        let Some(feed) = rest[even..].iter().position(|&byte| byte == b'\n') else { break };
        let (piece, others) = rest.split_at(even + feed);
        pieces.push(piece);
        rest = others;
    }
    pieces.push(rest);
    pieces
}

/// Hands each record to the function.
#[cfg(feature = "csv")]
pub fn each_record_of(reader: impl BufRead, mut take: impl FnMut(&[u8], u64)) {
    let mut reader = csv::ReaderBuilder::new().has_headers(false).flexible(true).from_reader(reader);
    let mut record = csv::ByteRecord::new();
    while reader.read_byte_record(&mut record).expect("input") {
        take(&record[0], record.get(1).map_or(1, number));
    }
}

/// Hands the two fields of each record to the function that stand in these columns, from 1 on.
#[cfg(feature = "csv")]
pub fn each_in_columns(key: usize, weight: usize, mut take: impl FnMut(&[u8], u64)) {
    let mut reader = csv::ReaderBuilder::new().has_headers(false).flexible(true).from_reader(io::stdin().lock());
    let mut record = csv::ByteRecord::new();
    while reader.read_byte_record(&mut record).expect("input") {
        take(&record[key - 1], number(&record[weight - 1]));
    }
}

#[cfg(not(feature = "csv"))]
pub fn each_in_columns(_: usize, _: usize, _: impl FnMut(&[u8], u64)) {
    panic!("columns are read by the crate csv");
}

/// Hands each record to the function. A field may be quoted, a quote in it doubled, a line end CR, LF or both, and empty
/// lines are skipped.
#[cfg(not(feature = "csv"))]
pub fn each_record_of(mut reader: impl BufRead, mut take: impl FnMut(&[u8], u64)) {
    use State::*;
    let (mut text, mut ends, mut state) = (Vec::new(), Vec::new(), Record);
    loop {
        let bytes = reader.fill_buf().expect("input");
        let count = bytes.len();
        for &byte in bytes {
            state = match (state, byte) {
                (Quoted, b'"') => Quote,
                (Quoted, _) | (Quote, b'"') => {
                    text.push(byte);
                    Quoted
                }
                (Record | Field, b'"') => Quoted,
                (Record, b'\r' | b'\n') => Record,
                (_, b'\r' | b'\n') => {
                    hand_on(&mut take, &text, &ends);
                    text.clear();
                    ends.clear();
                    Record
                }
                (_, b',') => {
                    ends.push(text.len());
                    Field
                }
                _ => {
                    text.push(byte);
                    Plain
                }
            };
        }
        reader.consume(count);
        if count == 0 {
            if state != Record {
                hand_on(&mut take, &text, &ends);
            }
            return;
        }
    }
}

/// Where a reader stands in a record.
#[cfg(not(feature = "csv"))]
#[derive(Clone, Copy, PartialEq)]
enum State {
    Record,
    Field,
    Plain,
    Quoted,
    Quote,
}

/// Hands on the fields of a record, which end at these places.
#[cfg(not(feature = "csv"))]
fn hand_on(take: &mut impl FnMut(&[u8], u64), text: &[u8], ends: &[usize]) {
    match ends.first() {
        Some(&end) => take(&text[..end], number(&text[end..])),
        None => take(text, 1),
    }
}

/// Hands each line of a text without quotes to the function, as a key and, behind the last comma, its weight.
pub fn each_line_of(mut text: &[u8], mut take: impl FnMut(&[u8], u64)) {
    while !text.is_empty() {
        let end = feed_in(text).unwrap_or(text.len());
        let line = &text[..end];
        text = &text[text.len().min(end + 1)..];
        match line.iter().rposition(|&byte| byte == b',') {
            Some(comma) => take(&line[..comma], number(&line[comma + 1..])),
            None if line.is_empty() => {}
            None => take(line, 1),
        }
    }
}

/// Where the first line feed stands.
#[cfg(feature = "csv")]
fn feed_in(text: &[u8]) -> Option<usize> {
    memchr::memchr(b'\n', text)
}

#[cfg(not(feature = "csv"))]
fn feed_in(text: &[u8]) -> Option<usize> {
    text.iter().position(|&byte| byte == b'\n')
}

fn number(text: &[u8]) -> u64 {
    text.iter().fold(0, |value, byte| value * 10 + u64::from(byte - b'0'))
}
