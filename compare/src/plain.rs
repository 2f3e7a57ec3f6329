//! Names of actions, and lines and columns, held to plain Rust: the oracle has nothing to compare them with.

use crate::ffi;
use crate::texts::{self, ACTIONS};

const UNTOUCHED: u8 = 0xa5;

/// Where the lines of a text end: behind a line feed, a carriage return, or both as one.
fn line_ends(text: &[u8]) -> Vec<usize> {
    let (mut ends, mut i) = (vec![], 0);
    while i < text.len() {
        let end = if text[i..].starts_with(b"\r\n") { i + 2 } else { i + 1 };
        if matches!(text[i], b'\r' | b'\n') {
            ends.push(end);
        }
        i = end;
    }
    ends
}

/// Characters as `str` counts them; in bytes that are no text of their own, those that do not go on with a character.
fn characters(bytes: &[u8]) -> usize {
    match std::str::from_utf8(bytes) {
        Ok(s) => s.chars().count(),
        Err(_) => bytes.iter().filter(|b| !(0x80..0xc0).contains(*b)).count(),
    }
}

/// Every place of a text and two past its end.
fn text_differs(text: &[u8]) -> bool {
    let ends = line_ends(text);
    (0..text.len() + 3).any(|at| {
        let place = at.min(text.len());
        let before: Vec<usize> = ends.iter().copied().filter(|end| *end <= place).collect();
        let start = before.last().copied().unwrap_or(0);
        ffi::line_column(text, at) != (before.len() as u64 + 1, characters(&text[start..place]) as u64 + 1)
    })
}

/// Every number of an action and some beside, each with every room up to 20.
fn name_differs(action: usize) -> bool {
    let name = ACTIONS.get(action).map_or(&b""[..], |name| name.as_bytes());
    (0..20).any(|room| {
        let (mut given, mut expected) = (vec![UNTOUCHED; room], vec![UNTOUCHED; room]);
        if name.len() <= room {
            expected[..name.len()].copy_from_slice(name);
        }
        ffi::action_name(action, &mut given) != name.len() || given != expected
    })
}

/// The differences that were found.
pub fn compare(count: u64, seed: u64) -> u64 {
    let numbers = (0..300).chain([usize::MAX - 1, usize::MAX]).chain((0..64).map(|k| 1 << k));
    let names = numbers.filter(|n| name_differs(*n)).count();
    let (mut all, mut places) = (0u64, 0u64);
    let short = texts::exhaustive("newlines", 5).chain(texts::exhaustive("utf8", 4));
    let long = texts::bytes(count, seed).chain(texts::grammar(count, seed)).chain(texts::mutate(count, seed));
    for text in short.chain(long) {
        all += 1;
        if text_differs(&text) {
            places += 1;
            if places <= 5 {
                eprintln!("difference on {:?}", String::from_utf8_lossy(&text));
            }
        }
    }
    println!("names: {names} differences; lines and columns: {all} texts, {places} differences");
    names as u64 + places
}
