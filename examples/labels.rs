//! Prints the labels of a p-code patch, one to a line: label LEVEL NAME POSITION. Rust, edition 2024, with no crates:
//!
//!     scripts/staticlib
//!     rustc --edition 2024 -O -o labels examples/labels.rs -L target/staticlib -l static=pcode_c
//!     ./labels [FILE]        reads FILE, or standard input
//!
//! A patch that is refused prints `refused N at P`, and `, line L, column C` where P is in the text; include/pcode.h tells what N and P
//! mean. The exit status is 0 if the patch was read, 1 if it was refused, 2 if there was no patch to read or nowhere to print.

use std::ffi::OsStr;
use std::fs::File;
use std::io::{self, Read, Write};
use std::ops::Range;
use std::process::ExitCode;

/// The calls of include/pcode.h, as far as they are used here, with safe functions over them.
mod pcode {
    use super::Range;

    mod c {
        unsafe extern "C" {
            pub fn pcode_read(
                text: *const u8, text_len: usize, tokens: *mut u64, tokens_len: usize, actions: *mut u64, actions_len: usize,
                operands: *mut u64, operands_len: usize, levels: *mut u64, levels_len: usize, labels: *mut u64, labels_len: usize,
                out: *mut u64,
            ) -> u64;
            pub fn pcode_lex(text: *const u8, text_len: usize, table: *mut u64, table_len: usize, out: *mut u64) -> u64;
            pub fn pcode_line_column(text: *const u8, text_len: usize, at: usize, out: *mut u64);
            pub fn pcode_token(word: u64, out: *mut u64);
            pub fn pcode_label(word: u64, out: *mut u64);
        }
    }

    /// PCODE_THREAD_STACK: the bytes of stack to give to a thread. One that Rust starts has 2,097,152 unless it is told otherwise.
    pub const THREAD_STACK: usize = 4_194_304;

    /// PCODE_MOST_BYTES: a longer text is refused with 1.
    pub const MOST_BYTES: usize = 65_536;

    /// The number of a refusal, and its place.
    pub struct Refusal {
        pub number: u64,
        pub place: u64,
    }

    /// The five tables of a text that was read, a word for each entry.
    pub struct Reading {
        pub tokens: Vec<u64>,
        pub actions: Vec<u64>,
        pub operands: Vec<u64>,
        pub levels: Vec<u64>,
        pub labels: Vec<u64>,
    }

    /// Lends tables that hold any reading of the text (a word for each byte, and two more) and cuts them to what was filled.
    pub fn read(text: &[u8]) -> Result<Reading, Refusal> {
        let table = || vec![0u64; text.len() + 2];
        let mut r = Reading { tokens: table(), actions: table(), operands: table(), levels: table(), labels: table() };
        let mut out = [0u64; 5];
        // each pointer points to as many elements as the length beside it says, and no two of them overlap
        let number = unsafe {
            c::pcode_read(
                text.as_ptr(), text.len(), r.tokens.as_mut_ptr(), r.tokens.len(), r.actions.as_mut_ptr(), r.actions.len(),
                r.operands.as_mut_ptr(), r.operands.len(), r.levels.as_mut_ptr(), r.levels.len(), r.labels.as_mut_ptr(), r.labels.len(),
                out.as_mut_ptr(),
            )
        };
        if number != 0 {
            return Err(Refusal { number, place: out[0] });
        }
        let tables = [&mut r.tokens, &mut r.actions, &mut r.operands, &mut r.levels, &mut r.labels];
        // a level takes two words, any other entry one
        for ((table, count), words) in tables.into_iter().zip(out).zip([1, 1, 1, 2, 1]) {
            table.truncate(count as usize * words);
        }
        Ok(r)
    }

    /// The line and the column of a refusal of `read`, if its place is in the text. The place of 6 and 7 is a token's; where there are
    /// no more tokens it is the text's end.
    pub fn line_column(text: &[u8], refusal: &Refusal) -> Option<(u64, u64)> {
        let at = match refusal.number {
            2..=4 => refusal.place as usize,
            6 | 7 => tokens(text).get(refusal.place as usize).map_or(text.len(), |word| token(*word)[1] as usize),
            _ => return None,
        };
        let mut out = [0u64; 2];
        unsafe { c::pcode_line_column(text.as_ptr(), text.len(), at, out.as_mut_ptr()) };
        Some((out[0], out[1]))
    }

    /// The tokens of a text that can be lexed.
    fn tokens(text: &[u8]) -> Vec<u64> {
        let (mut table, mut out) = (vec![0u64; text.len()], [0u64; 1]);
        unsafe { c::pcode_lex(text.as_ptr(), text.len(), table.as_mut_ptr(), table.len(), out.as_mut_ptr()) };
        table.truncate(out[0] as usize);
        table
    }

    fn token(word: u64) -> [u64; 5] {
        let mut out = [0u64; 5];
        unsafe { c::pcode_token(word, out.as_mut_ptr()) };
        out
    }

    pub struct Label {
        pub level: u64,
        /// The number of the token that names it.
        pub token: usize,
        pub position: u64,
    }

    pub fn label(word: u64) -> Label {
        let mut out = [0u64; 3];
        unsafe { c::pcode_label(word, out.as_mut_ptr()) };
        Label { level: out[0], token: out[1] as usize, position: out[2] }
    }

    /// Where the raw text of a token stands in the text.
    pub fn raw(word: u64) -> Range<usize> {
        let token = token(word);
        token[3] as usize..token[4] as usize
    }
}

/// Whether the patch was read.
fn list(text: &[u8], out: &mut impl Write) -> io::Result<bool> {
    let reading = match pcode::read(text) {
        Ok(reading) => reading,
        Err(r) => {
            write!(out, "refused {} at {}", r.number, r.place)?;
            if let Some((line, column)) = pcode::line_column(text, &r) {
                write!(out, ", line {line}, column {column}")?;
            }
            writeln!(out)?;
            return Ok(false);
        }
    };
    for word in reading.labels {
        let label = pcode::label(word);
        write!(out, "label {} ", label.level)?;
        out.write_all(&text[pcode::raw(reading.tokens[label.token])])?;
        writeln!(out, " {}", label.position)?;
    }
    Ok(true)
}

/// One byte more than the limit is all that has to be read of a text that is too long.
fn input(file: Option<&OsStr>) -> io::Result<Vec<u8>> {
    let mut text = Vec::new();
    let limit = pcode::MOST_BYTES as u64 + 1;
    match file {
        Some(name) => File::open(name)?.take(limit).read_to_end(&mut text)?,
        None => io::stdin().take(limit).read_to_end(&mut text)?,
    };
    Ok(text)
}

/// Lists the patch on standard output; an error says what failed.
fn run() -> Result<bool, String> {
    let mut args = std::env::args_os().skip(1);
    let file = args.next();
    if args.next().is_some() {
        return Err("usage: labels [FILE]".into());
    }
    let name = file.as_deref().map_or("standard input".into(), |name| name.to_string_lossy());
    let text = input(file.as_deref()).map_err(|e| format!("{name}: {e}"))?;
    let mut out = io::stdout().lock();
    list(&text, &mut out).and_then(|was_read| out.flush().map(|()| was_read)).map_err(|e| format!("standard output: {e}"))
}

fn main() -> ExitCode {
    let thread = std::thread::Builder::new().stack_size(pcode::THREAD_STACK).spawn(run);
    let result = match thread {
        Ok(thread) => thread.join().expect("it does not panic"),
        Err(e) => Err(format!("no thread: {e}")),
    };
    match result {
        Ok(true) => ExitCode::SUCCESS,
        Ok(false) => ExitCode::from(1),
        Err(e) => {
            eprintln!("labels: {e}");
            ExitCode::from(2)
        }
    }
}
