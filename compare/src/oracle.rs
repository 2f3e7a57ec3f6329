//! Running the oracle, and what it says of each text.

use std::collections::HashMap;
use std::io::Write;
use std::process::{Command, Stdio};
use std::sync::OnceLock;
use std::sync::mpsc::sync_channel;

use crate::{BATCH, texts};

/// A batch as the oracle takes it: a length, low byte first, then the bytes.
pub fn frame(text: &[u8], framed: &mut Vec<u8>) {
    framed.extend_from_slice(&(text.len() as u32).to_le_bytes());
    framed.extend_from_slice(text);
}

fn run(oracle: &str, form: &str, framed: Vec<u8>) -> String {
    let mut child = Command::new(oracle).arg(form).stdin(Stdio::piped()).stdout(Stdio::piped()).spawn().expect("the oracle starts");
    let mut stdin = child.stdin.take().unwrap();
    let feeder = std::thread::spawn(move || stdin.write_all(&framed));
    let out = child.wait_with_output().expect("the oracle ends");
    feeder.join().unwrap().unwrap();
    String::from_utf8(out.stdout).unwrap()
}

/// The lines of the oracle's dump.
pub fn dump(oracle: &str, batch: &[Vec<u8>]) -> String {
    let mut framed = Vec::new();
    batch.iter().for_each(|t| frame(t, &mut framed));
    run(oracle, "--dump", framed)
}

/// A letter for each text of a framed batch: o accepted, e refused, p panicked, u not UTF-8.
pub fn accept(oracle: &str, framed: Vec<u8>) -> Vec<u8> {
    run(oracle, "--accept", framed).trim_end().into()
}

/// Hands over each batch with its dump. The oracle works on a batch while the one before it is judged.
pub fn in_batches(oracle: &str, all: impl Iterator<Item = Vec<u8>> + Send, mut judge: impl FnMut(&[Vec<u8>], &str)) {
    std::thread::scope(|scope| {
        let (send, receive) = sync_channel(1);
        scope.spawn(move || {
            let mut all = all.peekable();
            while all.peek().is_some() {
                let batch = next_batch(&mut all);
                let out = dump(oracle, &batch);
                if send.send((batch, out)).is_err() {
                    return;
                }
            }
        });
        for (batch, out) in receive {
            judge(&batch, &out);
        }
    });
}

/// Texts up to a number and to a size, since a dump is many times as long as its texts.
fn next_batch(all: &mut impl Iterator<Item = Vec<u8>>) -> Vec<Vec<u8>> {
    let (mut batch, mut bytes) = (Vec::new(), 0);
    while batch.len() < BATCH && bytes < 1_000_000 {
        let Some(text) = all.next() else { break };
        bytes += text.len();
        batch.push(text);
    }
    batch
}

/// A token of the dump: its kind by the numbers of include/pcode.h, and its span.
#[derive(Clone, Copy)]
pub struct Token {
    pub kind: u32,
    pub start: usize,
    pub end: usize,
}

impl Token {
    /// The place in TokenKind, without what the kind carries.
    pub fn place(self) -> u32 {
        self.kind >> 16
    }

    /// A string's raw text is its span without a byte at each end, closed or not; any other token's is its span.
    pub fn raw(self, text: &[u8]) -> &[u8] {
        let quote = (self.place() == 1) as usize;
        &text[self.start + quote..self.end - quote]
    }
}

#[derive(PartialEq, Eq, Clone, Copy, Debug)]
pub enum End {
    Utf8(u64),
    LexPanic,
    ParsePanic,
    Refused,
    Read,
}

/// What the oracle says of one text: its lines as they are, those of a reading again, and what the lines come to.
pub struct Told<'a> {
    pub lines: &'a str,
    pub reading: &'a str,
    pub tokens: Vec<Token>,
    pub end: End,
}

pub fn told(dump: &str) -> impl Iterator<Item = Told<'_>> {
    let mut rest = dump;
    std::iter::from_fn(move || {
        let (head, behind) = rest.split_once('\n')?;
        assert!(head.starts_with("## "), "a text of the dump starts with its number");
        let size = behind.find("\n## ").map_or(behind.len(), |n| n + 1);
        let (lines, next) = behind.split_at(size);
        rest = next;
        Some(parsed(lines))
    })
}

fn parsed(lines: &str) -> Told<'_> {
    let mut tokens = Vec::new();
    let mut rest = lines;
    loop {
        let (l, behind) = rest.split_once('\n').expect("the oracle says how a text ends");
        let end = match l.as_bytes()[0] {
            b't' => {
                tokens.push(token(l));
                rest = behind;
                continue;
            }
            b'U' => End::Utf8(l[5..].parse().unwrap()),
            b'P' if l == "PANIC lex" => End::LexPanic,
            b'P' => End::ParsePanic,
            b'E' => End::Refused,
            b'O' => End::Read,
            _ => panic!("a line that the oracle does not print: {l}"),
        };
        return Told { lines, reading: behind, tokens, end };
    }
}

fn token(line: &str) -> Token {
    let mut parts = line[2..].split(' ');
    let kind = kind(parts.next().unwrap());
    let mut number = || parts.next().unwrap().parse().unwrap();
    Token { kind, start: number(), end: number() }
}

static NAMES: OnceLock<HashMap<String, u32>> = OnceLock::new();

/// The number of a kind by the oracle's name for it; registers and constants carry their number.
fn kind(name: &str) -> u32 {
    let carried = |n: &str| n.parse::<u32>().unwrap();
    match name.split_once(':') {
        Some(("Register", n)) => (4 << 16) + carried(n),
        Some(("Constant", n)) => (5 << 16) + carried(n),
        _ => {
            let plain = (0..19).filter(|p| ![4, 5, 6].contains(p)).map(|p| p << 16);
            let names = NAMES.get_or_init(|| plain.chain((6 << 16)..(6 << 16) + 100).map(|k| (texts::kind_name(k.into()), k)).collect());
            names[name]
        }
    }
}
