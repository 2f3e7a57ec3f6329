//! The places of refusals, held to the oracle alone. It only says whether it accepts a text, so texts are made that it must
//! accept (what stands before the place can be completed) and texts that it must refuse (nothing completes it with the
//! refused token).

use std::collections::HashSet;

use crate::oracle::{self, Token};
use crate::patches::{PIECES, TEMPLATES};
use crate::texts::ACTIONS;

#[derive(Clone, Copy, PartialEq, Eq)]
pub enum Expected {
    Accepted,
    Refused,
    NoPanic,
}

/// Texts that wait for the oracle, each with the text whose place it is about.
pub struct Checks<'a> {
    oracle: &'a str,
    framed: Vec<u8>,
    expected: Vec<(Expected, usize)>,
    about: Vec<Vec<u8>>,
    kinds_seen: HashSet<[u32; 3]>,
    continuations: Vec<(String, i64)>,
    /// Places whose tokens before were completed, or cannot be as a text.
    pub completed: u64,
    pub not_completed: u64,
    /// Places whose tokens up to the refused one were searched for a completion in vain, and with how many texts.
    pub searched: u64,
    pub continued: u64,
}

/// So many texts go to the oracle at once.
const FLUSH: usize = 100_000;

/// The search for a completion that must not exist takes thousands of texts, so no more than these many places are searched in a
/// run, and one in a thousand beside.
const SEARCHES: u64 = 600;
const SEARCHED_SIZE: usize = 160;

impl<'a> Checks<'a> {
    pub fn new(oracle: &'a str) -> Self {
        Checks {
            oracle,
            framed: Vec::new(),
            expected: Vec::new(),
            about: Vec::new(),
            kinds_seen: HashSet::new(),
            continuations: continuations(),
            completed: 0,
            not_completed: 0,
            searched: 0,
            continued: 0,
        }
    }

    fn about(&mut self, text: &[u8]) -> usize {
        self.about.push(text.to_vec());
        self.about.len() - 1
    }

    fn ask(&mut self, text: &[u8], expected: Expected, about: usize) {
        oracle::frame(text, &mut self.framed);
        self.expected.push((expected, about));
    }

    /// The tokens, which are the first of the text, begin a grammatical list: with this completion they are one.
    pub fn begins(&mut self, text: &[u8], tokens: &[Token], completion: Option<String>) {
        match completion.and_then(|c| going_on(text, tokens, &c)) {
            Some(whole) => {
                self.completed += 1;
                let about = self.about(text);
                self.ask(&whole, Expected::Accepted, about);
            }
            None => self.not_completed += 1,
        }
    }

    /// The tokens begin no grammatical list. All short continuations are tried, for the first text that ends in these kinds.
    pub fn begins_none(&mut self, text: &[u8], tokens: &[Token]) {
        let Some(last) = tokens.last() else { return };
        let too_many = self.searched > SEARCHES + self.completed / 1000;
        // nothing can follow an Unknown token, which takes the rest of the text; no action takes it
        if too_many || last.end > SEARCHED_SIZE || going_on(text, tokens, "").is_none() || !self.kinds_seen.insert(kinds(tokens)) {
            return;
        }
        self.searched += 1;
        let about = self.about(text);
        let depth = depth(tokens.iter().map(|t| t.place()));
        for i in 0..self.continuations.len() {
            let (continuation, deeper) = &self.continuations[i];
            let closed = continuation.clone() + &"\n}".repeat((depth + deeper).max(0) as usize) + "\n";
            let whole = going_on(text, tokens, &closed).expect("as above");
            self.continued += 1;
            self.ask(&whole, Expected::Refused, about);
        }
    }

    /// The oracle's lexer does not panic on a text that ends before the place of 3 or 4.
    pub fn lexes(&mut self, text: &[u8], before: usize) {
        let about = self.about(text);
        self.ask(&text[..before], Expected::NoPanic, about);
    }

    /// Asks what waits, if it is much or if all of it is wanted: the texts with a wrong place, each once, with what shows it.
    pub fn wrong(&mut self, all: bool) -> Vec<(Vec<u8>, String)> {
        if self.expected.is_empty() || (self.expected.len() < FLUSH && !all) {
            return vec![];
        }
        let (mut wrong, mut counted) = (Vec::new(), HashSet::new());
        let framed = std::mem::take(&mut self.framed);
        let letters = oracle::accept(self.oracle, framed.clone());
        assert_eq!(letters.len(), self.expected.len(), "the oracle answers every text");
        let mut at = 0;
        for ((expected, about), letter) in std::mem::take(&mut self.expected).into_iter().zip(letters) {
            let size = u32::from_le_bytes(framed[at..at + 4].try_into().unwrap()) as usize;
            let asked = &framed[at + 4..at + 4 + size];
            at += 4 + size;
            let fault = match expected {
                Expected::Accepted if letter != b'o' => "is to complete it, but is refused",
                Expected::Refused if letter == b'o' => "goes on behind the place, and is accepted",
                Expected::NoPanic if letter == b'p' => "stands before the place, and panics",
                _ => continue,
            };
            // a place that is too early may have many continuations; it is one difference
            if counted.insert(about) {
                wrong.push((self.about[about].clone(), format!("{:?} {fault}", String::from_utf8_lossy(asked))));
            }
        }
        self.about.clear();
        wrong
    }
}

/// Where a string that opens at a quote ends, by document 01's rule of backslashes, and whether a quote closes it there.
pub fn string_end(text: &[u8], quote: usize) -> (usize, bool) {
    let mut at = quote + 1;
    loop {
        match (text.get(at), text.get(at + 1)) {
            (None | Some(b'\n'), _) => return (at, false),
            (Some(b'"'), _) => return (at + 1, true),
            (Some(b'\\'), Some(b'\\' | b'"')) => at += 2,
            _ => at += 1,
        }
    }
}

/// The text up to the end of the last token, going on so that these tokens stay as they are; nothing where that cannot be.
fn going_on(text: &[u8], tokens: &[Token], continuation: &str) -> Option<Vec<u8>> {
    let Some(last) = tokens.last() else { return Some(continuation.into()) };
    let unclosed = last.place() == 1 && !string_end(text, last.start).1;
    let start: Vec<u8> = match last.place() {
        18 => return None,
        // a line feed ends it just as the end of the text does
        1 if unclosed && continuation.starts_with('\n') => text[..last.end].into(),
        // a list is one of kinds and raw texts, and this is the same list
        1 if unclosed => {
            let raw = last.raw(text);
            if raw.iter().rev().take_while(|b| **b == b'\\').count() % 2 == 1 {
                return None;
            }
            [&text[..last.start], b"\"", raw, b"\" "].concat()
        }
        // the space keeps words, numbers and a carriage return as they are
        _ => [&text[..last.end], b" "].concat(),
    };
    Some([&start, continuation.as_bytes()].concat())
}

/// What the searches are spread over: the kinds of the last three tokens, actions without operands taken as one.
fn kinds(tokens: &[Token]) -> [u32; 3] {
    let kind = |t: &Token| match t.place() {
        6 if !is_plain(ACTIONS[(t.kind & 0xffff) as usize]) => t.kind,
        place => place,
    };
    let mut last = tokens.iter().rev().map(kind);
    [0; 3].map(|_| last.next().unwrap_or(u32::MAX))
}

fn is_plain(action: &str) -> bool {
    !TEMPLATES.iter().any(|t| t.split(' ').next() == Some(action))
}

fn depth(places: impl Iterator<Item = u32>) -> i64 {
    places.map(|p| (p == 10) as i64 - (p == 11) as i64).sum()
}

/// Ways to go on, with how much deeper they lead: up to three pieces, or up to one piece and what is left of an action behind any
/// of its tokens.
fn continuations() -> Vec<(String, i64)> {
    let tokens = TEMPLATES.map(|t| t.split(' ').collect::<Vec<_>>());
    let rests: Vec<String> = tokens.iter().flat_map(|t| (0..t.len()).map(|k| t[k..].join(" ") + " ")).collect();
    let one = PIECES.map(|p| format!("{p} ")).to_vec();
    let pairs = |a: &[String], b: &[String]| -> Vec<String> { a.iter().flat_map(|a| b.iter().map(move |b| format!("{a}{b}"))).collect() };
    let up_to_one = [vec![String::new()], one.clone()].concat();
    let two = pairs(&one, &one);
    let mut all = [pairs(&up_to_one, &rests), pairs(&two, &one), two, up_to_one].concat();
    all.sort();
    all.dedup();
    let deeper = |c: &str| c.chars().map(|b| (b == '{') as i64 - (b == '}') as i64).sum();
    all.into_iter().map(|c| (c.clone(), deeper(&c))).collect()
}
