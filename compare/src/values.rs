//! The values of tokens: ours, through the boundary, against the operands that the Rust reads.

use crate::ffi::{self, Value};
use crate::{BATCH, dump, hex, texts};

/// The oracle's operands of all actions of a text, or none where it refuses the text.
type Operands = Option<Vec<String>>;

fn operands(oracle: &str, batch: &[Vec<u8>]) -> Vec<Operands> {
    let mut all: Vec<Operands> = Vec::with_capacity(batch.len());
    for l in dump(oracle, batch).lines() {
        if l.starts_with("## ") {
            all.push(None);
        } else if l.starts_with("OK ") {
            *all.last_mut().unwrap() = Some(vec![]);
        } else if let Some(rest) = l.strip_prefix("a ") {
            if let Some(Some(operands)) = all.last_mut() {
                operands.extend(rest.split(' ').skip(3).map(String::from));
            }
        }
    }
    assert_eq!(all.len(), batch.len(), "the oracle answers every text");
    all
}

/// A value as the oracle writes it; of Long the text.
fn written(text: &[u8], v: &Value) -> String {
    let raw = || &text[v.bounds.0 as usize..v.bounds.1 as usize];
    match v.case {
        0 => "null".into(),
        1 => "undefined".into(),
        2 => format!("s:{}", hex(raw())),
        3 => format!("i:{}", v.integer),
        4 => format!("f:{:016x}", v.bits),
        5 => "true".into(),
        6 => "false".into(),
        7 => format!("r:{}", v.integer),
        8 => format!("c:{}", v.integer),
        _ => format!("Long {}", String::from_utf8_lossy(raw())),
    }
}

/// Whether document 01 makes this number Long: digits over 2^53, or a power of ten outside -22 to 22.
pub fn outside(literal: &str) -> bool {
    let (mantissa, exponent) = match literal.split_once(['e', 'E']) {
        Some((m, e)) => (m, e.parse::<i128>().unwrap_or(if e.starts_with('-') { i128::MIN / 2 } else { i128::MAX / 2 })),
        None => (literal, 0),
    };
    let fraction = mantissa.split_once('.').map_or(0, |(_, f)| f.len() as i128);
    let digits: String = mantissa.chars().filter(char::is_ascii_digit).collect();
    let digits = digits.trim_start_matches('0');
    let large = digits.len() > 16 || digits.parse::<u64>().is_ok_and(|w| w > 1 << 53);
    !digits.is_empty() && (large || (exponent - fraction).abs() > 22)
}

/// The raw text of a token, and what our value call says of it.
type Ours = (String, Result<Value, u64>);

/// The tokens that are no action, comma or newline.
fn ours(text: &[u8]) -> Option<Vec<Ours>> {
    let mut table = vec![0; text.len()];
    let n = ffi::lex(text, &mut table).ok()?;
    let tokens = table[..n as usize].iter().map(|w| ffi::token(*w)).filter(|t| ![0, 6, 9].contains(&(t.kind >> 16)));
    let raw = |(start, end): (u64, u64)| String::from_utf8_lossy(&text[start as usize..end as usize]).into_owned();
    Some(tokens.map(|t| (raw(t.raw), ffi::value(text, t.kind, t.raw.0, t.raw.1))).collect())
}

#[derive(Default)]
struct Report {
    texts: u64,
    values: u64,
    long: u64,
    without: u64,
    no_list: u64,
    differences: u64,
}

impl Report {
    fn judge(&mut self, text: &[u8], theirs: &Operands) {
        self.texts += 1;
        let ours = ours(text).expect("these texts lex");
        let same = match theirs {
            Some(operands) => operands.len() == ours.len() && operands.iter().zip(&ours).all(|(a, b)| self.agree(text, a, b)),
            // one token between Push and the newline that the Rust refuses has no value; more are no list of values
            None if ours.len() == 1 && !text.contains(&b',') => {
                self.without += 1;
                ours[0].1 == Err(6)
            }
            None => {
                self.no_list += 1;
                true
            }
        };
        let n = text.len() as u64;
        let bad_bounds = [(n, n + 1), (2, 1), (n + 1, n + 1), (u64::MAX, 0), (0, u64::MAX)];
        let refused = bad_bounds.iter().all(|(start, end)| (0..18).all(|kind| ffi::value(text, kind << 16, *start, *end) == Err(6)));
        if !(same && refused) {
            self.differences += 1;
            if self.differences <= 5 {
                eprintln!("difference on {:?}: {ours:?}, the Rust {theirs:?}", String::from_utf8_lossy(text));
            }
        }
    }

    fn agree(&mut self, text: &[u8], theirs: &str, (raw, ours): &Ours) -> bool {
        let Ok(v) = ours else { return false };
        let w = written(text, v);
        self.values += 1;
        let numeric = raw.starts_with(|c: char| c == '-' || c.is_ascii_digit());
        match w.strip_prefix("Long ") {
            Some(literal) => {
                self.long += 1;
                theirs.starts_with("f:") && literal == raw && outside(raw)
            }
            None => w == theirs && !(v.case == 4 && numeric && outside(raw)),
        }
    }
}

pub fn compare(oracle: &str, what: &str, all: impl Iterator<Item = Vec<u8>>) -> u64 {
    let mut report = Report::default();
    let mut all = all.peekable();
    while all.peek().is_some() {
        let batch: Vec<Vec<u8>> = all.by_ref().take(BATCH).collect();
        for (text, theirs) in batch.iter().zip(operands(oracle, &batch)) {
            report.judge(text, &theirs);
        }
    }
    println!(
        "{what}: {} texts, {} values, of these {} Long (listed), {} without a value, {} no list of values, {} differences",
        report.texts, report.values, report.long, report.without, report.no_list, report.differences
    );
    report.differences
}

/// Every text over the numbers' alphabet up to a length, and number texts by their kinds.
pub fn numbers(oracle: &str, length: usize, count: u64, seed: u64) -> u64 {
    let pushed = |t: Vec<u8>| [b"Push ".to_vec(), t, b"\n".to_vec()].concat();
    compare(oracle, &format!("values, all texts to {length}"), texts::exhaustive("numerals", length).map(pushed))
        + compare(oracle, "values, the literals of the list", texts::literals().into_iter().map(pushed))
        + compare(oracle, &format!("values, numbers {count} {seed}"), texts::numbers(count, seed).map(pushed))
}
