//! Differential runs: the proved reader, linked as a static library, against the Rust it follows, run as a program.
//!
//!   compare ORACLE exhaustive ALPHABET LENGTH     every text over an alphabet up to a length
//!   compare ORACLE MODE COUNT SEED                MODE: bytes, words, grammar, mutate
//!   compare ORACLE boundary                       the sizes around 65,536 bytes
//!   compare ORACLE all COUNT SEED                 all of these
//!   compare ORACLE deltas                         the delta of every action, with each kind of operands
//!   compare ORACLE values LENGTH COUNT SEED       every value: all texts over numerals up to a length, listed literals, number texts
//!   compare ORACLE reading MODE COUNT SEED        reading; MODE: bytes, words, grammar, mutate, slips, deep, labels
//!   compare ORACLE reading exhaustive WHAT LENGTH  WHAT: an alphabet, headed (texts behind starts of actions), edits (of actions)
//!   compare ORACLE reading telling                texts that document 01 names
//!   compare ORACLE reading boundary               the sizes around 65,536 bytes and around those of scratch, as many entries as can be
//!   compare ORACLE reading all COUNT SEED         all of these, deep with a fifth of COUNT
//!   compare ORACLE sample FILE COUNT SEED         the oracle's answers in FILE1, FILE2, .. of 65,536 bytes, for crates/lex_replay
//!   compare ORACLE sample-reading FILE COUNT SEED  the same for reading, for crates/read_replay, and what that program is to print
//!   compare ordinary FILE SIZE SEED               an ordinary patch of about that many bytes
//!   compare plain COUNT SEED                      names of actions, lines and columns, against plain Rust; no oracle
//!   compare lexing FILE SECONDS                   lexing speed on one text
//!   compare against-index SECONDS                 speed on labels that are made against the index
//!   compare export-speed SECONDS                  speed of export beside that of reading alone, on ordinary patches; no oracle
//!   compare ORACLE bench SECONDS                  speed of both sides on ordinary patches and on labels; see compare/bench

mod bench;
mod ffi;
mod listing;
mod oracle;
mod patches;
mod places;
mod plain;
mod reading;
mod recogniser;
mod sampling;
mod texts;
mod values;

use std::collections::BTreeMap;

use oracle::dump;
use texts::hex;

const BATCH: usize = 20_000;
const UNTOUCHED: u64 = 0xdead_beef_dead_beef;

/// What one side says of a text: a refusal, or the tokens as lines of the oracle's dump.
#[derive(PartialEq, Eq, Debug)]
enum Lexed {
    Refused(u64, u64),
    Tokens(Vec<String>),
}

fn line(text: &[u8], word: u64) -> String {
    let t = ffi::token(word);
    let (start, end) = ffi::raw_text(text, t.raw.0, t.raw.1);
    let raw = &text[start as usize..end as usize];
    format!("{} {} {} {}", texts::kind_name(t.kind), t.span.0, t.span.1, hex(raw))
}

/// Lexes with a roomy table, an exact one and one that is a place short, and checks what each holds afterwards.
fn ours(text: &[u8]) -> Result<Lexed, String> {
    let mut table = vec![UNTOUCHED; text.len() + 1];
    let n = match ffi::lex(text, &mut table) {
        Err((number, place)) => {
            if table.iter().any(|w| *w != UNTOUCHED) {
                return Err(format!("refusal {number} wrote into the table"));
            }
            return Ok(Lexed::Refused(number, place));
        }
        Ok(n) => n as usize,
    };
    if n > text.len() || table[n..].iter().any(|w| *w != UNTOUCHED) {
        return Err("wrote behind its tokens".into());
    }
    let mut exact = vec![UNTOUCHED; n];
    if ffi::lex(text, &mut exact) != Ok(n as u64) || exact != table[..n] {
        return Err("an exactly full table differs".into());
    }
    if n > 0 {
        let mut short = vec![UNTOUCHED; n - 1];
        if ffi::lex(text, &mut short) != Err((5, n as u64)) || short.iter().any(|w| *w != UNTOUCHED) {
            return Err("a table one short is not refused with 5 and left alone".into());
        }
    }
    Ok(Lexed::Tokens(table[..n].iter().map(|w| line(text, *w)).collect()))
}

/// The oracle's dump of a batch: for each text its tokens, or where UTF-8 ends, or that the Rust panicked.
enum Theirs {
    Tokens(Vec<String>),
    Utf8(u64),
    Panic,
}

fn theirs(oracle: &str, batch: &[Vec<u8>]) -> Vec<Theirs> {
    let out = dump(oracle, batch);
    let mut all = Vec::with_capacity(batch.len());
    for l in out.lines() {
        if l.starts_with("## ") {
            all.push(Theirs::Tokens(vec![]));
        } else if let Some(rest) = l.strip_prefix("t ") {
            if let Some(Theirs::Tokens(ts)) = all.last_mut() {
                ts.push(rest.into());
            }
        } else if let Some(n) = l.strip_prefix("UTF8 ") {
            *all.last_mut().unwrap() = Theirs::Utf8(n.parse().unwrap());
        } else if l == "PANIC lex" {
            *all.last_mut().unwrap() = Theirs::Panic;
        }
    }
    assert_eq!(all.len(), batch.len(), "the oracle answers every text");
    all
}

/// The counts of a run, and its first differences.
#[derive(Default)]
struct Report {
    texts: u64,
    tokens: u64,
    refused: BTreeMap<u64, u64>,
    differences: u64,
}

impl Report {
    fn judge(&mut self, text: &[u8], theirs: &Theirs) {
        self.texts += 1;
        let ours = ours(text);
        let same = match (&ours, theirs) {
            (Ok(Lexed::Refused(1, 0)), _) => text.len() > 65536,
            _ if text.len() > 65536 => false,
            (Ok(Lexed::Refused(2, p)), Theirs::Utf8(q)) => p == q,
            (Ok(Lexed::Refused(3 | 4, p)), Theirs::Panic) => text[*p as usize] == b'"',
            (Ok(Lexed::Tokens(a)), Theirs::Tokens(b)) => a == b,
            _ => false,
        };
        match &ours {
            Ok(Lexed::Refused(n, _)) => *self.refused.entry(*n).or_default() += 1,
            Ok(Lexed::Tokens(ts)) => self.tokens += ts.len() as u64,
            Err(_) => {}
        }
        if !same {
            self.differences += 1;
            if self.differences <= 5 {
                eprintln!("difference on {:?}: {:?}", String::from_utf8_lossy(&text[..text.len().min(200)]), ours);
            }
        }
    }

    fn run(&mut self, oracle: &str, all: impl Iterator<Item = Vec<u8>>) {
        let mut batch = Vec::with_capacity(BATCH);
        let mut bytes = 0;
        for text in all {
            bytes += text.len();
            batch.push(text);
            if batch.len() == BATCH || bytes > 4_000_000 {
                self.judge_batch(oracle, &batch);
                batch.clear();
                bytes = 0;
            }
        }
        self.judge_batch(oracle, &batch);
    }

    fn judge_batch(&mut self, oracle: &str, batch: &[Vec<u8>]) {
        for (text, t) in batch.iter().zip(theirs(oracle, batch)) {
            self.judge(text, &t);
        }
    }

    fn print(&self, what: &str) {
        let refused: Vec<String> = self.refused.iter().map(|(n, c)| format!("{c} refused {n}")).collect();
        println!("{what}: {} texts, {} tokens, {}, {} differences", self.texts, self.tokens, refused.join(", "), self.differences);
    }
}

fn compare(oracle: &str, mode: &str, args: &[String]) -> u64 {
    let number = |i: usize| args.get(i).and_then(|a| a.parse::<u64>().ok()).expect("a number");
    let mut report = Report::default();
    match mode {
        "exhaustive" => report.run(oracle, texts::exhaustive(&args[0], number(1) as usize)),
        "bytes" => report.run(oracle, texts::bytes(number(0), number(1))),
        "grammar" => report.run(oracle, texts::grammar(number(0), number(1))),
        "words" => report.run(oracle, texts::words(number(0), number(1))),
        "mutate" => report.run(oracle, texts::mutate(number(0), number(1))),
        "boundary" => report.run(oracle, texts::boundary()),
        _ => panic!("no such mode: {mode}"),
    }
    report.print(&format!("{mode} {}", args.join(" ")));
    report.differences
}

/// Reading on the texts of one generator.
fn read(oracle: &str, mode: &str, args: &[&str]) -> u64 {
    let number = |i: usize| args.get(i).and_then(|a| a.parse::<u64>().ok()).expect("a number");
    let what = [&[mode], args].concat().join(" ");
    match (mode, args) {
        ("exhaustive", ["headed", _]) => reading::compare(oracle, &what, patches::headed(number(1) as usize)),
        ("exhaustive", ["edits", _]) => reading::compare(oracle, &what, patches::edits(number(1) as usize)),
        ("exhaustive", [alphabet, _]) => reading::compare(oracle, &what, texts::exhaustive(alphabet, number(1) as usize)),
        ("bytes", _) => reading::compare(oracle, &what, texts::bytes(number(0), number(1))),
        ("words", _) => reading::compare(oracle, &what, texts::words(number(0), number(1))),
        ("grammar", _) => reading::compare(oracle, &what, texts::grammar(number(0), number(1))),
        ("mutate", _) => reading::compare(oracle, &what, texts::mutate(number(0), number(1))),
        ("slips", _) => reading::compare(oracle, &what, patches::slips(number(0), number(1))),
        ("deep", _) => reading::compare(oracle, &what, patches::deep(number(0), number(1))),
        ("labels", _) => reading::compare(oracle, &what, patches::labels(number(0), number(1))),
        ("telling", _) => reading::compare(oracle, &what, patches::telling().into_iter()),
        ("boundary", _) => reading::compare(oracle, &what, texts::boundary().chain(patches::large()).chain(patches::sizes())),
        _ => panic!("no such mode: {mode}"),
    }
}

/// The exhaustive runs of reading, with the length that `all` goes to.
const READ_ALPHABETS: [(&str, &str); 10] = [
    ("headed", "4"), ("edits", "2"), ("blocks", "6"), ("tries", "7"), ("lines", "6"),
    ("numbers", "5"), ("strings", "5"), ("words", "4"), ("newlines", "6"), ("utf8", "4"),
];

fn read_all(oracle: &str, count: u64, seed: &str) -> u64 {
    let mut d = read(oracle, "telling", &[]) + read(oracle, "boundary", &[]);
    for (what, length) in READ_ALPHABETS {
        d += read(oracle, "exhaustive", &[what, length]);
    }
    for mode in ["bytes", "words", "grammar", "mutate", "slips", "labels"] {
        d += read(oracle, mode, &[&count.to_string(), seed]);
    }
    // its texts are ten times as long
    d + read(oracle, "deep", &[&(count / 5).to_string(), seed])
}

/// The deltas of all actions: the oracle's, `?` where the Rust panics, against ours, refusal 9 there.
fn deltas(oracle: &str) -> u64 {
    let all = texts::one_action_each();
    let batch: Vec<Vec<u8>> = all.iter().map(|a| a.0.clone().into_bytes()).collect();
    let out = dump(oracle, &batch);
    let told: Vec<&str> = out.lines().filter_map(|l| l.strip_prefix("a 0 ")).map(|l| l.split(' ').nth(1).unwrap()).collect();
    assert_eq!(told.len(), all.len(), "the oracle reads one action in every text");
    let mut differences = 0;
    for ((text, number, values, empty), told) in all.iter().zip(&told) {
        let ours = ffi::delta(*number, *values, *empty);
        let same = match ours {
            Ok(d) => *told == d.to_string(),
            Err(n) => n == 9 && *told == "?",
        };
        if !same {
            differences += 1;
            eprintln!("delta of {text:?}: {ours:?}, the Rust {told}");
        }
    }
    println!("deltas: {} texts, {} differences", all.len(), differences);
    differences
}

/// The oracle's answers on a fixed list of texts, in the format that the head of crates/lex_replay/src/main.rt tells.
fn sample(oracle: &str, file: &str, count: u64, seed: u64) {
    let all: Vec<Vec<u8>> = texts::telling()
        .into_iter()
        .chain(texts::words(count, seed))
        .chain(texts::mutate(count, seed))
        .chain(texts::bytes(count, seed))
        .filter(|t| t.len() <= 4096)
        .collect();
    let mut out: Vec<Vec<u8>> = vec![vec![]];
    let number = |n: u64, record: &mut Vec<u8>| record.extend_from_slice(&(n as u32).to_le_bytes());
    for (text, t) in all.iter().zip(theirs(oracle, &all)) {
        let mut record = Vec::new();
        number(text.len() as u64, &mut record);
        match t {
            Theirs::Utf8(n) => [2, n].iter().for_each(|n| number(*n, &mut record)),
            Theirs::Panic => [3, 0].iter().for_each(|n| number(*n, &mut record)),
            Theirs::Tokens(lines) => {
                [0, lines.len() as u64].iter().for_each(|n| number(*n, &mut record));
                for l in &lines {
                    texts::entry(text, l).iter().for_each(|n| number(*n, &mut record));
                }
            }
        }
        record.extend_from_slice(text);
        if out.last().unwrap().len() + record.len() > 65_536 {
            out.push(vec![]);
        }
        out.last_mut().unwrap().extend(record);
    }
    for (i, part) in out.iter().enumerate() {
        std::fs::write(format!("{file}{}", i + 1), part).expect("the file");
    }
    println!("{} texts in {} files", all.len(), out.len());
}

fn main() {
    let args: Vec<String> = std::env::args().skip(1).collect();
    let words: Vec<&str> = args.iter().map(String::as_str).collect();
    let differences = match words[..] {
        ["lexing", file, seconds] => {
            bench::lex(&std::fs::read(file).expect("the text"), seconds.parse().expect("seconds"));
            0
        }
        ["plain", count, seed] => plain::compare(count.parse().expect("a count"), seed.parse().expect("a seed")),
        ["against-index", seconds] => {
            bench::against_index(seconds.parse().expect("seconds"));
            0
        }
        ["export-speed", seconds] => bench::export(seconds.parse().expect("seconds")),
        ["ordinary", file, size, seed] => {
            let text = texts::ordinary(size.parse().expect("a size"), seed.parse().expect("a seed"));
            std::fs::write(file, text).expect("the file");
            0
        }
        [oracle, "all", count, seed] => {
            let more = [count.to_string(), seed.to_string()];
            let mut d = deltas(oracle) + compare(oracle, "boundary", &[]);
            for (alphabet, length) in texts::ALPHABETS {
                d += compare(oracle, "exhaustive", &[alphabet.to_string(), length.to_string()]);
            }
            for mode in ["bytes", "words", "grammar", "mutate"] {
                d += compare(oracle, mode, &more);
            }
            d
        }
        [oracle, "bench", seconds] => bench::bench(oracle, seconds.parse().expect("seconds")),
        [oracle, "deltas"] => deltas(oracle),
        [oracle, "values", length, count, seed] => {
            values::numbers(oracle, length.parse().expect("a length"), count.parse().expect("a count"), seed.parse().expect("a seed"))
        }
        [oracle, "reading", "all", count, seed] => read_all(oracle, count.parse().expect("a count"), seed),
        [oracle, "reading", mode, ref more @ ..] => read(oracle, mode, more),
        [oracle, "sample", file, count, seed] => {
            sample(oracle, file, count.parse().expect("a count"), seed.parse().expect("a seed"));
            0
        }
        [oracle, "sample-reading", file, count, seed] => {
            sampling::sample(oracle, file, count.parse().expect("a count"), seed.parse().expect("a seed"));
            0
        }
        [oracle, mode, ..] => compare(oracle, mode, &args[2..]),
        _ => panic!("usage: see the head of src/main.rs"),
    };
    std::process::exit((differences != 0) as i32);
}
