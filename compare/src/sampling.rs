//! The list of crates/read_replay: the oracle's answers on fixed texts, in the format that the head of its src/main.rt tells.
//! Nothing in it comes from our reader. What the Rust's result does not hold comes from the tokens (which are an action's
//! operands, where a label is first written) and from the recogniser (the place of 6); each is held to the dump.

use std::collections::HashSet;

use crate::oracle::{self, End, Token, Told};
use crate::recogniser::Recogniser;
use crate::texts::{self, ACTIONS};
use crate::{hex, patches, places, reading, values};

/// The tables of crates/read_replay have 1,024 places, and its buffer 65,536 bytes.
const LONGEST: usize = 1_000;
const BUFFER: usize = 65_536;

/// Each text once: those that document 01 names, every form of Try, numbers, strings, one operand behind each start of an
/// action, one edit in some actions, and some of each generator.
fn all_texts(count: u64, seed: u64) -> Vec<Vec<u8>> {
    let pushed = |t: Vec<u8>| [b"Push ".to_vec(), t, b"\n".to_vec()].concat();
    let behind_push = |t: Vec<u8>| [b"Push ".to_vec(), t].concat();
    let nested = |blocks: usize| patches::nested(blocks).into_bytes();
    let between: HashSet<Vec<u8>> = (6..62).map(nested).collect();
    let mut seen = HashSet::new();
    (patches::telling().into_iter().filter(|t| !between.contains(t)))
        .chain(patches::tries())
        .chain(texts::literals().into_iter().map(pushed))
        .chain(texts::exhaustive("strings", 3).map(behind_push))
        .chain(patches::headed(1))
        .chain(patches::edits(1).step_by(13))
        .chain(patches::labels(count, seed))
        .chain(patches::slips(2 * count, seed))
        .chain(texts::grammar(count / 2, seed))
        .chain(texts::words(count / 2, seed))
        .chain(texts::mutate(count / 2, seed))
        .chain(texts::bytes(count, seed))
        .chain(patches::deep(count / 40, seed))
        .filter(|t| t.len() <= LONGEST && seen.insert(t.clone()))
        .collect()
}

/// What the program prints if all is as it is here.
#[derive(Default)]
struct Totals {
    texts: usize,
    read: usize,
    tokens: usize,
    actions: usize,
    operands: usize,
    levels: usize,
    labels: usize,
    long: usize,
}

impl Totals {
    fn print(&self) {
        println!("{} texts, {} read", self.texts, self.read);
        println!(
            "{} tokens, {} actions, {} operands, {} levels, {} labels",
            self.tokens, self.actions, self.operands, self.levels, self.labels
        );
        println!("{} numbers Long\n0 differences", self.long);
    }
}

fn number(n: u64, to: &mut Vec<u8>) {
    match n {
        0..254 => to.push(n as u8),
        254..65_536 => {
            to.push(254);
            to.extend_from_slice(&(n as u16).to_le_bytes());
        }
        _ => {
            to.push(255);
            to.extend_from_slice(&n.to_le_bytes());
        }
    }
}

fn numbers(all: &[usize], to: &mut Vec<u8>) {
    all.iter().for_each(|n| number(*n as u64, to));
}

fn signed(z: i64, to: &mut Vec<u8>) {
    number(if z < 0 { z.unsigned_abs() * 2 - 1 } else { z as u64 * 2 }, to);
}

/// The operands that an action's line tells, one for each operand token; none where the Rust's result has nothing for a token.
fn told_operands<'a>(name: &str, fields: &[&'a str], tokens: usize) -> Vec<Option<&'a str>> {
    let told: Vec<Option<&str>> = match (name, fields) {
        ("Try", ["nocatch"] | ["s:-"]) if tokens == 0 => vec![],
        // the first bool only says whether there is a bias
        ("GotoFrame2", [play, "bias:0"]) if tokens == 2 => vec![None, Some(play)],
        ("GotoFrame2", [play, bias]) => vec![None, Some(play), Some(bias)],
        // a count below 0 is not told
        _ => fields.iter().map(|f| Some(*f).filter(|f| !f.starts_with("params:"))).collect(),
    };
    assert_eq!(told.len(), tokens, "{name} has other operands than its line has tokens");
    told
}

fn value(told: Option<&str>, raw: &[u8], to: &mut Vec<u8>) {
    let Some(told) = told else { return number(9, to) };
    let (mark, held) = told.split_once(':').unwrap_or((told, ""));
    let written = |place: u64, n: u64, to: &mut Vec<u8>| [place, n].iter().for_each(|n| number(*n, to));
    match (mark, held) {
        ("null", _) => number(0, to),
        ("undefined", _) => number(1, to),
        ("s" | "l", _) => {
            assert_eq!(held, hex(raw), "a name or string is its raw text");
            number(if mark == "s" { 2 } else { 9 }, to);
        }
        ("i" | "n" | "bias", _) => {
            number(3, to);
            signed(held.parse().unwrap(), to);
        }
        ("f", _) => written(4, u64::from_str_radix(held, 16).unwrap(), to),
        ("r", _) => written(7, held.parse().unwrap(), to),
        ("c", _) => written(8, held.parse().unwrap(), to),
        ("true", _) | (_, "1") => number(5, to),
        ("false", _) | (_, "0") => number(6, to),
        _ => panic!("an operand that the oracle does not print: {told}"),
    }
}

/// Whether the Rust has a double where document 01 has Long.
fn is_long(told: Option<&str>, raw: &[u8]) -> bool {
    let raw = std::str::from_utf8(raw).unwrap();
    told.is_some_and(|t| t.starts_with("f:")) && raw.starts_with(|c: char| c == '-' || c.is_ascii_digit()) && values::outside(raw)
}

struct List<'a> {
    oracle: &'a str,
    recogniser: Recogniser,
    totals: Totals,
}

impl List<'_> {
    fn record(&mut self, text: &[u8], told: &Told) -> Vec<u8> {
        let mut body = Vec::new();
        numbers(&[text.len()], &mut body);
        body.extend_from_slice(text);
        self.totals.texts += 1;
        match told.end {
            End::Utf8(n) => numbers(&[2, n as usize], &mut body),
            End::LexPanic => numbers(&panic_place(self.oracle, text), &mut body),
            End::ParsePanic => panic!("the Rust's parser panics"),
            End::Refused | End::Read => self.list_of_tokens(text, told, &mut body),
        }
        let mut record = Vec::new();
        numbers(&[body.len()], &mut record);
        record.extend(body);
        record
    }

    fn list_of_tokens(&mut self, text: &[u8], told: &Told, to: &mut Vec<u8>) {
        let viable = self.recogniser.run(text, &told.tokens);
        let grammatical = viable == told.tokens.len() && self.recogniser.is_complete();
        assert_eq!(grammatical, told.end == End::Read, "the recogniser and the Rust agree on acceptance");
        match reading::too_deep(&told.tokens[..viable]) {
            Some(brace) => numbers(&[7, brace], to),
            None if grammatical => self.tables(text, told, to),
            None => numbers(&[6, viable], to),
        }
    }

    fn tables(&mut self, text: &[u8], told: &Told, to: &mut Vec<u8>) {
        let of = |mark: &str| told.reading.lines().filter_map(|l| l.strip_prefix(mark)).collect::<Vec<&str>>();
        let (acted, levels, labels) = (of("a "), of("L "), of("l "));
        let operands = operands(&acted, &told.tokens);
        let all: usize = operands.iter().map(|o| o.len()).sum();
        numbers(&[0, told.tokens.len(), acted.len(), all, levels.len(), labels.len()], to);
        for line in told.lines.lines().map_while(|l| l.strip_prefix("t ")) {
            let [kind, bounds @ ..] = texts::entry(text, line);
            [kind >> 16, kind & 0xffff].iter().chain(&bounds).for_each(|n| number(*n, to));
        }
        write_actions(&acted, &operands, to);
        for (action, operands) in operands.iter().enumerate() {
            for (token, told_value) in operands {
                let raw = told.tokens[*token].raw(text);
                numbers(&[action, *token], to);
                value(*told_value, raw, to);
                self.totals.long += is_long(*told_value, raw) as usize;
            }
        }
        levels.iter().for_each(|l| write_level(l, to));
        write_labels(text, &told.tokens, &labels, to);
        let t = &mut self.totals;
        t.read += 1;
        t.tokens += told.tokens.len();
        t.actions += acted.len();
        t.operands += all;
        t.levels += levels.len();
        t.labels += labels.len();
    }
}

/// For each action its operands' tokens, with what the dump tells of each.
fn operands<'a>(acted: &[&'a str], tokens: &[Token]) -> Vec<Vec<(usize, Option<&'a str>)>> {
    let written = reading::operands_of_tokens(tokens);
    assert_eq!(written.len(), acted.len(), "every action word is an action");
    let of = |(line, written): (&&'a str, &Vec<usize>)| {
        let parts: Vec<&'a str> = line.split(' ').collect();
        let (name, fields) = (parts[1], &parts[3..]);
        let dropped = fields == ["nocatch"];
        let written: &[usize] = if dropped { &[] } else { written };
        written.iter().copied().zip(told_operands(name, fields, written.len())).collect()
    };
    acted.iter().zip(&written).map(of).collect()
}

fn write_actions(acted: &[&str], operands: &[Vec<(usize, Option<&str>)>], to: &mut Vec<u8>) {
    let mut first = 0;
    for (line, operands) in acted.iter().zip(operands) {
        let parts: Vec<&str> = line.split(' ').collect();
        let name = ACTIONS.iter().position(|a| *a == parts[1]).expect("a name of the 100");
        numbers(&[name, parts[0].parse().unwrap()], to);
        match parts[2] {
            "?" => number(9, to),
            delta => {
                number(0, to);
                signed(delta.parse().unwrap(), to);
            }
        }
        numbers(&[operands.len()], to);
        if !operands.is_empty() {
            numbers(&[first], to);
        }
        first += operands.len();
    }
}

fn write_level(line: &str, to: &mut Vec<u8>) {
    let parts: Vec<&str> = line.split(' ').collect();
    let block = ["top", "body", "try", "catch", "finally"].iter().position(|b| *b == parts[1]).unwrap();
    numbers(&[block], to);
    if block > 0 {
        numbers(&[parts[0].parse().unwrap()], to);
    }
    numbers(&[parts[2].parse().unwrap()], to);
    match parts[3].strip_prefix('?') {
        Some(action) => numbers(&[1, action.parse().unwrap()], to),
        None => {
            number(0, to);
            signed(parts[3].parse().unwrap(), to);
        }
    }
}

fn write_labels(text: &[u8], tokens: &[Token], labels: &[&str], to: &mut Vec<u8>) {
    let first = reading::labels_of_tokens(text, tokens).expect("the braces match");
    assert_eq!(first.len(), labels.len(), "as many names are written as there are labels");
    for (line, (level, token)) in labels.iter().zip(first) {
        let parts: Vec<&str> = line.split(' ').collect();
        assert_eq!((parts[0], parts[1]), (&level.to_string()[..], &hex(tokens[token].raw(text))[..]), "the label first written there");
        numbers(&[level, token, parts[2].parse().unwrap()], to);
    }
}

/// Where the Rust's lexer panics: the first quote that opens a string and that nothing closes, 3 if nothing stands behind it and 4 if
/// its last character has several bytes. A quote opens a string if, for the oracle, the text before it is whole tokens.
fn panic_place(oracle: &str, text: &[u8]) -> [usize; 2] {
    let quotes: Vec<usize> = (0..text.len()).filter(|i| text[*i] == b'"').collect();
    let before: Vec<Vec<u8>> = quotes.iter().map(|q| text[..*q].to_vec()).collect();
    let out = oracle::dump(oracle, &before);
    for (quote, told) in quotes.iter().zip(oracle::told(&out)) {
        let opens = told.end != End::LexPanic
            && told.tokens.last().is_none_or(|t| t.place() != 18 && (t.place() != 1 || t.end < *quote || places::string_end(text, t.start).0 == *quote));
        match places::string_end(text, *quote) {
            (end, false) if opens && end == quote + 1 => return [3, *quote],
            (end, false) if opens && text[end - 1] >= 0x80 => return [4, *quote],
            _ => {}
        }
    }
    panic!("the Rust's lexer panics for no reason that document 01 tells: {:?}", String::from_utf8_lossy(text));
}

/// Writes FILE1, FILE2, .. and prints what the program is to print.
pub fn sample(oracle: &str, file: &str, count: u64, seed: u64) {
    let all = all_texts(count, seed);
    let out = oracle::dump(oracle, &all);
    let mut list = List { oracle, recogniser: Recogniser::default(), totals: Totals::default() };
    let mut files: Vec<Vec<u8>> = vec![vec![]];
    for (text, told) in all.iter().zip(oracle::told(&out)) {
        let record = list.record(text, &told);
        if files.last().unwrap().len() + record.len() > BUFFER {
            files.push(vec![]);
        }
        files.last_mut().unwrap().extend(record);
    }
    assert_eq!(list.totals.texts, all.len(), "the oracle answers every text");
    for (i, part) in files.iter().enumerate() {
        std::fs::write(format!("{file}{}", i + 1), part).expect("the file");
    }
    list.totals.print();
    eprintln!("{} files, {} bytes", files.len(), files.iter().map(|f| f.len()).sum::<usize>());
}
