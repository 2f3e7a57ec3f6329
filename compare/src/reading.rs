//! Reading: our five tables and refusals, through the boundary, against the Rust, against the recogniser and against the
//! tokens themselves.

use std::collections::{BTreeMap, HashSet};

use crate::listing::Reading;
use crate::oracle::{self, End, Token, Told};
use crate::places::{self, Checks};
use crate::recogniser::Recogniser;
use crate::{UNTOUCHED, ffi, hex};

const NEWLINE: u32 = 0;
const STRING: u32 = 1;
const ACTION: u32 = 6;
const IDENTIFIER: u32 = 7;
const COLON: u32 = 8;
const COMMA: u32 = 9;
const OPEN: u32 = 10;
const CLOSE: u32 = 11;

/// Document 01's limit of blocks that are open at once.
const DEEPEST: i64 = 64;

/// Tables are tried at their exact lengths and too short for the first texts, and then for one of so many, since that takes up to
/// nine calls.
const TABLES_TRIED: (u64, u64) = (2_000, 16);

/// The tables of a reading, or a refusal's number and place.
type Answer = Result<Reading, (u64, u64)>;

/// The words of an entry, by table.
const WORDS: [usize; 5] = [1, 1, 1, 2, 1];

/// The words of tables with so many places.
fn words_of(places: [usize; 5]) -> [usize; 5] {
    std::array::from_fn(|i| places[i] * WORDS[i])
}

/// Reads with tables of so many words, and checks that nothing but the entries and, on a refusal, nothing but the place
/// was written.
fn read(text: &[u8], lengths: [usize; 5]) -> Result<Answer, String> {
    // a place more than is lent, to see a word that is written behind a table
    let mut tables = lengths.map(|n| vec![UNTOUCHED; n + 1]);
    let mut out = [UNTOUCHED; 5];
    let mut lent = tables.iter_mut().zip(lengths).map(|(table, n)| &mut table[..n]);
    let number = ffi::read(text, std::array::from_fn(|_| lent.next().unwrap()), &mut out);
    let untouched = |words: &[u64]| words.iter().all(|w| *w == UNTOUCHED);
    if number != 0 {
        if !untouched(&out[1..]) || !tables.iter().all(|t| untouched(t)) {
            return Err(format!("refusal {number} wrote"));
        }
        return Ok(Err((number, out[0])));
    }
    for (i, table) in tables.iter_mut().enumerate() {
        let n = out[i] as usize * WORDS[i];
        if n > lengths[i] || !untouched(&table[n..]) {
            return Err(format!("table {i} has {n} words and was written behind them"));
        }
        table.truncate(n);
    }
    let [tokens, actions, operands, levels, labels] = tables;
    let levels = levels.chunks_exact(2).map(|w| [w[0], w[1]]).collect();
    Ok(Ok(Reading { tokens, actions, operands, levels, labels }))
}

/// No table can have more entries than the text has bytes, but for the top level.
fn roomy(text: &[u8]) -> [usize; 5] {
    words_of([text.len() + 1; 5])
}

/// The first brace, of tokens that begin a grammatical list, that opens a block too many.
pub fn too_deep(tokens: &[Token]) -> Option<usize> {
    let mut open = 0;
    for (i, t) in tokens.iter().enumerate() {
        match t.place() {
            OPEN if open >= DEEPEST => return Some(i),
            OPEN => open += 1,
            CLOSE => open -= 1,
            _ => {}
        }
    }
    None
}

/// The counts of a run, and its differences.
struct Report<'a> {
    texts: u64,
    accepted: u64,
    refused: BTreeMap<u64, u64>,
    recognised: u64,
    tables: u64,
    differences: u64,
    wrong_places: u64,
    recogniser: Recogniser,
    checks: Checks<'a>,
    lines: String,
}

impl Report<'_> {
    fn judge(&mut self, text: &[u8], told: &Told) {
        self.texts += 1;
        if let Err(fault) = self.compare(text, told) {
            self.differ(text, &fault);
        }
    }

    fn differ(&mut self, text: &[u8], fault: &str) {
        self.differences += 1;
        if self.differences <= 5 {
            let shown = &text[..text.len().min(400)];
            eprintln!("difference: {fault}\n  text {:?}\n  hex {}", String::from_utf8_lossy(shown), hex(shown));
        }
    }

    fn compare(&mut self, text: &[u8], told: &Told) -> Result<(), String> {
        let ours = read(text, roomy(text))?;
        match &ours {
            Ok(_) => self.accepted += 1,
            Err((number, _)) => *self.refused.entry(*number).or_default() += 1,
        }
        match told.end {
            _ if text.len() > 65_536 => refused_with(&ours, (1, 0)),
            End::Utf8(n) => refused_with(&ours, (2, n)),
            End::LexPanic => self.compare_panic(text, &ours),
            End::ParsePanic => Err("the Rust's parser panics".into()),
            End::Refused | End::Read => self.compare_list(text, told, ours),
        }
    }

    /// Where the Rust's lexer panics, the place is a quote that nothing closes, and the first such: 3 if nothing stands behind it, 4
    /// if its last character has several bytes.
    fn compare_panic(&mut self, text: &[u8], ours: &Answer) -> Result<(), String> {
        let Err((number, place)) = *ours else { return Err("accepted, and the Rust's lexer panics".into()) };
        let quote = place as usize;
        let (end, closed) = places::string_end(text, quote);
        let expected = if end == quote + 1 { 3 } else { 4 };
        if text.get(quote) != Some(&b'"') || closed || number != expected || (number == 4 && text[end - 1] < 0x80) {
            return Err(format!("refused {number} at {place}, and the Rust's lexer does not panic there"));
        }
        self.checks.lexes(text, quote);
        Ok(())
    }

    /// A list of tokens: accepted with the Rust's reading, or refused with 6 or 7 at the recogniser's place.
    fn compare_list(&mut self, text: &[u8], told: &Told, ours: Answer) -> Result<(), String> {
        let viable = self.recogniser.run(text, &told.tokens);
        let grammatical = viable == told.tokens.len() && self.recogniser.is_complete();
        if grammatical != (told.end == End::Read) {
            return Err(format!("the recogniser says {grammatical}, the Rust {:?}", told.end));
        }
        self.recognised += 1;
        self.ask_about_place(text, told, &ours);
        self.try_tables(text, told, &ours)?;
        match too_deep(&told.tokens[..viable]) {
            Some(brace) => refused_with(&ours, (7, brace as u64)),
            None if grammatical => self.compare_reading(text, told, &ours),
            None => refused_with(&ours, (6, viable as u64)),
        }
    }

    /// Our place of 6 or 7, whatever the recogniser's is: the tokens before it, for 7 with its brace, begin a grammatical list;
    /// for 6 those up to it begin none. The recogniser is only asked for a completion to try.
    fn ask_about_place(&mut self, text: &[u8], told: &Told, ours: &Answer) {
        let (begin, begin_none) = match *ours {
            Err((6, place)) => (told.tokens.get(..place as usize), told.tokens.get(..=place as usize)),
            Err((7, place)) => (told.tokens.get(..=place as usize), None),
            _ => return,
        };
        if let Some(tokens) = begin {
            self.recogniser.run(text, tokens);
            self.checks.begins(text, tokens, self.recogniser.completion());
        }
        if let Some(tokens) = begin_none {
            self.checks.begins_none(text, tokens);
        }
    }

    fn compare_reading(&mut self, text: &[u8], told: &Told, ours: &Answer) -> Result<(), String> {
        let reading = match ours {
            Ok(reading) => reading,
            Err((number, place)) => return Err(format!("refused {number} at {place}, and the Rust reads it")),
        };
        reading.lines(text, &mut self.lines)?;
        if self.lines != told.lines {
            let (a, b) = self.lines.lines().zip(told.lines.lines()).find(|(a, b)| a != b).unwrap_or(("", "more or fewer lines"));
            return Err(format!("ours {a:?}, the Rust's {b:?}"));
        }
        compare_operands(reading, told)?;
        compare_labels(text, reading, &told.tokens)?;
        compare_nets(reading, told)?;
        compare_unclosed(text, reading, &told.tokens)
    }

    /// A table that is exactly full holds the same, and one that is a place short is refused as document 01's
    /// rows 5 and 8 say, the lowest first. For a text that is refused with 6 or 7 only the table of tokens counts.
    fn try_tables(&mut self, text: &[u8], told: &Told, ours: &Answer) -> Result<(), String> {
        if self.texts > TABLES_TRIED.0 && self.texts % TABLES_TRIED.1 != 0 {
            return Ok(());
        }
        self.tables += 1;
        let tokens = told.tokens.len();
        let exact = match ours {
            Ok(r) => [tokens, r.actions.len(), r.operands.len(), r.levels.len(), r.labels.len()],
            Err(_) => [tokens, 0, 0, 0, 0],
        };
        if read(text, words_of(exact))? != *ours {
            return Err("tables that are exactly full differ".into());
        }
        // which tables are a place short, as bits: each alone, the tokens and the last, and all
        for short in [1, 2, 4, 8, 16, 17, 30, 31u32] {
            let lengths: [usize; 5] = std::array::from_fn(|i| exact[i].saturating_sub((short >> i & 1) as usize));
            let lowest = (0..5).find(|i| lengths[*i] < exact[*i]);
            let expected = match lowest {
                Some(0) => Err((5, tokens as u64)),
                Some(i) => Err((8, i as u64 - 1)),
                None => continue,
            };
            // a level table of one word fewer is a place short: its last word alone is none
            let words = std::array::from_fn(|i| lengths[i] * WORDS[i] + if lengths[i] < exact[i] { WORDS[i] - 1 } else { 0 });
            let answer = read(text, words)?;
            if answer != expected {
                return Err(format!("with tables of {lengths:?} places not {expected:?} but {:?}", answer.map(|_| "accepted")));
            }
        }
        Ok(())
    }

    fn settle_places(&mut self, all: bool) {
        for (text, fault) in self.checks.wrong(all) {
            self.wrong_places += 1;
            self.differ(&text, &fault);
        }
    }

    fn print(&self, what: &str) {
        let refused: Vec<String> = self.refused.iter().map(|(n, c)| format!("{c} refused {n}")).collect();
        let c = &self.checks;
        println!(
            "reading, {what}: {} texts, {} accepted, {}; {} held to the recogniser, {} with tables tried; places: {} completed, {} not \
             to be completed as a text, {} searched with {} continuations; {} differences, of these {} shown by a completion or continuation",
            self.texts,
            self.accepted,
            refused.join(", "),
            self.recognised,
            self.tables,
            c.completed,
            c.not_completed,
            c.searched,
            c.continued,
            self.differences,
            self.wrong_places
        );
    }
}

fn refused_with(ours: &Answer, expected: (u64, u64)) -> Result<(), String> {
    match ours {
        Err(refusal) if *refusal == expected => Ok(()),
        Err(refusal) => Err(format!("refused {refusal:?}, to be {expected:?}")),
        Ok(_) => Err(format!("accepted, to be refused {expected:?}")),
    }
}

/// The operand tokens behind each action word, up to the end of its line or its first brace: in a text that is read, every
/// action word is an action, and there only commas are no operands.
pub fn operands_of_tokens(tokens: &[Token]) -> Vec<Vec<usize>> {
    let words = (0..tokens.len()).filter(|i| tokens[*i].place() == ACTION);
    let ends = |t: &Token| [NEWLINE, OPEN, CLOSE].contains(&t.place());
    let line = |word: usize| (word + 1..tokens.len()).take_while(|i| !ends(&tokens[*i]));
    words.map(|w| line(w).filter(|i| tokens[*i].place() != COMMA).collect()).collect()
}

/// Each operand stands under its action and is the token that the text has there; actions take their operands in turn.
fn compare_operands(reading: &Reading, told: &Told) -> Result<(), String> {
    let dropped = told.reading.lines().take_while(|l| l.starts_with("a ")).map(|l| l.ends_with(" nocatch"));
    let mut next = 0;
    for (i, (written, dropped)) in operands_of_tokens(&told.tokens).iter().zip(dropped).enumerate() {
        let written: &[usize] = if dropped { &[] } else { written };
        let action = ffi::action(reading.actions[i]);
        let held = reading.operands[next..].iter().take(written.len()).map(|w| ffi::operand(*w));
        if !held.map(|(action, token, _)| (action, token)).eq(written.iter().map(|t| (i, *t))) || action.count != written.len() || (action.first != next && action.count > 0) {
            return Err(format!("action {i} does not have the operands {written:?}"));
        }
        next += written.len();
    }
    if next != reading.operands.len() {
        return Err("operands of no action".into());
    }
    Ok(())
}

/// The level and the token of each label, by level and order: where its name is first written in its level. Levels are numbered as
/// their brace opens.
pub fn labels_of_tokens(text: &[u8], tokens: &[Token]) -> Result<Vec<(usize, usize)>, String> {
    let (mut open, mut levels, mut names) = (vec![0], 1, HashSet::new());
    let mut first: Vec<(usize, usize)> = Vec::new();
    for (i, t) in tokens.iter().enumerate() {
        match t.place() {
            OPEN => {
                open.push(levels);
                levels += 1;
            }
            CLOSE => drop(open.pop()),
            IDENTIFIER if tokens.get(i + 1).is_some_and(|t| t.place() == COLON) => {
                let level = *open.last().ok_or("a brace closes no level")?;
                if names.insert((level, t.raw(text))) {
                    first.push((level, i));
                }
            }
            _ => {}
        }
    }
    // stable: the labels of a level stay in their order
    first.sort_by_key(|(level, _)| *level);
    Ok(first)
}

fn compare_labels(text: &[u8], reading: &Reading, tokens: &[Token]) -> Result<(), String> {
    let first = labels_of_tokens(text, tokens)?;
    let held = reading.labels.iter().map(|w| ffi::label(*w)).map(|(level, token, _)| (level, token));
    if !held.eq(first.iter().copied()) {
        return Err(format!("the labels are not first written at {first:?}"));
    }
    Ok(())
}

/// Each net anew: the sum of the Rust's deltas over the actions of that level, or the first action without one.
fn compare_nets(reading: &Reading, told: &Told) -> Result<(), String> {
    let mut nets: Vec<Result<i64, i64>> = vec![Ok(0); reading.levels.len()];
    for (i, line) in told.reading.lines().map_while(|l| l.strip_prefix("a ")).enumerate() {
        let mut parts = line.split(' ');
        let level: usize = parts.next().and_then(|l| l.parse().ok()).ok_or("no level")?;
        let net = &mut nets[level];
        *net = match (*net, parts.nth(1).ok_or("no delta")?) {
            (Err(first), _) => Err(first),
            (Ok(_), "?") => Err(i as i64),
            (Ok(height), delta) => Ok(height + delta.parse::<i64>().map_err(|e| e.to_string())?),
        };
    }
    match reading.levels.iter().zip(&nets).position(|(w, net)| ffi::level(w).net != *net) {
        Some(level) => Err(format!("the net of level {level} is not {:?}", nets[level])),
        None => Ok(()),
    }
}

/// What the Rust does not tell is held to the text: which strings lack their closing quote, in the token, in the operand and in the
/// count of the level whose own action has it.
fn compare_unclosed(text: &[u8], reading: &Reading, tokens: &[Token]) -> Result<(), String> {
    let lacks = |t: &Token| t.place() == STRING && !places::string_end(text, t.start).1;
    let carried = |w: &u64| ffi::token(*w).kind == 65_537;
    if let Some(i) = reading.tokens.iter().zip(tokens).position(|(w, t)| carried(w) != lacks(t)) {
        return Err(format!("token {i} says wrongly whether it was closed"));
    }
    let mut counts = vec![0; reading.levels.len()];
    for (action, token, unclosed) in reading.operands.iter().map(|w| ffi::operand(*w)) {
        if unclosed != lacks(&tokens[token]) {
            return Err(format!("the operand at token {token} says wrongly whether it was closed"));
        }
        counts[ffi::action(reading.actions[action]).level] += unclosed as usize;
    }
    match reading.levels.iter().zip(&counts).position(|(w, n)| ffi::level(w).unclosed != *n) {
        Some(level) => Err(format!("level {level} does not have {} unclosed strings", counts[level])),
        None => Ok(()),
    }
}

pub fn compare(oracle: &str, what: &str, all: impl Iterator<Item = Vec<u8>> + Send) -> u64 {
    let mut report = Report {
        texts: 0,
        accepted: 0,
        refused: BTreeMap::new(),
        recognised: 0,
        tables: 0,
        differences: 0,
        wrong_places: 0,
        recogniser: Recogniser::default(),
        checks: Checks::new(oracle),
        lines: String::new(),
    };
    oracle::in_batches(oracle, all, |batch, dump| {
        let mut judged = 0;
        for (text, told) in batch.iter().zip(oracle::told(dump)) {
            report.judge(text, &told);
            report.settle_places(false);
            judged += 1;
        }
        assert_eq!(judged, batch.len(), "the oracle answers every text");
    });
    report.settle_places(true);
    report.print(what);
    report.differences
}
