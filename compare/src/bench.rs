//! Speed: reading and lexing here and by the oracle, by turns, on ordinary patches and on texts that are all labels; and export beside
//! reading.

use std::collections::HashSet;
use std::hint::black_box;
use std::process::Command;
use std::time::Instant;

use crate::{ffi, texts};

const ROUNDS: usize = 5;
const SIZE: usize = 65_536;
/// What a byte of a text of labels may take, in times of what a byte of an ordinary patch takes.
const LIMIT: f64 = 3.0;
/// What export may take, in times of what reading takes.
const EXPORT_LIMIT: f64 = 2.5;

/// MB/s: the best and the median of some timings.
#[derive(Clone, Copy)]
struct Speed {
    best: f64,
    median: f64,
}

impl Speed {
    /// Of several: the best of the bests, the median of the medians.
    fn of(all: &[Speed]) -> Speed {
        let sorted = |part: fn(&Speed) -> f64| {
            let mut numbers: Vec<f64> = all.iter().map(part).collect();
            numbers.sort_by(f64::total_cmp);
            numbers
        };
        Speed { best: sorted(|s| s.best)[all.len() - 1], median: sorted(|s| s.median)[all.len() / 2] }
    }

    fn ns_per_byte(self) -> f64 {
        1e3 / self.best
    }
}

/// A call on a text of that many bytes, timed as the oracle's --bench times its own: 0.2 s to warm up, then five timings.
fn time(bytes: usize, seconds: f64, mut call: impl FnMut()) -> Speed {
    let (start, mut calls) = (Instant::now(), 0u64);
    while calls == 0 || start.elapsed().as_secs_f64() < 0.2 {
        call();
        calls += 1;
    }
    let calls = (calls as f64 / start.elapsed().as_secs_f64() * seconds / 5.0).max(1.0) as u64;
    let timings: Vec<Speed> = (0..5)
        .map(|_| {
            let start = Instant::now();
            (0..calls).for_each(|_| call());
            let speed = bytes as f64 * calls as f64 / start.elapsed().as_secs_f64() / 1e6;
            Speed { best: speed, median: speed }
        })
        .collect();
    Speed::of(&timings)
}

/// A text, tables that hold any reading of it, and what was measured so far.
struct Subject {
    what: &'static str,
    text: Vec<u8>,
    tables: [Vec<u64>; 5],
    counts: [u64; 5],
    reading: Sides,
    lexing: Sides,
}

#[derive(Default)]
struct Sides {
    ours: Vec<Speed>,
    theirs: Vec<Speed>,
}

impl Sides {
    /// The median over the rounds of our median by theirs: the two of a round were measured one right after the other.
    fn by_round(&self) -> f64 {
        let mut ratios: Vec<f64> = self.ours.iter().zip(&self.theirs).map(|(a, b)| a.median / b.median).collect();
        ratios.sort_by(f64::total_cmp);
        ratios[ratios.len() / 2]
    }
}

impl Subject {
    fn new(what: &'static str, text: Vec<u8>) -> Self {
        let tables = [(); 5].map(|_| vec![0; text.len() + 2]);
        Subject { what, text, tables, counts: [0; 5], reading: Sides::default(), lexing: Sides::default() }
    }

    fn read(&mut self, seconds: f64) -> Speed {
        let Subject { text, tables, counts, .. } = self;
        time(text.len(), seconds, || {
            let lent = tables.each_mut().map(|t| &mut t[..]);
            assert_eq!(ffi::read(black_box(text), lent, counts), 0, "the text is read");
        })
    }

    /// Export into a lent output, and how many bytes it has written.
    fn export(&mut self, out: &mut [u8], seconds: f64) -> (Speed, u64) {
        let Subject { text, tables, .. } = self;
        let mut told = [0; 6];
        let speed = time(text.len(), seconds, || {
            let lent = tables.each_mut().map(|t| &mut t[..]);
            assert_eq!(ffi::export(black_box(text), lent, false, out, &mut told), 0, "the text is exported");
        });
        (speed, told[5])
    }

    fn ours(&mut self, seconds: f64) {
        let reading = self.read(seconds);
        self.reading.ours.push(reading);
        self.lexing.ours.push(lexing(&self.text, &mut self.tables[0], seconds));
    }

    /// The oracle's own timings. It must read the text too, with as many tokens.
    fn theirs(&mut self, oracle: &str, seconds: f64) {
        let file = "target/bench-text";
        std::fs::write(file, &self.text).expect("the file");
        let out = Command::new(oracle).args(["--bench", file, &seconds.to_string()]).output().expect("the oracle runs").stdout;
        let out = String::from_utf8(out).unwrap();
        assert!(out.contains("accepted true\n"), "the oracle reads the text");
        assert!(out.starts_with(&format!("bytes {} tokens {}\n", self.text.len(), self.counts[0])), "it finds the same tokens");
        self.reading.theirs.push(told(&out, "lex+parse (PCode) "));
        self.lexing.theirs.push(told(&out, "lex (Lexer::into_vec) "));
    }
}

fn lexing(text: &[u8], table: &mut [u64], seconds: f64) -> Speed {
    time(text.len(), seconds, || {
        ffi::lex(black_box(text), table).expect("the text is lexed");
    })
}

/// A line of the oracle's --bench: `WHAT  84.1 MB/s best  69.9 median ..`.
fn told(out: &str, what: &str) -> Speed {
    let line = out.lines().find(|l| l.starts_with(what)).expect("the oracle times it");
    let before = |word: &str| line[..line.find(word).unwrap()].split_whitespace().last().unwrap().parse().unwrap();
    Speed { best: before("MB/s"), median: before("median") }
}

/// Labels and nothing else, as many as fit, then line feeds up to the size.
fn labels(names: impl Iterator<Item = String>) -> Vec<u8> {
    let mut text = String::new();
    for name in names {
        if text.len() + name.len() + 1 > SIZE {
            break;
        }
        text.push_str(&name);
        text.push(':');
    }
    text.push_str(&"\n".repeat(SIZE - text.len()));
    text.into_bytes()
}

/// Identifiers, the shortest first. An action's name is none; the other words of document 01 are longer.
fn short_names() -> impl Iterator<Item = String> {
    let bytes = b"abcdefghijklmnopqrstuvwxyzABCDEFGHIJKLMNOPQRSTUVWXYZ_$0123456789";
    let all = (0..3).flat_map(move |more| {
        (0..54 * 64usize.pow(more)).map(move |n| (0..=more).rev().map(|i| bytes[n / 64usize.pow(i) % 64] as char).collect::<String>())
    });
    all.filter(|name| !texts::ACTIONS.iter().any(|a| a.eq_ignore_ascii_case(name)))
}

fn subjects() -> Vec<Subject> {
    let same = |name: &'static str| labels(std::iter::repeat(name.to_string()));
    vec![
        Subject::new("ordinary patch, 1 KB", texts::ordinary(1024, 1)),
        Subject::new("ordinary patch, 4 KB", texts::ordinary(4096, 1)),
        Subject::new(ORDINARY, texts::ordinary(SIZE, 1)),
        Subject::new("labels, all distinct", labels((0..).map(|i| format!("loc{i:04x}")))),
        Subject::new("labels, all the same", same("loc3f2a")),
        Subject::new("labels, 28 bytes in common", labels((0..).map(|i| format!("row_turns_green_at_the_door_{i:03x}")))),
        Subject::new("labels, `a:` again and again", same("a")),
        Subject::new("labels, distinct and shortest", labels(short_names())),
    ]
}

const ORDINARY: &str = "ordinary patch, 64 KB";

const HEAD: &str = "\
| text                          | bytes | tokens | labels |  here | median |  Rust | median | ratio | a round | ns/byte | times |
|-------------------------------|------:|-------:|-------:|------:|-------:|------:|-------:|------:|--------:|--------:|------:|";

/// MB/s, with more places where there are few of them.
fn places(speed: f64) -> String {
    if speed < 10.0 { format!("{speed:.2}") } else { format!("{speed:.1}") }
}

/// A row for each text. The last column is a byte's time in times of the ordinary patch's, where the text is all labels; the most of it.
fn print(what: &str, all: &[Subject], sides: fn(&Subject) -> &Sides) -> f64 {
    let ordinary = Speed::of(&sides(all.iter().find(|s| s.what == ORDINARY).unwrap()).ours).ns_per_byte();
    let mut most = 0f64;
    println!("{what}, MB/s:\n\n{HEAD}");
    for s in all {
        let (ours, theirs) = (Speed::of(&sides(s).ours), Speed::of(&sides(s).theirs));
        let mut times = String::new();
        if s.what.starts_with("labels") {
            most = most.max(ours.ns_per_byte() / ordinary);
            times = format!("{:.2}", ours.ns_per_byte() / ordinary);
        }
        println!(
            "| {:<29} | {:>5} | {:>6} | {:>6} | {:>5} | {:>6} | {:>5} | {:>6} | {:>5.3} | {:>7.3} | {:>7.1} | {times:>5} |",
            s.what, s.text.len(), s.counts[0], s.counts[4], places(ours.best), places(ours.median), places(theirs.best),
            places(theirs.median), ours.best / theirs.best, sides(s).by_round(), ours.ns_per_byte(),
        );
    }
    println!();
    most
}

/// Both sides by turns, each first in every other round, so that a slow moment of the machine hits both.
pub fn bench(oracle: &str, seconds: f64) -> u64 {
    let mut all = subjects();
    for round in 0..ROUNDS {
        for s in &mut all {
            if round % 2 == 0 {
                s.ours(seconds);
                s.theirs(oracle, seconds);
            } else {
                s.theirs(oracle, seconds);
                s.ours(seconds);
            }
        }
        eprintln!("round {} of {ROUNDS}", round + 1);
    }
    let most = print("Reading, lexing included", &all, |s| &s.reading);
    print("Lexing alone", &all, |s| &s.lexing);
    let verdict = if most <= LIMIT { "within" } else { "OVER" };
    println!("A byte of a text of labels is read in at most {most:.2} times an ordinary patch's: {verdict} the limit of {LIMIT}.");
    (most > LIMIT) as u64
}

/// Export of a text and reading alone, by turns, each first in every other round: the one's time in times of the other's, in a round.
fn export_of(mut s: Subject, seconds: f64) -> f64 {
    let mut out = vec![0; 10 * s.text.len()];
    let (mut sides, mut bytes) = (Sides::default(), 0);
    for round in 0..ROUNDS {
        if round % 2 == 0 {
            sides.ours.push(s.read(seconds));
        }
        let (export, written) = s.export(&mut out, seconds);
        sides.theirs.push(export);
        bytes = written;
        if round % 2 == 1 {
            sides.ours.push(s.read(seconds));
        }
    }
    let (read, export) = (Speed::of(&sides.ours).ns_per_byte(), Speed::of(&sides.theirs).ns_per_byte());
    println!(
        "{:<21} {:>5} bytes to {bytes:>5}: reading {read:.2} ns a byte, export {export:.2}; times reading, best {:.2}, a round {:.2}",
        s.what, s.text.len(), export / read, sides.by_round()
    );
    sides.by_round()
}

/// Export beside reading alone on ordinary patches; 1 where it takes more than its limit.
pub fn export(seconds: f64) -> u64 {
    let sizes = [("ordinary patch, 1 KB", 1024), ("ordinary patch, 4 KB", 4096), ("ordinary patch, 64 KB", SIZE)];
    let texts = sizes.map(|(what, size)| Subject::new(what, texts::ordinary_within(size, 1, 50)));
    let most = texts.into_iter().map(|s| export_of(s, seconds)).fold(0.0, f64::max);
    let verdict = if most <= EXPORT_LIMIT { "within" } else { "OVER" };
    println!("Export takes at most {most:.2} times reading alone: {verdict} the limit of {EXPORT_LIMIT}.");
    (most > EXPORT_LIMIT) as u64
}

/// Lexing alone, on one text.
pub fn lex(text: &[u8], seconds: f64) {
    let speed = lexing(text, &mut vec![0; text.len()], seconds);
    println!("lexing {} bytes: {:.1} MB/s best, {:.1} median", text.len(), speed.best, speed.median);
}

/// The bucket of a name at the top level, as crates/labels finds it.
fn bucket(seed: u64, buckets: usize, name: &[u8]) -> usize {
    let h = name.iter().fold(1, |h, &b| (h * seed + b as u64) & 0xffff_ffff);
    ((h * seed & 0xffff_ffff) * buckets as u64 >> 32) as usize
}

/// Labels made by who follows the index: each name falls into the bucket that is fullest under the seed of the moment.
fn hostile(length: usize) -> Vec<u8> {
    let count = SIZE / (length + 1);
    let (mut seed, mut left) = (1_540_483_477, 8 * count);
    let (mut names, mut seen, mut full) = (Vec::<Vec<u8>>::new(), HashSet::new(), vec![0; count]);
    let mut random = texts::Random::new(1);
    while names.len() < count {
        if left == 0 {
            (seed, left, full) = ((seed * 1_664_525 + 1_013_904_222) & 0xffff_ffff, 8 * count, vec![0; count]);
            names.iter().for_each(|name| full[bucket(seed, count, name)] += 1);
        }
        let target = (0..count).max_by_key(|&b| full[b]).unwrap();
        let name = loop {
            let mut name = vec![b'z'];
            name.extend((1..length).map(|_| b"abcdefghijklmnopqrstuvwxyzABCDEFGHIJKLMNOPQRSTUVWXYZ_$0123456789"[random.below(64)]));
            if bucket(seed, count, &name) == target && seen.insert(name.clone()) {
                break name;
            }
        };
        left = left.saturating_sub(full[target]);
        full[target] += 1;
        names.push(name);
    }
    labels(names.into_iter().map(|name| String::from_utf8(name).unwrap()))
}

/// Names that meet under every odd seed: blocks of 128 letters by the Thue-Morse sequence, and the same with the letters changed over.
fn always_meeting(blocks: u32) -> Vec<u8> {
    let block = |turned: u32| (0..128u32).map(move |i| if (i.count_ones() + turned) % 2 == 0 { 'a' } else { 'b' });
    labels((0..).map(move |n: u32| (0..blocks).rev().flat_map(|i| block(n >> i & 1)).collect()))
}

/// Texts made against the index of labels, beside an ordinary patch: what a byte takes, in times of the patch's. By turns, the best counts.
pub fn against_index(seconds: f64) {
    let mut all = vec![Subject::new(ORDINARY, texts::ordinary(SIZE, 1))];
    let followed = [("names of 5 bytes", 5), ("names of 6 bytes", 6), ("names of 7 bytes", 7), ("names of 8 bytes", 8)];
    all.extend(followed.map(|(what, n)| Subject::new(what, hostile(n))));
    all.extend([("6 blocks of 128 bytes", 6), ("7 blocks of 128 bytes", 7)].map(|(what, n)| Subject::new(what, always_meeting(n))));
    (0..ROUNDS).for_each(|_| all.iter_mut().for_each(|s| s.ours(seconds)));
    let ordinary = Speed::of(&all[0].reading.ours).ns_per_byte();
    for s in &all {
        let ns = Speed::of(&s.reading.ours).ns_per_byte();
        println!("{:<22} {:>5} labels {ns:>7.1} ns/byte {:>6.2} times {:>6.2} ms", s.what, s.counts[4], ns / ordinary, ns * s.text.len() as f64 / 1e6);
    }
}
