//! Speed of two builds of the library, by turns: compare/versus.

mod subjects;
#[allow(dead_code)]
mod texts;

use std::hint::black_box;
use std::time::Instant;

const ROUNDS: usize = 7;

type Lex = unsafe extern "C" fn(*const u8, usize, *mut u64, usize, *mut u64) -> u64;
type Read = unsafe extern "C" fn(
    *const u8, usize, *mut u64, usize, *mut u64, usize, *mut u64, usize, *mut u64, usize, *mut u64, usize, *mut u64,
) -> u64;

mod c {
    unsafe extern "C" {
        pub fn pcode_lex(text: *const u8, text_len: usize, table: *mut u64, table_len: usize, out: *mut u64) -> u64;
        pub fn old_lex(text: *const u8, text_len: usize, table: *mut u64, table_len: usize, out: *mut u64) -> u64;
        pub fn pcode_read(
            text: *const u8, text_len: usize, tokens: *mut u64, tokens_len: usize, actions: *mut u64, actions_len: usize,
            operands: *mut u64, operands_len: usize, levels: *mut u64, levels_len: usize, labels: *mut u64, labels_len: usize,
            out: *mut u64,
        ) -> u64;
        pub fn old_read(
            text: *const u8, text_len: usize, tokens: *mut u64, tokens_len: usize, actions: *mut u64, actions_len: usize,
            operands: *mut u64, operands_len: usize, levels: *mut u64, levels_len: usize, labels: *mut u64, labels_len: usize,
            out: *mut u64,
        ) -> u64;
    }
}

/// Nanoseconds a byte, the best of some timings.
fn time(bytes: usize, seconds: f64, mut call: impl FnMut()) -> f64 {
    let (start, mut calls) = (Instant::now(), 0u64);
    while calls == 0 || start.elapsed().as_secs_f64() < seconds / 5.0 {
        call();
        calls += 1;
    }
    (0..5)
        .map(|_| {
            let start = Instant::now();
            (0..calls).for_each(|_| call());
            start.elapsed().as_secs_f64() * 1e9 / calls as f64 / bytes as f64
        })
        .fold(f64::INFINITY, f64::min)
}

fn lexing(lex: Lex, text: &[u8], table: &mut [u64], seconds: f64) -> f64 {
    let mut out = [0u64; 1];
    time(text.len(), seconds, || {
        let text = black_box(text);
        let refusal = unsafe { lex(text.as_ptr(), text.len(), table.as_mut_ptr(), table.len(), out.as_mut_ptr()) };
        assert_eq!(refusal, 0, "the text is lexed");
    })
}

fn reading(read: Read, text: &[u8], tables: &mut [Vec<u64>; 5], seconds: f64) -> f64 {
    let mut out = [0u64; 5];
    let [a, b, c, d, e] = tables;
    time(text.len(), seconds, || {
        let text = black_box(text);
        let refusal = unsafe {
            read(
                text.as_ptr(), text.len(), a.as_mut_ptr(), a.len(), b.as_mut_ptr(), b.len(), c.as_mut_ptr(), c.len(), d.as_mut_ptr(),
                d.len(), e.as_mut_ptr(), e.len(), out.as_mut_ptr(),
            )
        };
        assert_eq!(refusal, 0, "the text is read");
    })
}

/// The least of each side, and the median over the rounds of the new by the old: the two of a round were measured one after the other.
fn told(rounds: &[(f64, f64)]) -> (f64, f64, f64) {
    let least = |part: fn(&(f64, f64)) -> f64| rounds.iter().map(part).fold(f64::INFINITY, f64::min);
    let mut ratios: Vec<f64> = rounds.iter().map(|(old, new)| new / old).collect();
    ratios.sort_by(f64::total_cmp);
    (least(|r| r.0), least(|r| r.1), ratios[ratios.len() / 2])
}

fn main() {
    let seconds: f64 = std::env::args().nth(1).and_then(|s| s.parse().ok()).expect("seconds");
    println!("ns a byte: old, new, new by old in a round\n");
    println!("| text                      | bytes |  read |   new | round |   lex |   new | round |");
    println!("|---------------------------|------:|------:|------:|------:|------:|------:|------:|");
    for (what, text) in subjects::subjects() {
        let mut tables = [(); 5].map(|_| vec![0u64; text.len() + 2]);
        let (mut read, mut lex) = (Vec::new(), Vec::new());
        for round in 0..ROUNDS {
            let both = |old: &mut dyn FnMut() -> f64, new: &mut dyn FnMut() -> f64| {
                if round % 2 == 0 { let o = old(); (o, new()) } else { let n = new(); (old(), n) }
            };
            let cell = std::cell::RefCell::new(&mut tables);
            read.push(both(
                &mut || reading(c::old_read, &text, &mut cell.borrow_mut(), seconds),
                &mut || reading(c::pcode_read, &text, &mut cell.borrow_mut(), seconds),
            ));
            lex.push(both(
                &mut || lexing(c::old_lex, &text, &mut cell.borrow_mut()[0], seconds),
                &mut || lexing(c::pcode_lex, &text, &mut cell.borrow_mut()[0], seconds),
            ));
        }
        let (r, l) = (told(&read), told(&lex));
        println!(
            "| {what:<25} | {:>5} | {:>5.2} | {:>5.2} | {:>5.2} | {:>5.2} | {:>5.2} | {:>5.2} |",
            text.len(), r.0, r.1, r.2, l.0, l.1, l.2
        );
    }
}
