//! The oracle: the Rust's p-code reader as a program that compare/ can ask. compare/oracle/build puts this file beside Rascal's own
//! files, which stay as they are.
//!
//!   rascal-oracle --dump < BATCH           what each text is read as, in lines
//!   rascal-oracle --accept < BATCH         a letter for each text: o accepted, e refused, p panicked, u not UTF-8
//!   rascal-oracle --bench FILE SECONDS     how fast one text is lexed, and read
//!
//! A batch is texts one after the other: a length of 32 bits, low byte first, then as many bytes. The lines of a text in the dump:
//!
//!   ## NUMBER LENGTH
//!   t KIND START END RAW                   for each token; RAW in hex, `-` if it is empty
//!   UTF8 N, PANIC lex, PANIC parse, ERR N  how a text ends that is not read, or
//!   OK actions A labels B levels C         and then, all levels in the order of their braces,
//!   a LEVEL NAME DELTA OPERANDS            for each action; the delta is `?` where asking for it panics
//!   L OWNER BLOCK ACTIONS NET              for each level; the net is the sum of its deltas, or `?` and the first action without one
//!   l LEVEL NAME POSITION                  for each label; NAME in hex

#[allow(dead_code, unused_imports)]
mod internal {
    pub mod as2_pcode;
    pub mod span;
}

use std::fmt::{self, Debug, Display, Write as _};
use std::hint::black_box;
use std::io::{self, Read, Write};
use std::panic::{AssertUnwindSafe, catch_unwind};
use std::process::exit;
use std::time::Instant;

use internal::as2_pcode::{Action, Actions, CatchTarget, Lexer, PCode, PushValue, parse_actions};
use internal::span::FileId;

/// The Rust has no limit on blocks within one another, and each takes some stack: 65,536 bytes can hold 16,384 of them.
const STACK: usize = 1 << 30;

/// Bytes in hex, `-` where there are none.
struct Hex<'a>(&'a str);

impl Display for Hex<'_> {
    fn fmt(&self, f: &mut fmt::Formatter<'_>) -> fmt::Result {
        if self.0.is_empty() {
            return f.write_str("-");
        }
        self.0.bytes().try_for_each(|b| write!(f, "{b:02x}"))
    }
}

/// Takes the name that a `Debug` form starts with, and no more: an action's form would go on with its whole body.
struct Front(String);

impl fmt::Write for Front {
    fn write_str(&mut self, s: &str) -> fmt::Result {
        let name = s.find(|c: char| !c.is_ascii_alphanumeric()).unwrap_or(s.len());
        self.0.push_str(&s[..name]);
        if name < s.len() { Err(fmt::Error) } else { Ok(()) }
    }
}

fn name_of(action: &Action) -> String {
    let mut front = Front(String::new());
    let _ = write!(front, "{action:?}");
    front.0
}

/// A token's kind: `Comma`, `Register:5`, `Action:Add`.
fn kind_of(kind: &impl Debug) -> String {
    let form = format!("{kind:?}");
    match form.trim_end_matches(')').split_once('(') {
        Some(("ActionName", name)) => format!("Action:{name}"),
        Some((kind, carried)) => format!("{kind}:{carried}"),
        None => form,
    }
}

/// What a call answers, or nothing where it panics.
fn unless_it_panics<T>(call: impl FnOnce() -> T) -> Option<T> {
    catch_unwind(AssertUnwindSafe(call)).ok()
}

/// The operands of an action, each as ` mark:what`.
struct Operands(String);

impl Operands {
    fn put(&mut self, mark: &str, what: impl Display) {
        let _ = write!(self.0, " {mark}:{what}");
    }

    fn string(&mut self, s: &str) {
        self.put("s", Hex(s));
    }

    fn flags(&mut self, flags: &[(&str, bool)]) {
        flags.iter().for_each(|(mark, flag)| self.put(mark, u8::from(*flag)));
    }

    fn word(&mut self, word: &str) {
        self.0.push(' ');
        self.0.push_str(word);
    }

    fn value(&mut self, value: &PushValue) {
        match value {
            PushValue::Null => self.word("null"),
            PushValue::Undefined => self.word("undefined"),
            PushValue::True => self.word("true"),
            PushValue::False => self.word("false"),
            PushValue::String(s) => self.string(s),
            PushValue::Integer(n) => self.put("i", n),
            PushValue::Float(f) => self.put("f", format_args!("{:016x}", f.to_bits())),
            PushValue::Register(n) => self.put("r", n),
            PushValue::Constant(n) => self.put("c", n),
        }
    }

    /// Actions without operands have none here; a block is a level of its own.
    fn of(action: &Action) -> String {
        let mut to = Operands(String::new());
        match action {
            Action::Push(values) => values.iter().for_each(|v| to.value(v)),
            Action::ConstantPool(strings) => strings.iter().for_each(|s| to.string(s)),
            Action::GetUrl { url, target } => [url, target].into_iter().for_each(|s| to.string(s)),
            Action::GetUrl2 { load_variables, load_target, method } => {
                to.flags(&[("b", *load_variables), ("b", *load_target)]);
                to.put("n", method);
            }
            Action::GotoFrame(frame) => to.put("n", frame),
            Action::GotoFrame2 { scene_bias, play } => {
                to.flags(&[("play", *play)]);
                to.put("bias", scene_bias);
            }
            Action::GotoLabel(s) | Action::SetTarget(s) => to.string(s),
            Action::If(label) | Action::Jump(label) => to.put("l", Hex(label)),
            Action::StoreRegister(register) => to.put("n", register),
            Action::WaitForFrame { frame, skip_count } => {
                to.put("n", frame);
                to.put("n", skip_count);
            }
            Action::WaitForFrame2 { skip_count } => to.put("n", skip_count),
            Action::DefineFunction { name, params, .. } => {
                to.string(name);
                to.put("params", params.len());
                params.iter().for_each(|p| to.string(p));
            }
            Action::DefineFunction2 {
                name,
                params,
                register_count,
                preload_parent,
                preload_root,
                suppress_super,
                preload_super,
                suppress_arguments,
                preload_arguments,
                suppress_this,
                preload_this,
                preload_global,
                actions: _,
            } => {
                to.string(name);
                to.put("params", params.len());
                to.put("n", register_count);
                to.flags(&[
                    ("parent", *preload_parent),
                    ("root", *preload_root),
                    ("nosuper", *suppress_super),
                    ("super", *preload_super),
                    ("noargs", *suppress_arguments),
                    ("args", *preload_arguments),
                    ("nothis", *suppress_this),
                    ("this", *preload_this),
                    ("global", *preload_global),
                ]);
                for p in params {
                    to.put("n", p.register);
                    to.string(&p.name);
                }
            }
            Action::Try { catch_body, .. } => match catch_body {
                None => to.word("nocatch"),
                Some((CatchTarget::Variable(name), _)) => to.string(name),
                Some((CatchTarget::Register(register), _)) => to.put("r", register),
            },
            _ => {}
        }
        to.0
    }
}

/// Nested actions, laid flat: levels in the order of their braces, an action before its blocks. Each is a line already.
#[derive(Default)]
struct Flat {
    actions: Vec<String>,
    levels: Vec<String>,
    labels: Vec<String>,
}

impl Flat {
    fn level(&mut self, owner: &str, block: &str, all: &Actions) {
        let level = self.levels.len();
        // the net is known behind the actions, whose blocks are further levels
        self.levels.push(String::new());
        self.labels.extend(all.label_positions().iter().map(|(name, at)| format!("l {level} {} {at}\n", Hex(name))));
        let mut net = Ok(0);
        for action in all.actions() {
            let number = self.actions.len();
            let delta = unless_it_panics(|| action.stack_delta());
            let told = delta.map_or("?".into(), |d| d.to_string());
            self.actions.push(format!("a {level} {} {told}{}\n", name_of(action), Operands::of(action)));
            net = net.and_then(|sum: i64| delta.map(|d| sum + i64::from(d)).ok_or(number));
            self.blocks(&number.to_string(), action);
        }
        let net = net.map_or_else(|action| format!("?{action}"), |sum| sum.to_string());
        self.levels[level] = format!("L {owner} {block} {} {net}\n", all.actions().len());
    }

    fn blocks(&mut self, owner: &str, action: &Action) {
        match action {
            Action::DefineFunction { actions, .. } | Action::DefineFunction2 { actions, .. } | Action::With(actions) => {
                self.level(owner, "body", actions);
            }
            Action::Try { try_body, catch_body, finally_body } => {
                self.level(owner, "try", try_body);
                catch_body.iter().for_each(|(_, body)| self.level(owner, "catch", body));
                finally_body.iter().for_each(|body| self.level(owner, "finally", body));
            }
            _ => {}
        }
    }
}

fn dump(text: &[u8], to: &mut String) {
    let text = match std::str::from_utf8(text) {
        Ok(text) => text,
        Err(e) => return to.push_str(&format!("UTF8 {}\n", e.valid_up_to())),
    };
    let Some(tokens) = unless_it_panics(|| Lexer::new(text, FileId::new(1)).into_vec()) else {
        return to.push_str("PANIC lex\n");
    };
    for t in &tokens {
        let _ = writeln!(to, "t {} {} {} {}", kind_of(&t.kind), t.span.start, t.span.end, Hex(t.raw));
    }
    match unless_it_panics(|| parse_actions(&tokens)) {
        None => to.push_str("PANIC parse\n"),
        Some(Err(e)) => to.push_str(&format!("ERR {}\n", e.offset())),
        Some(Ok(actions)) => {
            let mut flat = Flat::default();
            flat.level("-", "top", &actions);
            let _ = writeln!(to, "OK actions {} labels {} levels {}", flat.actions.len(), flat.labels.len(), flat.levels.len());
            [flat.actions, flat.levels, flat.labels].concat().iter().for_each(|line| to.push_str(line));
        }
    }
}

fn letter(text: &[u8]) -> u8 {
    let Ok(text) = std::str::from_utf8(text) else { return b'u' };
    match unless_it_panics(|| PCode::new("", text).to_actions().is_ok()) {
        None => b'p',
        Some(true) => b'o',
        Some(false) => b'e',
    }
}

fn fail(why: impl Display) -> ! {
    eprintln!("rascal-oracle: {why}");
    exit(2)
}

/// Each text of the batch on standard input, with its number.
fn each_text(mut work: impl FnMut(usize, &[u8]) -> io::Result<()>) {
    let mut batch = Vec::new();
    io::stdin().lock().read_to_end(&mut batch).unwrap_or_else(|e| fail(format_args!("standard input: {e}")));
    let (mut rest, mut number) = (&batch[..], 0);
    while !rest.is_empty() {
        let text = rest.split_first_chunk().and_then(|(length, behind)| behind.split_at_checked(u32::from_le_bytes(*length) as usize));
        let Some((text, behind)) = text else { fail(format_args!("the batch ends inside text {number}")) };
        work(number, text).unwrap_or_else(|e| fail(format_args!("standard output: {e}")));
        (rest, number) = (behind, number + 1);
    }
}

/// As compare/src/bench.rs times our side: 0.2 s to warm up, then five timings, the best and the median in MB/s.
fn time(what: &str, bytes: usize, seconds: f64, mut call: impl FnMut()) {
    let (start, mut calls) = (Instant::now(), 0u64);
    while calls == 0 || start.elapsed().as_secs_f64() < 0.2 {
        call();
        calls += 1;
    }
    let calls = (calls as f64 / start.elapsed().as_secs_f64() * seconds / 5.0).max(1.0) as u64;
    let mut speeds = [(); 5].map(|_| {
        let start = Instant::now();
        (0..calls).for_each(|_| call());
        bytes as f64 * calls as f64 / start.elapsed().as_secs_f64() / 1e6
    });
    speeds.sort_by(f64::total_cmp);
    println!("{what:<21} {:>9.1} MB/s best {:>9.1} median", speeds[4], speeds[2]);
}

fn bench(file: &str, seconds: &str) {
    let text = std::fs::read_to_string(file).unwrap_or_else(|e| fail(format_args!("{file}: {e}")));
    let seconds = seconds.parse().unwrap_or_else(|_| fail(format_args!("no number of seconds: {seconds}")));
    let lex = || Lexer::new(black_box(&text), FileId::new(1)).into_vec();
    let Some(tokens) = unless_it_panics(lex) else { fail(format_args!("{file}: the lexer panics")) };
    println!("bytes {} tokens {}", text.len(), tokens.len());
    println!("accepted {}", parse_actions(&tokens).is_ok());
    time("lex (Lexer::into_vec)", text.len(), seconds, || drop(black_box(lex())));
    time("lex+parse (PCode)", text.len(), seconds, || {
        let _ = black_box(PCode::new("", black_box(&text)).to_actions().is_ok());
    });
}

fn work() {
    let args: Vec<String> = std::env::args().skip(1).collect();
    let mut out = io::BufWriter::with_capacity(1 << 20, io::stdout());
    match &args.iter().map(String::as_str).collect::<Vec<_>>()[..] {
        ["--dump"] => {
            let mut lines = String::new();
            each_text(|number, text| {
                lines.clear();
                let _ = writeln!(lines, "## {number} {}", text.len());
                dump(text, &mut lines);
                out.write_all(lines.as_bytes())
            });
        }
        ["--accept"] => {
            each_text(|_, text| out.write_all(&[letter(text)]));
            if let Err(e) = out.write_all(b"\n") {
                fail(&format!("standard output: {e}"));
            }
        }
        ["--bench", file, seconds] => bench(file, seconds),
        _ => fail("usage: rascal-oracle --dump < BATCH | --accept < BATCH | --bench FILE SECONDS"),
    }
    out.flush().unwrap_or_else(|e| fail(format_args!("standard output: {e}")));
}

fn main() {
    // a panic of the Rust's is an answer, and told as one
    std::panic::set_hook(Box::new(|_| {}));
    let thread = std::thread::Builder::new().stack_size(STACK).spawn(work).unwrap_or_else(|e| fail(format_args!("no stack: {e}")));
    if thread.join().is_err() {
        fail("a fault of the driver");
    }
}
