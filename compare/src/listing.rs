//! Our tables in the form of the oracle's dump, so that the two can be held together line by line. The Rust does not tell whether a
//! string was closed: a token's and an operand's flag and a level's count are left out here, and held to the text itself in reading.rs.

use std::fmt::Write;

use crate::ffi;
use crate::texts::{ACTIONS, kind_name};

/// The words of the five tables, cut to their counts.
#[derive(PartialEq, Eq, Debug)]
pub struct Reading {
    pub tokens: Vec<u64>,
    pub actions: Vec<u64>,
    pub operands: Vec<u64>,
    pub levels: Vec<[u64; 2]>,
    pub labels: Vec<u64>,
}

/// A token's kind and raw text.
type Raw<'a> = (u64, &'a [u8]);

const BLOCKS: [&str; 5] = ["top", "body", "try", "catch", "finally"];

impl Reading {
    /// The raw text of a token by its index, or an error that says what points past the tokens.
    fn raw<'a>(&self, text: &'a [u8], token: usize, of: &str) -> Result<Raw<'a>, String> {
        let t = ffi::token(*self.tokens.get(token).ok_or_else(|| format!("{of} points to token {token}"))?);
        let raw = text.get(t.raw.0 as usize..t.raw.1 as usize).ok_or_else(|| format!("{of} points to a token outside the text"))?;
        Ok((t.kind, raw))
    }

    fn operands_of<'a>(&self, text: &'a [u8], action: &ffi::Action) -> Result<Vec<Raw<'a>>, String> {
        // where an action without operands has its first one is left free
        if action.count == 0 {
            return Ok(vec![]);
        }
        let words = self.operands.get(action.first..action.first.wrapping_add(action.count)).ok_or("an action points past the operands")?;
        words.iter().map(|w| self.raw(text, ffi::operand(*w).1, "an operand")).collect()
    }

    /// The lines as the oracle would print them. A delta is asked of the delta call, with the operands of this reading.
    pub fn lines(&self, text: &[u8], to: &mut String) -> Result<(), String> {
        to.clear();
        for (i, word) in self.tokens.iter().enumerate() {
            let (t, (kind, raw)) = (ffi::token(*word), self.raw(text, i, "a token")?);
            write_kind(kind, to);
            let _ = write!(to, "{} {} ", t.span.0, t.span.1);
            write_hex(raw, to);
            to.push('\n');
        }
        let _ = writeln!(to, "OK actions {} labels {} levels {}", self.actions.len(), self.labels.len(), self.levels.len());
        let levels: Vec<ffi::Level> = self.levels.iter().map(ffi::level).collect();
        let mut caught = vec![false; self.actions.len()];
        for l in levels.iter().filter(|l| l.block == 3) {
            *caught.get_mut(l.owner).ok_or("a catch block of no action")? = true;
        }
        for (word, caught) in self.actions.iter().zip(caught) {
            let a = ffi::action(*word);
            let operands = self.operands_of(text, &a)?;
            let name = ACTIONS.get(a.name).ok_or("an action without a name")?;
            let _ = write!(to, "a {} {name} {}", a.level, delta(&a, &operands));
            write_operands(name, &operands, caught, to).ok_or_else(|| format!("{name} has operands that it cannot have"))?;
            to.push('\n');
        }
        levels.iter().for_each(|l| write_level(l, to));
        for word in &self.labels {
            let (level, token, position) = ffi::label(*word);
            let _ = write!(to, "l {level} ");
            write_hex(self.raw(text, token, "a label")?.1, to);
            let _ = writeln!(to, " {position}");
        }
        Ok(())
    }
}

fn delta(action: &ffi::Action, operands: &[Raw]) -> String {
    match ffi::delta(action.name, action.count, operands.first().is_some_and(|o| o.1.is_empty())) {
        Ok(d) => d.to_string(),
        Err(9) => "?".into(),
        Err(n) => format!("refused {n}"),
    }
}

fn write_kind(kind: u64, to: &mut String) {
    to.push_str("t ");
    to.push_str(&kind_name(kind));
    to.push(' ');
}

fn write_hex(bytes: &[u8], to: &mut String) {
    const DIGITS: &[u8; 16] = b"0123456789abcdef";
    if bytes.is_empty() {
        to.push('-');
    }
    for b in bytes {
        to.push(DIGITS[(b >> 4) as usize] as char);
        to.push(DIGITS[(b & 15) as usize] as char);
    }
}

fn write_level(level: &ffi::Level, to: &mut String) {
    let _ = match level.block {
        0 => write!(to, "L - top {} ", level.actions),
        b => write!(to, "L {} {} {} ", level.owner, BLOCKS.get(b as usize).unwrap_or(&"?"), level.actions),
    };
    let _ = match level.net {
        Ok(height) => writeln!(to, "{height}"),
        Err(action) => writeln!(to, "?{action}"),
    };
}

/// ` mark` and what the oracle's form of an operand holds; nothing if the token is no such operand.
fn write_operand(form: &str, (kind, raw): Raw, to: &mut String) -> Option<()> {
    let text = std::str::from_utf8(raw).ok()?;
    let (mark, place) = (form.split(':').next()?, kind >> 16);
    let _ = match (form, place) {
        ("s", 1) | ("l", 7) => {
            let _ = write!(to, " {mark}:");
            write_hex(raw, to);
            Ok(())
        }
        ("n", 3) => write!(to, " n:{}", text.parse::<u16>().ok()?),
        ("r", 4) => write!(to, " r:{}", kind & 0xffff),
        ("value", _) => return write_value((kind, raw), text, to),
        (_, 12 | 13) => write!(to, " {mark}:{}", (place == 12) as u8),
        _ => return None,
    };
    Some(())
}

fn write_value((kind, raw): Raw, text: &str, to: &mut String) -> Option<()> {
    let number = |to: &mut String, f: f64| write!(to, " f:{:016x}", f.to_bits());
    let _ = match kind >> 16 {
        1 => return write_operand("s", (kind, raw), to),
        4 => return write_operand("r", (kind, raw), to),
        2 => number(to, text.parse().ok()?),
        3 => match text.parse::<i32>() {
            Ok(n) => write!(to, " i:{n}"),
            Err(_) => number(to, text.parse().ok()?),
        },
        5 => write!(to, " c:{}", kind & 0xffff),
        7 if text.eq_ignore_ascii_case("infinity") => number(to, f64::INFINITY),
        7 if text.eq_ignore_ascii_case("nan") => number(to, f64::NAN),
        12 => write!(to, " true"),
        13 => write!(to, " false"),
        14 => write!(to, " null"),
        15 => write!(to, " undefined"),
        _ => return None,
    };
    Some(())
}

fn write_each(forms: &[&str], operands: &[Raw], to: &mut String) -> Option<()> {
    (forms.len() == operands.len()).then_some(())?;
    forms.iter().zip(operands).try_for_each(|(form, operand)| write_operand(form, *operand, to))
}

/// The operands of an action in the oracle's form, or nothing where they are not those that it takes.
fn write_operands(name: &str, operands: &[Raw], caught: bool, to: &mut String) -> Option<()> {
    match name {
        "Push" => operands.iter().try_for_each(|o| write_operand("value", *o, to)),
        "ConstantPool" => operands.iter().try_for_each(|o| write_operand("s", *o, to)),
        "GetUrl" => write_each(&["s", "s"], operands, to),
        "GetUrl2" => write_each(&["b", "b", "n"], operands, to),
        "GotoLabel" | "SetTarget" => write_each(&["s"], operands, to),
        "If" | "Jump" => write_each(&["l"], operands, to),
        "GotoFrame" | "StoreRegister" | "WaitForFrame2" => write_each(&["n"], operands, to),
        "WaitForFrame" => write_each(&["n", "n"], operands, to),
        "GotoFrame2" => write_goto_frame(operands, to),
        "DefineFunction" => write_function(operands, &[], &["s"], to),
        "DefineFunction2" => write_function(operands, &FLAGS, &["n", "s"], to),
        "Try" => write_target(operands, caught, to),
        _ => write_each(&[], operands, to),
    }
}

/// Its first bool is not in the Rust's result, but says whether there is a bias.
fn write_goto_frame(operands: &[Raw], to: &mut String) -> Option<()> {
    match operands.iter().map(|o| o.0 >> 16).collect::<Vec<_>>()[..] {
        [13, play @ (12 | 13)] => write!(to, " play:{} bias:0", (play == 12) as u8).ok(),
        [12, play @ (12 | 13), 3] => {
            let bias: u16 = std::str::from_utf8(operands[2].1).ok()?.parse().ok()?;
            write!(to, " play:{} bias:{bias}", (play == 12) as u8).ok()
        }
        _ => None,
    }
}

const FLAGS: [&str; 10] = ["n", "parent", "root", "nosuper", "super", "noargs", "args", "nothis", "this", "global"];

/// A name, a count that is not in the Rust's result, what stands before the parameters, and the parameters.
fn write_function(operands: &[Raw], before: &[&str], parameter: &[&str], to: &mut String) -> Option<()> {
    let (name, rest) = operands.split_first()?;
    let (count, rest) = rest.split_first()?;
    let (flags, parameters) = rest.split_at_checked(before.len())?;
    let written: i32 = std::str::from_utf8(count.1).ok().filter(|_| count.0 >> 16 == 3)?.parse().ok()?;
    let told = written.max(0) as usize;
    (parameters.len() == told.checked_mul(parameter.len())?).then_some(())?;
    write_operand("s", *name, to)?;
    let _ = write!(to, " params:{told}");
    write_each(before, flags, to)?;
    parameters.chunks(parameter.len()).try_for_each(|p| write_each(parameter, p, to))
}

/// Without a catch block there is no target; a catch with no target has the empty name.
fn write_target(operands: &[Raw], caught: bool, to: &mut String) -> Option<()> {
    match (operands, caught) {
        ([], false) => to.push_str(" nocatch"),
        ([], true) => to.push_str(" s:-"),
        ([target], true) => return write_operand("s", *target, to).or_else(|| write_operand("r", *target, to)),
        _ => return None,
    }
    Some(())
}
