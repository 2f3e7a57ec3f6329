//! Which lists of tokens begin a grammatical list, by a method of its own: document 01's grammar as rules, and the set of all
//! stacks of what is still to come that fit the tokens so far. Every symbol can be written out in some way, so every stack
//! can be completed, and a list begins a grammatical one just where some stack is left.

use std::sync::OnceLock;

use crate::oracle::Token;
use crate::texts::ACTIONS;

#[derive(Clone, Copy, PartialEq, Eq, Debug)]
enum Symbol {
    // one token
    Newline,
    Colon,
    Comma,
    Open,
    Close,
    Catch,
    Finally,
    Identifier,
    String,
    Register,
    Value,
    Bool,
    True,
    False,
    U8,
    U16,
    // one token, which says what has to follow it: an action word, a count of parameters, a count of pairs
    Action,
    Count,
    Count2,
    // rules
    Newlines,
    TopItems,
    TopEnded,
    BlockItems,
    Block,
    Values,
    MoreValues,
    Strings,
    MoreStrings,
    GotoFrame2,
    Target,
    CatchPart,
    FinallyPart,
    // rules with a number: so many more, each behind a comma
    Parameters(u32),
    Pairs(u32),
}

use Symbol::*;

/// The alternatives of a rule without a number; of a symbol for one token none.
fn alternatives(symbol: Symbol) -> &'static [&'static [Symbol]] {
    match symbol {
        Newlines => &[&[], &[Newline, Newlines]],
        // a level: labels and actions, each action with an end behind it; the text can only end in the top level
        TopItems => &[&[], &[Identifier, Colon, Newlines, TopItems], &[Action, TopEnded]],
        TopEnded => &[&[], &[Newline, Newlines, TopItems]],
        BlockItems => &[&[], &[Identifier, Colon, Newlines, BlockItems], &[Action, Newline, Newlines, BlockItems]],
        Block => &[&[Open, Newlines, BlockItems, Close]],
        Values => &[&[], &[Value, MoreValues]],
        MoreValues => &[&[], &[Comma, Value, MoreValues]],
        Strings => &[&[], &[String, MoreStrings]],
        MoreStrings => &[&[], &[Comma, String, MoreStrings]],
        GotoFrame2 => &[&[True, Comma, Bool, Comma, U16], &[False, Comma, Bool]],
        Target => &[&[], &[String], &[Register]],
        CatchPart => &[&[FinallyPart], &[Newline, Newlines, Catch, Block, FinallyPart]],
        FinallyPart => &[&[], &[Newline, Newlines, Finally, Block]],
        _ => &[],
    }
}

/// What follows the word of each action.
fn behind_word(name: &str) -> &'static [Symbol] {
    match name {
        "Push" => &[Values],
        "ConstantPool" => &[Strings],
        "GetUrl" => &[String, Comma, String],
        "GetUrl2" => &[Bool, Comma, Bool, Comma, U8],
        "GotoFrame" => &[U16],
        "GotoFrame2" => &[GotoFrame2],
        "GotoLabel" | "SetTarget" => &[String],
        "If" | "Jump" => &[Identifier],
        "StoreRegister" | "WaitForFrame2" => &[U8],
        "WaitForFrame" => &[U16, Comma, U8],
        "DefineFunction" => &[String, Comma, Count],
        "DefineFunction2" => &[String, Comma, Count2],
        "With" => &[Block],
        "Try" => &[Target, Block, CatchPart],
        _ => &[],
    }
}

static BEHIND_WORD: OnceLock<Vec<&'static [Symbol]>> = OnceLock::new();

/// The register count and the nine bools of a DefineFunction2.
const FLAGS: [Symbol; 20] = [
    Comma, U8, Comma, Bool, Comma, Bool, Comma, Bool, Comma, Bool, Comma, Bool, Comma, Bool, Comma, Bool, Comma, Bool, Comma, Bool,
];

/// Whether raw text is `-`, digits, point and digits, e, sign and digits, with a digit before the exponent and one in it.
fn is_number(raw: &[u8]) -> bool {
    let raw = raw.strip_prefix(b"-").unwrap_or(raw);
    let (mantissa, exponent) = match raw.iter().position(|b| matches!(b, b'e' | b'E')) {
        Some(e) => (&raw[..e], Some(&raw[e + 1..])),
        None => (raw, None),
    };
    let digits = |s: &[u8]| s.iter().all(u8::is_ascii_digit);
    let (whole, fraction) = match mantissa.iter().position(|b| *b == b'.') {
        Some(p) => (&mantissa[..p], &mantissa[p + 1..]),
        None => (mantissa, &mantissa[..0]),
    };
    let exponent_fits = exponent.is_none_or(|e| {
        let e = e.strip_prefix(b"+").or(e.strip_prefix(b"-")).unwrap_or(e);
        !e.is_empty() && digits(e)
    });
    digits(whole) && digits(fraction) && !(whole.is_empty() && fraction.is_empty()) && exponent_fits
}

fn parses<T: std::str::FromStr>(token: Token, raw: &[u8]) -> Option<T> {
    std::str::from_utf8(raw).ok().filter(|_| token.place() == 3)?.parse().ok()
}

fn is_value(token: Token, raw: &[u8]) -> bool {
    match token.place() {
        1 | 4 | 5 | 12..=15 => true,
        2 | 3 => is_number(raw),
        7 => raw.eq_ignore_ascii_case(b"infinity") || raw.eq_ignore_ascii_case(b"nan"),
        _ => false,
    }
}

fn fits(symbol: Symbol, token: Token, raw: &[u8]) -> bool {
    match symbol {
        Newline => token.place() == 0,
        Colon => token.place() == 8,
        Comma => token.place() == 9,
        Open => token.place() == 10,
        Close => token.place() == 11,
        Catch => token.place() == 16,
        Finally => token.place() == 17,
        Identifier => token.place() == 7,
        String => token.place() == 1,
        Register => token.place() == 4,
        Value => is_value(token, raw),
        Bool => token.place() == 12 || token.place() == 13,
        True => token.place() == 12,
        False => token.place() == 13,
        U8 => parses::<u8>(token, raw).is_some(),
        U16 => parses::<u16>(token, raw).is_some(),
        Action => token.place() == 6,
        Count | Count2 => parses::<i32>(token, raw).is_some(),
        _ => false,
    }
}

fn can_be_empty(symbol: Symbol) -> bool {
    match symbol {
        Newlines | TopItems | TopEnded | BlockItems | Values | MoreValues | Strings | MoreStrings | Target | CatchPart | FinallyPart => true,
        Parameters(n) | Pairs(n) => n == 0,
        _ => false,
    }
}

/// A short way to write a symbol out, and how often.
fn spelling(symbol: Symbol) -> (&'static str, u32) {
    let once = match symbol {
        Newline => "\n",
        Colon => ":",
        Comma => ", ",
        Open => "{ ",
        Close => "}",
        Catch => "catch ",
        Finally => "finally ",
        Identifier => "a",
        String => "\"s\"",
        Register => "register1",
        Value | U8 | U16 => "1",
        Bool | True => "true",
        False => "false",
        Action => "Add",
        Count => "0 { }",
        Count2 => "0, 1, true, true, true, true, true, true, true, true, true { }",
        Block => " { }",
        GotoFrame2 => "false, true",
        Parameters(n) => return (", \"s\"", n),
        Pairs(n) => return (", 1, \"s\"", n),
        _ => "",
    };
    (once, 1)
}

/// A stack as the number of its top node; the nodes hold a symbol and what is under it.
type Stack = u32;
const EMPTY: Stack = u32::MAX;

/// A completion that is longer than this is not written out: a function may ask for two thousand million parameters.
const LONGEST: usize = 20_000;

#[derive(Default)]
pub struct Recogniser {
    nodes: Vec<(Symbol, Stack)>,
    stacks: Vec<Stack>,
    next: Vec<Stack>,
}

impl Recogniser {
    /// How many of the first tokens begin a grammatical list; the stacks are left as they are behind those.
    pub fn run(&mut self, text: &[u8], tokens: &[Token]) -> usize {
        self.nodes.clear();
        self.stacks.clear();
        let start = self.push(EMPTY, &[Newlines, TopItems]);
        self.stacks.push(start);
        for (k, token) in tokens.iter().enumerate() {
            if !self.step(*token, token.raw(text)) {
                return k;
            }
        }
        tokens.len()
    }

    fn push(&mut self, mut on: Stack, symbols: &[Symbol]) -> Stack {
        for symbol in symbols.iter().rev() {
            self.nodes.push((*symbol, on));
            on = self.nodes.len() as Stack - 1;
        }
        on
    }

    /// Takes a token with every stack that it fits; without any, leaves all as it was.
    fn step(&mut self, token: Token, raw: &[u8]) -> bool {
        let mut open = self.stacks.clone();
        self.next.clear();
        while let Some(stack) = open.pop() {
            if stack == EMPTY {
                continue;
            }
            let (symbol, under) = self.nodes[stack as usize];
            match symbol {
                Parameters(0) | Pairs(0) => open.push(under),
                Parameters(n) => open.push(self.push(under, &[Comma, String, Parameters(n - 1)])),
                Pairs(n) => open.push(self.push(under, &[Comma, U8, Comma, String, Pairs(n - 1)])),
                _ => alternatives(symbol).iter().for_each(|a| open.push(self.push(under, a))),
            }
            if fits(symbol, token, raw) {
                let behind = self.behind(symbol, token, raw, under);
                self.next.push(behind);
            }
        }
        // no list of tokens has two readings, so there are never many stacks; without this a fault here would take for ever
        assert!(self.next.len() < 100, "the grammar is ambiguous");
        if self.next.is_empty() {
            return false;
        }
        std::mem::swap(&mut self.stacks, &mut self.next);
        true
    }

    /// What is still to come behind a token that was taken.
    fn behind(&mut self, symbol: Symbol, token: Token, raw: &[u8], under: Stack) -> Stack {
        // a negative count acts as 0
        let count = || parses::<i32>(token, raw).unwrap().max(0) as u32;
        match symbol {
            Action => {
                let words = BEHIND_WORD.get_or_init(|| ACTIONS.iter().map(|name| behind_word(name)).collect());
                self.push(under, words[(token.kind & 0xffff) as usize])
            }
            Count => self.push(under, &[Parameters(count()), Block]),
            Count2 => {
                let pairs = self.push(under, &[Pairs(count()), Block]);
                self.push(pairs, &FLAGS)
            }
            _ => under,
        }
    }

    fn symbols(&self, stack: Stack) -> impl Iterator<Item = Symbol> {
        let mut at = stack;
        std::iter::from_fn(move || {
            let (symbol, under) = *self.nodes.get(at as usize)?;
            at = under;
            Some(symbol)
        })
    }

    /// Whether the tokens taken are a grammatical list as they stand.
    pub fn is_complete(&self) -> bool {
        self.stacks.iter().any(|s| self.symbols(*s).all(can_be_empty))
    }

    /// A short text that makes the tokens taken a grammatical list, unless none is short.
    pub fn completion(&self) -> Option<std::string::String> {
        let size = |s: &Stack| self.symbols(*s).map(|y| spelling(y).0.len() * spelling(y).1 as usize).sum::<usize>();
        let best = self.stacks.iter().min_by_key(|s| size(s)).filter(|s| size(s) < LONGEST)?;
        Some(self.symbols(*best).map(|y| spelling(y).0.repeat(spelling(y).1 as usize)).collect())
    }
}
