//! Texts to compare on, each generator a fixed function of its seed.

use std::collections::HashMap;
use std::sync::OnceLock;

/// The alphabets of `exhaustive`, with the length that `all` goes to.
pub const ALPHABETS: [(&str, usize); 5] = [("numbers", 6), ("strings", 6), ("words", 5), ("newlines", 6), ("utf8", 5)];

/// Bytes as the oracle prints them.
pub fn hex(bytes: &[u8]) -> String {
    if bytes.is_empty() {
        return "-".into();
    }
    bytes.iter().map(|b| format!("{b:02x}")).collect()
}

fn alphabet(name: &str) -> Vec<&'static [u8]> {
    let pieces: &[&[u8]] = match name {
        "numbers" => &[b"1", b"0", b"9", b".", b"-", b"+", b"e", b"E", b" ", b"\n"],
        "numerals" => &[b"1", b"0", b"9", b".", b"-", b"+", b"e", b"E", b", ", b"nan"],
        "strings" => &[b"\"", b"\\", b"\n", b"\r", b"a", b" ", "é".as_bytes(), "€".as_bytes(), "😀".as_bytes()],
        "words" => &[b"a", b"Z", b"_", b"$", b"0", b"9", b" ", b":", b"-", b".", b"constant", b"register", b"push"],
        "newlines" => &[b"\n", b"\r", b" ", b"\t", b":", b",", b"{", b"}", b"x"],
        "utf8" => &[b"\"", b"\xc3", b"\xa9", b"\xe2", b"\x82", b"\xac", b"\xf0", b"\x9f", b"\xed", b"\xa0", b"\xc0", b"\xf4", b"\x90", b"a"],
        "blocks" => &[b"With ", b"{ ", b"} ", b"a ", b": ", b"Add ", b"\n", b"Push ", b"1 ", b", "],
        "tries" => &[b"Try ", b"{ ", b"} ", b"catch ", b"finally ", b"\n", b"\"s\" ", b"register1 ", b"Add "],
        "lines" => &[
            b"With {", b"Try {", b"Try \"e\" {", b"}\n", b"}\ncatch {", b"}\nfinally {", b"a: ", b"b:\n", b"Add\n", b"CallMethod\n",
        ],
        "operands" => &[
            b"\"s\" ", b", ", b"1 ", b"256 ", b"65536 ", b"-1 ", b"1.5 ", b"true ", b"false ", b"a ", b"nan ", b"register1 ", b"constant1 ",
            b"{ ", b"} ", b"\n",
        ],
        _ => panic!("no such alphabet: {name}"),
    };
    pieces.to_vec()
}

pub fn exhaustive(name: &str, length: usize) -> impl Iterator<Item = Vec<u8>> {
    let pieces = alphabet(name);
    let n = pieces.len() as u64;
    (0..=length as u32).flat_map(move |k| {
        let pieces = pieces.clone();
        (0..n.pow(k)).map(move |mut code| {
            let mut text = Vec::new();
            for _ in 0..k {
                text.extend_from_slice(pieces[(code % n) as usize]);
                code /= n;
            }
            text
        })
    })
}

/// xorshift64*: small, and the same on every machine.
pub struct Random(u64);

impl Random {
    pub fn new(seed: u64) -> Self {
        Random(seed.wrapping_mul(0x9e37_79b9_7f4a_7c15) | 1)
    }

    pub fn below(&mut self, n: usize) -> usize {
        self.0 ^= self.0 >> 12;
        self.0 ^= self.0 << 25;
        self.0 ^= self.0 >> 27;
        (self.0.wrapping_mul(0x2545_f491_4f6c_dd1d) >> 33) as usize % n
    }

    fn pick<'a, T: ?Sized>(&mut self, from: &[&'a T]) -> &'a T {
        from[self.below(from.len())]
    }
}

/// Bytes with no order, mostly those that some rule names; now and then one that breaks UTF-8.
pub fn bytes(count: u64, seed: u64) -> impl Iterator<Item = Vec<u8>> {
    let mut r = Random::new(seed);
    let telling = "\"\"\\\n\r\t ,:{}-+.eE019azAZ_$constantregisteré€\u{feff}";
    let pieces: Vec<String> = telling.chars().map(String::from).collect();
    (0..count).map(move |_| {
        let mut s = Vec::new();
        for _ in 0..r.below(40) {
            match r.below(200) {
                0 => s.push(r.below(256) as u8),
                _ => s.extend_from_slice(pieces[r.below(pieces.len())].as_bytes()),
            }
        }
        s
    })
}

fn word(r: &mut Random) -> Vec<u8> {
    let plain = ["catch", "false", "finally", "null", "true", "undefined", "nan", "Infinity", "x", "_a$1", "constant", "register"];
    let spelled = match r.below(8) {
        0..4 => ACTIONS[r.below(100)].to_string(),
        4 => format!("constant{}", r.below(70000)),
        5 => format!("register{}", r.below(300)),
        6 => format!("{}{:05}", r.pick(&["constant", "register"]), r.below(300)),
        _ => r.pick(&plain).to_string(),
    };
    let style = r.below(4);
    spelled
        .bytes()
        .map(|b| match style {
            0 => b.to_ascii_lowercase(),
            1 => b.to_ascii_uppercase(),
            2 if r.below(2) == 0 => b.to_ascii_uppercase(),
            _ => b,
        })
        .collect()
}

fn number(r: &mut Random) -> Vec<u8> {
    let mut s = String::new();
    if r.below(3) == 0 {
        s.push('-');
    }
    for _ in 0..r.below(5) {
        s.push((b'0' + r.below(10) as u8) as char);
    }
    if r.below(3) == 0 {
        s.push('.');
        for _ in 0..r.below(4) {
            s.push((b'0' + r.below(10) as u8) as char);
        }
    }
    if r.below(3) == 0 {
        s.push_str(r.pick(&["e", "E", "e+", "E-", "e-"]));
        for _ in 0..r.below(3) {
            s.push((b'0' + r.below(10) as u8) as char);
        }
    }
    s.into_bytes()
}

/// Number literals that a rule names, each with and without a minus.
pub fn literals() -> Vec<Vec<u8>> {
    let plain = "1. .5 1.e5 1e 1e+ 1e- 00012 0 0.0 0e0 0e99999999999999999999 0.000e-400 1e5 1E5 1e+5 1e-5 1.5e3 \
        255 256 65535 65536 2147483646 2147483647 2147483648 2147483649 4294967295 4294967296 \
        9007199254740991 9007199254740992 9007199254740993 9007199254740994 9007199254740991.0 9007199254740992.0 9007199254740992.5 \
        90071992547409920e-1 9007199254740992e22 9007199254740992e23 9007199254740992e-22 9007199254740992e-23 9007199254740993e1 \
        1e21 1e22 1e23 1e24 1e-21 1e-22 1e-23 0.1 0.2 0.3 0.0000000000000000000001 0.00000000000000000000001 1e00022 1e00023 \
        123456789012345678 1234567890123456789012345 1.7976931348623157e308 4.9e-324 1e308 1e309 5e-324 \
        infinity Infinity INFINITY infinit infinityy nan NaN NAN nann na true FALSE null Undefined register255 constant65535 \"ab\"";
    plain.split_whitespace().flat_map(|l| [l.to_string(), format!("-{l}"), format!("{l}, {l}")]).map(String::into_bytes).collect()
}

/// Digits around the bounds, of every length to 25, with points, exponents and signs; whole numbers around each width; words.
pub fn numbers(count: u64, seed: u64) -> impl Iterator<Item = Vec<u8>> {
    let mut r = Random::new(seed);
    (0..count).map(move |_| {
        let digits = |r: &mut Random, n: usize| -> String { (0..n).map(|_| (b'0' + r.below(10) as u8) as char).collect() };
        let mut s = match r.below(8) {
            0 => (9_007_199_254_740_992 - 6 + r.below(13) as u64).to_string(),
            1 => {
                let n = 17 + r.below(9);
                digits(&mut r, n)
            }
            2 => "0".repeat(1 + r.below(30)),
            3 => {
                let around = [128u64, 256, 32768, 65536, 2_147_483_648, 4_294_967_296, 1 << 52, 1 << 53];
                (around[r.below(around.len())] - 3 + r.below(7) as u64).to_string()
            }
            4 => return word(&mut r),
            5 => return number(&mut r),
            _ => {
                let n = 1 + r.below(17);
                digits(&mut r, n)
            }
        };
        if r.below(2) == 0 {
            s.insert(r.below(s.len() + 1), '.');
        }
        if r.below(4) == 0 {
            s = format!("{}{s}", "0".repeat(r.below(4)));
        }
        if r.below(3) != 0 {
            let e = r.below(61) as i64 - 30;
            let sign = if e >= 0 && r.below(2) == 0 { "+" } else { "" };
            s = format!("{s}{}{sign}{e}", r.pick(&["e", "E"]));
        }
        if r.below(3) == 0 {
            s.insert(0, '-');
        }
        s.into_bytes()
    })
}

fn string(r: &mut Random) -> Vec<u8> {
    let mut s = b"\"".to_vec();
    for _ in 0..r.below(6) {
        s.extend_from_slice(r.pick(&["a", "\\", "\\\\", "\\\"", "é", "€", " ", "\r", "{", "1"]).as_bytes());
    }
    if r.below(8) > 0 {
        s.push(b'"');
    }
    s
}

fn text(r: &mut Random) -> Vec<u8> {
    let mut s = Vec::new();
    for _ in 0..r.below(24) {
        match r.below(8) {
            0..3 => s.extend(word(r)),
            3 => s.extend(number(r)),
            4 => s.extend(string(r)),
            5 => s.extend_from_slice(r.pick(&[",", ":", "{", "}"]).as_bytes()),
            6 => s.extend_from_slice(r.pick(&["\n", "\r\n", "\r"]).as_bytes()),
            _ => s.push(b'\t'),
        }
        if r.below(4) > 0 {
            s.push(b' ');
        }
    }
    s
}

/// Texts of tokens, closed and unclosed, in no grammatical order.
pub fn words(count: u64, seed: u64) -> impl Iterator<Item = Vec<u8>> {
    let mut r = Random::new(seed);
    (0..count).map(move |_| text(&mut r))
}

/// The same with bytes changed, dropped, doubled or cut off.
pub fn mutate(count: u64, seed: u64) -> impl Iterator<Item = Vec<u8>> {
    let mut r = Random::new(seed ^ 0x5555);
    (0..count).map(move |_| {
        let mut s = text(&mut r);
        for _ in 0..1 + r.below(3) {
            if s.is_empty() {
                break;
            }
            let at = r.below(s.len());
            match r.below(4) {
                0 => s[at] = r.below(256) as u8,
                1 => drop(s.remove(at)),
                2 => s.insert(at, s[at]),
                _ => s.truncate(at),
            }
        }
        s
    })
}

/// One piece again and again, up to each size around the limit.
pub fn boundary() -> impl Iterator<Item = Vec<u8>> {
    let pieces: [&[u8]; 9] = [b",", b"a ", b"\n", b"Add\n", b"1 ", b"\"a\" ", b"a:", "\"é\"".as_bytes(), b"x1"];
    (0..9 * 3 * 4).map(move |i| {
        let piece = pieces[i % 9];
        let size = 65535 + i / 9 % 3;
        let mut s: Vec<u8> = piece.iter().copied().cycle().take(size).collect();
        match i / 27 {
            0 => {}
            1 => s[size - 1] = b'"',
            2 => s[size - 2..].copy_from_slice(b"\xc3\xa9"),
            _ => s[size - 5..].copy_from_slice(b" 1e55"),
        }
        s
    })
}

/// Texts that a rule of document 01 names: every action, the limits of constants and registers, the bench texts.
pub fn telling() -> Vec<Vec<u8>> {
    let mut all: Vec<Vec<u8>> = ACTIONS.iter().flat_map(|a| [a.to_string(), a.to_lowercase(), format!("{a}x")]).map(String::into_bytes).collect();
    let more = [
        "", "Push 1e5", "Push 1e5\n", "Push 2147483647, 2147483648", "Push -0, -0.0", "Push constant65536", "Push constant65535",
        "register255 register256 constant register constant00065535 register0255 CONSTANT7 constant+5", "\"", "\"\n", "GotoLabel \"ab",
        "GotoLabel \"é", "\"é\"", "\"é\n", "DefineFunction \"f\", -3 {}", "With { Add }", "With { a: }", "a: Add\na: Pop", "\u{feff}Add", "\r\r\n\n\r",
        "\"\\\\\" \"\\\"\" \"\\\n", "1.e5 1. -.5 - -- 1e 1e+ 1e+5", "1.2.3", "é", "Catch FALSE Finally nUll True undefined nan infinity",
    ];
    all.extend(more.iter().map(|t| t.as_bytes().to_vec()));
    all
}

/// The number of each kind by the oracle's name; of several numbers with one name the least.
static KINDS: OnceLock<HashMap<String, u64>> = OnceLock::new();

/// A line of the oracle's dump as numbers: kind, span, raw bounds. The raw text must be the part of the text there.
pub fn entry(text: &[u8], line: &str) -> [u64; 5] {
    let parts: Vec<&str> = line.split(' ').collect();
    let kind = KINDS.get_or_init(|| (0..19 * 65536).rev().map(|k| (kind_name(k), k)).collect())[parts[0]];
    let (start, end): (usize, usize) = (parts[1].parse().unwrap(), parts[2].parse().unwrap());
    let inner = (kind == 65536) as usize;
    let raw = &text[start + inner..end - inner];
    assert_eq!(parts[3], hex(raw), "the raw text is a part of the text");
    [kind, start as u64, end as u64, (start + inner) as u64, (end - inner) as u64]
}

/// A level of grammatical p-code: labels, actions of every shape, blocks within blocks.
fn level(r: &mut Random, depth: usize, s: &mut String) {
    for _ in 0..r.below(6) {
        match r.below(10) {
            0 => s.push_str(&format!("l{}: ", r.below(4))),
            1 => s.push_str(&format!("Push {}, \"a\\\"{}\", constant{}, nan, -{}.5e1\n", r.below(99999), r.below(9), r.below(70000), r.below(99))),
            2 => s.push_str("ConstantPool \"a\", \"b\"\r\n"),
            3 => s.push_str(&format!("If l{}\nJump l{}\n", r.below(4), r.below(4))),
            4 => s.push_str(&format!("GotoFrame2 true, FALSE, {}\nWaitForFrame {}, {}\n", r.below(70000), r.below(9), r.below(256))),
            5 if depth > 0 => block(r, depth, "With", s),
            6 if depth > 0 => block(r, depth, "DefineFunction \"f\", 2, \"x\", \"y\"", s),
            7 if depth > 0 => {
                block(r, depth, "Try register1", s);
                block(r, depth, "Catch", s);
            }
            _ => {
                s.push_str(ACTIONS[r.below(100)]);
                s.push('\n');
            }
        }
    }
}

fn block(r: &mut Random, depth: usize, before: &str, s: &mut String) {
    s.push_str(before);
    s.push_str(" {\n");
    level(r, depth - 1, s);
    s.push_str("}\n");
}

/// Texts by the grammar of document 01, mostly accepted by the Rust's parser too.
pub fn grammar(count: u64, seed: u64) -> impl Iterator<Item = Vec<u8>> {
    let mut r = Random::new(seed ^ 0xaaaa);
    (0..count).map(move |_| {
        let mut s = String::new();
        level(&mut r, 4, &mut s);
        s.into_bytes()
    })
}

/// An ordinary patch of about that many bytes: labels, pushes, branches and plain actions, a line each.
pub fn ordinary(size: usize, seed: u64) -> Vec<u8> {
    ordinary_within(size, seed, usize::MAX)
}

/// The same where a branch goes to one of the last so many labels: a movie has room for a jump over 32,767 bytes, and no more.
pub fn ordinary_within(size: usize, seed: u64, reach: usize) -> Vec<u8> {
    let mut r = Random::new(seed);
    let mut s = String::new();
    let mut label: usize = 0;
    while s.len() + 40 < size {
        match r.below(8) {
            0 => {
                label += 1;
                s.push_str(&format!("loc{label:04x}: "));
            }
            1 => s.push_str(&format!("Push \"pallet{}\", {}, register{}\n", r.below(50), r.below(1000), r.below(4))),
            2 => s.push_str(&format!("Push constant{}, {}.5, true\n", r.below(300), r.below(90))),
            3 if label > 0 => {
                let passed = label.saturating_sub(reach);
                s.push_str(&format!("If loc{:04x}\n", passed + 1 + r.below(label - passed)));
            }
            4 => s.push_str("GetMember\nCallMethod\nPop\n"),
            5 => s.push_str("    Push \"_root\"\n    GetVariable\n"),
            _ => s.push_str(r.pick(&["Add2\n", "SetMember\n", "Not\n", "StoreRegister 1\n", "Equals2\n", "Trace\n", "PushDuplicate\n"])),
        }
    }
    s.push_str("End\n");
    s.into_bytes()
}

/// A line for each action with operands that the grammar takes, its number, its value count and whether its name is empty.
pub fn one_action_each() -> Vec<(String, usize, usize, bool)> {
    let flags = ", true".repeat(9);
    let mut all = Vec::new();
    for (number, name) in ACTIONS.iter().enumerate() {
        let operands = match *name {
            "GetUrl" => vec![(r#" "a", "b""#.to_string(), 0, false)],
            "GetUrl2" => vec![(" true, false, 1".into(), 0, false)],
            "GotoFrame2" => vec![(" false, true".into(), 0, false), (" true, true, 7".into(), 0, false)],
            "GotoLabel" | "SetTarget" => vec![(r#" "a""#.into(), 0, false)],
            "If" | "Jump" => vec![(" a".into(), 0, false)],
            "GotoFrame" | "StoreRegister" | "WaitForFrame2" => vec![(" 7".into(), 0, false)],
            "WaitForFrame" => vec![(" 7, 8".into(), 0, false)],
            "With" | "Try" => vec![(" {}".into(), 0, false)],
            "DefineFunction" => vec![(r#" "", 0 {}"#.into(), 0, true), (r#" "f", 0 {}"#.into(), 0, false)],
            "DefineFunction2" => vec![(format!(r#" "", 0, 1{flags} {{}}"#), 0, true), (format!(r#" "f", 0, 1{flags} {{}}"#), 0, false)],
            "Push" => (0..5).map(|n| (format!(" {}", vec!["1"; n].join(", ")), n, false)).collect(),
            _ => vec![(String::new(), 0, false)],
        };
        all.extend(operands.into_iter().map(|(o, values, empty)| (format!("{name}{o}"), number, values, empty)));
    }
    all
}

/// The oracle's name of a kind. What a string carries is no part of it: the Rust does not tell whether a string was closed.
pub fn kind_name(kind: u64) -> String {
    let carried = kind % 65536;
    match kind / 65536 {
        4 => format!("Register:{carried}"),
        5 => format!("Constant:{carried}"),
        6 => format!("Action:{}", ACTIONS.get(carried as usize).unwrap_or(&"")),
        place => PLAIN[place as usize].into(),
    }
}

const PLAIN: [&str; 19] = [
    "Newline", "String", "Float", "Integer", "", "", "", "Identifier", "Colon", "Comma", "OpenBrace", "CloseBrace", "True",
    "False", "Null", "Undefined", "Catch", "Finally", "Unknown",
];

/// The names of the actions in the order of the Rust's enum.
pub const ACTIONS: [&str; 100] = [
    "Add", "Add2", "And", "AsciiToChar", "BitAnd", "BitLShift", "BitOr", "BitRShift", "BitURShift", "BitXor", "Call",
    "CallFunction", "CallMethod", "CastOp", "CharToAscii", "CloneSprite", "ConstantPool", "Decrement",
    "DefineFunction", "DefineFunction2", "DefineLocal", "DefineLocal2", "Delete", "Delete2", "Divide", "End",
    "EndDrag", "Enumerate", "Enumerate2", "Equals", "Equals2", "Extends", "GetMember", "GetProperty", "GetTime",
    "GetUrl", "GetUrl2", "GetVariable", "GotoFrame", "GotoFrame2", "GotoLabel", "Greater", "If", "ImplementsOp",
    "Increment", "InitArray", "InitObject", "InstanceOf", "Jump", "Less", "Less2", "MBAsciiToChar", "MBCharToAscii",
    "MBStringExtract", "MBStringLength", "Modulo", "Multiply", "NewMethod", "NewObject", "NextFrame", "Not", "Or",
    "Play", "Pop", "PrevFrame", "Push", "PushDuplicate", "RandomNumber", "RemoveSprite", "Return", "SetMember",
    "SetProperty", "SetTarget", "SetTarget2", "SetVariable", "StackSwap", "StartDrag", "Stop", "StopSounds",
    "StoreRegister", "StrictEquals", "StringAdd", "StringEquals", "StringExtract", "StringGreater", "StringLength",
    "StringLess", "Subtract", "TargetPath", "Throw", "ToInteger", "ToNumber", "ToString", "ToggleQuality", "Trace",
    "Try", "TypeOf", "WaitForFrame", "WaitForFrame2", "With",
];
