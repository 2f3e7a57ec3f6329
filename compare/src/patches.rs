//! Texts for reading: pieces in grammatical order, and slips in it. A piece is one token, so that a slip is one too.

use crate::texts::{ACTIONS, Random};

/// An action of each form, its tokens parted by spaces.
pub const TEMPLATES: [&str; 27] = [
    "Push 1 , 1",
    "ConstantPool \"s\" , \"s\"",
    "GetUrl \"s\" , \"s\"",
    "GetUrl2 true , true , 1",
    "GotoFrame 1",
    "GotoFrame2 true , true , 1",
    "GotoFrame2 false , true",
    "GotoLabel \"s\"",
    "SetTarget \"s\"",
    "If a",
    "Jump a",
    "StoreRegister 1",
    "WaitForFrame 1 , 1",
    "WaitForFrame2 1",
    "DefineFunction \"s\" , 0 { }",
    "DefineFunction \"s\" , 1 , \"s\" { }",
    "DefineFunction \"s\" , 2 , \"s\" , \"s\" { }",
    "DefineFunction \"s\" , 3 , \"s\" , \"s\" , \"s\" { }",
    "DefineFunction2 \"s\" , 0 , 1 , true , true , true , true , true , true , true , true , true { }",
    "DefineFunction2 \"s\" , 1 , 1 , true , true , true , true , true , true , true , true , true , 1 , \"s\" { }",
    "DefineFunction2 \"s\" , 2 , 1 , true , true , true , true , true , true , true , true , true , 1 , \"s\" , 1 , \"s\" { }",
    "With { \n Add \n }",
    "Try { } \n catch { } \n finally { }",
    "Try \"s\" { }",
    "Try register1 { }",
    "Add \n Add",
    "a : a : Add",
];

/// One token of each kind, and numbers on both sides of each width.
pub const PIECES: [&str; 16] =
    ["\n", ",", ":", "{", "}", "a", "Add", "Push", "1", "1.5", "\"s\"", "true", "false", "register1", "catch", "finally"];

const NUMBERS: [&str; 14] = ["0", "1", "2", "3", "-1", "-0", "007", "255", "256", "65535", "65536", "2147483647", "2147483648", "1e2"];
const STRINGS: [&str; 5] = ["\"\"", "\"s\"", "\"a\\\"b\"", "\"é\"", "\"\\\\\""];
const NAMES: [&str; 9] = ["a", "A", "b", "aa", "a1", "nan", "Infinity", "_", "$"];
const VALUES: [&str; 13] =
    ["true", "FALSE", "null", "undefined", "nan", "INFINITY", "register0", "Register255", "constant65535", "1.5", "-2.", "-.5", "1e99"];

fn pick(r: &mut Random, from: &[&'static str]) -> &'static str {
    from[r.below(from.len())]
}

fn value(r: &mut Random) -> &'static str {
    match r.below(3) {
        0 => pick(r, &NUMBERS),
        1 => pick(r, &STRINGS),
        _ => pick(r, &VALUES),
    }
}

fn newline(r: &mut Random) -> &'static str {
    pick(r, &["\n", "\n", "\n", "\r\n", "\r", "\n\n"])
}

/// Any token, as likely as not one that fits in no place.
fn any(r: &mut Random) -> &'static str {
    match r.below(6) {
        0 => value(r),
        1 => pick(r, &NAMES),
        2 => ACTIONS[r.below(100)],
        3 => pick(r, &["With", "Try", "DefineFunction", "DefineFunction2", "Push", "GotoFrame2", "é", "\"open", "1e5"]),
        _ => pick(r, &PIECES),
    }
}

/// A template with other tokens of the same kinds, and now and then a wrong number of parameters.
fn action(r: &mut Random, depth: usize, to: &mut Vec<&'static str>) {
    if depth == 0 || r.below(3) == 0 {
        to.push(ACTIONS[[0, 25, 60, 66, 76][r.below(5)]]);
        return;
    }
    let template = TEMPLATES[r.below(TEMPLATES.len() - 2)];
    for token in template.split(' ') {
        match token {
            "1" if template.starts_with("Push") => to.push(value(r)),
            "1" => to.push(if r.below(8) == 0 { pick(r, &NUMBERS) } else { "1" }),
            "\"s\"" => to.push(pick(r, &STRINGS)),
            "true" => to.push(pick(r, &["true", "false"])),
            "a" => to.push(pick(r, &NAMES)),
            "{" => {
                to.push("{");
                level(r, depth - 1, 2, to);
            }
            plain => to.push(plain),
        }
    }
}

fn level(r: &mut Random, depth: usize, items: usize, to: &mut Vec<&'static str>) {
    if r.below(4) == 0 {
        to.push(newline(r));
    }
    for _ in 0..r.below(items + 1) {
        if r.below(4) == 0 {
            to.extend([pick(r, &NAMES), ":"]);
        }
        action(r, depth, to);
        to.push(newline(r));
    }
}

fn slip(r: &mut Random, pieces: &mut Vec<&'static str>) {
    let at = r.below(pieces.len() + 1);
    let inside = at < pieces.len();
    match r.below(6) {
        0 => pieces.insert(at, any(r)),
        1 if inside => drop(pieces.remove(at)),
        2 if inside => pieces[at] = any(r),
        3 if at + 1 < pieces.len() => pieces.swap(at, at + 1),
        4 if inside => pieces.insert(at, pieces[at]),
        5 => pieces.truncate(at),
        _ => {}
    }
}

fn joined(pieces: &[&str]) -> Vec<u8> {
    pieces.join(" ").into_bytes()
}

/// Small grammatical texts with up to two slips: tokens added, dropped, exchanged, swapped, doubled or cut off.
pub fn slips(count: u64, seed: u64) -> impl Iterator<Item = Vec<u8>> {
    let mut r = Random::new(seed ^ 0x3333);
    (0..count).map(move |_| {
        let mut pieces = Vec::new();
        level(&mut r, 2, 3, &mut pieces);
        for _ in 0..r.below(3) {
            slip(&mut r, &mut pieces);
        }
        joined(&pieces)
    })
}

/// Blocks within blocks, mostly 62 to 66 of them, now and then with a way back up and down again, half of them closed, some with a
/// slip.
pub fn deep(count: u64, seed: u64) -> impl Iterator<Item = Vec<u8>> {
    let mut r = Random::new(seed ^ 0x7777);
    (0..count).map(move |_| {
        let mut pieces: Vec<&str> = Vec::new();
        let mut open = 0;
        for turn in 0..1 + r.below(4) / 3 {
            close(turn * r.below(20), &mut open, &mut pieces);
            let bottom = if r.below(4) == 0 { r.below(75) } else { 62 + r.below(5) };
            while open < bottom {
                pieces.extend(opening(&mut r));
                open += 1;
            }
        }
        close(r.below(2) * open, &mut open, &mut pieces);
        if r.below(4) == 0 {
            slip(&mut r, &mut pieces);
        }
        joined(&pieces)
    })
}

fn close(blocks: usize, open: &mut usize, pieces: &mut Vec<&str>) {
    for _ in 0..blocks.min(*open) {
        pieces.extend(["}", "\n"]);
        *open -= 1;
    }
}

fn opening(r: &mut Random) -> &'static [&'static str] {
    let plain: &[&[&str]] = &[
        &["Try", "{"],
        &["Try", "{", "}", "\n", "catch", "{"],
        &["Try", "{", "}", "\n", "finally", "{"],
        &["DefineFunction", "\"f\"", ",", "0", "{"],
        &["a", ":", "With", "{"],
        &["Add", "\n", "With", "{"],
    ];
    plain.get(r.below(30)).unwrap_or(&&["With", "{"][..])
}

/// A few names written again and again, in levels that open and close.
pub fn labels(count: u64, seed: u64) -> impl Iterator<Item = Vec<u8>> {
    let mut r = Random::new(seed ^ 0x1111);
    (0..count).map(move |_| {
        let mut pieces: Vec<&str> = Vec::new();
        let mut open = 0;
        let names = 1 + r.below(NAMES.len());
        for _ in 0..r.below(24) {
            match r.below(10) {
                0 | 1 => pieces.extend(["Add", "\n"]),
                2 => {
                    pieces.extend(["With", "{"]);
                    open += 1;
                }
                3 if open > 0 => {
                    pieces.extend(["}", "\n"]);
                    open -= 1;
                }
                4 => pieces.extend(["If", pick(&mut r, &NAMES), "\n"]),
                5 => pieces.extend([pick(&mut r, &NAMES[..names]), ":", newline(&mut r)]),
                _ => pieces.extend([pick(&mut r, &NAMES[..names]), ":"]),
            }
        }
        close(open, &mut open, &mut pieces);
        if r.below(8) == 0 {
            slip(&mut r, &mut pieces);
        }
        joined(&pieces)
    })
}

/// Starts of actions, to have all short texts behind each of them.
const HEADS: [&str; 27] = [
    "", "Push ", "ConstantPool ", "GetUrl ", "GetUrl2 ", "GotoFrame ", "GotoFrame2 ", "GotoLabel ", "SetTarget ", "If ", "Jump ",
    "StoreRegister ", "WaitForFrame ", "WaitForFrame2 ", "DefineFunction ", "DefineFunction \"f\", ", "DefineFunction \"f\", 2, ",
    "DefineFunction2 ", "DefineFunction2 \"f\", ", "DefineFunction2 \"f\", 1, 1, true, true, true, true, true, true, true, ",
    "DefineFunction2 \"f\", 2, 1, true, true, true, true, true, true, true, true, true, 1, \"a\"",
    "DefineFunction2 \"f\", 0, 1, true, true, true, true, true, true, true, true, true ", "With { ", "Try { ", "Try \"s\" { } ",
    "Try { }\ncatch { ", "Try { }\ncatch { }\n",
];

/// Every text over an alphabet up to a length, behind each start of an action.
pub fn headed(length: usize) -> impl Iterator<Item = Vec<u8>> {
    HEADS.iter().flat_map(move |head| crate::texts::exhaustive("operands", length).map(move |t| [head.as_bytes(), &t].concat()))
}

/// All ways to drop, exchange or add one piece.
fn edited<'a>(pieces: &[&'a str]) -> Vec<Vec<&'a str>> {
    let mut all = Vec::new();
    for at in 0..=pieces.len() {
        let (before, behind) = pieces.split_at(at);
        all.extend(PIECES.iter().map(|p| [before, &[*p], behind].concat()));
        if let Some((_, behind)) = behind.split_first() {
            all.push([before, behind].concat());
            all.extend(PIECES.iter().map(|p| [before, &[*p], behind].concat()));
        }
    }
    all
}

/// Every template with so many edits, none to two.
pub fn edits(count: usize) -> impl Iterator<Item = Vec<u8>> {
    TEMPLATES.iter().flat_map(move |template| {
        let plain: Vec<&str> = template.split(' ').collect();
        let once = if count > 0 { edited(&plain) } else { vec![] };
        let twice = once.clone().into_iter().filter(move |_| count > 1).flat_map(|pieces| edited(&pieces));
        [plain].into_iter().chain(once).chain(twice).map(|pieces| joined(&pieces))
    })
}

/// Every form of Try: its target, its parts, with one newline or more between them, an empty body or one with a label and actions.
pub fn tries() -> impl Iterator<Item = Vec<u8>> {
    let targets = ["", "\"e\" ", "\"\" ", "register3 "];
    let parts = [&[][..], &["catch"], &["finally"], &["catch", "finally"], &["finally", "catch"]];
    let bodies = ["{}", "{\nin: Pop\nin: CallMethod\nAdd\nStartDrag\n}", "{ Try \"x\" {}\ncatch {}\n}"];
    let newlines = ["\n", "\r\n\n", " "];
    (0..4 * 5 * 3 * 3).map(move |i| {
        let (body, newline) = (bodies[i / 20 % 3], newlines[i / 60]);
        let mut s = format!("Try {}{body}", targets[i % 4]);
        parts[i / 4 % 5].iter().for_each(|part| s += &format!("{newline}{part} {body}"));
        (s + "\nAdd").into_bytes()
    })
}

pub fn nested(blocks: usize) -> String {
    "With {".repeat(blocks) + &"}\n".repeat(blocks)
}

/// Texts that document 01 names, beside those of the tokens.
pub fn telling() -> Vec<Vec<u8>> {
    let mut all = crate::texts::telling();
    all.extend(crate::texts::one_action_each().into_iter().map(|a| a.0.into_bytes()));
    all.extend((0..70).map(|n| nested(n).into_bytes()));
    let more = [
        "Push register256", "Push register255", "StoreRegister 255", "StoreRegister 256", "StoreRegister -0", "GotoFrame 65536",
        "start: Push \"ok\", 3\nWith {\nTrace\ndone: }\nJump start\n", "Try \"e\" {\n}", "Try \"e\" {\n}\ncatch {\n}",
        "Try {\n}\n\ncatch {\n}\n\nfinally {\n}", "Try \"\" {}\ncatch {}", "Try register1 {}\nfinally {}", "Try {} catch {}", "With\n{}",
        "}", "a", "a:", "Add }", "Push 1,", "Push 1,\n",
    ];
    all.extend(more.iter().map(|t| t.as_bytes().to_vec()));
    all
}

/// Texts as long as can be, with as many entries as there can be in one of the tables, and one more byte.
pub fn large() -> impl Iterator<Item = Vec<u8>> {
    let pieces = [
        "Add\n", "Push 1", ",1", "With{}\n", "a:", "If a\n", "Try{}\ncatch{}\nfinally{}\n", "CallMethod\n", "With{a:\nAdd\n}\n", "Push\n",
    ];
    let mut all: Vec<String> = pieces.iter().map(|p| p.repeat(65_536 / p.len())).collect();
    all.push("Push 1".to_string() + &",1".repeat(32_765));
    all.push("ConstantPool \"\"".to_string() + &",\"\"".repeat(21_840));
    all.push((0..9_000).map(|n| format!("x{n}:")).collect());
    all.push((0..4_500).map(|n| format!("x{n}:")).collect::<String>().repeat(2));
    all.push(nested(64) + &nested(64).repeat(127));
    all.push("DefineFunction \"f\", 16000".to_string() + &",\"\"".repeat(16_000) + "{}");
    let longer = |t: String| [t.clone(), t.clone() + "\n", t.clone() + &" ".repeat(65_537 - t.len())];
    all.into_iter().flat_map(longer).map(|t| t.into_bytes())
}

/// Texts around each size of scratch, in bytes and in tokens: labels, or values of a Push, behind blanks; read, and refused at the end.
pub fn sizes() -> impl Iterator<Item = Vec<u8>> {
    let dense = |tokens: usize| ["a:".repeat(tokens / 2) + &"\n".repeat(tokens % 2), "Push 1".to_string() + &",1".repeat(tokens / 2 - 1)];
    let mut all = Vec::new();
    for size in [1_024, 4_096, 16_384, 65_536] {
        for bytes in [size - 1, size, size + 1] {
            for tokens in [size / 4 - 1, size / 4, size / 4 + 1, size / 4 + 2, size / 2, size - 6] {
                for text in dense(tokens) {
                    let blanks = " ".repeat(bytes - 2 - text.len().min(bytes - 2));
                    all.extend([blanks.clone() + &text, blanks + &text + " {"]);
                }
            }
        }
    }
    all.into_iter().map(String::into_bytes)
}
