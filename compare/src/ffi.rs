//! The boundary of include/pcode.h, with safe functions over it.

mod c {
    unsafe extern "C" {
        pub fn pcode_lex(text: *const u8, text_len: usize, table: *mut u64, table_len: usize, out: *mut u64) -> u64;
        pub fn pcode_token(word: u64, out: *mut u64);
        pub fn pcode_delta(action: usize, values: usize, name_is_empty: bool, out: *mut i32) -> u64;
        pub fn pcode_value(text: *const u8, text_len: usize, kind: u64, start: usize, end: usize, integer: *mut i32, out: *mut u64) -> u64;
        pub fn pcode_raw_text(text: *const u8, text_len: usize, start: usize, end: usize, out: *mut u64);
        pub fn pcode_read(
            text: *const u8, text_len: usize, tokens: *mut u64, tokens_len: usize, actions: *mut u64, actions_len: usize,
            operands: *mut u64, operands_len: usize, levels: *mut u64, levels_len: usize, labels: *mut u64, labels_len: usize,
            out: *mut u64,
        ) -> u64;
        pub fn pcode_export(
            text: *const u8, text_len: usize, tokens: *mut u64, tokens_len: usize, actions: *mut u64, actions_len: usize,
            operands: *mut u64, operands_len: usize, levels: *mut u64, levels_len: usize, labels: *mut u64, labels_len: usize,
            as_printed: bool, out: *mut u8, out_len: usize, told: *mut u64,
        ) -> u64;
        pub fn pcode_action(word: u64, out: *mut u64);
        pub fn pcode_operand(word: u64, out: *mut u64);
        pub fn pcode_level(words: *const u64, out: *mut u64, height: *mut i64);
        pub fn pcode_label(word: u64, out: *mut u64);
        pub fn pcode_action_name(action: usize, name: *mut u8, name_len: usize) -> usize;
        pub fn pcode_line_column(text: *const u8, text_len: usize, at: usize, out: *mut u64);
    }
}

pub struct Token {
    pub kind: u64,
    pub span: (u64, u64),
    pub raw: (u64, u64),
}

/// The token count, or a refusal's number and place.
pub fn lex(text: &[u8], table: &mut [u64]) -> Result<u64, (u64, u64)> {
    let mut out = [0u64; 1];
    let number = unsafe { c::pcode_lex(text.as_ptr(), text.len(), table.as_mut_ptr(), table.len(), out.as_mut_ptr()) };
    if number == 0 { Ok(out[0]) } else { Err((number, out[0])) }
}

pub fn token(word: u64) -> Token {
    let mut out = [0u64; 5];
    unsafe { c::pcode_token(word, out.as_mut_ptr()) };
    Token { kind: out[0], span: (out[1], out[2]), raw: (out[3], out[4]) }
}

pub fn raw_text(text: &[u8], start: u64, end: u64) -> (u64, u64) {
    let mut out = [0u64; 2];
    unsafe { c::pcode_raw_text(text.as_ptr(), text.len(), start as usize, end as usize, out.as_mut_ptr()) };
    (out[0], out[1])
}

/// The delta of an action, or a refusal's number.
pub fn delta(action: usize, values: usize, name_is_empty: bool) -> Result<i32, u64> {
    let mut out = [0i32; 1];
    let number = unsafe { c::pcode_delta(action, values, name_is_empty, out.as_mut_ptr()) };
    if number == 0 { Ok(out[0]) } else { Err(number) }
}

/// A pushed value: the case in the order of `PushValue`, and what that case holds.
#[derive(PartialEq, Eq, Debug)]
pub struct Value {
    pub case: u64,
    pub integer: i32,
    pub bits: u64,
    pub bounds: (u64, u64),
}

/// The value of a token, or a refusal's number; a refusal that writes is a failure of its own.
pub fn value(text: &[u8], kind: u64, start: u64, end: u64) -> Result<Value, u64> {
    let (mut integer, mut out) = ([i32::MIN + 7; 1], [0xdead_beef_u64; 4]);
    let before = (integer, out);
    let (start, end) = (start as usize, end as usize);
    let number = unsafe { c::pcode_value(text.as_ptr(), text.len(), kind, start, end, integer.as_mut_ptr(), out.as_mut_ptr()) };
    if number != 0 {
        assert_eq!((integer, out), before, "refusal {number} wrote");
        return Err(number);
    }
    Ok(Value { case: out[0], integer: integer[0], bits: out[1], bounds: (out[2], out[3]) })
}

/// Reading into lent tables of tokens, actions, operands, levels and labels: the refusal's number, or 0.
pub fn read(text: &[u8], tables: [&mut [u64]; 5], out: &mut [u64; 5]) -> u64 {
    let [tokens, actions, operands, levels, labels] = tables;
    unsafe {
        c::pcode_read(
            text.as_ptr(), text.len(), tokens.as_mut_ptr(), tokens.len(), actions.as_mut_ptr(), actions.len(),
            operands.as_mut_ptr(), operands.len(), levels.as_mut_ptr(), levels.len(), labels.as_mut_ptr(), labels.len(),
            out.as_mut_ptr(),
        )
    }
}

/// Export over lent tables into a lent output: the refusal's number, or 0.
pub fn export(text: &[u8], tables: [&mut [u64]; 5], as_printed: bool, out: &mut [u8], told: &mut [u64; 6]) -> u64 {
    let [tokens, actions, operands, levels, labels] = tables;
    unsafe {
        c::pcode_export(
            text.as_ptr(), text.len(), tokens.as_mut_ptr(), tokens.len(), actions.as_mut_ptr(), actions.len(),
            operands.as_mut_ptr(), operands.len(), levels.as_mut_ptr(), levels.len(), labels.as_mut_ptr(), labels.len(),
            as_printed, out.as_mut_ptr(), out.len(), told.as_mut_ptr(),
        )
    }
}

pub struct Action {
    pub name: usize,
    pub level: usize,
    pub first: usize,
    pub count: usize,
}

pub fn action(word: u64) -> Action {
    let mut out = [0u64; 4];
    unsafe { c::pcode_action(word, out.as_mut_ptr()) };
    let [name, level, first, count] = out.map(|n| n as usize);
    Action { name, level, first, count }
}

/// The action and the token of an operand, and whether it is a string without its closing quote.
pub fn operand(word: u64) -> (usize, usize, bool) {
    let mut out = [0u64; 3];
    unsafe { c::pcode_operand(word, out.as_mut_ptr()) };
    assert!(out[2] <= 1, "a flag of {}", out[2]);
    (out[0] as usize, out[1] as usize, out[2] == 1)
}

pub struct Level {
    pub block: u64,
    pub owner: usize,
    pub actions: usize,
    /// The height, or the first action whose delta is undetermined.
    pub net: Result<i64, i64>,
    pub unclosed: usize,
}

pub fn level(words: &[u64; 2]) -> Level {
    let (mut out, mut height) = ([0u64; 6], [0i64; 1]);
    unsafe { c::pcode_level(words.as_ptr(), out.as_mut_ptr(), height.as_mut_ptr()) };
    let net = if out[3] == 0 { Ok(height[0]) } else { Err(out[4] as i64) };
    Level { block: out[0], owner: out[1] as usize, actions: out[2] as usize, net, unclosed: out[5] as usize }
}

/// The level, the token and the position of a label.
pub fn label(word: u64) -> (usize, usize, usize) {
    let mut out = [0u64; 3];
    unsafe { c::pcode_label(word, out.as_mut_ptr()) };
    (out[0] as usize, out[1] as usize, out[2] as usize)
}

/// The length of an action's name, which is written if there is room.
pub fn action_name(action: usize, name: &mut [u8]) -> usize {
    unsafe { c::pcode_action_name(action, name.as_mut_ptr(), name.len()) }
}

pub fn line_column(text: &[u8], at: usize) -> (u64, u64) {
    let mut out = [0u64; 2];
    unsafe { c::pcode_line_column(text.as_ptr(), text.len(), at, out.as_mut_ptr()) };
    (out[0], out[1])
}
