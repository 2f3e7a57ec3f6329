//! What two builds of the library are measured on.

use crate::texts;

/// 63 Try, each with a target, around one Push of many operands.
fn nested_tries() -> Vec<u8> {
    let mut text = "Try register1 {\n".repeat(63);
    text.push_str("Push 1");
    text.push_str(&",1".repeat(30_000));
    text.push('\n');
    text.push_str(&"}\ncatch {}\n".repeat(63));
    text.into_bytes()
}

pub fn subjects() -> Vec<(&'static str, Vec<u8>)> {
    vec![
        ("an action alone", b"Add\n".to_vec()),
        ("ordinary patch, 1 KB", texts::ordinary(1024, 1)),
        ("ordinary patch, 4 KB", texts::ordinary(4096, 1)),
        ("ordinary patch, 8 KB", texts::ordinary(8192, 1)),
        ("ordinary patch, 16 KB", texts::ordinary(16_384, 1)),
        ("ordinary patch, 64 KB", texts::ordinary(65_536, 1)),
        ("labels, all distinct", (0..8000).map(|i| format!("loc{i:04x}:")).collect::<String>().into_bytes()),
        ("labels, all the same", "a:".repeat(32_768).into_bytes()),
        ("a Push of 30,000 values", format!("Push 1{}\n", ",1".repeat(29_999)).into_bytes()),
        ("63 nested Try around it", nested_tries()),
        ("newlines behind each Try", format!("Try {{\n}}{}Add\n", "\n".repeat(11)).repeat(2700).into_bytes()),
    ]
}
