//! One call on one text, whose instructions compare/instructions counts. Without words it lists the texts.

#[allow(dead_code)]
mod ffi;
mod subjects;
#[allow(dead_code)]
mod texts;

fn main() {
    let words: Vec<String> = std::env::args().skip(1).collect();
    let subjects = subjects::subjects();
    let [call, index] = words.as_slice() else {
        subjects.iter().for_each(|(what, text)| println!("{:>5} {what}", text.len()));
        return;
    };
    let text = &subjects[index.parse::<usize>().expect("a text's number")].1;
    let mut tables = [(); 5].map(|_| vec![0u64; text.len() + 2]);
    let accepted = match call.as_str() {
        "read" => ffi::read(text, tables.each_mut().map(|t| &mut t[..]), &mut [0; 5]) == 0,
        "lex" => ffi::lex(text, &mut tables[0]).is_ok(),
        _ => panic!("no such call: {call}"),
    };
    assert!(accepted, "the text is accepted");
}
