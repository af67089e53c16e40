//! The C header says what the Rust side says: the same sentences, names, numbers and functions.

use shqemtuli::{calls, Refusal};

const HEADER: &str = include_str!("../include/shelf.h");
const RAW: &str = include_str!("../src/raw.rs");

/// The text with comment stars dropped and each run of white space made one space.
fn flat(text: &str) -> String {
    let words = text.split_whitespace().filter(|word| *word != "*");
    words.collect::<Vec<_>>().join(" ")
}

/// `OtherImage` as `OTHER_IMAGE`.
fn upper_case(name: &str) -> String {
    let mut upper = String::new();
    for letter in name.chars() {
        if letter.is_uppercase() && !upper.is_empty() {
            upper.push('_');
        }
        upper.extend(letter.to_uppercase());
    }
    upper
}

#[test]
fn each_refusal_is_there_with_its_sentence() {
    let header = flat(HEADER);
    for refusal in Refusal::ALL {
        let name = upper_case(&format!("{refusal:?}"));
        let number = refusal.number();
        let entry = format!("/* {refusal} */ SHQEMTULI_{name} = {number}");
        assert!(header.contains(&entry), "{entry}");
    }
}

/// The functions declared in lines that start so, each with how many parameters it has.
fn declared(text: &str, start: &str) -> Vec<(String, usize)> {
    let lines = text.split('\n').map(str::trim_start);
    let starts = lines.filter(|line| line.starts_with(start));
    let declaration = |line: &str| {
        let from = text.find(line).unwrap() + start.len();
        let (name, rest) = text[from..].split_once('(').unwrap();
        let parameters = rest.split_once(')').unwrap().0.split(',');
        let many = parameters.filter(|parameter| !parameter.trim().is_empty());
        (format!("shqemtuli_{name}"), many.count())
    };
    starts.map(declaration).collect()
}

#[test]
fn each_function_is_there_with_its_parameters() {
    let in_rust = declared(RAW, "pub fn shqemtuli_");
    assert_eq!(in_rust.len(), 20);
    assert_eq!(declared(HEADER, "uint64_t shqemtuli_"), in_rust);
}

#[test]
fn each_length_is_the_same() {
    let lengths = [
        ("SHELF", calls::SHELF_BYTES),
        ("PLACE", calls::PLACE_BYTES),
        ("FOUND", calls::FOUND_BYTES),
        ("COST", calls::COST_BYTES),
        ("COUNTS", calls::COUNTS_BYTES),
        ("WRONG", calls::WRONG_BYTES),
    ];
    for (name, length) in lengths {
        let line = format!("#define SHQEMTULI_{name}_BYTES {length}\n");
        assert!(HEADER.contains(&line), "{line}");
    }
}
