//! The examples of the papers, read from the text beside this file.

mod support;

use std::collections::HashMap;

use support::{judged, Line};

const TEXT: &str = include_str!("paper_examples.txt");

struct Example<'a> {
    name: &'a str,
    library: &'a str,
    verdicts: Vec<Line>,
    user: Vec<u8>,
}

#[test]
fn all_examples_of_the_papers() {
    let (libraries, examples) = parse();
    assert_eq!(examples.len(), 51);
    let mut verdicts = 0;
    for example in examples {
        let found = judged(&libraries[example.library], &example.user);
        verdicts += example.verdicts.len();
        assert_eq!(found, Ok(example.verdicts), "{}", example.name);
    }
    assert_eq!(verdicts, 77);
}

fn parse() -> (HashMap<&'static str, Vec<u8>>, Vec<Example<'static>>) {
    let mut libraries = HashMap::new();
    let mut examples: Vec<Example> = Vec::new();
    for line in TEXT.lines() {
        if let Some(rest) = line.strip_prefix("library ") {
            let (head, bytes) = rest.split_once(": ").expect("bytes of a library");
            libraries.insert(first_word(head), hex(bytes));
        } else if line.starts_with('P') {
            let (name, library) = line.rsplit_once("] lib ").expect("a library's name");
            examples.push(Example {
                name,
                library,
                verdicts: Vec::new(),
                user: Vec::new(),
            });
        } else if let (Some(text), Some(example)) = (line.strip_prefix("  "), examples.last_mut()) {
            if let Some(verdicts) = text.strip_prefix("lines ") {
                example.verdicts = verdicts.split(" | ").map(verdict).collect();
            } else if !text.starts_with("note ") {
                example.user = hex(text);
            }
        }
    }
    (libraries, examples)
}

fn first_word(text: &str) -> &str {
    text.split(' ').next().unwrap_or(text)
}

fn verdict(text: &str) -> Line {
    let numbers: Vec<u8> = text
        .split(' ')
        .map(|digits| digits.parse().expect("a number"))
        .collect();
    let [rule, record, class] = numbers[..] else {
        panic!("three numbers: {text}");
    };
    (rule, record, class)
}

fn hex(text: &str) -> Vec<u8> {
    let byte = |digits| u8::from_str_radix(digits, 16).expect("a byte");
    text.split_whitespace().map(byte).collect()
}
