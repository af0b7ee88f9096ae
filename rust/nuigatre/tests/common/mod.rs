//! The rows of `tests/rows` and `crates/wc_tests/data` (docs/ROWS.md): calls with their input and the answer that is wanted.
//! They are not part of the package: a test that reads them runs in the repository alone.

use std::collections::HashMap;
use std::fs;
use std::path::Path;

/// A call, the lines of its input and of its answer.
pub struct Row {
    pub name: String,
    pub call: String,
    pub arguments: Vec<String>,
    pub input: Vec<String>,
    pub answer: Vec<String>,
}

/// The folders of rows, each of which may have a file.
const FOLDERS: [&str; 2] = ["../../tests/rows", "../../crates/wc_tests/data"];

/// The rows of a file.
pub fn rows_of(file: &str) -> Vec<Row> {
    let mut rows = Vec::new();
    for folder in FOLDERS {
        let path = Path::new(env!("CARGO_MANIFEST_DIR")).join(folder);
        let mut fixtures = HashMap::new();
        for paragraph in fs::read_to_string(path.join(file))
            .unwrap_or_default()
            .split("\n\n")
        {
            read_paragraph(paragraph, &mut fixtures, &mut rows);
        }
    }
    assert!(!rows.is_empty(), "this test needs the repository: {file}");
    rows
}

fn read_paragraph(
    paragraph: &str,
    fixtures: &mut HashMap<String, Vec<String>>,
    rows: &mut Vec<Row>,
) {
    let (mut head, mut call, mut input, mut answer) = (("", ""), "", Vec::new(), Vec::new());
    for line in paragraph.lines().filter(|line| !line.starts_with('#')) {
        let (word, rest) = line.split_once(' ').unwrap_or((line, ""));
        match word {
            "row" | "fixture" => head = (word, rest),
            "call" => call = rest,
            "in" => input.push(rest.to_owned()),
            "with" => input.extend_from_slice(&fixtures[rest]),
            "out" => answer.push(rest.to_owned()),
            _ => panic!("no line of a row: {line}"),
        }
    }
    let mut words = call.split(' ').map(str::to_owned);
    match head {
        ("fixture", name) => drop(fixtures.insert(name.to_owned(), input)),
        ("row", name) => rows.push(Row {
            name: name.to_owned(),
            call: words.next().unwrap_or_default(),
            arguments: words.collect(),
            input,
            answer,
        }),
        _ => {}
    }
}

/// The bytes of lines of hex and of texts in quotes.
pub fn bytes_of(lines: &[String]) -> Vec<u8> {
    let mut bytes = Vec::new();
    for line in lines {
        match line
            .strip_prefix("repeat ")
            .and_then(|rest| rest.split_once(' '))
        {
            Some((count, rest)) => {
                let count = count.parse().expect("a count");
                bytes.extend(bytes_of_line(rest).repeat(count));
            }
            None => bytes.extend(bytes_of_line(line)),
        }
    }
    bytes
}

fn bytes_of_line(line: &str) -> Vec<u8> {
    let mut bytes = Vec::new();
    for (index, piece) in line.split('"').enumerate() {
        if index % 2 == 1 {
            bytes.extend_from_slice(piece.as_bytes());
            continue;
        }
        let (digits, comment) = piece.split_once('#').unwrap_or((piece, ""));
        for word in digits.split_whitespace() {
            let digits = (0..word.len()).step_by(2).map(|at| &word[at..at + 2]);
            bytes.extend(digits.map(|byte| u8::from_str_radix(byte, 16).expect("hex")));
        }
        if piece.len() > digits.len() || !comment.is_empty() {
            break;
        }
    }
    bytes
}

/// The bytes of the lines of an answer that begin with this word.
pub fn answered_bytes(answer: &[String], word: &str) -> Vec<u8> {
    let lines = answer
        .iter()
        .filter_map(|line| line.strip_prefix(word)?.strip_prefix(' '));
    bytes_of(&lines.map(str::to_owned).collect::<Vec<_>>())
}
