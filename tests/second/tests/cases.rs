//! The cases that the gate runs through the proved code, crates/cases: this program answers
//! them alike, and they meet every refusal and every reply that a schedule can reach.

use std::collections::BTreeSet;
use std::fs;
use std::path::{Path, PathBuf};

use second::stream::checked_answers;

fn folder() -> PathBuf {
    Path::new(env!("CARGO_MANIFEST_DIR")).join("../../crates/cases")
}

fn read(path: &str) -> Vec<u8> {
    fs::read(folder().join(path)).unwrap_or_else(|error| panic!("{path}: {error}"))
}

fn text(path: &str) -> String {
    String::from_utf8(read(path)).expect("plain text")
}

/// The names of the cases in the order in which they are run.
fn names() -> Vec<String> {
    text("args").lines().map(String::from).collect()
}

fn answers(name: &str) -> Vec<u8> {
    checked_answers(&read(&format!("data/{name}"))).expect("demand 3")
}

#[test]
fn every_file_is_run_once_and_explained() {
    let files = fs::read_dir(folder().join("data")).expect("the cases stand");
    let files = files.map(|file| file.expect("the cases are read").file_name());
    let files: BTreeSet<_> = files
        .map(|name| name.into_string().expect("plain"))
        .collect();
    let names = names();
    assert_eq!(names.iter().cloned().collect::<BTreeSet<_>>(), files);
    assert_eq!(names.len(), files.len());
    let page = text("README.md");
    for name in names {
        assert!(page.contains(&format!("| `{name}` |")), "{name}");
    }
}

#[test]
fn each_is_answered_alike() {
    let stdout = text("stdout");
    let mut parts = stdout.split("# ").skip(1);
    for name in names() {
        let given = String::from_utf8(answers(&name)).expect("answers are plain text");
        let part = parts.next().expect("a case has its answers");
        assert_eq!(part, format!("{name}\n{given}"));
    }
    assert_eq!(parts.next(), None);
}

#[test]
fn every_refusal_and_reply_is_met() {
    let (mut refusals, mut replies) = (BTreeSet::new(), BTreeSet::new());
    for name in names() {
        let schedule = read(&format!("data/{name}"));
        let answers = String::from_utf8(answers(&name)).expect("answers are plain text");
        for (line, answer) in schedule.split(|byte| *byte == b'\n').zip(answers.lines()) {
            let numbers = answer
                .split(' ')
                .map(|word| word.parse().expect("a number"));
            let numbers: Vec<u32> = numbers.collect();
            refusals.insert(numbers[1]);
            if line.first() == Some(&b'A') {
                replies.insert(numbers[3]);
            }
        }
    }
    // 11 and 16 are out of a schedule's reach, and 17 to 22 are of pictures.
    let reachable = (0..=10).chain(12..=15).chain([23]);
    assert!(refusals.into_iter().eq(reachable));
    assert!(replies.into_iter().eq(0..=6));
}
