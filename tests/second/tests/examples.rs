//! The schedules of examples/: each is answered as in the file beside it, and the page that
//! explains them shows the lines and answers of the files.

use std::collections::BTreeMap;
use std::fs;
use std::path::{Path, PathBuf};

use second::stream::checked_answers;

fn folder() -> PathBuf {
    Path::new(env!("CARGO_MANIFEST_DIR")).join("../../examples")
}

fn read(path: &Path) -> String {
    fs::read_to_string(path).unwrap_or_else(|error| panic!("{}: {error}", path.display()))
}

/// Each schedule by its name, with the answers that stand beside it.
fn examples() -> BTreeMap<String, (String, String)> {
    let mut examples = BTreeMap::new();
    for file in fs::read_dir(folder()).expect("examples/ stands") {
        let path = file.expect("examples/ is read").path();
        if path.extension().is_some_and(|kind| kind == "txt") {
            let name = path.file_stem().expect("a file has a name");
            let texts = (read(&path), read(&path.with_extension("out")));
            examples.insert(name.to_string_lossy().into_owned(), texts);
        }
    }
    assert!(!examples.is_empty());
    examples
}

#[test]
fn each_is_answered_as_beside_it() {
    for (name, (schedule, answers)) in examples() {
        let given = checked_answers(schedule.as_bytes()).expect("demand 3");
        assert_eq!(String::from_utf8_lossy(&given), answers, "{name}");
    }
}

/// Under each heading of the page, the two first columns of its table.
fn explained() -> BTreeMap<String, (String, String)> {
    let mut explained = BTreeMap::new();
    let page = read(&folder().join("README.md"));
    for part in page.split("\n## ").skip(1) {
        let (name, rest) = part.split_once('\n').expect("a heading has a table");
        let (mut schedule, mut answers) = (String::new(), String::new());
        for row in rest.lines().filter(|line| line.starts_with("| `")) {
            let cells: Vec<_> = row.split('`').collect();
            schedule += &format!("{}\n", cells[1]);
            answers += &format!("{}\n", cells[3]);
        }
        explained.insert(name.to_string(), (schedule, answers));
    }
    explained
}

#[test]
fn the_page_explains_every_line_of_each() {
    assert_eq!(explained(), examples());
}
