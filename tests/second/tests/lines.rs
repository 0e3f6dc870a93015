//! Both sides of each line that the rules draw, and the order of the refusals.

use second::answer::{Done, Refusal};
use second::events::{advance, create, deliver, link, open, unlink};
use second::settle::{settle, Tally};
use second::stream::answers;
use second::tables::{Entry, Name, Object, Tables, LAST_NUMBER};

/// The answers without their line numbers.
fn rehearsed(input: &str) -> Vec<String> {
    let text = String::from_utf8(answers(input.as_bytes())).expect("answers are plain text");
    let fields = |line: &str| {
        line.split_once(' ')
            .expect("an answer has fields")
            .1
            .to_string()
    };
    text.lines().map(fields).collect()
}

fn last(input: &str) -> String {
    rehearsed(input).pop().expect("a line has an answer")
}

fn opened(count: u32) -> Tables {
    let mut tables = Tables::default();
    assert_eq!(open(&mut tables, count), Ok(Done::quiet(0)));
    tables
}

fn object(partition: u32, number: u32) -> Object {
    Object { partition, number }
}

#[test]
fn names_of_eight_bytes_and_of_nine() {
    assert_eq!(last("P 2\nC 0 0 12345678 1 5\n"), "0 1 0");
    assert_eq!(last("P 2\nC 0 0 123456789 1 5\n"), "2 0 0");
    assert_eq!(last("P 2\nU 0 0 12345678\n"), "7 0 0");
    assert_eq!(last("P 2\nU 0 0 123456789\n"), "2 0 0");
    let mut tables = opened(2);
    let mut name = Name::new(b"map");
    name.bytes[3] = 1;
    let before = tables.clone();
    for name in [
        name,
        Name::default(),
        Name::new(b"123456789"),
        Name::new(&[1; 300]),
    ] {
        let refused = Err(Refusal::BadName);
        assert_eq!(link(&mut tables, 0, 0, &name, object(1, 5)), refused);
        assert_eq!(create(&mut tables, 0, 0, &name, object(1, 5)), refused);
        assert_eq!(unlink(&mut tables, 0, 0, &name), refused);
    }
    assert_eq!(tables, before);
}

#[test]
fn partition_counts() {
    assert_eq!(
        rehearsed("P 0\nP 5\nP 4\nC 3 3 a 3 63\n"),
        ["1 0 0", "1 0 0", "0 0 0", "0 1 0"]
    );
    assert_eq!(last("P 1\nC 0 0 a 0 0\n"), "0 1 0");
    assert_eq!(last("P 1\nC 0 0 a 1 0\n"), "1 0 0");
}

#[test]
fn the_edges_of_each_range() {
    let out = [
        "C 2 0 a 0 0",
        "C 0 4 a 0 0",
        "C 0 0 a 2 0",
        "C 0 0 a 0 64",
        "U 2 0 a",
        "U 0 4 a",
    ];
    let more = [
        "A 2 1", "D 2 0", "D 0 2", "B 2 0", "B 0 2", "B 2 2", "K 2", "R 2",
    ];
    for line in out.iter().chain(&more) {
        assert_eq!(last(&format!("P 2\n{line}\n")), "1 0 0", "{line}");
    }
    assert_eq!(last("P 2\nC 1 3 a 1 63\n"), "0 1 0");
}

fn creates(partition: u32, numbers: std::ops::Range<u32>, holder: u32) -> String {
    let line = |n| format!("C {partition} 0 n{n} {holder} {n}\n");
    numbers.map(line).collect()
}

#[test]
fn the_16th_record_and_the_17th() {
    let full = format!("P 2\nC 0 0 old 1 63\nZ 5\n{}", creates(0, 0..15, 1));
    assert_eq!(last(&format!("{full}U 0 0 old\n")), "0 1 0");
    assert_eq!(last(&format!("{full}C 0 0 x 1 20\n")), "0 17 0");
    let full = format!("{full}C 0 0 x 1 20\n");
    assert_eq!(last(&format!("{full}L 0 0 y 1 63\n")), "9 0 0");
    assert_eq!(last(&format!("{full}C 0 0 y 1 21\n")), "9 0 0");
    assert_eq!(last(&format!("{full}U 0 0 old\n")), "9 0 0");
    assert_eq!(last(&format!("{full}C 1 0 y 1 21\n")), "0 1 0");
}

#[test]
fn an_entry_in_a_record_comes_before_a_full_log() {
    let full = format!("P 2\nC 0 0 old 1 63\nZ 4\n{}", creates(0, 0..15, 1));
    assert_eq!(last(&format!("{full}U 0 0 old\n")), "8 0 0");
    assert_eq!(last(&format!("{full}C 0 0 old 1 20\n")), "6 0 0");
    assert_eq!(last(&format!("{full}C 0 0 x 1 20\n")), "9 0 0");
}

#[test]
fn a_sent_record_comes_before_its_entry() {
    let mut tables = opened(2);
    let name = Name::new(b"map");
    assert!(create(&mut tables, 0, 0, &name, object(1, 5)).is_ok());
    assert!(advance(&mut tables, 0, 1).is_ok());
    tables.partitions[0].entries.push(Entry {
        name,
        object: object(1, 5),
        number: 1,
        ..Entry::default()
    });
    assert_eq!(advance(&mut tables, 0, 1), Err(Refusal::RecordSent));
    assert!(deliver(&mut tables, 0, 1).is_ok() && deliver(&mut tables, 1, 0).is_ok());
    assert_eq!(advance(&mut tables, 0, 1), Ok(Done::quiet(1)));
    assert_eq!(advance(&mut tables, 0, 1), Err(Refusal::NoRecord));
}

#[test]
fn the_64th_entry_and_the_65th() {
    let batch = |n: u32| format!("{}Z 80\n", creates(0, n..n + 16, 1));
    let entries: String = [0, 16, 32].into_iter().map(batch).collect();
    let text = format!("P 2\n{entries}{}", creates(0, 48..63, 1));
    assert_eq!(last(&format!("{text}Z 80\nS\n")), "0 63 63 0 0");
    assert_eq!(last(&format!("{text}Z 80\nL 0 0 x 1 5\n")), "0 64 0");
    assert_eq!(
        last(&format!("{text}Z 80\nL 0 0 x 1 5\nL 0 0 y 1 5\n")),
        "10 0 0"
    );
    assert_eq!(last(&format!("{text}L 0 0 x 1 5\nL 0 0 y 1 5\n")), "9 0 0");
    assert_eq!(
        last(&format!("{text}L 0 0 x 1 5\nZ 1000\nS\n")),
        "0 64 64 0 0"
    );
}

#[test]
fn the_64th_backpointer_and_the_65th() {
    let batch = |n: u32| format!("{}Z 80\n", creates(0, n..n + 16, 1));
    let most: String = [0, 16, 32].into_iter().map(batch).collect();
    let text = format!("P 2\n{most}{}Z 75\n", creates(0, 48..63, 1));
    let steps = "A 1 1\nD 1 1\nD 1 1\nA 1 1\n";
    assert_eq!(last(&format!("{text}L 1 0 x 1 5\n{steps}")), "0 1 1");
    assert_eq!(
        last(&format!("{text}L 0 0 x 1 5\nZ 5\nL 1 0 x 1 5\n{steps}")),
        "0 1 6"
    );
    assert_eq!(
        last(&format!("{text}L 0 0 x 1 5\nZ 5\nC 1 0 x 1 63\n{steps}")),
        "0 1 6"
    );
    assert_eq!(
        last(&format!("{text}L 0 0 x 1 5\nZ 5\nC 1 0 x 1 5\n{steps}")),
        "0 1 5"
    );
    assert_eq!(
        last(&format!("{text}L 0 0 x 1 5\nZ 5\nL 1 0 x 1 63\n{steps}")),
        "0 1 4"
    );
}

#[test]
fn the_last_number() {
    let mut tables = opened(2);
    tables.partitions[0].last = LAST_NUMBER - 1;
    let (one, two) = (Name::new(b"one"), Name::new(b"two"));
    let given = Ok(Done::quiet(LAST_NUMBER));
    assert_eq!(create(&mut tables, 0, 0, &one, object(1, 5)), given);
    let before = tables.clone();
    let spent = Err(Refusal::NumbersSpent);
    assert_eq!(create(&mut tables, 0, 0, &two, object(1, 6)), spent);
    assert_eq!(link(&mut tables, 0, 0, &two, object(1, 5)), spent);
    assert_eq!(tables, before);
    assert_eq!(
        create(&mut tables, 1, 0, &two, object(1, 6)),
        Ok(Done::quiet(1))
    );
    assert_eq!(settle(&mut tables, 100, &mut Tally::default()), Ok(10));
    let exists = Err(Refusal::NameExists);
    assert_eq!(create(&mut tables, 0, 0, &one, object(1, 7)), exists);
    assert_eq!(unlink(&mut tables, 0, 0, &one), given);
}

#[test]
fn spent_numbers_come_before_a_full_log() {
    let mut tables = opened(2);
    tables.partitions[0].last = LAST_NUMBER - 16;
    for n in 0..16 {
        let name = Name::new(&[b'n', b'a' + n]);
        assert!(link(&mut tables, 0, 0, &name, object(1, 5)).is_ok());
    }
    let refused = link(&mut tables, 0, 0, &Name::new(b"x"), object(1, 5));
    assert_eq!(refused, Err(Refusal::NumbersSpent));
    tables.partitions[1].last = LAST_NUMBER;
    tables.partitions[1].up = false;
    let refused = link(&mut tables, 1, 0, &Name::new(b"x"), object(1, 5));
    assert_eq!(refused, Err(Refusal::Down));
}

#[test]
fn settling() {
    assert_eq!(last("P 2\nC 0 0 a 1 5\nZ 100\n"), "0 5 0");
    assert_eq!(last("P 2\nC 0 0 a 1 5\nZ 5\nS\n"), "0 1 1 0 0");
    assert_eq!(last("P 2\nC 0 0 a 1 5\nZ 4\nZ 4294967295\n"), "0 1 0");
    assert_eq!(last("P 2\nC 0 0 a 0 5\nZ 100\n"), "0 5 0");
    assert_eq!(last("P 2\nC 0 0 a 1 5\nC 0 0 a 1 6\nZ 100\n"), "0 13 0");
    assert_eq!(
        last("P 2\nC 0 0 a 1 5\nC 0 0 a 1 6\nZ 12\nS\n"),
        "0 1 1 1 0"
    );
    assert_eq!(
        last("P 2\nC 0 0 a 1 5\nC 0 0 a 1 6\nZ 13\nS\n"),
        "0 1 1 0 0"
    );
    assert_eq!(last("P 2\nC 0 0 a 1 5\nZ 0\n"), "0 0 0");
    assert_eq!(last("P 2\nC 0 0 a 1 5\nZ 0\nS\n"), "0 0 0 1 0");
    assert_eq!(last("P 2\nC 0 0 a 1 5\nZ 5\nU 0 0 a\nZ 100\n"), "0 5 0");
    assert_eq!(
        last("P 2\nC 0 0 a 1 5\nZ 5\nU 0 0 a\nZ 5\nS\n"),
        "0 0 0 0 0"
    );
    assert_eq!(last("P 2\nZ 100\n"), "0 0 0");
    assert_eq!(last("P 2\nC 0 0 a 1 5\nK 1\nZ 100\n"), "0 0 0");
    assert_eq!(
        last("P 2\nC 0 0 a 1 5\nZ 5\nU 0 0 a\nK 1\nZ 100\n"),
        "0 1 0"
    );
}

#[test]
fn settling_takes_the_first_accepted_step() {
    let open = "P 2\nC 1 0 a 0 5\nC 0 0 a 1 5\nC 0 0 b 1 6\n";
    let sent = [
        "0 0 1 0 0",
        "0 0 2 0 0",
        "0 0 2 1 0",
        "0 0 1 2 0",
        "0 0 0 3 0",
    ];
    for (steps, lengths) in (1..).zip(sent) {
        assert_eq!(last(&format!("{open}Z {steps}\nQ\n")), lengths);
    }
    assert_eq!(
        rehearsed(&format!("{open}Z 1\nA 0 1\nA 0 2\n"))[5..],
        ["13 0 0", "0 2 0"]
    );
    assert_eq!(last(&format!("{open}Z 6\nQ\n")), "0 0 1 2 0");
    assert_eq!(last(&format!("{open}Z 7\nQ\n")), "0 0 0 2 0");
    assert_eq!(last(&format!("{open}Z 9\nS\n")), "0 1 3 2 2");
}

#[test]
fn the_tally() {
    let mut tables = opened(2);
    let name = Name::new(b"map");
    let mut tally = Tally {
        steps: 7,
        moved: 7,
        failed: 7,
    };
    assert!(create(&mut tables, 0, 0, &name, object(1, 5)).is_ok());
    assert!(create(&mut tables, 0, 0, &name, object(1, 6)).is_ok());
    assert_eq!(settle(&mut tables, 100, &mut tally), Ok(13));
    let count = |steps, moved, failed| Tally {
        steps,
        moved,
        failed,
    };
    assert_eq!(tally, count(13, 1, 1));
    assert!(unlink(&mut tables, 0, 0, &name).is_ok());
    assert!(link(&mut tables, 1, 0, &name, object(1, 9)).is_ok());
    assert_eq!(settle(&mut tables, 100, &mut tally), Ok(9));
    assert_eq!(tally, count(9, 1, 1));
    assert_eq!(settle(&mut tables, 100, &mut tally), Ok(0));
    assert_eq!(tally, count(0, 0, 0));
}

#[test]
fn replies_of_failed_adds() {
    let steps = "A 0 1\nD 0 1\nD 1 0\nA 0 1\n";
    assert_eq!(last(&format!("P 2\nL 0 0 a 1 5\n{steps}")), "0 1 4");
    let used = "P 2\nC 1 0 a 1 5\nZ 5\n";
    assert_eq!(last(&format!("{used}L 0 0 a 1 5\n{steps}")), "0 1 1");
    assert_eq!(last(&format!("{used}C 0 0 a 1 5\n{steps}")), "0 1 5");
    let twice = "P 2\nC 0 0 a 1 5\nC 0 0 a 1 5\nA 0 1\nA 0 2\nD 0 1\nD 0 1\nD 1 0\nD 1 0\n";
    assert_eq!(last(&format!("{twice}A 0 2\n")), "0 2 3");
    let two = "P 2\nC 0 0 a 1 5\nC 0 0 a 1 6\nA 0 1\nA 0 2\nD 0 1\nD 0 1\nD 1 0\nD 1 0\n";
    assert_eq!(last(&format!("{two}A 0 2\nA 0 1\n")), "0 1 2");
}

#[test]
fn an_add_repeated_after_a_crash_finds_its_own_backpointer() {
    let text = "P 2\nC 0 0 a 1 5\nA 0 1\nD 0 1\nK 0\nR 0\nA 0 1\nD 0 1\nD 1 0\nA 0 1\nS\n";
    assert_eq!(rehearsed(text)[9..], ["0 1 1", "0 1 1 1 0"]);
}

#[test]
fn a_late_removal_leaves_a_newer_link() {
    let removed = "P 2\nC 1 0 x 1 5\nZ 100\nL 0 0 a 1 5\nZ 100\nU 0 0 a\nA 0 1\nA 0 1\nD 0 1\n";
    let linked = "B 0 1\nL 0 0 a 1 5\nA 0 2\nD 0 1\nD 1 0\nA 0 2\n";
    let removed_again = "A 0 1\nD 0 1\nD 1 0\nA 0 1\nA 0 2\n";
    let text = format!("{removed}{linked}{removed_again}S\n");
    assert!(rehearsed(&text)
        .iter()
        .all(|answer| answer.starts_with("0 ")));
    assert_eq!(last(&text), "0 2 2 0 0");
}

#[test]
fn refusals_of_steps_and_faults_in_their_order() {
    let sent = "P 3\nC 0 0 a 1 5\nA 0 1\n";
    let cases = [
        ("A 0 1", "13 0 0"),
        ("A 0 2", "12 0 0"),
        ("A 0 0", "12 0 0"),
        ("K 0\nA 0 1", "4 0 0"),
        ("K 0\nA 0 9", "4 0 0"),
        ("K 1\nA 0 1", "14 0 0"),
        ("K 1\nD 0 1", "4 0 0"),
        ("K 0\nD 0 1", "15 0 0"),
        ("D 1 0", "15 0 0"),
        ("B 1 1", "3 0 0"),
        ("K 1\nB 1 1", "3 0 0"),
        ("K 1\nB 0 1", "4 0 0"),
        ("K 1\nB 1 0", "4 0 0"),
        ("K 1\nK 1", "4 0 0"),
        ("R 1", "5 0 0"),
        ("K 1\nR 1\nR 1", "5 0 0"),
        ("B 0 2\nA 0 1", "13 0 0"),
        ("B 1 0\nA 0 1", "0 1 0"),
        ("K 2\nA 0 1", "13 0 0"),
        ("K 0\nC 0 9 a 1 5", "1 0 0"),
        ("K 0\nC 0 0 a/ 1 5", "2 0 0"),
        ("K 0\nU 0 9 a/", "1 0 0"),
        ("K 0\nU 0 0 a/", "2 0 0"),
        ("K 0\nU 0 0 a", "4 0 0"),
    ];
    for (lines, wanted) in cases {
        assert_eq!(last(&format!("{sent}{lines}\n")), wanted, "{lines}");
    }
}

#[test]
fn deliver_takes_the_oldest_of_a_partition_with_itself() {
    let mut tables = opened(1);
    for (name, number) in [(&b"a"[..], 5), (b"b", 6)] {
        assert!(create(&mut tables, 0, 0, &Name::new(name), object(0, number)).is_ok());
    }
    for number in [1, 2] {
        assert_eq!(advance(&mut tables, 0, number), Ok(Done::quiet(number)));
    }
    for number in [1, 2, 1, 2] {
        assert_eq!(deliver(&mut tables, 0, 0), Ok(Done::quiet(number)));
    }
    assert_eq!(deliver(&mut tables, 0, 0), Err(Refusal::QueueEmpty));
}
