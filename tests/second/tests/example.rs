//! The rules' own example, byte for byte, and how lines are read.

use second::stream::answers;

const INPUT: &str = "P 2\nC 0 1 map 1 5\nA 0 1\nD 0 1\nD 1 0\nU 0 1 map\nA 0 1\nU 0 1 map\nA 0 1\n\
                     U 0 1 map\nA 0 1\nK 0\nR 0\nA 0 1\nD 0 1\nD 1 0\nA 0 1\nS\n";

const OUTPUT: &str = "1 0 0 0\n2 0 1 0\n3 0 1 0\n4 0 1 0\n5 0 1 0\n6 7 0 0\n7 0 1 1\n8 8 0 0\n\
                      9 0 1 0\n10 0 1 0\n11 0 1 1\n12 0 0 0\n13 0 0 0\n14 0 1 0\n15 0 1 0\n\
                      16 0 1 0\n17 0 1 0\n18 0 0 0 0 0\n";

fn output(input: &[u8]) -> String {
    String::from_utf8(answers(input)).expect("answers are plain text")
}

/// The answer to a last line, after these first ones, without its line number.
fn last_answer(first: &str, line: &[u8]) -> String {
    let text = output(&[first.as_bytes(), line].concat());
    let last = text.lines().last().expect("a line has an answer");
    last.split_once(' ')
        .expect("an answer has fields")
        .1
        .to_string()
}

#[test]
fn the_example() {
    assert_eq!(output(INPUT.as_bytes()), OUTPUT);
}

#[test]
fn the_last_line_may_lack_its_end() {
    assert_eq!(output(INPUT.trim_end().as_bytes()), OUTPUT);
    assert_eq!(output(b""), "");
    assert_eq!(output(b"\n"), "1 23 0 0\n");
    assert_eq!(output(b"P 1\n\nS"), "1 0 0 0\n2 23 0 0\n3 0 0 0 0 0\n");
}

#[test]
fn opening() {
    assert_eq!(output(b"S\nP 5\nP 0\nQ\nP 2\nP 2\nP 5\nQ\n"), {
        "1 23 0 0\n2 1 0 0\n3 1 0 0\n4 23 0 0\n5 0 0 0\n6 23 0 0\n7 23 0 0\n8 0 0 0 0 0\n"
    });
    assert_eq!(last_answer("", b"P 4294967295"), "1 0 0");
    assert_eq!(last_answer("", b"P 4294967296"), "23 0 0");
}

/// One line each that is not understood, though the tables are open.
const BAD: [&[u8]; 34] = [
    b"",
    b" ",
    b"s",
    b"S ",
    b" S",
    b"S 0",
    b"SS",
    b"Q 1",
    b"E 0",
    b"P",
    b"Z",
    b"Z ",
    b"Z 00",
    b"Z 01",
    b"Z +1",
    b"Z -1",
    b"Z 1 1",
    b"Z  1",
    b"Z\t1",
    b"Z1",
    b"Z 4294967296",
    b"Z 1\0",
    b"Z 99999999999999999999999",
    b"A 0",
    b"A 0 1 2",
    b"L 0 0 a 0",
    b"L 0 0 a 0 0 0",
    b"L 0 0  0 0",
    b"U 0 0 ",
    b"U 0 0",
    b"U 0 0 a b",
    b"S\r",
    b"\xff",
    b"K 0\x80",
];

#[test]
fn lines_that_are_not_understood() {
    for line in BAD {
        let line = [line, b"\n"].concat();
        assert_eq!(last_answer("P 2\n", &line), "23 0 0", "{line:?}");
    }
}

#[test]
fn lines_that_are_understood() {
    let good: [(&[u8], &str); 12] = [
        (b"Z 4294967295", "0 0 0"),
        (b"A 0 0", "12 0 0"),
        (b"A 1 4294967295", "12 0 0"),
        (b"K 4294967295", "1 0 0"),
        (b"C 0 0 0 1 0", "0 1 0"),
        (b"C 0 0 00 1 0", "0 1 0"),
        (b"C 0 0 \xff\x80 1 0", "0 1 0"),
        (b"C 0 0 a\r 1 0", "0 1 0"),
        (b"U 0 0 a\r", "7 0 0"),
        (b"U 0 0 a/", "2 0 0"),
        (b"U 0 0 \0", "2 0 0"),
        (b"D 1 1", "15 0 0"),
    ];
    for (line, wanted) in good {
        assert_eq!(last_answer("P 2\n", line), wanted, "{line:?}");
    }
}

#[test]
fn a_line_of_64_bytes_and_one_of_65() {
    let long = |length: usize| [b"U 0 0 ".to_vec(), vec![b'x'; length - 6]].concat();
    assert_eq!(last_answer("P 2\n", &long(64)), "2 0 0");
    assert_eq!(
        last_answer("P 2\n", &[long(64), b"\n".to_vec()].concat()),
        "2 0 0"
    );
    assert_eq!(last_answer("P 2\n", &long(65)), "23 0 0");
    assert_eq!(last_answer("P 2\n", &vec![b'x'; 1_000_000]), "23 0 0");
    let after = [&vec![b'x'; 200_000][..], b"\nS\n"].concat();
    assert_eq!(last_answer("P 2\n", &after), "0 0 0 0 0");
}

#[test]
fn the_queue_lengths_are_a_square() {
    let input = b"P 3\nC 0 0 a 2 5\nC 0 0 b 2 6\nC 1 0 a 1 5\nA 0 1\nA 0 2\nA 1 1\nD 0 2\nQ\nS\n";
    let text = output(input);
    let last: Vec<_> = text.lines().skip(8).collect();
    assert_eq!(last, ["9 0 0 0 1 0 1 0 1 0 0", "10 0 0 1 3 3"]);
}
