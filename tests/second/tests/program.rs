//! The two programs as processes: blocks, closed ends, flags, and the comparing run.

use std::io::{BufRead, BufReader, Read, Write};
use std::process::{Child, Command, Output, Stdio};
use std::thread;

use second::schedule::schedule;
use second::stream::answers;

const SECOND: &str = env!("CARGO_BIN_EXE_second");
const SCHEDULES: &str = env!("CARGO_BIN_EXE_schedules");

fn start(program: &str, arguments: &[&str]) -> Child {
    let piped = Stdio::piped;
    let mut command = Command::new(program);
    command
        .args(arguments)
        .stdin(piped())
        .stdout(piped())
        .stderr(piped());
    command.spawn().expect("the program starts")
}

fn run(program: &str, arguments: &[&str], input: &[u8]) -> Output {
    let mut child = start(program, arguments);
    let mut stdin = child.stdin.take().expect("the input is piped");
    thread::scope(|scope| {
        scope.spawn(move || stdin.write_all(input).unwrap_or(()));
        child.wait_with_output().expect("the program ends")
    })
}

#[test]
fn the_program_answers_as_the_library_does() {
    for seed in 1..=100 {
        let text = schedule(seed);
        for arguments in [&[][..], &["--check"]] {
            let output = run(SECOND, arguments, &text);
            assert!(output.status.success() && output.stderr.is_empty());
            assert_eq!(output.stdout, answers(&text), "seed {seed}");
        }
    }
}

#[test]
fn no_input_gives_no_output() {
    let output = run(SECOND, &[], b"");
    assert!(output.status.success() && output.stdout.is_empty() && output.stderr.is_empty());
}

#[test]
fn each_block_is_answered_before_the_next_is_read() {
    let mut child = start(SECOND, &[]);
    let mut stdin = child.stdin.take().expect("the input is piped");
    let mut stdout = BufReader::new(child.stdout.take().expect("the output is piped"));
    for (line, wanted) in [
        ("P 1\n", "1 0 0 0\n"),
        ("S\n", "2 0 0 0 0 0\n"),
        ("Q\n", "3 0 0\n"),
    ] {
        stdin.write_all(line.as_bytes()).expect("the program reads");
        let mut answer = String::new();
        stdout.read_line(&mut answer).expect("the program answers");
        assert_eq!(answer, wanted);
    }
    drop(stdin);
    let mut rest = String::new();
    stdout.read_to_string(&mut rest).expect("the output ends");
    assert!(rest.is_empty() && child.wait().expect("the program ends").success());
}

#[test]
fn long_input_and_long_lines() {
    let mut input = b"P 1\n".to_vec();
    input.resize(20_000_000, b'x');
    input.extend_from_slice(b"\nS\n");
    let output = run(SECOND, &[], &input);
    assert_eq!(output.stdout, b"1 0 0 0\n2 23 0 0\n3 0 0 0 0 0\n");
    let lines = 300_000;
    let output = run(SECOND, &[], &b"\n".repeat(lines));
    assert_eq!(output.stdout, answers(&b"\n".repeat(lines)));
    assert!(output.stdout.ends_with(b"\n300000 23 0 0\n"));
}

#[test]
fn a_closed_output_ends_the_program_quietly() {
    let mut child = start(SECOND, &[]);
    drop(child.stdout.take());
    let mut stdin = child.stdin.take().expect("the input is piped");
    let text = b"S\n".repeat(10_000);
    while stdin.write_all(&text).is_ok() {}
    let output = child.wait_with_output().expect("the program ends");
    assert!(output.status.success() && output.stderr.is_empty());
}

#[test]
fn other_arguments_are_refused() {
    for arguments in [&["--other"][..], &["--check", "--check"]] {
        assert_eq!(run(SECOND, arguments, b"").status.code(), Some(2));
    }
    for arguments in [&[][..], &["x"], &["1", "2"], &["1", "x", "y"], &["-1"]] {
        assert_eq!(run(SCHEDULES, arguments, b"").status.code(), Some(2));
    }
}

#[test]
fn the_schedules_program_writes_and_compares() {
    assert_eq!(run(SCHEDULES, &["42"], b"").stdout, schedule(42));
    let same = run(SCHEDULES, &["1", "200", SECOND], b"");
    assert!(same.status.success());
    let text = String::from_utf8(same.stdout).expect("plain text");
    assert!(text.starts_with("seeds 1 to 200: 200 schedules, ") && text.ends_with(" 0 differ\n"));
    let other = run(SCHEDULES, &["1", "5", SCHEDULES], b"");
    assert_eq!(other.status.code(), Some(1));
    let text = String::from_utf8(other.stdout).expect("plain text");
    assert!(text.ends_with(" 5 differ\n"), "{text}");
}
