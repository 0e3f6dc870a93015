//! The second rehearsal program: standard input to standard output. With `--check` it
//! asserts demand 3 after every event.

use std::env;
use std::io::{self, BufWriter, ErrorKind};
use std::process::ExitCode;

use second::stream::{rehearse, Stop};

fn main() -> ExitCode {
    let arguments: Vec<_> = env::args_os().skip(1).collect();
    let check = match arguments.as_slice() {
        [] => false,
        [flag] if flag == "--check" => true,
        _ => {
            eprintln!("usage: second [--check]");
            return ExitCode::from(2);
        }
    };
    let mut output = BufWriter::new(io::stdout().lock());
    let problem = match rehearse(&mut io::stdin().lock(), &mut output, check) {
        Ok(()) => return ExitCode::SUCCESS,
        Err(Stop::Output(error)) if error.kind() == ErrorKind::BrokenPipe => {
            return ExitCode::SUCCESS;
        }
        Err(Stop::Input(error)) => format!("input: {error}"),
        Err(Stop::Output(error)) => format!("output: {error}"),
        Err(Stop::Broken(what)) => format!("demand 3 is broken: {what}"),
    };
    eprintln!("{problem}");
    ExitCode::FAILURE
}
