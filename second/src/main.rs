//! The second program: the two ProX lines, written from the documents alone, to be held against
//! the library (README.md).

mod bench;
mod command;
mod fcs;
mod frame;
mod hex;
mod make;
mod master;
mod reader;
mod receiver;
mod refusal;
mod report;
mod search;
mod station;
mod tape;
mod writer;

use std::io::{self, Read, Write};
use std::process::ExitCode;
use std::str::FromStr;

const USAGE: &str = "usage: second listing < tape
       second report < tape
       second bench < script
       second make tape SEED
       second make script SEED
       second make day|turns|shortest|longest|noise SEED RECORDS
       second make year RECORDS
       second bytes < file.hex";

enum Failure {
    Usage,
    Work(String),
    /// Its line is printed.
    Refused,
}

impl From<io::Error> for Failure {
    fn from(error: io::Error) -> Failure {
        Failure::Work(error.to_string())
    }
}

fn main() -> ExitCode {
    let arguments: Vec<String> = std::env::args_os()
        .skip(1)
        .map(|word| word.to_string_lossy().into_owned())
        .collect();
    let words: Vec<&str> = arguments.iter().map(String::as_str).collect();
    let (message, status) = match run(&words) {
        Ok(()) => return ExitCode::SUCCESS,
        Err(Failure::Refused) => return ExitCode::FAILURE,
        Err(Failure::Usage) => (USAGE.to_string(), 2),
        Err(Failure::Work(message)) => (format!("second: {message}"), 1),
    };
    // Nobody is left to tell where standard error fails too; the status still tells.
    let _ = writeln!(io::stderr(), "{message}");
    ExitCode::from(status)
}

fn run(words: &[&str]) -> Result<(), Failure> {
    match words {
        ["report"] => match report::report(&input()?) {
            Ok(text) => write_out(text.as_bytes()),
            Err(refusal) => write_out(refusal.line().as_bytes()).and(Err(Failure::Refused)),
        },
        ["make", "year", records] => Ok(make::year(number(records)?, &mut io::stdout().lock())?),
        _ => write_out(&output(words)?),
    }
}

fn output(words: &[&str]) -> Result<Vec<u8>, Failure> {
    match words {
        ["listing"] => Ok(tape::listing(&input()?).into_bytes()),
        ["bench"] => Ok(bench::rows(&input()?).into_bytes()),
        ["make", "tape", seed] => Ok(make::tape(number(seed)?)),
        ["make", "script", seed] => Ok(make::script(number(seed)?)),
        ["make", kind, seed, records] => {
            let make = match *kind {
                "day" => make::day,
                "turns" => make::turns,
                "shortest" => make::shortest,
                "longest" => make::longest,
                "noise" => make::noise,
                _ => return Err(Failure::Usage),
            };
            Ok(make(number(seed)?, number(records)?))
        }
        ["bytes"] => hex::bytes(&input()?).map_err(Failure::Work),
        _ => Err(Failure::Usage),
    }
}

fn number<T: FromStr>(word: &str) -> Result<T, Failure> {
    word.parse().map_err(|_| Failure::Usage)
}

fn input() -> Result<Vec<u8>, Failure> {
    let mut bytes = Vec::new();
    io::stdin().lock().read_to_end(&mut bytes)?;
    Ok(bytes)
}

fn write_out(bytes: &[u8]) -> Result<(), Failure> {
    let mut out = io::stdout().lock();
    out.write_all(bytes)?;
    out.flush()?;
    Ok(())
}
