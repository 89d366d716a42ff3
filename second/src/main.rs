use std::io::{self, Read, Write};
use std::process::ExitCode;

use second::{calls, capabilities, capture, chosen, drawn, maker, rebuild, tally};

const USAGE: &str = "\
second list [--first N]    the listing of a capture
second payloads            length and Adler-32 of each call's payload
second make SEED CALLS     a capture on standard output
second capabilities        a capture that goes through 000 2.2.11
second tally               kinds, answers, situations and classes of
                           capabilities that a capture reaches
second record N            one record, counted from 1
second rebuild             a capture with its messages made anew by the writer
second calls               the chosen calls of the writer
second calls SEED N        N calls of the writer drawn from a seed
second write               what the writer answers to calls
list, payloads, tally, record and rebuild read a capture on standard input,
write a file of calls";

enum Failure {
    Usage,
    Text(String),
    Io(io::Error),
}

impl From<io::Error> for Failure {
    fn from(error: io::Error) -> Failure {
        Failure::Io(error)
    }
}

fn number<T: std::str::FromStr>(text: &str) -> Result<T, Failure> {
    text.parse()
        .map_err(|_| Failure::Text(format!("not a number in range: {text}")))
}

fn input() -> Result<Vec<u8>, Failure> {
    let mut bytes = Vec::new();
    io::stdin().lock().read_to_end(&mut bytes)?;
    Ok(bytes)
}

fn run(arguments: &[&str]) -> Result<Vec<u8>, Failure> {
    match arguments {
        ["list"] => Ok(capture::listing(&input()?, 1).into_bytes()),
        ["list", "--first", first] => {
            let first = number(first)?;
            Ok(capture::listing(&input()?, first).into_bytes())
        }
        ["payloads"] => Ok(capture::payloads(&input()?).into_bytes()),
        ["make", seed, calls] => Ok(maker::make(number(seed)?, number(calls)?)),
        ["capabilities"] => Ok(capabilities::capture()),
        ["rebuild"] => rebuild::rebuild(&input()?)
            .map_err(|record| Failure::Text(format!("record {record} cannot be made anew"))),
        ["calls"] => Ok(calls::file(&chosen::calls())),
        ["calls", seed, count] => {
            let drawn = drawn::calls(number(seed)?, number(count)?, true);
            Ok(calls::file(&drawn))
        }
        ["write"] => {
            let calls = calls::read(&input()?).map_err(Failure::Text)?;
            Ok(calls::print(&calls).into_bytes())
        }
        ["tally"] => Ok(tally::Tally::of(&input()?).print().into_bytes()),
        ["record", wanted] => {
            let wanted = number(wanted)?;
            capture::show_record(&input()?, wanted)
                .map(String::into_bytes)
                .ok_or_else(|| Failure::Text(format!("no whole record {wanted}")))
        }
        _ => Err(Failure::Usage),
    }
}

fn main() -> ExitCode {
    let arguments: Vec<String> = std::env::args().skip(1).collect();
    let arguments: Vec<&str> = arguments.iter().map(String::as_str).collect();
    let done = run(&arguments).and_then(|bytes| {
        let mut out = io::stdout().lock();
        out.write_all(&bytes)?;
        Ok(out.flush()?)
    });
    match done {
        Ok(()) => ExitCode::SUCCESS,
        Err(Failure::Usage) => {
            eprintln!("{USAGE}");
            ExitCode::from(2)
        }
        Err(Failure::Text(text)) => {
            eprintln!("{text}");
            ExitCode::FAILURE
        }
        // A reader that stops early, such as `head`, is no failure.
        Err(Failure::Io(error)) if error.kind() == io::ErrorKind::BrokenPipe => ExitCode::SUCCESS,
        Err(Failure::Io(error)) => {
            eprintln!("{error}");
            ExitCode::FAILURE
        }
    }
}
