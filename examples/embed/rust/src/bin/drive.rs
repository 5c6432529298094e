//! Runs a plan over event lines, and writes its trace: drive PLAN WORKERS < EVENTS. The status is 2 where the words are not these,
//! and 1 at any other fault, as with `sched run`.
use sched::{Event, Executor, ExecutorError};
use std::fmt;
use std::io::{self, BufRead, Write};
use std::process::ExitCode;
use std::str::FromStr;

/// How many events are taken at most.
const EVENTS: u64 = 1_000_000;

/// Why a plan was not run to the end of the lines.
enum Fault {
    /// The words of the command line are not a plan's file and a number of workers.
    Words,
    /// The line of this number, from 1, is no event.
    Line(usize),
    /// The executor was not made, or did not take an event.
    Executor(ExecutorError),
    /// A file or a stream failed.
    System(io::Error),
}

impl fmt::Display for Fault {
    fn fmt(&self, f: &mut fmt::Formatter) -> fmt::Result {
        match self {
            Fault::Words => write!(f, "drive PLAN WORKERS < EVENTS"),
            Fault::Line(number) => write!(f, "drive: event line {number}"),
            Fault::Executor(error) => write!(f, "drive: {error}"),
            Fault::System(error) => write!(f, "drive: {error}"),
        }
    }
}

impl From<ExecutorError> for Fault {
    fn from(error: ExecutorError) -> Fault {
        Fault::Executor(error)
    }
}

impl From<io::Error> for Fault {
    fn from(error: io::Error) -> Fault {
        Fault::System(error)
    }
}

/// The number that a word writes, in digits with no sign and no leading zero.
fn number<N: FromStr>(word: &str) -> Option<N> {
    let plain = word == "0" || word.starts_with(|c: char| ('1'..='9').contains(&c));
    plain.then(|| word.parse().ok()).flatten()
}

/// The event that a line writes, and none where it is no event.
fn event_of(line: &[u8]) -> Option<Event> {
    let line = std::str::from_utf8(line).ok()?.strip_suffix('\n')?;
    let worker = |word| number::<u8>(word).map(u32::from);
    let words: Vec<&str> = line.split(' ').collect();
    Some(match words[..] {
        ["clock", moment] => Event::Clock(number(moment)?),
        ["start", w] => Event::Start(worker(w)?),
        ["finish", w, "ok", value] => Event::Finish(worker(w)?, number(value)?),
        ["finish", w, "fail", code] => Event::Fail(worker(w)?, number(code)?),
        ["cancel", task] => Event::Cancel(number(task)?),
        _ => return None,
    })
}

/// Takes all event lines of the standard input, and writes their trace.
fn run(words: &[String]) -> Result<(), Fault> {
    let [plan, workers] = words else {
        return Err(Fault::Words);
    };
    let workers = number(workers).ok_or(Fault::Words)?;
    let mut executor = Executor::new(&std::fs::read(plan)?, workers, EVENTS)?;
    let mut lines = io::stdin().lock();
    let mut out = io::stdout().lock();
    let mut line = Vec::new();
    for place in 1.. {
        line.clear();
        if lines.read_until(b'\n', &mut line)? == 0 {
            break;
        }
        executor.take(event_of(&line).ok_or(Fault::Line(place))?)?;
        for told in executor.lines() {
            writeln!(out, "{told}")?;
        }
    }
    Ok(out.flush()?)
}

fn main() -> ExitCode {
    let words: Vec<String> = std::env::args().skip(1).collect();
    match run(&words) {
        Ok(()) => ExitCode::SUCCESS,
        Err(fault) => {
            eprintln!("{fault}");
            let of_words = matches!(
                fault,
                Fault::Words | Fault::Executor(ExecutorError::Workers)
            );
            ExitCode::from(if of_words { 2 } else { 1 })
        }
    }
}
