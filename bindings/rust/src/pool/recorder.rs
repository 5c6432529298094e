//! The plan and the trace of a pool, which `sched check` compares.

use super::state::{Call, When};
use crate::timers::{Policy, Timers};
use std::fmt::Write;

/// How many calls a block of a plan has at most.
const BLOCK_CALLS: usize = 256;

/// What a pool did so far, as `docs/RULES.md` writes it.
#[derive(Clone, Debug, PartialEq, Eq)]
pub struct Recording {
    /// The calls that were made, as the text of a plan. One has room for 65,536.
    pub plan: String,
    /// The lines of all calls.
    pub trace: String,
}

/// The calls of a pool, and the lines that answer them.
#[derive(Default)]
pub struct Recorder {
    /// The moments of the calls, and the keys that say what each one is.
    calls: Vec<(u64, String)>,
    /// How many of them were submissions.
    tasks: usize,
    trace: String,
}

impl Recorder {
    /// Adds the lines of the last call, and the call itself where a plan has such calls: a poll, a finish and a cancel are events.
    pub fn note(&mut self, call: Option<Call>, timers: &Timers) {
        let lines: Vec<String> = timers
            .lines()
            .expect("a recording is short enough for each number")
            .collect();
        if let Some(call) = call {
            let moment = lines[0]
                .split(' ')
                .next()
                .and_then(|word| word.parse().ok());
            let keys = self.keys(call);
            self.calls
                .push((moment.expect("a line begins with its moment"), keys));
        }
        for line in lines {
            self.trace.push_str(&line);
            self.trace.push('\n');
        }
    }

    /// What was noted so far.
    pub fn recording(&self) -> Recording {
        let mut plan = String::from("version = 2\n");
        for block in self.calls.chunks(BLOCK_CALLS) {
            let (start, _) = block[0];
            writeln!(plan, "\n[[block]]\nat = {start}\ncall = [").expect("a string has room");
            for (moment, keys) in block {
                writeln!(plan, "    {{ at = {}, {keys} }},", moment - start)
                    .expect("a string has room");
            }
            plan.push_str("]\n");
        }
        Recording {
            plan,
            trace: self.trace.clone(),
        }
    }

    /// The keys of a call, but for its moment.
    fn keys(&mut self, call: Call) -> String {
        match call {
            Call::Submit(when) => {
                let name = format!("name = \"t{}\"", self.tasks);
                self.tasks += 1;
                submission(when, &name)
            }
            Call::SetPolicy(policy, value) => {
                let which = match policy {
                    Policy::Continue => "continue",
                    Policy::Execute => "execute",
                    Policy::Remove => "remove",
                };
                format!("op = \"policy\", which = \"{which}\", value = {value}")
            }
            Call::ShutDown => "op = \"shutdown\"".to_owned(),
            Call::ShutDownNow => "op = \"shutdown_now\"".to_owned(),
            Call::Ask => "op = \"ask\"".to_owned(),
        }
    }
}

/// The keys of a submission of this name.
fn submission(when: When, name: &str) -> String {
    match when {
        When::Now => format!("op = \"execute\", {name}"),
        When::After(delay) => format!("op = \"schedule\", {name}, delay = {delay}"),
        When::AtRate(first, period) => {
            format!("op = \"rate\", {name}, first = {first}, period = {period}")
        }
        When::WithDelay(first, delay) => {
            format!("op = \"fixed\", {name}, first = {first}, delay = {delay}")
        }
    }
}
