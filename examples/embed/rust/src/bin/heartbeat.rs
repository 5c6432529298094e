//! A heartbeat: a task at a fixed rate, every 10 nanoseconds, that runs five times over a clock of the program's own.
use sched::{Event, Executor, ExecutorError};

const PLAN: &str = "version = 2
[[block]]
[[block.call]]
op = \"rate\"
name = \"heartbeat\"
first = 10
period = 10
";

/// Takes an event, and writes the lines that answer it.
fn tell(executor: &mut Executor, event: Event) -> Result<(), ExecutorError> {
    executor.take(event)?;
    for line in executor.lines() {
        println!("{line}");
    }
    Ok(())
}

fn main() -> Result<(), ExecutorError> {
    let mut executor = Executor::new(PLAN.as_bytes(), 1, 1_000)?;
    let mut beats = 0;
    for moment in (0..).step_by(5) {
        tell(&mut executor, Event::Clock(moment))?;
        while executor.ripe() {
            tell(&mut executor, Event::Start(0))?;
            let Some(run) = executor.started() else {
                break;
            };
            beats += 1; // the work of `run.task` stands here
            tell(&mut executor, Event::Finish(run.worker, beats))?;
            if beats == 5 {
                return Ok(());
            }
        }
    }
    Ok(())
}
