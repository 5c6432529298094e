//! Each answer of the timers.
use sched::timers::{
    Counts, Effect, End, Ending, FinishManyError, Gone, Outcome, Phase, Policy, PollManyError, Run,
    Task,
};
use sched::{TaskRef, Timers, TimersError};

/// The longest span, and the latest moment.
const FARTHEST: u64 = 1 << 62;

fn timers(workers: u32) -> Timers {
    Timers::new(workers).expect("memory")
}

/// The data of the task that a worker begins a run of.
fn begun(timers: &mut Timers, now: u64, worker: u32) -> Option<u64> {
    let run = timers.poll(now, worker).expect("a free worker");
    run.map(|run| run.data)
}

/// What becomes of the task whose run a worker ends well.
fn finished(timers: &mut Timers, now: u64, worker: u32) -> Outcome {
    timers.finish(now, worker, 9).expect("a run").outcome
}

/// How far a task is.
fn phase(timers: &Timers, task: TaskRef) -> Phase {
    timers.task(task).expect("a number").phase
}

/// The data of the tasks that the last call ended.
fn ended(timers: &Timers) -> Vec<u64> {
    timers.ended().map(|gone| gone.data).collect()
}

fn lines(timers: &Timers) -> Vec<String> {
    timers.lines().expect("small numbers").collect()
}

#[test]
fn a_task_runs_once_it_is_due() {
    let mut timers = timers(2);
    let task = timers.schedule(10, 5, 70).expect("memory");
    assert_eq!(task.number, 0);
    assert_eq!(timers.next_due(), Some(15));
    assert_eq!(timers.poll(14, 1), Ok(None));
    let waits = Task {
        phase: Phase::Waiting,
        run: 0,
        due: 15,
        cancelled: false,
    };
    assert_eq!(timers.task(task), Some(waits));
    let run = Run {
        task,
        run: 0,
        due: 15,
        data: 70,
        worker: 1,
    };
    assert_eq!(timers.poll(16, 1), Ok(Some(run)));
    assert_eq!(
        (timers.next_due(), phase(&timers, task)),
        (None, Phase::Running)
    );
    let end = End {
        task,
        run: 0,
        data: 70,
        outcome: Outcome::Done(3),
    };
    assert_eq!(timers.finish(17, 1, 3), Ok(end));
    assert_eq!(phase(&timers, task), Phase::Gone);
}

#[test]
fn ties_come_in_the_order_of_their_submission() {
    let mut timers = timers(1);
    for (now, delay, data) in [(0, 9, 0), (1, 8, 1), (2, 7, 2), (2, 6, 3)] {
        timers.schedule(now, delay, data).expect("memory");
    }
    let mut order = Vec::new();
    while let Some(data) = begun(&mut timers, 9, 0) {
        order.push(data);
        finished(&mut timers, 9, 0);
    }
    assert_eq!(order, [3, 0, 1, 2]);
}

#[test]
fn a_rate_counts_from_due_moments_and_a_delay_from_ends() {
    let mut rate = timers(1);
    rate.at_rate(0, 5, 10, 0).expect("memory");
    for due in [5, 15, 25] {
        let run = rate
            .poll(30, 0)
            .expect("a free worker")
            .expect("it is late");
        assert_eq!(run.due, due);
        assert_eq!(finished(&mut rate, 30, 0), Outcome::Again(due + 10));
    }
    assert_eq!(begun(&mut rate, 30, 0), None);
    let mut fixed = timers(1);
    fixed.with_delay(0, 5, 10, 0).expect("memory");
    assert_eq!(begun(&mut fixed, 30, 0), Some(0));
    assert_eq!(finished(&mut fixed, 33, 0), Outcome::Again(43));
    assert_eq!(
        (begun(&mut fixed, 42, 0), begun(&mut fixed, 43, 0)),
        (None, Some(0))
    );
}

#[test]
fn a_failure_ends_a_periodic_task() {
    let mut timers = timers(1);
    timers.at_rate(0, 0, 1, 0).expect("memory");
    begun(&mut timers, 5, 0).expect("it is due");
    let end = timers.fail(5, 0, u32::MAX).expect("a run");
    assert_eq!(end.outcome, Outcome::Failed(u32::MAX));
    assert_eq!(begun(&mut timers, 50, 0), None);
}

#[test]
fn a_cancel_does_what_the_phase_lets_it() {
    let mut timers = timers(1);
    let waits = timers.schedule(0, 5, 0).expect("memory");
    assert_eq!(timers.cancel(waits), Ok(Effect::Cancelled));
    assert_eq!(phase(&timers, waits), Phase::Kept);
    assert_eq!(timers.cancel(waits), Ok(Effect::Over));
    assert_eq!(timers.next_due(), None);
    assert_eq!(begun(&mut timers, 5, 0), None);
    assert_eq!(phase(&timers, waits), Phase::Gone);

    let runs = timers.execute(6, 1).expect("memory");
    assert_eq!(begun(&mut timers, 7, 0), Some(1));
    assert_eq!(timers.cancel(runs), Ok(Effect::Cancelled));
    assert!(timers.task(runs).expect("a number").cancelled);
    assert_eq!(finished(&mut timers, 8, 0), Outcome::Dropped);
    assert_eq!(timers.cancel(runs), Ok(Effect::Over));

    timers
        .set_policy(9, Policy::Remove, true)
        .expect("a moment");
    let removed = timers.schedule(9, 5, 0).expect("memory");
    assert_eq!(timers.cancel(removed), Ok(Effect::Cancelled));
    assert_eq!(phase(&timers, removed), Phase::Gone);

    assert_eq!(timers.shutdown(20), Ok(true));
    let Err(TimersError::Rejected(rejected)) = timers.execute(20, 0) else {
        panic!("the timers are shut");
    };
    assert_eq!(
        rejected,
        TaskRef {
            number: 3,
            slot: u32::MAX
        }
    );
    assert_eq!(timers.cancel(rejected), Ok(Effect::Rejected));
    let unknown = TaskRef { number: 4, slot: 0 };
    assert_eq!(timers.cancel(unknown), Err(TimersError::NoTask));
    assert_eq!(timers.task(unknown), None);
}

#[test]
fn a_slot_names_no_other_task() {
    let mut timers = timers(1);
    let first = timers.execute(0, 0).expect("memory");
    begun(&mut timers, 0, 0).expect("it is due");
    finished(&mut timers, 1, 0);
    let second = timers.schedule(2, 100, 1).expect("memory");
    let mixed = TaskRef {
        slot: second.slot,
        ..first
    };
    assert_eq!(timers.cancel(mixed), Ok(Effect::Over));
    assert_eq!(phase(&timers, second), Phase::Waiting);
}

#[test]
fn a_shutdown_ends_what_the_policies_say() {
    for (policies, wanted) in [
        ([false, true], vec![1]),
        ([true, true], vec![]),
        ([true, false], vec![0]),
        ([false, false], vec![0, 1]),
    ] {
        let mut timers = timers(1);
        timers.schedule(0, 100, 0).expect("memory");
        timers.at_rate(0, 100, 1, 1).expect("memory");
        let [periodic, once] = policies;
        timers
            .set_policy(1, Policy::Continue, periodic)
            .expect("a moment");
        timers
            .set_policy(1, Policy::Execute, once)
            .expect("a moment");
        assert_eq!(timers.shutdown(2), Ok(true));
        assert_eq!(ended(&timers), wanted);
        assert_eq!(timers.shutdown(3), Ok(false));
        assert_eq!(ended(&timers), []);
        let state = timers.state();
        assert_eq!(state.policy(Policy::Continue), periodic);
        assert_eq!(state.policy(Policy::Execute), once);
        assert!(!state.policy(Policy::Remove) && state.shut);
        assert_eq!(state.terminated, wanted.len() == 2);
    }
}

#[test]
fn a_shutdown_at_once_ends_all_that_waits() {
    let mut timers = timers(1);
    let periodic = timers.at_rate(0, 0, 1, 7).expect("memory");
    let waits = timers.schedule(0, 100, 8).expect("memory");
    assert_eq!(begun(&mut timers, 1, 0), Some(7));
    timers.shutdown_now(2).expect("a moment");
    let gone = Gone {
        task: waits,
        data: 8,
    };
    assert_eq!(timers.ended().collect::<Vec<_>>(), [gone]);
    let mut left = timers.ended();
    assert_eq!((left.len(), left.next(), left.len()), (1, Some(gone), 0));
    assert_eq!((left.next(), left.next(), left.len()), (None, None, 0));
    assert_eq!(lines(&timers), ["2 shutdown now", "2 end 1"]);
    let counts = Counts {
        queue: 0,
        running: 1,
        shut: true,
        terminated: false,
    };
    assert_eq!(timers.ask(2), Ok(counts));
    assert_eq!(finished(&mut timers, 3, 0), Outcome::Ended);
    assert_eq!(phase(&timers, periodic), Phase::Gone);
    assert!(timers.ask(3).expect("a moment").terminated);
}

#[test]
fn many_runs_begin_and_end_in_one_call() {
    let mut timers = timers(3);
    for data in 0..2 {
        timers.execute(0, data).expect("memory");
    }
    let worker = |worker| Run {
        worker,
        ..Run::default()
    };
    let mut runs = [worker(0), worker(2), worker(1)];
    assert_eq!(timers.poll_many(5, &mut runs), Ok(2));
    assert_eq!(
        runs.map(|run| (run.worker, run.data)),
        [(0, 0), (2, 1), (1, 0)]
    );
    assert_eq!(timers.poll_many(5, &mut []), Ok(0));
    let refused = |begun, why| Err(PollManyError { begun, why });
    assert_eq!(
        timers.poll_many(5, &mut [worker(2)]),
        refused(0, TimersError::Busy)
    );
    timers.execute(5, 2).expect("memory");
    let polled = timers.poll_many(6, &mut [worker(1), worker(3)]);
    assert_eq!(polled, refused(1, TimersError::NoWorker));

    let ending = |worker, result| Ending { worker, result };
    let done = timers.finish_many(7, &[ending(2, Ok(4)), ending(0, Err(5))]);
    let outcomes: Vec<Outcome> = done.expect("runs").iter().map(|end| end.outcome).collect();
    assert_eq!(outcomes, [Outcome::Done(4), Outcome::Failed(5)]);
    assert_eq!(timers.finish_many(7, &[]), Ok(vec![]));
    let half = timers.finish_many(8, &[ending(1, Ok(0)), ending(1, Ok(0)), ending(0, Ok(0))]);
    let Err(FinishManyError { ended, why }) = half else {
        panic!("the second one has no run");
    };
    assert_eq!((ended.len(), why), (1, TimersError::NotRunning));
}

#[test]
fn each_refusal_leaves_the_timers_as_they_were() {
    let refusal = |workers| Timers::new(workers).err();
    assert_eq!(
        (refusal(0), refusal(256)),
        (Some(TimersError::Workers), Some(TimersError::Workers))
    );
    let mut timers = timers(255);
    timers.reserve(100).expect("memory");
    assert_eq!(timers.at_rate(0, 1, 0, 0), Err(TimersError::ZeroPeriod));
    assert_eq!(timers.with_delay(0, 1, 0, 0), Err(TimersError::ZeroPeriod));
    assert_eq!(
        timers.schedule(0, FARTHEST + 1, 0),
        Err(TimersError::TooLong)
    );
    assert_eq!(
        timers.schedule(FARTHEST + 1, 0, 0),
        Err(TimersError::TooFar)
    );
    assert_eq!(timers.poll(0, 255), Err(TimersError::NoWorker));
    assert_eq!(timers.finish(0, 254, 0), Err(TimersError::NotRunning));
    assert_eq!(timers.fail(0, 255, 0), Err(TimersError::NoWorker));
    assert_eq!(timers.ask(FARTHEST + 1), Err(TimersError::TooFar));
    let state = timers.state();
    assert_eq!(
        (state.now, state.numbers, state.alive, state.lines),
        (0, 0, 0, 0)
    );
    timers.execute(0, 0).expect("memory");
    timers
        .poll(0, 63)
        .expect("a free worker")
        .expect("it is due");
    assert_eq!(timers.poll(0, 63), Err(TimersError::Busy));
    assert_eq!(
        timers
            .schedule(FARTHEST, FARTHEST, 0)
            .expect("memory")
            .number,
        1
    );
    assert_eq!(timers.next_due(), Some(1 << 63));
}

#[test]
fn calls_are_answered_in_lines() {
    let mut timers = timers(1);
    assert_eq!(lines(&timers), [""; 0]);
    let task = timers.at_rate(3, 2, 10, 0).expect("memory");
    assert_eq!(lines(&timers), ["3 submit 0 rate due 5"]);
    timers
        .poll(5, 0)
        .expect("a free worker")
        .expect("it is due");
    assert_eq!(lines(&timers), ["5 clock", "5 start 0 task 0 run 0 due 5"]);
    let mut left = timers.lines().expect("small numbers");
    assert_eq!(
        (left.len(), left.next().is_some(), left.len()),
        (2, true, 1)
    );
    assert_eq!(left.nth(1), None);
    timers.cancel(task).expect("a number");
    assert_eq!(lines(&timers), ["5 outside 0 yes"]);
    timers.finish(7, 0, 1).expect("a run");
    assert_eq!(
        lines(&timers),
        ["7 clock", "7 finish 0 task 0 run 0 dropped"]
    );
    timers
        .set_policy(7, Policy::Execute, false)
        .expect("a moment");
    assert_eq!(lines(&timers), ["8 policy execute false"]);
}

#[test]
fn timers_cross_to_another_thread() {
    let mut timers = timers(1);
    timers.execute(0, 5).expect("memory");
    let moved = std::thread::spawn(move || begun(&mut timers, 5, 0));
    assert_eq!(moved.join().expect("it ends"), Some(5));
}

#[test]
fn a_purge_takes_what_is_kept_and_nothing_that_waits() {
    let mut timers = timers(1);
    let kept = timers.schedule(0, 5, 70).expect("memory");
    timers.schedule(0, 9, 71).expect("memory");
    timers.cancel(kept).expect("a number");
    assert_eq!((timers.next_due(), timers.head_due()), (Some(9), Some(5)));
    timers.purge();
    assert_eq!((timers.next_due(), timers.head_due()), (Some(9), Some(9)));
}
