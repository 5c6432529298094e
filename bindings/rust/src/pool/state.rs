//! What the lock of a pool guards: the timers, the jobs of the tasks that wait, and who of the workers sleeps.

use super::job::Job;
use super::recorder::{Recorder, Recording};
use crate::timers::{
    Counts, Effect, End, Outcome, Phase, Policy, Run, State as Timed, TaskRef, Timers, TimersError,
};
use std::mem;
use std::task::Waker;
use std::time::Duration;

/// The code of each failure: a job has no other way to fail than a panic.
const PANICKED: u32 = 1;

/// When a task is to run, in nanoseconds from its submission.
#[derive(Clone, Copy)]
pub enum When {
    Now,
    After(u64),
    /// The first run, and the period.
    AtRate(u64, u64),
    /// The first run, and the delay between two.
    WithDelay(u64, u64),
}

/// A call that a plan may make.
#[derive(Clone, Copy)]
pub enum Call {
    Submit(When),
    SetPolicy(Policy, bool),
    ShutDown,
    ShutDownNow,
    Ask,
}

/// Which threads to wake once the lock is given back.
#[derive(Clone, Copy, Default, PartialEq, Eq)]
pub enum Wake {
    #[default]
    Nobody,
    /// One worker.
    OneWorker,
    /// All workers, and all who wait for the end: the pool is terminated.
    Everybody,
}

/// The worker that waits with a time limit, and until when.
#[derive(Clone, Copy)]
struct Leader {
    worker: u32,
    due: u64,
}

/// What the lock guards. Each `now` is a moment, in nanoseconds, of a clock that does not go back. It may be read before the lock
/// is taken: the timers take it for the greatest one so far where it is less.
pub struct State {
    timers: Timers,
    /// The jobs of the tasks that wait, each at its task's slot. A worker takes a job out, runs it, and puts back what runs again.
    jobs: Vec<Option<Box<dyn Job>>>,
    leader: Option<Leader>,
    /// How many workers sleep, or are about to wake.
    asleep: usize,
    /// Whether one of those was called, and has not looked for work since.
    called: bool,
    wake: Wake,
    /// Who polled handles whose tasks are over since the lock was taken.
    wakers: Vec<Waker>,
    shut: bool,
    terminated: bool,
    recorder: Option<Box<Recorder>>,
}

impl State {
    /// A pool of so many workers, none of which sleeps.
    pub fn new(workers: u32) -> Result<State, TimersError> {
        Ok(State {
            timers: Timers::new(workers)?,
            jobs: Vec::new(),
            leader: None,
            asleep: 0,
            called: false,
            wake: Wake::Nobody,
            wakers: Vec::new(),
            shut: false,
            terminated: false,
            recorder: None,
        })
    }

    /// Keeps the calls and lines from now on. Before it no call may have been made.
    pub fn record(&mut self) {
        self.recorder = Some(Box::default());
    }

    /// The calls and lines so far, where they are kept.
    pub fn recording(&self) -> Option<Recording> {
        self.recorder.as_ref().map(|recorder| recorder.recording())
    }

    /// Whom to wake, who is not told again: threads, and who polled handles.
    pub fn take_wakes(&mut self) -> (Wake, Vec<Waker>) {
        (mem::take(&mut self.wake), mem::take(&mut self.wakers))
    }

    /// Who polled a handle is woken once the lock is given back.
    pub fn wake_later(&mut self, waker: Option<Waker>) {
        self.wakers.extend(waker);
    }

    pub fn is_shut(&self) -> bool {
        self.shut
    }

    pub fn is_terminated(&self) -> bool {
        self.terminated
    }

    // ---- what a program calls

    /// Submits a task. A job that is refused comes back, to be dropped without the lock.
    pub fn submit(
        &mut self,
        now: u64,
        when: When,
        job: Box<dyn Job>,
    ) -> Result<TaskRef, (TimersError, Box<dyn Job>)> {
        let submitted = match when {
            When::Now => self.timers.execute(now, 0),
            When::After(delay) => self.timers.schedule(now, delay, 0),
            When::AtRate(first, period) => self.timers.at_rate(now, first, period, 0),
            When::WithDelay(first, delay) => self.timers.with_delay(now, first, delay, 0),
        };
        if matches!(submitted, Ok(_) | Err(TimersError::Rejected(_))) {
            self.note(Some(Call::Submit(when)));
        }
        match submitted {
            Ok(task) => {
                self.put(task, job);
                self.call_for_first();
                Ok(task)
            }
            Err(why) => Err((why, job)),
        }
    }

    /// Cancels a task: whether that had an effect, and the job, where the task waited.
    pub fn cancel(&mut self, task: TaskRef) -> (bool, Option<Box<dyn Job>>) {
        let effect = possible(self.timers.cancel(task));
        self.note(None);
        if effect != Effect::Cancelled {
            return (false, None);
        }
        let job = self.jobs[task.slot as usize].take();
        self.look_for_the_end();
        (true, job)
    }

    /// Sets a policy, and gives back the jobs of the tasks that this ends. A pool that is shut keeps no cancelled task.
    pub fn set_policy(&mut self, now: u64, policy: Policy, value: bool) -> Vec<Box<dyn Job>> {
        if self.shut && policy == Policy::Remove {
            return Vec::new();
        }
        possible(self.timers.set_policy(now, policy, value));
        self.note(Some(Call::SetPolicy(policy, value)));
        self.end_jobs()
    }

    /// Shuts down in order, and gives back the jobs of the tasks that this ends.
    pub fn shut_down(&mut self, now: u64) -> Vec<Box<dyn Job>> {
        possible(self.timers.shutdown(now));
        self.note(Some(Call::ShutDown));
        self.close(now)
    }

    /// Shuts down at once, and gives back the jobs of the tasks that waited.
    pub fn shut_down_now(&mut self, now: u64) -> Vec<Box<dyn Job>> {
        possible(self.timers.shutdown_now(now));
        self.note(Some(Call::ShutDownNow));
        self.close(now)
    }

    /// How many tasks there are.
    pub fn counts(&mut self, now: u64) -> Counts {
        let counts = possible(self.timers.ask(now));
        self.note(Some(Call::Ask));
        counts
    }

    /// How far the timers are.
    pub fn timed(&self) -> Timed {
        self.timers.state()
    }

    /// How long a task waits still for its next run. `None`: it does not wait.
    pub fn remaining(&self, now: u64, task: TaskRef) -> Option<Duration> {
        let task = self.timers.task(task)?;
        (task.phase == Phase::Waiting).then(|| until(now, task.due))
    }

    // ---- what a worker calls

    /// Begins a run of the first task that is due. It has to be ended by `end`.
    pub fn begin(&mut self, now: u64, worker: u32) -> Option<Box<dyn Job>> {
        let run = possible(self.timers.poll(now, worker));
        self.note(None);
        let Run { task, .. } = run?;
        let job = self.jobs[task.slot as usize].take();
        self.call_for_first();
        Some(job.expect("a task that waits has its job"))
    }

    /// A worker has run a job, well or not. A job that is over comes back, to be dropped without the lock.
    pub fn end(
        &mut self,
        now: u64,
        worker: u32,
        mut job: Box<dyn Job>,
        well: bool,
    ) -> Option<Box<dyn Job>> {
        let End { task, outcome, .. } = self.end_run(now, worker, well);
        let waker = match outcome {
            Outcome::Again(due) => {
                self.put(task, job);
                self.depose(due);
                return None;
            }
            Outcome::Done(_) | Outcome::Failed(_) => job.tell(),
            Outcome::Dropped | Outcome::Ended => job.cancel(),
        };
        self.wake_later(waker);
        self.look_for_the_end();
        Some(job)
    }

    /// A worker that found nothing to do goes to sleep: how long at most, or without limit. `wakes` has to follow.
    pub fn sleeps(&mut self, now: u64, worker: u32) -> Option<Duration> {
        self.asleep += 1;
        if self.leader.is_some() {
            return None;
        }
        let due = self.timers.next_due()?;
        self.leader = Some(Leader { worker, due });
        Some(until(now, due))
    }

    /// A worker that slept is awake, and looks for work.
    pub fn wakes(&mut self, worker: u32) {
        self.asleep -= 1;
        self.called = false;
        if self.leader.is_some_and(|leader| leader.worker == worker) {
            self.leader = None;
        }
    }

    // ---- parts

    /// Keeps the last call and its lines, where they are kept.
    fn note(&mut self, call: Option<Call>) {
        if let Some(recorder) = &mut self.recorder {
            recorder.note(call, &self.timers);
        }
    }

    /// Puts the job of a task that waits at its slot.
    fn put(&mut self, task: TaskRef, job: Box<dyn Job>) {
        let place = task.slot as usize;
        if place >= self.jobs.len() {
            self.jobs.resize_with(place + 1, || None);
        }
        self.jobs[place] = Some(job);
    }

    /// Calls a worker where one sleeps and a task waits that is due before the moment that the leader waits for.
    fn call_for_first(&mut self) {
        let comes = self.called && self.leader.is_none();
        if self.asleep == 0 || comes {
            return;
        }
        let Some(due) = self.timers.next_due() else {
            return;
        };
        self.depose(due);
        if self.leader.is_none() && !self.called {
            self.called = true;
            self.wake = Wake::OneWorker;
        }
    }

    /// There is no leader any more where one waits for a later moment than this: a worker that looks for work becomes it.
    fn depose(&mut self, due: u64) {
        self.leader.take_if(|leader| due < leader.due);
    }

    /// Ends the run of a worker.
    fn end_run(&mut self, now: u64, worker: u32, well: bool) -> End {
        let ended = if well {
            self.timers.finish(now, worker, 0)
        } else {
            self.timers.fail(now, worker, PANICKED)
        };
        self.note(None);
        possible(ended)
    }

    /// The pool is shut by the last call. A task that is cancelled from now on leaves the queue at once, whatever the policy says,
    /// so that the end does not wait for a moment at which nothing runs.
    fn close(&mut self, now: u64) -> Vec<Box<dyn Job>> {
        let jobs = self.end_jobs();
        if !self.shut {
            self.set_policy(now, Policy::Remove, true);
            self.shut = true;
        }
        self.look_for_the_end();
        jobs
    }

    /// The jobs of the tasks that the last call ended. Their handles have that they are cancelled.
    fn end_jobs(&mut self) -> Vec<Box<dyn Job>> {
        let mut ended = Vec::new();
        for gone in self.timers.ended() {
            let job = self.jobs[gone.task.slot as usize].take();
            let mut job = job.expect("a task that waits has its job");
            self.wakers.extend(job.cancel());
            ended.push(job);
        }
        self.look_for_the_end();
        ended
    }

    /// Tells everybody, once, where the pool is terminated.
    fn look_for_the_end(&mut self) {
        if self.shut && !self.terminated && self.timers.state().terminated {
            self.terminated = true;
            self.wake = Wake::Everybody;
        }
    }
}

/// How long it is from now until a moment.
fn until(now: u64, moment: u64) -> Duration {
    Duration::from_nanos(moment.saturating_sub(now))
}

/// The answer of a call that a pool makes as it has to be. It would be refused at a moment above 2^62 nanoseconds, after 146 years,
/// and after 2^64 - 1 runs of a task.
fn possible<T>(answer: Result<T, TimersError>) -> T {
    answer.expect("a call within 146 years")
}
