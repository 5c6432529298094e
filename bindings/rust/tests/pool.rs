//! The pool, on the clock: orders, and the least times that pass. Nothing is asserted of the longest, which is the machine's.

use sched::timers::Counts;
use sched::{Handle, JoinError, PoolError, ScheduledThreadPool, TimersError};
use std::convert::Infallible;
use std::fs;
use std::io::ErrorKind;
use std::process::Command;
use std::sync::atomic::{AtomicBool, AtomicUsize, Ordering};
use std::sync::mpsc::{self, Receiver, Sender};
use std::sync::{Arc, Barrier, Mutex};
use std::thread;
use std::time::{Duration, Instant};

/// Long enough for all that ends.
const LONG: Duration = Duration::from_secs(60);
const HOUR: Duration = Duration::from_secs(3_600);

fn milliseconds(count: u64) -> Duration {
    Duration::from_millis(count)
}

fn pool(threads: usize) -> ScheduledThreadPool {
    ScheduledThreadPool::new(threads).expect("threads")
}

/// A job that runs until it is let go, and says that it began.
struct Held {
    began: Receiver<()>,
    release: Sender<()>,
}

impl Held {
    /// The job, and who holds it.
    fn new() -> (Held, impl FnOnce() + Send + 'static) {
        let (begin, began) = mpsc::channel();
        let (release, released) = mpsc::channel();
        let job = move || {
            begin.send(()).expect("somebody waits");
            released.recv().expect("it is let go");
        };
        (Held { began, release }, job)
    }

    /// Submits it to a pool, and waits until it runs.
    fn on(pool: &ScheduledThreadPool) -> (Held, Handle<()>) {
        let (held, job) = Held::new();
        let handle = pool.execute(job).expect("the pool is open");
        held.began.recv().expect("it runs");
        (held, handle)
    }

    fn let_go(&self) {
        self.release.send(()).expect("it waits");
    }
}

/// A list that jobs write to.
type Journal<E> = Arc<Mutex<Vec<E>>>;

fn written<E: Clone>(journal: &Journal<E>) -> Vec<E> {
    journal.lock().expect("no writer panics").clone()
}

/// A job that writes an entry.
fn writes<E: Send + Clone + 'static>(
    journal: &Journal<E>,
    entry: E,
) -> impl FnMut() + Send + 'static {
    let journal = Arc::clone(journal);
    move || {
        journal
            .lock()
            .expect("no writer panics")
            .push(entry.clone());
    }
}

#[test]
fn a_job_gives_its_value_no_sooner_than_it_is_due() {
    let pool = pool(2);
    let before = Instant::now();
    let job = pool.schedule(milliseconds(20), move || (before.elapsed(), "a value"));
    let (passed, value) = job.expect("the pool is open").join().expect("a value");
    assert!(passed >= milliseconds(20), "{passed:?}");
    assert_eq!(value, "a value");
}

#[test]
fn jobs_of_one_delay_run_in_the_order_of_their_submission() {
    let pool = pool(1);
    let journal = Journal::default();
    let (held, _handle) = Held::on(&pool);
    for place in 0..100 {
        let delay = milliseconds(place % 2);
        pool.schedule(delay, writes(&journal, place))
            .expect("the pool is open");
    }
    pool.shutdown();
    thread::sleep(milliseconds(2));
    held.let_go();
    assert!(pool.await_termination(LONG));
    let (at_once, later): (Vec<u64>, Vec<u64>) =
        written(&journal).iter().partition(|place| *place % 2 == 0);
    assert_eq!((at_once.len(), later.len()), (50, 50));
    assert!(at_once.is_sorted() && later.is_sorted());
}

#[test]
fn a_rate_counts_from_its_due_moments() {
    let pool = pool(2);
    let (send, beats) = mpsc::channel();
    let start = Instant::now();
    let job = move || send.send(start.elapsed()).expect("somebody listens");
    let handle = pool.schedule_at_fixed_rate(milliseconds(5), milliseconds(5), job);
    let moments: Vec<Duration> = beats.iter().take(8).collect();
    let handle = handle.expect("the pool is open");
    assert!(handle.cancel());
    for (run, moment) in (1..).zip(&moments) {
        assert!(*moment >= milliseconds(5) * run, "run {run} at {moment:?}");
    }
    assert_eq!(handle.join(), Err(JoinError::Cancelled));
}

/// Five runs are due before the other task, and all are late: each of them begins before it.
#[test]
fn a_rate_that_is_late_catches_up() {
    let pool = pool(1);
    let journal = Journal::default();
    let (held, _handle) = Held::on(&pool);
    let beat = writes(&journal, "beat");
    let beats = pool.schedule_at_fixed_rate(Duration::ZERO, milliseconds(5), beat);
    let other = pool.schedule(milliseconds(22), writes(&journal, "other"));
    thread::sleep(milliseconds(30));
    held.let_go();
    assert_eq!(other.expect("the pool is open").join(), Ok(()));
    assert!(beats.expect("the pool is open").cancel());
    let before = written(&journal)
        .iter()
        .take_while(|entry| **entry == "beat")
        .count();
    assert!(before >= 5, "{before}");
}

#[test]
fn a_fixed_delay_counts_from_the_end_of_a_run() {
    let pool = pool(2);
    let (send, runs) = mpsc::channel();
    let job = move || {
        let began = Instant::now();
        thread::sleep(milliseconds(5));
        send.send((began, Instant::now()))
            .expect("somebody listens");
    };
    let handle = pool.schedule_with_fixed_delay(Duration::ZERO, milliseconds(10), job);
    let handle = handle.expect("the pool is open");
    let moments: Vec<(Instant, Instant)> = runs.iter().take(5).collect();
    handle.cancel();
    for pair in moments.windows(2) {
        assert!(pair[1].0 - pair[0].1 >= milliseconds(10), "{pair:?}");
    }
}

#[test]
fn runs_of_one_task_do_not_overlap() {
    let pool = pool(4);
    let running = Arc::new(AtomicUsize::new(0));
    let (send, runs) = mpsc::channel();
    let job = move || {
        let others = running.fetch_add(1, Ordering::SeqCst);
        thread::sleep(milliseconds(3));
        running.fetch_sub(1, Ordering::SeqCst);
        send.send(others).expect("somebody listens");
    };
    let handle = pool.schedule_at_fixed_rate(Duration::ZERO, milliseconds(1), job);
    assert!(runs.iter().take(20).all(|others| others == 0));
    handle.expect("the pool is open").cancel();
}

#[test]
fn a_cancel_has_an_effect_once() {
    let pool = pool(1);
    let waits = pool.schedule(HOUR, || ()).expect("the pool is open");
    assert!(waits.remaining().expect("it waits") > HOUR / 2);
    assert!(!waits.is_done() && !waits.is_cancelled());
    assert!(waits.cancel() && waits.is_done() && waits.is_cancelled());
    assert!(!waits.cancel());
    assert_eq!(
        (waits.remaining(), waits.join()),
        (None, Err(JoinError::Cancelled))
    );

    let (held, runs) = Held::on(&pool);
    assert_eq!(runs.remaining(), None);
    assert!(runs.cancel() && runs.is_cancelled() && !runs.cancel());
    assert_eq!(runs.join(), Err(JoinError::Cancelled));
    held.let_go();

    let over = pool.execute(|| 5).expect("the pool is open");
    over.wait();
    assert!(!over.cancel() && over.is_done() && !over.is_cancelled());
    assert_eq!(over.join(), Ok(5));
}

#[test]
fn a_cancelled_job_is_dropped_at_once() {
    let pool = pool(1);
    let captured = Arc::new(());
    let kept = Arc::clone(&captured);
    let handle = pool.schedule(HOUR, move || drop(kept));
    assert!(handle.expect("the pool is open").cancel());
    assert_eq!(Arc::strong_count(&captured), 1);
}

#[test]
fn a_job_that_is_cancelled_while_it_waits_never_runs() {
    let pool = pool(1);
    let (held, _handle) = Held::on(&pool);
    let ran = Arc::new(AtomicBool::new(false));
    let flag = Arc::clone(&ran);
    let waits = pool.execute(move || flag.store(true, Ordering::SeqCst));
    assert!(waits.expect("the pool is open").cancel());
    held.let_go();
    let later = pool.execute(|| ()).expect("the pool is open");
    assert_eq!(later.join(), Ok(()));
    assert!(!ran.load(Ordering::SeqCst));
}

#[test]
fn a_cancelled_task_stays_in_the_queue_by_the_policy() {
    let pool = pool(1);
    let queue = |pool: &ScheduledThreadPool| pool.counts().queue;
    pool.schedule(HOUR, || ())
        .expect("the pool is open")
        .cancel();
    assert_eq!(queue(&pool), 1);
    pool.set_remove_on_cancel(true);
    pool.schedule(HOUR, || ())
        .expect("the pool is open")
        .cancel();
    assert_eq!(queue(&pool), 1);
    pool.set_remove_on_cancel(false);
    let late = pool.schedule(HOUR, || ()).expect("the pool is open");
    pool.shutdown();
    pool.set_remove_on_cancel(false);
    assert_eq!(queue(&pool), 1);
    assert!(late.cancel() && pool.is_terminated());
}

/// A timeout that is cancelled as it runs has run, so as many have run as were not cancelled, or more.
#[test]
fn of_ten_thousand_timeouts_one_of_a_hundred_fires() {
    let pool = pool(3);
    let fired = Arc::new(AtomicUsize::new(0));
    let mut timeouts = Vec::new();
    for _ in 0..10_000 {
        let fired = Arc::clone(&fired);
        let job = move || fired.fetch_add(1, Ordering::SeqCst);
        let timeout = pool.schedule(milliseconds(300), job);
        timeouts.push(timeout.expect("the pool is open"));
    }
    let mut cancelled = 0;
    for (place, timeout) in timeouts.iter().enumerate() {
        cancelled += usize::from(place % 100 != 0 && timeout.cancel());
    }
    pool.shutdown();
    assert!(pool.await_termination(LONG));
    let values = timeouts.into_iter().map(Handle::join);
    let done = values.filter(Result::is_ok).count();
    assert_eq!(done + cancelled, 10_000);
    assert!(done >= 100 && fired.load(Ordering::SeqCst) >= done);
}

#[test]
fn jobs_submit_and_cancel() {
    let pool = Arc::new(pool(1));
    let waits = pool.schedule(HOUR, || ()).expect("the pool is open");
    let inner = Arc::clone(&pool);
    let outer = pool.execute(move || {
        let next = inner
            .schedule(milliseconds(1), || 6 * 7)
            .expect("the pool is open");
        let counts = inner.counts();
        (waits.cancel(), next, counts.running)
    });
    let (cancelled, next, running) = outer.expect("the pool is open").join().expect("a value");
    assert!(cancelled);
    assert_eq!((running, next.join()), (1, Ok(42)));
}

/// A periodic job that cancels its own task at its third run.
#[test]
fn a_job_cancels_itself() {
    let pool = pool(2);
    let own: Arc<Mutex<Option<Handle<Infallible>>>> = Arc::default();
    let runs = Arc::new(AtomicUsize::new(0));
    let (handle, count) = (Arc::clone(&own), Arc::clone(&runs));
    let (ends, ended) = mpsc::channel();
    let mut slot = own.lock().expect("nobody panics");
    let task = pool.schedule_with_fixed_delay(Duration::ZERO, milliseconds(1), move || {
        if count.fetch_add(1, Ordering::SeqCst) == 2 {
            let handle = handle.lock().expect("nobody panics").take();
            let handle = handle.expect("it was put there");
            ends.send((handle.cancel(), handle.join()))
                .expect("somebody listens");
        }
    });
    *slot = Some(task.expect("the pool is open"));
    drop(slot);
    assert_eq!(ended.recv(), Ok((true, Err(JoinError::Cancelled))));
    pool.shutdown();
    assert!(pool.await_termination(LONG));
    assert_eq!(runs.load(Ordering::SeqCst), 3);
}

#[test]
fn a_panic_fails_its_task_alone() {
    let pool = pool(1);
    let text = pool
        .execute(|| -> u8 { panic!("no {}", "disk") })
        .expect("the pool is open");
    let word = pool
        .execute(|| -> u8 { panic!("no net") })
        .expect("the pool is open");
    let other = pool
        .execute(|| -> u8 { std::panic::panic_any(7) })
        .expect("the pool is open");
    let panicked = |text: &str| JoinError::Panicked(text.to_owned());
    assert_eq!(text.join(), Err(panicked("no disk")));
    assert_eq!(word.join(), Err(panicked("no net")));
    assert_eq!(other.join(), Err(panicked("a payload that is no text")));

    let mut left = 3;
    let periodic = pool.schedule_at_fixed_rate(Duration::ZERO, milliseconds(1), move || {
        left -= 1;
        assert!(left > 0, "worn out");
    });
    let periodic = periodic.expect("the pool is open");
    assert_eq!(periodic.join(), Err(panicked("worn out")));
    assert_eq!(pool.execute(|| 1).expect("the pool is open").join(), Ok(1));
}

/// A value that calls a pool as it is dropped, and tells how many runs are under way.
struct Asks {
    pool: Arc<ScheduledThreadPool>,
    told: Sender<usize>,
}

impl Drop for Asks {
    fn drop(&mut self) {
        let running = self.pool.counts().running;
        self.told.send(running).expect("somebody listens");
    }
}

#[test]
fn what_a_job_holds_may_call_the_pool_as_it_is_dropped() {
    let pool = Arc::new(pool(1));
    let (told, drops) = mpsc::channel();
    let asks = || Asks {
        pool: Arc::clone(&pool),
        told: told.clone(),
    };
    let dropped = |held: Asks| pool.schedule(HOUR, move || drop(held));

    let waits = dropped(asks()).expect("the pool is open");
    assert!(waits.cancel());
    assert_eq!(drops.try_recv(), Ok(0));

    // The worker drops the second value before it waits, and the first one before it runs the second job.
    let (held, _handle) = Held::on(&pool);
    for value in [asks(), asks()] {
        drop(pool.execute(move || value).expect("the pool is open"));
    }
    held.let_go();
    assert_eq!((drops.recv(), drops.recv()), (Ok(1), Ok(0)));

    let ((held, job), value) = (Held::new(), asks());
    let mut job = Some(job);
    let periodic = pool.schedule_at_fixed_rate(Duration::ZERO, HOUR, move || {
        let _ = &value;
        job.take().expect("it runs once")();
    });
    held.began.recv().expect("it runs");
    assert!(periodic.expect("the pool is open").cancel());
    held.let_go();
    assert_eq!(drops.recv(), Ok(0));

    dropped(asks()).expect("the pool is open");
    assert_eq!(pool.shutdown_now(), 1);
    assert_eq!(drops.try_recv(), Ok(0));
    dropped(asks()).expect_err("the pool is shut");
    assert_eq!(drops.try_recv(), Ok(0));
}

/// A value that panics as it is dropped.
struct Brittle;

impl Drop for Brittle {
    fn drop(&mut self) {
        panic!("broken");
    }
}

#[test]
fn a_worker_outlives_what_panics_as_it_is_dropped() {
    let pool = pool(1);
    let (held, _handle) = Held::on(&pool);
    drop(pool.execute(|| Brittle).expect("the pool is open"));
    held.let_go();
    let payload = pool.execute(|| -> () { std::panic::panic_any(Brittle) });
    let panicked = payload.expect("the pool is open").join();
    assert!(matches!(panicked, Err(JoinError::Panicked(_))));

    let (held, job) = Held::new();
    let (brittle, mut job) = (Brittle, Some(job));
    let periodic = pool.schedule_at_fixed_rate(Duration::ZERO, HOUR, move || {
        let _ = &brittle;
        job.take().expect("it runs once")();
    });
    held.began.recv().expect("it runs");
    assert!(periodic.expect("the pool is open").cancel());
    held.let_go();
    assert_eq!(pool.execute(|| 1).expect("the pool is open").join(), Ok(1));
}

#[test]
fn a_shutdown_outlives_what_panics_as_it_is_dropped() {
    let pool = pool(1);
    let brittle = Brittle;
    let waits = pool
        .schedule(HOUR, move || drop(brittle))
        .expect("the pool is open");
    let after = pool.schedule(HOUR, || ()).expect("the pool is open");
    let panics = std::panic::catch_unwind(std::panic::AssertUnwindSafe(|| pool.shutdown_now()));
    assert!(panics.is_err() && waits.is_cancelled() && after.is_cancelled());
    assert!(pool.await_termination(LONG));
}

#[test]
fn a_shutdown_drops_all_jobs_though_several_panic_as_they_are_dropped() {
    let shutdowns: [fn(&ScheduledThreadPool); 3] = [
        |pool| {
            pool.shutdown_now();
        },
        |pool| {
            pool.set_execute_after_shutdown(false);
            pool.shutdown();
        },
        |pool| {
            pool.shutdown();
            pool.set_execute_after_shutdown(false);
        },
    ];
    for shut_down in shutdowns {
        let pool = pool(1);
        let waits = [Brittle, Brittle, Brittle].map(|brittle| {
            pool.schedule(HOUR, move || drop(brittle))
                .expect("the pool is open")
        });
        let panics = std::panic::catch_unwind(std::panic::AssertUnwindSafe(|| shut_down(&pool)));
        assert!(panics.is_err() && waits.iter().all(|waits| waits.is_cancelled()));
        assert!(pool.await_termination(LONG));
    }
}

#[test]
fn the_drop_of_a_pool_waits_though_jobs_panic_as_they_are_dropped() {
    let pool = pool(1);
    let (began, begins) = mpsc::channel();
    let ended = Arc::new(AtomicBool::new(false));
    let ends = Arc::clone(&ended);
    let run = pool.execute(move || {
        began.send(()).expect("it is waited for");
        thread::sleep(milliseconds(50));
        ends.store(true, Ordering::SeqCst);
    });
    drop(run.expect("the pool is open"));
    let waits = [Brittle, Brittle].map(|brittle| {
        pool.schedule(HOUR, move || drop(brittle))
            .expect("the pool is open")
    });
    begins.recv().expect("it runs");
    drop(pool);
    assert!(ended.load(Ordering::SeqCst));
    assert!(waits.iter().all(|waits| waits.is_cancelled()));
}

#[test]
fn the_policies_say_what_a_shutdown_lets_run() {
    for (periodic, once) in [(false, true), (true, false), (true, true), (false, false)] {
        let pool = pool(2);
        pool.set_continue_after_shutdown(periodic);
        pool.set_execute_after_shutdown(once);
        let soon_or_late = |soon| if soon { milliseconds(20) } else { HOUR };
        let (beat, beats) = mpsc::channel();
        let pulse = pool
            .schedule_at_fixed_rate(soon_or_late(periodic), milliseconds(1), move || {
                let _ = beat.send(());
            })
            .expect("the pool is open");
        let delayed = pool
            .schedule(soon_or_late(once), || "ran")
            .expect("the pool is open");
        pool.shutdown();
        assert!(pool.is_shutdown());
        assert_eq!(
            (pulse.is_cancelled(), delayed.is_cancelled()),
            (!periodic, !once)
        );
        let refused = pool.execute(|| ()).expect_err("the pool is shut");
        assert!(matches!(refused, TimersError::Rejected(task) if task.number == 2));
        if periodic {
            assert_eq!(beats.iter().take(3).count(), 3);
            assert!(!pool.await_termination(milliseconds(1)));
            pool.set_continue_after_shutdown(false);
        }
        assert!(pool.await_termination(LONG) && pool.is_terminated());
        assert_eq!(pulse.join(), Err(JoinError::Cancelled));
        assert_eq!(
            delayed.join(),
            if once {
                Ok("ran")
            } else {
                Err(JoinError::Cancelled)
            }
        );
        assert_eq!(pool.submissions(), 3);
    }
}

#[test]
fn a_run_under_way_at_a_shutdown_is_the_last_of_its_task() {
    for at_once in [false, true] {
        let pool = pool(1);
        let (held, job) = Held::new();
        let mut job = Some(job);
        let task = pool.schedule_at_fixed_rate(Duration::ZERO, milliseconds(1), move || {
            job.take().expect("it runs once")();
        });
        held.began.recv().expect("it runs");
        if at_once {
            assert_eq!(pool.shutdown_now(), 0);
        } else {
            pool.shutdown();
        }
        let task = task.expect("the pool was open");
        assert!(!task.is_done() && !pool.is_terminated());
        held.let_go();
        assert_eq!(task.join(), Err(JoinError::Cancelled));
        assert!(pool.await_termination(LONG));
    }
}

#[test]
fn a_shutdown_at_once_cancels_all_that_waits() {
    let pool = pool(1);
    let (held, runs) = Held::on(&pool);
    let due = pool.execute(|| ()).expect("the pool is open");
    let later = pool.schedule(HOUR, || ()).expect("the pool is open");
    let pulse = pool
        .schedule_at_fixed_rate(HOUR, HOUR, || ())
        .expect("the pool is open");
    assert_eq!(pool.shutdown_now(), 3);
    assert!(due.is_cancelled() && later.is_cancelled() && !runs.is_done());
    assert_eq!(pulse.join(), Err(JoinError::Cancelled));
    let counts = Counts {
        queue: 0,
        running: 1,
        shut: true,
        terminated: false,
    };
    assert_eq!(pool.counts(), counts);
    assert_eq!(pool.shutdown_now(), 0);
    held.let_go();
    assert!(pool.await_termination(LONG));
    assert_eq!(runs.join(), Ok(()));
}

#[test]
fn who_awaits_the_end_waits_for_the_last_run() {
    let pool = Arc::new(pool(2));
    let (held, _handle) = Held::on(&pool);
    pool.shutdown();
    let before = Instant::now();
    assert!(!pool.await_termination(milliseconds(30)));
    assert!(before.elapsed() >= milliseconds(30) && !pool.is_terminated());
    let waiters: Vec<_> = (0..4)
        .map(|_| {
            let pool = Arc::clone(&pool);
            thread::spawn(move || pool.await_termination(LONG))
        })
        .collect();
    held.let_go();
    for waiter in waiters {
        assert!(waiter.join().expect("it ends"));
    }
}

#[test]
fn a_slow_consumer_gets_all_in_order() {
    let pool = pool(1);
    let (send, receive) = mpsc::sync_channel(1);
    for entry in 0..20 {
        let send = send.clone();
        pool.schedule(milliseconds(entry), move || send.send(entry))
            .expect("the pool is open");
    }
    drop(send);
    let got: Vec<u64> = receive
        .iter()
        .inspect(|_| thread::sleep(milliseconds(2)))
        .collect();
    assert!(got.into_iter().eq(0..20));
}

#[test]
fn many_threads_wait_for_one_task() {
    let pool = pool(2);
    let (held, job) = Held::new();
    let task = Arc::new(pool.execute(job).expect("the pool is open"));
    let waiters: Vec<_> = (0..16)
        .map(|_| {
            let task = Arc::clone(&task);
            thread::spawn(move || {
                task.wait();
                task.is_done()
            })
        })
        .collect();
    assert!(!task.wait_timeout(milliseconds(10)));
    held.let_go();
    for waiter in waiters {
        assert!(waiter.join().expect("it ends"));
    }
    let task = Arc::try_unwrap(task).expect("nobody else has it");
    assert_eq!(task.join(), Ok(()));
}

#[test]
fn a_join_gives_the_handle_back_where_the_time_is_over() {
    let pool = pool(1);
    let (held, handle) = Held::on(&pool);
    let before = Instant::now();
    let handle = handle.join_timeout(milliseconds(10)).expect_err("it runs");
    assert!(before.elapsed() >= milliseconds(10));
    held.let_go();
    assert_eq!(handle.join_timeout(LONG).expect("it ends"), Ok(()));
}

/// Each task is the first one at its submission, so a worker has to wake for it, whoever leads.
#[test]
fn an_earlier_task_wakes_a_worker() {
    for threads in [1, 2, 4] {
        let pool = pool(threads);
        let far = pool.schedule(HOUR, || ()).expect("the pool is open");
        for round in 0..50 {
            let nearer = pool.schedule(HOUR / 2, || ()).expect("the pool is open");
            let delay = Duration::from_micros(round * 20);
            let first = pool
                .schedule(delay, move || round)
                .expect("the pool is open");
            assert_eq!(first.join(), Ok(round));
            assert!(nearer.cancel());
        }
        assert!(far.cancel());
    }
}

/// While a run is under way the other worker waits for the far task, and leads: the next run is due before that.
#[test]
fn a_periodic_task_runs_on_beside_one_that_is_far() {
    let pool = pool(2);
    pool.schedule(HOUR, || ()).expect("the pool is open");
    let (send, runs) = mpsc::channel();
    let job = move || {
        thread::sleep(milliseconds(3));
        send.send(()).expect("somebody listens");
    };
    let task = pool.schedule_with_fixed_delay(milliseconds(1), milliseconds(1), job);
    assert_eq!(runs.iter().take(10).count(), 10);
    task.expect("the pool is open").cancel();
}

/// Each look for work that finds none is in the trace. A round has three: one worker looks as it is called, and twice once the task
/// is over, before it drops the job and after that. Where all four workers woke there would be more than four.
#[test]
fn no_worker_wakes_without_need() {
    let pool = ScheduledThreadPool::recorded(4).expect("threads");
    let idle = || {
        let trace = pool.recording().expect("it is kept").trace;
        trace.lines().filter(|line| line.ends_with(" idle")).count()
    };
    while idle() < 4 {
        thread::sleep(milliseconds(1));
    }
    let rounds = 20;
    for _ in 0..rounds {
        thread::sleep(milliseconds(2));
        let task = pool
            .schedule(milliseconds(3), || ())
            .expect("the pool is open");
        assert_eq!(task.join(), Ok(()));
    }
    let looks = idle() - 4;
    assert!(looks < 4 * rounds, "{looks}");
}

/// As many jobs as workers meet at a barrier, so each burst needs all workers awake, again and again.
#[test]
fn a_burst_wakes_as_many_workers_as_it_has_tasks() {
    let pool = pool(4);
    for round in 0..200 {
        let barrier = Arc::new(Barrier::new(4));
        let delay = Duration::from_micros(round % 7 * 100);
        let burst: Vec<_> = (0..4)
            .map(|_| {
                let barrier = Arc::clone(&barrier);
                pool.schedule(delay, move || barrier.wait().is_leader())
            })
            .collect();
        let met = burst
            .into_iter()
            .map(|task| task.expect("the pool is open").join());
        assert_eq!(met.filter(|leads| *leads == Ok(true)).count(), 1);
    }
}

#[test]
fn many_threads_submit_and_cancel() {
    let pool = Arc::new(pool(4));
    let threads: Vec<_> = (0..4)
        .map(|thread| {
            let pool = Arc::clone(&pool);
            thread::spawn(move || {
                let (mut ran, mut cancelled) = (0, 0);
                for round in 0..500 {
                    let delay = Duration::from_micros((round * 37 + thread * 11) % 300);
                    let task = pool
                        .schedule(delay, move || round)
                        .expect("the pool is open");
                    if round % 3 == 0 && task.cancel() {
                        assert_eq!(task.join(), Err(JoinError::Cancelled));
                        cancelled += 1;
                    } else {
                        assert_eq!(task.join(), Ok(round));
                        ran += 1;
                    }
                }
                ran + cancelled
            })
        })
        .collect();
    let rounds: i32 = threads
        .into_iter()
        .map(|thread| thread.join().expect("it ends"))
        .sum();
    assert_eq!((rounds, pool.submissions()), (2_000, 2_000));
}

#[test]
fn a_drop_cancels_what_waits_and_waits_for_what_runs() {
    let pool = pool(2);
    let captured = Arc::new(AtomicBool::new(false));
    let flag = Arc::clone(&captured);
    let (begin, began) = mpsc::channel();
    pool.execute(move || {
        begin.send(()).expect("somebody waits");
        thread::sleep(milliseconds(20));
        flag.store(true, Ordering::SeqCst);
    })
    .expect("the pool is open");
    let waits = pool.schedule(HOUR, || ()).expect("the pool is open");
    began.recv().expect("it runs");
    drop(pool);
    assert!(captured.load(Ordering::SeqCst) && Arc::strong_count(&captured) == 1);
    assert!(!waits.cancel());
    assert_eq!(waits.join(), Err(JoinError::Cancelled));
}

#[test]
fn a_job_drops_its_own_pool() {
    let owner = Arc::new(Mutex::new(None));
    let pool = pool(1);
    let inner = Arc::clone(&owner);
    let (begin, began) = mpsc::channel::<()>();
    let task = pool.execute(move || {
        began.recv().expect("the pool is stored");
        drop(inner.lock().expect("nobody panics").take());
        "dropped"
    });
    *owner.lock().expect("nobody panics") = Some(pool);
    begin.send(()).expect("the job listens");
    assert_eq!(task.expect("the pool is open").join(), Ok("dropped"));
}

#[test]
fn a_job_that_awaits_the_end_of_its_own_pool_is_not_kept_waiting() {
    for threads in [1, 2] {
        let pool = Arc::new(pool(threads));
        let inner = Arc::clone(&pool);
        let job = pool.execute(move || {
            inner.shutdown();
            inner.await_termination(Duration::MAX)
        });
        let job = job.expect("the pool is open");
        assert!(job.wait_timeout(LONG) && job.join() == Ok(false));
        assert!(pool.await_termination(LONG));
    }
}

/// How many threads of this process have a name that begins so.
fn threads_named(front: &str) -> usize {
    let threads = fs::read_dir("/proc/self/task").expect("a system with threads");
    threads
        .filter_map(|thread| fs::read_to_string(thread.ok()?.path().join("comm")).ok())
        .filter(|name| name.starts_with(front))
        .count()
}

#[test]
fn pools_that_are_dropped_leave_no_thread() {
    let named = || ScheduledThreadPool::named(3, "dropped").expect("threads");
    let pools: Vec<ScheduledThreadPool> = (0..20).map(|_| named()).collect();
    for pool in &pools {
        pool.schedule(HOUR, || ()).expect("the pool is open");
        let pulse = pool.schedule_at_fixed_rate(HOUR, HOUR, || ());
        pulse.expect("the pool is open");
        pool.execute(|| ()).expect("the pool is open").wait();
    }
    assert!(threads_named("dropped ") >= 20);
    drop(pools);
    assert_eq!(threads_named("dropped "), 0);
}

#[test]
fn threads_have_the_name_of_their_pool() {
    let pool = ScheduledThreadPool::named(2, "beat").expect("threads");
    let name = pool.execute(|| thread::current().name().map(str::to_owned));
    let name = name.expect("the pool is open").join().expect("it runs");
    assert!(["beat 0", "beat 1"].contains(&name.expect("a name").as_str()));
    let refused = ScheduledThreadPool::named(1, "no\0name").expect_err("no name");
    assert!(matches!(&refused, PoolError::Thread(why) if why.kind() == ErrorKind::InvalidInput));
    assert_eq!(refused.to_string(), "no thread: a name has no byte 0");
    assert_eq!(threads_named("no"), 0);
}

#[test]
fn what_is_not_allowed_is_refused() {
    for threads in [0, 256, 1 << 40] {
        let refused = ScheduledThreadPool::new(threads).err();
        assert!(matches!(
            refused,
            Some(PoolError::Timers(TimersError::Workers))
        ));
    }
    let pool = pool(255);
    assert_eq!(pool.threads(), 255);
    let beyond = Duration::from_nanos(u64::MAX) + Duration::from_nanos(1);
    for span in [Duration::from_nanos((1 << 62) + 1), beyond, Duration::MAX] {
        let long = pool.schedule(span, || ()).expect_err("too long");
        assert_eq!(long, TimersError::TooLong);
        assert_eq!(
            long.to_string(),
            "a span is above 2^62 nanoseconds, which are 4611686018 seconds"
        );
    }
    let rate = pool.schedule_at_fixed_rate(HOUR, Duration::ZERO, || ());
    let fixed = pool.schedule_with_fixed_delay(HOUR, Duration::ZERO, || ());
    assert_eq!(rate.expect_err("no period"), TimersError::ZeroPeriod);
    assert_eq!(fixed.expect_err("no delay"), TimersError::ZeroPeriod);
    assert_eq!(pool.submissions(), 0);
}

/// How many lines of a trace have this word behind the moment.
fn count(trace: &str, word: &str) -> usize {
    trace
        .lines()
        .filter(|line| line.split(' ').nth(1) == Some(word))
        .count()
}

/// A pool that did something of all kinds, and waits for nothing.
fn busy_pool() -> ScheduledThreadPool {
    let pool = ScheduledThreadPool::recorded(3).expect("threads");
    let pulse = pool.schedule_at_fixed_rate(milliseconds(1), milliseconds(1), || ());
    let rest = pool.schedule_with_fixed_delay(milliseconds(2), milliseconds(1), || ());
    for round in 0..300 {
        let task = pool.schedule(Duration::from_micros(round % 5 * 200), || ());
        if round % 3 == 0 {
            task.expect("the pool is open").cancel();
        }
    }
    let panics = pool
        .execute(|| panic!("no disk"))
        .expect("the pool is open");
    panics.join().expect_err("it panics");
    pool.set_remove_on_cancel(true);
    pool.schedule(HOUR, || ())
        .expect("the pool is open")
        .cancel();
    pool.schedule(HOUR, || ()).expect("the pool is open");
    thread::sleep(milliseconds(10));
    pool.counts();
    rest.expect("the pool is open").cancel();
    pool.set_continue_after_shutdown(true);
    pool.shutdown();
    pool.execute(|| ()).expect_err("the pool is shut");
    thread::sleep(milliseconds(5));
    pool.shutdown_now();
    assert!(pool.await_termination(LONG));
    assert!(pulse.expect("the pool was open").is_cancelled());
    pool.counts();
    pool
}

/// What `sched check` says of a plan and a trace, where the variable SCHED names it.
fn verdict(plan: &str, trace: &str) -> Option<String> {
    let program = std::env::var_os("SCHED")?;
    let folder = std::env::temp_dir().join(format!("pool-{}", std::process::id()));
    fs::create_dir_all(&folder).expect("a folder");
    let files = [("plan.toml", plan), ("trace.txt", trace)].map(|(name, text)| {
        let file = folder.join(name);
        fs::write(&file, text).expect("a file");
        file
    });
    let told = Command::new(program)
        .arg("check")
        .args(&files)
        .args(["--workers", "3"])
        .output();
    let told = told.expect("the program runs");
    fs::remove_dir_all(folder).expect("it is there");
    Some(
        String::from_utf8_lossy(&told.stdout).into_owned() + &String::from_utf8_lossy(&told.stderr),
    )
}

#[test]
fn what_a_pool_does_is_a_trace_of_its_calls() {
    let recording = busy_pool().recording().expect("it is kept");
    let (plan, trace) = (&recording.plan, &recording.trace);
    let submitted = count(trace, "submit");
    assert_eq!((submitted, count(trace, "refuse")), (305, 1));
    assert_eq!(plan.matches("name = ").count(), 306);
    assert_eq!((count(trace, "ask"), count(trace, "policy")), (2, 3));
    assert_eq!(
        (count(trace, "shutdown"), count(trace, "outside")),
        (2, 102)
    );
    assert!(trace.contains(" failed 1\n") && trace.ends_with(" shutdown yes terminated yes\n"));
    if let Some(told) = verdict(plan, trace) {
        assert_eq!(told, "conforms\n");
        let (front, back) = trace.rsplit_once("start").expect("a start");
        let broken = format!("{front}begin{back}");
        assert_ne!(verdict(plan, &broken).expect("as before"), "conforms\n");
    }
}
