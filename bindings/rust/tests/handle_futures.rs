//! Handles as futures: who is woken, when, and with which locks free.

use sched::{Handle, JoinError, ScheduledThreadPool};
use std::future::{Future, poll_fn};
use std::pin::{Pin, pin};
use std::sync::atomic::{AtomicUsize, Ordering};
use std::sync::mpsc::{self, Sender};
use std::sync::{Arc, Mutex};
use std::task::{Context, Poll, Wake, Waker};
use std::thread::{self, Thread};
use std::time::{Duration, Instant};

const LONG: Duration = Duration::from_secs(60);
const HOUR: Duration = Duration::from_secs(3_600);
const MILLISECOND: Duration = Duration::from_millis(1);

fn pool(threads: usize) -> ScheduledThreadPool {
    ScheduledThreadPool::new(threads).expect("threads")
}

/// Wakes a thread.
struct Unpark(Thread);

impl Wake for Unpark {
    fn wake(self: Arc<Self>) {
        self.0.unpark();
    }
}

/// What comes of a future, for which this thread waits.
fn block_on<F: Future>(future: F) -> F::Output {
    let waker = Waker::from(Arc::new(Unpark(thread::current())));
    let mut future = pin!(future);
    loop {
        if let Poll::Ready(output) = future.as_mut().poll(&mut Context::from_waker(&waker)) {
            return output;
        }
        thread::park();
    }
}

/// Does something each time it is woken, and where it is dropped.
struct Calls<W: Fn() + Send + Sync, D: Fn() + Send + Sync> {
    woken: W,
    dropped: D,
}

impl<W: Fn() + Send + Sync, D: Fn() + Send + Sync> Wake for Calls<W, D> {
    fn wake(self: Arc<Self>) {
        (self.woken)();
    }
}

impl<W: Fn() + Send + Sync, D: Fn() + Send + Sync> Drop for Calls<W, D> {
    fn drop(&mut self) {
        (self.dropped)();
    }
}

/// A waker that makes a call.
fn calling(woken: impl Fn() + Send + Sync + 'static) -> Waker {
    let dropped = || ();
    Waker::from(Arc::new(Calls { woken, dropped }))
}

/// A waker that counts its calls.
fn counting(count: &Arc<AtomicUsize>) -> Waker {
    let count = Arc::clone(count);
    calling(move || {
        count.fetch_add(1, Ordering::SeqCst);
    })
}

/// A waker that asks a pool how many tasks there are, which takes the pool's lock, and says that it has.
fn asking(pool: &Arc<ScheduledThreadPool>, told: Sender<()>) -> Waker {
    let (pool, told) = (Arc::clone(pool), Mutex::new(told));
    calling(move || {
        let _ = pool.counts();
        let told = told.lock().expect("no waker panics");
        told.send(()).expect("somebody listens");
    })
}

fn poll<T>(handle: &mut Handle<T>, waker: &Waker) -> Poll<Result<T, JoinError>> {
    Pin::new(handle).poll(&mut Context::from_waker(waker))
}

#[test]
fn a_future_gives_the_value_no_sooner_than_it_is_due() {
    let pool = pool(2);
    let before = Instant::now();
    let job = pool.schedule(20 * MILLISECOND, || 6 * 7);
    assert_eq!(block_on(job.expect("the pool is open")), Ok(42));
    assert!(before.elapsed() >= 20 * MILLISECOND);
}

#[test]
fn a_future_tells_a_cancel_and_a_panic() {
    let pool = pool(1);
    let panics = pool.execute(|| -> u8 { panic!("no disk") });
    let panicked = JoinError::Panicked("no disk".to_owned());
    assert_eq!(
        block_on(panics.expect("the pool is open")),
        Err(panicked.clone())
    );
    let beat = pool.schedule_at_fixed_rate(Duration::ZERO, HOUR, || panic!("no disk"));
    assert_eq!(block_on(beat.expect("the pool is open")), Err(panicked));
    let late = pool.schedule(HOUR, || ()).expect("the pool is open");
    assert!(late.cancel());
    assert_eq!(block_on(late), Err(JoinError::Cancelled));
}

#[test]
fn many_futures_are_awaited_by_one_thread() {
    let pool = pool(3);
    let jobs: Vec<Handle<u64>> = (0..1_000)
        .map(|place| {
            let delay = Duration::from_micros(place % 7 * 300);
            pool.schedule(delay, move || place)
                .expect("the pool is open")
        })
        .collect();
    let sum = block_on(async {
        let mut sum = 0;
        for job in jobs {
            sum += job.await.expect("a value");
        }
        sum
    });
    assert_eq!(sum, 499_500);
}

#[test]
fn who_polled_last_is_woken_once() {
    let pool = pool(1);
    let [first, last] = [(); 2].map(|()| Arc::new(AtomicUsize::new(0)));
    let counts = || [&first, &last].map(|count| count.load(Ordering::SeqCst));
    let mut late = pool.schedule(HOUR, || ()).expect("the pool is open");
    for count in [&first, &first, &last, &first, &last, &last] {
        assert!(poll(&mut late, &counting(count)).is_pending());
    }
    assert_eq!(counts(), [0, 0]);
    assert!(late.cancel() && !late.cancel());
    pool.shutdown_now();
    assert_eq!(counts(), [0, 1]);
    assert_eq!(
        poll(&mut late, &counting(&first)),
        Poll::Ready(Err(JoinError::Cancelled))
    );
}

#[test]
fn a_handle_that_gave_its_result_knows_what_it_was() {
    let pool = pool(1);
    let mut done = pool.execute(|| 5).expect("the pool is open");
    done.wait();
    assert_eq!(poll(&mut done, Waker::noop()), Poll::Ready(Ok(5)));
    assert!(done.is_done() && !done.is_cancelled() && !done.cancel());
    done.wait();
    assert!(done.wait_timeout(Duration::ZERO));

    let mut late = pool.schedule(HOUR, || ()).expect("the pool is open");
    late.cancel();
    assert!(poll(&mut late, Waker::noop()).is_ready());
    assert!(late.is_done() && late.is_cancelled());
    for again in [
        thread::spawn(move || drop(block_on(late))).join(),
        thread::spawn(move || drop(done.join())).join(),
    ] {
        let text = again.expect_err("its result was taken");
        assert_eq!(text.downcast_ref(), Some(&"the result was taken before"));
    }
}

/// The result of a task that is cancelled as it runs may be taken before the run ends.
#[test]
fn a_result_that_was_taken_is_told_no_second_time() {
    let pool = pool(1);
    let ((begin, began), (release, released)) = (mpsc::channel(), mpsc::channel());
    let runs = pool.execute(move || {
        begin.send(()).expect("somebody waits");
        released.recv().expect("it is let go");
    });
    let mut runs = runs.expect("the pool is open");
    began.recv().expect("it runs");
    assert!(runs.cancel());
    assert!(poll(&mut runs, Waker::noop()).is_ready());
    release.send(()).expect("it waits");
    assert_eq!(pool.execute(|| 1).expect("the pool is open").join(), Ok(1));
    assert!(runs.is_cancelled());
}

#[test]
fn a_waker_may_call_the_pool() {
    let pool = Arc::new(pool(2));
    let (told, wakes) = mpsc::channel();
    let asks = || asking(&pool, told.clone());
    let woken = || assert_eq!(wakes.recv_timeout(LONG), Ok(()));

    let mut done = pool.schedule(MILLISECOND, || ()).expect("the pool is open");
    if poll(&mut done, &asks()).is_pending() {
        woken();
        assert_eq!(poll(&mut done, &asks()), Poll::Ready(Ok(())));
    }
    let mut panics = pool
        .schedule(MILLISECOND, || panic!("no disk"))
        .expect("the pool is open");
    if poll(&mut panics, &asks()).is_pending() {
        woken();
    }
    let late = || pool.schedule(HOUR, || ()).expect("the pool is open");
    let [mut cancelled, mut ended, mut stopped] = [late(), late(), late()];
    assert!(poll(&mut cancelled, &asks()).is_pending());
    assert!(cancelled.cancel());
    woken();

    assert!(poll(&mut ended, &asks()).is_pending());
    pool.set_execute_after_shutdown(false);
    let pulse = pool.schedule_at_fixed_rate(HOUR, HOUR, || ());
    let mut pulse = pulse.expect("the pool is open");
    pool.set_continue_after_shutdown(true);
    assert!(poll(&mut pulse, &asks()).is_pending());
    pool.shutdown();
    woken();
    assert!(ended.is_cancelled() && !pulse.is_cancelled());
    assert_eq!(
        poll(&mut stopped, &asks()),
        Poll::Ready(Err(JoinError::Cancelled))
    );
    pool.shutdown_now();
    woken();
    assert!(pulse.is_cancelled() && pool.await_termination(LONG));
}

#[test]
fn a_waker_that_panics_ends_no_worker() {
    let pool = pool(1);
    let mut late = pool.schedule(MILLISECOND, || 1).expect("the pool is open");
    let panics = calling(|| panic!("broken"));
    while poll(&mut late, &panics).is_pending() {
        thread::sleep(MILLISECOND);
    }
    assert_eq!(pool.execute(|| 2).expect("the pool is open").join(), Ok(2));
}

/// A waker is dropped with the cell's lock free: here its drop cancels the task, which tells the result.
#[test]
fn a_waker_that_is_not_needed_may_call_the_pool_as_it_is_dropped() {
    let pool = Arc::new(pool(1));
    let ends = || {
        let pool = Arc::clone(&pool);
        let woken = || ();
        let dropped = move || {
            pool.shutdown_now();
        };
        Waker::from(Arc::new(Calls { woken, dropped }))
    };
    let mut late = pool.schedule(HOUR, || ()).expect("the pool is open");
    assert!(poll(&mut late, &ends()).is_pending());
    assert!(!pool.is_shutdown());
    assert!(poll(&mut late, Waker::noop()).is_pending());
    assert!(pool.is_shutdown() && late.is_cancelled());
    assert_eq!(block_on(late), Err(JoinError::Cancelled));
}

#[test]
fn a_future_that_is_dropped_leaves_its_task_and_no_waker() {
    let pool = pool(1);
    let (send, ran) = mpsc::channel();
    let job = pool.schedule(10 * MILLISECOND, move || send.send(()));
    let mut job = job.expect("the pool is open");
    let count = Arc::new(AtomicUsize::new(0));
    assert!(poll(&mut job, &counting(&count)).is_pending());
    drop(job);
    assert_eq!(Arc::strong_count(&count), 1);
    assert_eq!(ran.recv_timeout(LONG), Ok(()));
    pool.shutdown();
    assert!(pool.await_termination(LONG));
    assert_eq!(count.load(Ordering::SeqCst), 0);
}

/// Polls and ends race: whoever comes second sees what the first one left.
#[test]
fn no_wake_up_is_lost() {
    let pool = pool(2);
    for round in 0..2_000_u32 {
        let mut job = pool.execute(move || round).expect("the pool is open");
        let value = block_on(poll_fn(|context| Pin::new(&mut job).poll(context)));
        assert_eq!(value, Ok(round));
    }
}
