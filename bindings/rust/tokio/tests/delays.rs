//! The stream, by a clock that the tests set: tokio's, which stands still, and jumps where all tasks wait.

use futures_core::Stream;
use sched_tokio::{Delays, Expired, Key};
use std::cell::Cell;
use std::collections::BTreeMap;
use std::fmt::Debug;
use std::future::poll_fn;
use std::marker::PhantomPinned;
use std::pin::Pin;
use std::rc::Rc;
use std::sync::Arc;
use std::sync::atomic::{AtomicUsize, Ordering};
use std::task::{Context, Poll, Wake, Waker};
use std::time::Duration;
use tokio::task::{LocalSet, yield_now};
use tokio::time::{Instant, advance, sleep, timeout};

const NANOSECOND: Duration = Duration::from_nanos(1);
const MILLISECOND: Duration = Duration::from_millis(1);
const HOUR: Duration = Duration::from_secs(3_600);

/// Counts how often it is called.
#[derive(Default)]
struct Count(AtomicUsize);

impl Wake for Count {
    fn wake(self: Arc<Self>) {
        self.0.fetch_add(1, Ordering::SeqCst);
    }
}

impl Count {
    fn get(&self) -> usize {
        self.0.load(Ordering::SeqCst)
    }
}

/// Polls once, for a waker that counts.
fn poll<T>(delays: &mut Delays<T>, count: &Arc<Count>) -> Poll<Option<T>> {
    let waker = Waker::from(Arc::clone(count));
    let polled = delays.poll_expired(&mut Context::from_waker(&waker));
    polled.map(|expired| expired.map(Expired::into_inner))
}

/// All values, in the order in which they come.
async fn all<T>(delays: &mut Delays<T>) -> Vec<T> {
    let mut values = Vec::new();
    while let Some(expired) = delays.next().await {
        assert!(Instant::now() >= expired.deadline());
        values.push(expired.into_inner());
    }
    values
}

#[tokio::test(start_paused = true)]
async fn values_come_in_the_order_of_their_deadlines_and_none_before() {
    let begun = Instant::now();
    let mut delays = Delays::new();
    for (value, delay) in [(3, 30), (1, 10), (2, 20), (0, 0)] {
        delays.insert(value, delay * MILLISECOND);
    }
    for value in 0..4 {
        let expired = delays.next().await.expect("a value is left");
        assert_eq!(*expired.get_ref(), value);
        assert_eq!(expired.deadline(), begun + value * 10 * MILLISECOND);
        assert!(begun.elapsed() >= value * 10 * MILLISECOND);
    }
    assert!(delays.next().await.is_none());
    assert!(begun.elapsed() < 40 * MILLISECOND);
}

#[tokio::test(start_paused = true)]
async fn a_nanosecond_decides() {
    let (mut delays, count) = (Delays::new(), Arc::default());
    let when = Instant::now() + 5 * MILLISECOND;
    delays.insert_at("later", when + NANOSECOND);
    delays.insert_at("sooner", when - NANOSECOND);
    delays.insert_at("when", when);
    advance(5 * MILLISECOND - 2 * NANOSECOND).await;
    assert!(poll(&mut delays, &count).is_pending());
    advance(NANOSECOND).await;
    assert_eq!(poll(&mut delays, &count), Poll::Ready(Some("sooner")));
    assert!(poll(&mut delays, &count).is_pending());
    assert_eq!(all(&mut delays).await, ["when", "later"]);
}

#[tokio::test(start_paused = true)]
async fn what_is_removed_comes_no_more_and_its_key_names_nothing() {
    let mut delays = Delays::new();
    let keys = [1, 2, 3].map(|value| delays.insert(value, value * MILLISECOND));
    let removed = delays.remove(&keys[1]);
    assert_eq!((*removed.get_ref(), removed.key()), (2, keys[1]));
    let other = delays.insert(4, 4 * MILLISECOND);
    assert!(other != keys[1] && delays.try_remove(&keys[1]).is_none());
    assert_eq!(delays.len(), 3);
    assert_eq!(all(&mut delays).await, [1, 3, 4]);
    for key in [&keys[0], &keys[1], &other] {
        assert!(delays.try_remove(key).is_none());
    }
}

/// What a call does with a key that names nothing.
fn refused(call: impl FnOnce(&mut Delays<u8>, &Key)) {
    let mut delays = Delays::new();
    let key = delays.insert(1, HOUR);
    delays.clear();
    delays.insert(2, HOUR);
    call(&mut delays, &key);
}

#[test]
#[should_panic(expected = "the key names no value")]
fn a_removal_by_an_old_key_panics() {
    refused(|delays, key| {
        let _ = delays.remove(key);
    });
}

#[test]
#[should_panic(expected = "the key names no value")]
fn a_reset_by_an_old_key_panics() {
    refused(|delays, key| delays.reset(key, HOUR));
}

#[test]
#[should_panic(expected = "the key names no value")]
fn an_old_key_has_no_deadline() {
    refused(|delays, key| {
        let _ = delays.deadline(key);
    });
}

#[tokio::test(start_paused = true)]
async fn a_reset_puts_off_or_brings_forward_and_keeps_the_key() {
    let mut delays = Delays::new();
    let [off, forward, same] = ["off", "forward", "same"].map(|value| delays.insert(value, HOUR));
    delays.reset(&off, 2 * HOUR);
    delays.reset(&forward, MILLISECOND);
    let when = Instant::now() + HOUR;
    delays.reset_at(&same, when);
    assert_eq!(delays.deadline(&same), when);
    assert_eq!(delays.peek(), Some(forward));
    for (key, value) in [(forward, "forward"), (same, "same"), (off, "off")] {
        let expired = delays.next().await.expect("a value is left");
        assert_eq!((expired.key(), *expired.get_ref()), (key, value));
    }
}

#[tokio::test(start_paused = true)]
async fn the_first_is_seen_and_stays() {
    let mut delays = Delays::new();
    assert_eq!(delays.peek(), None);
    let late = delays.insert("late", HOUR);
    let soon = delays.insert("soon", MILLISECOND);
    assert_eq!(delays.peek(), Some(soon));
    advance(2 * MILLISECOND).await;
    assert_eq!((delays.peek(), delays.len()), (Some(soon), 2));
    delays.remove(&soon);
    assert_eq!(delays.peek(), Some(late));
}

#[tokio::test(start_paused = true)]
async fn a_clear_drops_all_and_leaves_the_room() {
    let value = Arc::new(());
    let mut delays = Delays::with_capacity(100);
    for _ in 0..100 {
        delays.insert(Arc::clone(&value), HOUR);
    }
    assert_eq!((Arc::strong_count(&value), delays.len()), (101, 100));
    delays.clear();
    assert_eq!(Arc::strong_count(&value), 1);
    assert!(delays.is_empty() && delays.peek().is_none() && delays.capacity() >= 100);
    assert!(delays.next().await.is_none());
    delays.insert(Arc::clone(&value), MILLISECOND);
    assert_eq!(all(&mut delays).await.len(), 1);
    delays.insert(Arc::clone(&value), HOUR);
    drop(delays);
    assert_eq!(Arc::strong_count(&value), 1);
}

/// Who polled is woken by what comes before all others, and by the end of all, and by nothing else.
#[tokio::test(start_paused = true)]
async fn who_waits_is_woken_where_that_is_needed() {
    let (mut delays, count) = (Delays::new(), Arc::<Count>::default());
    let first = delays.insert("first", HOUR);
    assert!(poll(&mut delays, &count).is_pending());
    let later = delays.insert("later", 2 * HOUR);
    delays.reset(&later, 3 * HOUR);
    delays.reset(&first, 2 * HOUR);
    assert_eq!(count.get(), 0);
    let sooner = delays.insert("sooner", HOUR / 2);
    assert_eq!(count.get(), 1);
    delays.reset(&sooner, HOUR / 3);
    assert_eq!(count.get(), 1);
    assert!(poll(&mut delays, &count).is_pending());
    delays.reset(&later, HOUR / 4);
    assert_eq!(count.get(), 2);
    assert!(poll(&mut delays, &count).is_pending());
    for key in [first, later, sooner] {
        assert_eq!(count.get(), 2);
        delays.remove(&key);
    }
    assert_eq!(count.get(), 3);
    assert_eq!(poll(&mut delays, &count), Poll::Ready(None));
    delays.insert("again", HOUR);
    assert_eq!(count.get(), 4);
    assert!(poll(&mut delays, &count).is_pending());
    delays.clear();
    assert_eq!(count.get(), 5);
}

/// A task that waits is polled once for each moment at which something is due, and once more where what was first has left.
#[tokio::test(start_paused = true)]
async fn nothing_is_polled_while_nothing_is_due() {
    let mut delays = Delays::new();
    for place in 0..100 {
        delays.insert(place, place * HOUR);
    }
    let (mut polls, mut got) = (0, 0);
    poll_fn(|context| {
        polls += 1;
        while let Poll::Ready(expired) = delays.poll_expired(context) {
            let Some(expired) = expired else {
                return Poll::Ready(());
            };
            assert_eq!(expired.into_inner(), got);
            got += 1;
        }
        Poll::Pending
    })
    .await;
    assert_eq!((polls, got), (100, 100));

    let first = delays.insert(0, MILLISECOND);
    delays.insert(1, HOUR);
    polls = 0;
    let expired = poll_fn(|context| {
        polls += 1;
        let polled = delays.poll_expired(context);
        if polls == 1 {
            delays.remove(&first);
        }
        polled
    });
    assert_eq!(expired.await.map(Expired::into_inner), Some(1));
    assert_eq!(polls, 3);
}

#[tokio::test(start_paused = true)]
async fn deadlines_may_lie_in_the_past_and_far_off() {
    let before = Instant::now();
    advance(HOUR).await;
    let mut delays = Delays::new();
    let far = delays.insert("far", Duration::MAX);
    delays.insert_at("past", before);
    delays.insert("now", Duration::ZERO);
    let years = Duration::from_secs(500 * 365 * 24 * 3_600);
    assert!(delays.deadline(&far) > Instant::now() + years);
    let past = delays.next().await.expect("it is due");
    assert_eq!((*past.get_ref(), past.deadline()), ("past", before));
    assert_eq!(delays.next().await.map(Expired::into_inner), Some("now"));
    assert!(timeout(HOUR, delays.next()).await.is_err());
    assert_eq!(delays.remove(&far).into_inner(), "far");
}

/// A wait that is dropped has taken nothing.
#[tokio::test(start_paused = true)]
async fn a_wait_may_be_given_up() {
    let mut delays = Delays::new();
    delays.insert("late", 10 * MILLISECOND);
    assert!(timeout(5 * MILLISECOND, delays.next()).await.is_err());
    assert_eq!(delays.len(), 1);
    tokio::select! {
        _ = delays.next() => panic!("it is not due"),
        () = sleep(2 * MILLISECOND) => {}
    }
    assert_eq!(all(&mut delays).await, ["late"]);
}

/// Numbers that look like chance, by a fixed rule.
struct Chance(u64);

impl Chance {
    fn below(&mut self, bound: u64) -> u64 {
        self.0 = self
            .0
            .wrapping_mul(6_364_136_223_846_793_005)
            .wrapping_add(1_442_695_040_888_963_407);
        (self.0 >> 33) % bound
    }
}

/// Random calls, beside a sorted table of what has to come. Of one deadline any value may come first.
#[tokio::test(start_paused = true)]
async fn random_calls_are_answered_as_a_sorted_table_answers_them() {
    let mut chance = Chance(7);
    let mut delays = Delays::new();
    let mut table: BTreeMap<u64, (Key, Instant)> = BTreeMap::new();
    for value in 0..3_000 {
        let span = Duration::from_micros(chance.below(400) * 100);
        let when = Instant::now() + span;
        let any = table.keys().nth(chance.below(50) as usize).copied();
        match (chance.below(10), any) {
            (0..2, Some(any)) => {
                let (key, deadline) = table.remove(&any).expect("it is there");
                let removed = delays.remove(&key);
                assert_eq!((*removed.get_ref(), removed.deadline()), (any, deadline));
            }
            (2..5, Some(any)) => {
                let (key, deadline) = table.get_mut(&any).expect("it is there");
                delays.reset_at(key, when);
                *deadline = when;
            }
            (5, _) => advance(Duration::from_micros(chance.below(70) * 100)).await,
            _ => {
                let key = delays.insert_at(value, when);
                table.insert(value, (key, when));
            }
        }
        let count = Arc::default();
        while let Poll::Ready(Some(value)) = poll(&mut delays, &count) {
            let (_, deadline) = table.remove(&value).expect("it is there");
            assert!(deadline <= Instant::now());
            assert!(table.values().all(|(_, other)| *other >= deadline));
        }
        assert!(table.values().all(|(_, when)| *when > Instant::now()));
        let first = delays.peek().map(|key| delays.deadline(&key));
        assert_eq!(first, table.values().map(|(_, when)| *when).min());
        assert_eq!(delays.len(), table.len());
    }
    assert!(delays.capacity() >= delays.len());
}

#[tokio::test(start_paused = true)]
async fn it_grows() {
    let mut delays = Delays::new();
    let values: Vec<u32> = (0..1_000).map(|place| place * 7_919 % 1_000).collect();
    for value in &values {
        delays.insert(*value, *value * MILLISECOND);
    }
    assert!(delays.capacity() >= 1_000);
    assert_eq!(all(&mut delays).await, (0..1_000).collect::<Vec<u32>>());
}

/// By the machine's clock, on threads.
#[tokio::test(flavor = "multi_thread", worker_threads = 2)]
async fn none_comes_before_its_deadline_by_the_machines_clock() {
    let waits = (0..4).map(|task| {
        tokio::spawn(async move {
            let mut delays = Delays::new();
            for place in 0..50_u64 {
                delays.insert(place, Duration::from_micros(place * 7 % 50 * 300 + task));
            }
            all(&mut delays).await.len()
        })
    });
    for wait in waits.collect::<Vec<_>>() {
        assert_eq!(wait.await.expect("no task panics"), 50);
    }
}

#[tokio::test(start_paused = true)]
async fn deadlines_before_it_was_made_have_an_order_too() {
    let now = Instant::now();
    advance(MILLISECOND).await;
    let mut delays = Delays::new();
    for (value, before) in [(1, 1), (3, 3), (0, 0), (2, 2)] {
        delays.insert_at(value, now - before * NANOSECOND);
    }
    delays.insert(-1, Duration::ZERO);
    assert_eq!(all(&mut delays).await, [3, 2, 1, 0, -1]);
    delays.insert(5, Duration::MAX);
    let sooner = delays.insert(4, 100 * 365 * 24 * HOUR);
    assert_eq!(delays.peek(), Some(sooner));
}

#[tokio::test]
async fn other_tasks_have_their_turn_where_many_values_are_due() {
    let mut delays = Delays::new();
    for value in 0..50_000 {
        delays.insert(value, Duration::ZERO);
    }
    let turns = Rc::new(Cell::new(0));
    let local = LocalSet::new();
    let counted = Rc::clone(&turns);
    local.spawn_local(async move {
        loop {
            counted.set(counted.get() + 1);
            yield_now().await;
        }
    });
    let taken = local.run_until(async { all(&mut delays).await.len() });
    assert_eq!(taken.await, 50_000);
    assert!(turns.get() >= 100, "{turns:?} turns");
}

/// A runtime with a timer, which goes with it.
fn in_a_runtime<A>(future: impl Future<Output = A>) -> A {
    let mut runtime = tokio::runtime::Builder::new_current_thread();
    runtime.enable_time().start_paused(true);
    runtime.build().expect("a runtime").block_on(future)
}

#[test]
fn it_goes_on_in_another_runtime() {
    let mut delays = Delays::new();
    delays.insert("late", HOUR);
    delays.insert("soon", 10 * MILLISECOND);
    in_a_runtime(async {
        let waits = timeout(MILLISECOND, delays.next()).await;
        assert!(waits.is_err(), "nothing is due");
    });
    assert_eq!(
        in_a_runtime(async { delays.next().await.map(Expired::into_inner) }),
        Some("soon")
    );
    assert_eq!(
        in_a_runtime(async { delays.next().await.map(Expired::into_inner) }),
        Some("late")
    );
}

fn moves<T: Send + Unpin + Debug>() {}

fn is_stream<S: Stream<Item = Expired<T>> + Unpin + Default, T>() {}

#[test]
fn it_moves_and_is_a_stream_whatever_the_values_are() {
    moves::<Delays<PhantomPinned>>();
    is_stream::<Delays<Rc<()>>, _>();
    let mut delays = Delays::new();
    delays.insert(1, HOUR);
    let text = format!("{delays:?}");
    assert!(
        text.starts_with("Delays { len: 1, first: Some(Key {"),
        "{text}"
    );
}

#[tokio::test(start_paused = true)]
async fn it_is_taken_from_as_a_stream() {
    let mut delays = Delays::new();
    delays.insert("value", MILLISECOND);
    let mut next = async || {
        let next = poll_fn(|context| Pin::new(&mut delays).poll_next(context));
        next.await.map(Expired::into_inner)
    };
    assert_eq!(next().await, Some("value"));
    assert_eq!(next().await, None);
}
