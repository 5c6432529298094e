//! Each answer of the wrappers.
use sched::{
    DelayQueue, Entry, Event, Executor, ExecutorError, Fault, FaultKind, InsertManyError, Phase,
    QueueError, Run, Task,
};

const PLAN: &[u8] =
    b"version = 2\n[[block]]\ncall = [{ op = \"rate\", name = \"a\", first = 5, period = 10 }]\n";

fn entries<const N: usize>(pairs: [(u64, u32); N]) -> [Entry; N] {
    pairs.map(|(due, task)| Entry { due, task })
}

#[test]
fn a_queue_gives_entries_once_they_are_due() {
    let mut queue = DelayQueue::new(3).expect("memory");
    assert_eq!(queue.insert(4, 0), Ok(()));
    assert_eq!(queue.insert(4, 0), Err(QueueError::HasEntry));
    assert_eq!(queue.insert(4, 3), Err(QueueError::UnknownTask));
    assert_eq!(queue.poll(3), None);
    assert_eq!(queue.peek(), Some(Entry { due: 4, task: 0 }));
    assert!(queue.contains(0) && !queue.contains(1) && !queue.contains(3));
    assert_eq!((queue.due_of(0), queue.due_of(3)), (Some(4), None));
    assert_eq!(queue.poll(4), Some(Entry { due: 4, task: 0 }));
    assert!(queue.is_empty() && !queue.remove(0) && queue.touched() == 0);
}

#[test]
fn many_entries_come_and_go_in_one_call() {
    let mut queue = DelayQueue::new(3).expect("memory");
    assert_eq!(queue.insert_many(&[]), Ok(()));
    assert_eq!(queue.poll_many(u64::MAX, &mut []), 0);
    let place = |place, why| Err(InsertManyError { place, why });
    assert_eq!(
        queue.insert_many(&entries([(7, 2), (u64::MAX, 1), (7, 3), (7, 0)])),
        place(2, QueueError::UnknownTask)
    );
    assert_eq!(
        queue.insert_many(&entries([(7, 0), (1, 1)])),
        place(1, QueueError::HasEntry)
    );
    assert_eq!((queue.len(), queue.touched() > 0), (3, true));
    let mut out = entries([(9, 9); 4]);
    assert_eq!(queue.poll_many(7, &mut out), 2);
    assert_eq!(out, entries([(7, 0), (7, 2), (9, 9), (9, 9)]));
    assert_eq!(queue.due(u64::MAX).size_hint(), (0, Some(1)));
    assert_eq!(queue.due(u64::MAX).count(), 1);
}

#[test]
fn a_queue_crosses_to_another_thread() {
    let mut queue = DelayQueue::new(1).expect("memory");
    queue.insert(5, 0).expect("a new task");
    let moved = std::thread::spawn(move || queue.poll(5));
    assert_eq!(
        moved.join().expect("it ends"),
        Some(Entry { due: 5, task: 0 })
    );
}

#[test]
fn an_executor_answers_in_lines() {
    let mut executor = Executor::new(PLAN, 1, 3).expect("a plan");
    assert_eq!(executor.take(Event::Clock(5)), Ok(()));
    let lines: Vec<String> = executor.lines().collect();
    assert_eq!(lines, ["0 submit 0 rate due 5", "5 clock"]);
    let mut left = executor.lines();
    assert_eq!(
        (left.len(), left.next().is_some(), left.len()),
        (2, true, 1)
    );
    assert_eq!(left.clone().last().as_deref(), Some("5 clock"));
    assert!(executor.ripe() && executor.tasks() == 1);
    assert_eq!(executor.started(), None);
    assert_eq!(executor.take(Event::Start(0)), Ok(()));
    let run = Run {
        run: 0,
        due: 5,
        task: 0,
        worker: 0,
    };
    assert_eq!(executor.started(), Some(run));
    let no_worker = [
        Event::Start(256),
        Event::Finish(257, 1),
        Event::Fail(u32::MAX, 1),
    ];
    for event in no_worker {
        assert_eq!(executor.take(event), Err(ExecutorError::Worker));
    }
    let running = Task {
        phase: Phase::Running,
        run: 0,
        cancelled: false,
    };
    assert_eq!((executor.task(0), executor.task(1)), (Some(running), None));
    assert_eq!(executor.take(Event::Cancel(0)), Ok(()));
    assert_eq!(executor.take(Event::Clock(9)), Err(ExecutorError::Full));
    assert_eq!((executor.now(), executor.taken()), (5, 3));
    let lines: Vec<String> = executor.lines().collect();
    assert_eq!(lines, ["5 outside 0 yes"]);
}

/// The text of a plan of one block, with these keys, or of more where the keys go on to those.
fn blocks(keys: &str) -> String {
    format!("version = 2\n[[block]]\n{keys}")
}

/// The executor of this text is refused by this fault.
fn refuses(text: &str, kind: FaultKind, block: Option<u32>, call: Option<u32>) {
    let fault = Fault { kind, block, call };
    let refused = Executor::new(text.as_bytes(), 1, 1).err();
    assert_eq!(refused, Some(ExecutorError::Plan(fault)), "{kind}");
}

#[test]
fn a_text_is_refused_as_a_whole() {
    refuses(&" ".repeat(1_048_577), FaultKind::TooLong, None, None);
    refuses("version", FaultKind::Toml, None, None);
    refuses("version = 3", FaultKind::Version, None, None);
}

#[test]
fn a_text_is_refused_by_its_first_block() {
    for (keys, kind) in [
        ("x = 1", FaultKind::UnknownKey),
        ("times = 2", FaultKind::Missing),
        ("at = true", FaultKind::WrongType),
        ("at_unit = 'year'", FaultKind::BadUnit),
        ("times = 0", FaultKind::BadTimes),
        ("every = -1", FaultKind::Negative),
        ("at = 4611686018427387905", FaultKind::TooLarge),
    ] {
        refuses(&blocks(keys), kind, Some(1), None);
    }
}

#[test]
fn a_text_is_refused_by_its_calls() {
    let a = "{ op = 'execute', name = 'a' }";
    let cancel = "{ op = 'cancel', name = 'a' }";
    let nameless = blocks("call = [{ op = 'execute', name = '' }]");
    refuses(&nameless, FaultKind::BadName, Some(1), Some(1));
    let twins = blocks(&format!("call = [{a}, {cancel}, {a}]"));
    refuses(&twins, FaultKind::DuplicateName, Some(1), Some(3));
    let unknown = blocks(&format!("call = [{cancel}]"));
    refuses(&unknown, FaultKind::UnknownName, Some(1), Some(1));
    let often = blocks(&format!("times = 65536\nevery = 0\ncall = [{a}, {cancel}]"));
    refuses(&often, FaultKind::TooMany, Some(1), None);
    let repeated =
        format!("times = 2\nevery = 5\ncall = [{a}]\n[[block]]\nat = 9\ncall = [{cancel}]");
    refuses(&blocks(&repeated), FaultKind::Ambiguous, Some(2), Some(1));
    let early = blocks(&format!(
        "at = 9\ncall = [{a}]\n[[block]]\ncall = [{cancel}]"
    ));
    refuses(&early, FaultKind::OutOfOrder, Some(2), None);
}

#[test]
fn a_fault_is_told_with_its_place() {
    let fault = |block, call| Fault {
        kind: FaultKind::Missing,
        block,
        call,
    };
    for (fault, text) in [
        (fault(None, None), "a key is missing"),
        (fault(Some(2), None), "block 2: a key is missing"),
        (fault(Some(2), Some(7)), "block 2, call 7: a key is missing"),
    ] {
        assert_eq!(fault.to_string(), text);
        let whole = format!("the text is no plan: {text}");
        assert_eq!(ExecutorError::from(fault).to_string(), whole);
    }
}

#[test]
fn an_executor_is_refused() {
    let refusal = |plan, workers, limit| Executor::new(plan, workers, limit).err();
    let fault = Fault {
        kind: FaultKind::Version,
        block: None,
        call: None,
    };
    assert_eq!(refusal(b"", 0, 0), Some(ExecutorError::Plan(fault)));
    assert_eq!(refusal(PLAN, 65, 0), Some(ExecutorError::Workers));
    assert_eq!(refusal(PLAN, 257, 0), Some(ExecutorError::Workers));
    assert_eq!(refusal(PLAN, 64, 0), Some(ExecutorError::Limit));
    assert_eq!(refusal(PLAN, 64, (1 << 32) + 1), Some(ExecutorError::Limit));
}
