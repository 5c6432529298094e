//! The executor: one line at a time, its answers straight to text.

use crate::heap::{Entry, Heap};
use crate::out::{Out, Stamp, W};
use crate::text::{Ending, Kind, Line, TOP};
use std::collections::HashMap;
use std::hash::{BuildHasherDefault, Hasher};

const FREE: u32 = u32::MAX;

#[derive(Clone, Copy, PartialEq)]
enum Phase {
    Waiting,
    Running,
    /// Cancelled while it waited, and still in the queue.
    Kept,
    /// Cancelled while it runs.
    Doomed,
}

#[derive(Clone, Copy)]
struct Task {
    number: u64,
    due: u64,
    run: u64,
    kind: Kind,
    phase: Phase,
}

/// Numbers are dense: one multiplication spreads them.
#[derive(Default)]
struct Spread(u64);

impl Hasher for Spread {
    fn finish(&self) -> u64 {
        self.0
    }
    fn write(&mut self, _: &[u8]) {}
    fn write_u64(&mut self, v: u64) {
        self.0 = v.wrapping_mul(0x9e37_79b9_7f4a_7c15).rotate_left(26);
    }
}

pub struct Core {
    tasks: Vec<Option<Task>>,
    free: Vec<u32>,
    slots: HashMap<u64, u32, BuildHasherDefault<Spread>>,
    queue: Heap,
    kept: Heap,
    work: Vec<u32>,
    now: u64,
    earliest: u64,
    stamp: Stamp,
    count: u64,
    accepted: u64,
    running: u32,
    policies: [bool; 3],
    shut: bool,
    stopped: bool,
}

#[derive(Clone, Copy, PartialEq)]
enum Effect {
    Yes,
    No,
    Absent,
}

impl Core {
    pub fn new(workers: u8) -> Core {
        Core {
            tasks: Vec::new(),
            free: Vec::new(),
            slots: HashMap::default(),
            queue: Heap::default(),
            kept: Heap::default(),
            work: vec![FREE; workers as usize],
            now: 0,
            earliest: 0,
            stamp: Stamp::new(0),
            count: 0,
            accepted: 0,
            running: 0,
            policies: [false, true, false],
            shut: false,
            stopped: false,
        }
    }

    /// Answers a line. `false`: there is no number or moment left for it.
    #[inline]
    pub fn line(&mut self, line: Line, out: &mut Out) -> bool {
        match line {
            Line::Clock(t) => self.clock(t, out),
            Line::Start(w) => self.start(w, out),
            Line::Finish(w, ending) => self.finish(w, ending, out),
            Line::Cancel(k) | Line::CancelByCall(k) if k as u64 >= self.count => self.say(b"error no task", out),
            Line::Cancel(k) => {
                let effect = self.cancel(k as u64);
                self.tell_cancel(b"outside ", k as u64, effect, out);
            }
            call => return self.call(call, out),
        }
        true
    }

    #[inline]
    fn call(&mut self, call: Line, out: &mut Out) -> bool {
        let moment = self.now.max(self.earliest);
        if moment > TOP || (matches!(call, Line::Submit(..)) && self.count > u32::MAX as u64) {
            return false;
        }
        self.set_now(moment);
        match call {
            Line::Submit(delay, kind) => self.submit(delay, kind, out),
            Line::CancelByCall(k) => {
                let effect = self.cancel(k as u64);
                self.tell_cancel(b"cancel ", k as u64, effect, out);
            }
            Line::Policy(which, value) => self.policy(which, value, out),
            Line::Shutdown if self.shut => self.say(b"shutdown again", out),
            Line::Shutdown => {
                self.say(b"shutdown", out);
                self.shut = true;
                self.sweep(out);
            }
            Line::ShutdownNow => {
                self.say(b"shutdown now", out);
                self.shut = true;
                self.stopped = true;
                self.sweep(out);
            }
            _ => self.ask(out),
        }
        true
    }

    #[inline(always)]
    fn set_now(&mut self, t: u64) {
        if t != self.now {
            self.now = t;
            self.stamp = Stamp::new(t);
        }
    }

    #[inline]
    fn say<const N: usize>(&self, s: &[u8; N], out: &mut Out) {
        let mut l = out.line();
        l.stamp(&self.stamp);
        l.lit(s);
        l.end();
    }

    fn clock(&mut self, t: u64, out: &mut Out) {
        if t < self.now {
            return self.say(b"error backward", out);
        }
        if t > TOP {
            return self.say(b"error too far", out);
        }
        self.set_now(t);
        self.earliest = t + 1;
        self.say(b"clock", out);
    }

    fn submit(&mut self, delay: u64, kind: Kind, out: &mut Out) {
        let number = self.count;
        self.count += 1;
        let mut l = out.line();
        l.stamp(&self.stamp);
        if self.shut {
            l.lit(b"refuse ");
            l.num(number);
            l.lit(b" rejected");
            return l.end();
        }
        let due = self.now + delay;
        l.lit(b"submit ");
        l.num(number);
        match kind {
            Kind::Once => l.lit(b" schedule due "),
            Kind::Rate(_) => l.lit(b" rate due "),
            Kind::Fixed(_) => l.lit(b" fixed due "),
        }
        l.num(due);
        l.end();
        self.accepted += 1;
        let slot = self.free.pop().unwrap_or_else(|| self.tasks.len() as u32);
        if slot as usize == self.tasks.len() {
            self.tasks.push(None);
            let room = self.tasks.capacity();
            self.queue.grow(room);
            self.kept.grow(room);
        }
        self.tasks[slot as usize] = Some(Task { number, due, run: 0, kind, phase: Phase::Waiting });
        self.slots.insert(number, slot);
        self.queue.insert(Entry::new(due, number, slot));
    }

    #[inline]
    fn release(&mut self, slot: u32, number: u64) {
        self.tasks[slot as usize] = None;
        self.slots.remove(&number);
        self.free.push(slot);
    }

    fn cancel(&mut self, number: u64) -> Effect {
        let Some(&slot) = self.slots.get(&number) else {
            return if number < self.accepted { Effect::No } else { Effect::Absent };
        };
        let Some(task) = &mut self.tasks[slot as usize] else { return Effect::No };
        match task.phase {
            Phase::Kept | Phase::Doomed => return Effect::No,
            Phase::Running => task.phase = Phase::Doomed,
            Phase::Waiting => {
                self.queue.remove(slot);
                if self.policies[2] {
                    self.release(slot, number);
                } else {
                    task.phase = Phase::Kept;
                    self.kept.insert(Entry::new(task.due, number, slot));
                }
            }
        }
        Effect::Yes
    }

    #[inline]
    fn tell_cancel<const N: usize>(&self, word: &[u8; N], k: u64, effect: Effect, out: &mut Out) {
        let mut l = out.line();
        l.stamp(&self.stamp);
        l.lit(word);
        l.num(k);
        match effect {
            Effect::Yes => l.lit(b" yes"),
            Effect::No => l.lit(b" no"),
            Effect::Absent => l.lit(b" none"),
        }
        l.end();
    }

    fn drop_kept(&mut self, slot: u32) {
        self.kept.remove(slot);
        if let Some(task) = self.tasks[slot as usize] {
            self.release(slot, task.number);
        }
    }

    fn policy(&mut self, which: u8, value: bool, out: &mut Out) {
        let mut l = out.line();
        l.stamp(&self.stamp);
        match which {
            0 => l.lit(b"policy continue "),
            1 => l.lit(b"policy execute "),
            _ => l.lit(b"policy remove "),
        }
        if value {
            l.lit(b"true");
        } else {
            l.lit(b"false");
        }
        l.end();
        self.policies[which as usize] = value;
        if which < 2 && !value && self.shut {
            self.sweep(out);
        }
    }

    fn sweep(&mut self, out: &mut Out) {
        while let Some(entry) = self.kept.peek() {
            self.drop_kept(entry.slot);
        }
        let mut ended = Vec::new();
        for (slot, task) in self.tasks.iter().enumerate() {
            let Some(task) = task else { continue };
            let is_barred = match task.kind {
                Kind::Once => !self.policies[1] && self.now < task.due,
                _ => !self.policies[0],
            };
            if task.phase == Phase::Waiting && (self.stopped || is_barred) {
                ended.push((task.number, slot as u32));
            }
        }
        ended.sort_unstable();
        for (number, slot) in ended {
            self.queue.remove(slot);
            self.release(slot, number);
            let mut l = out.line();
            l.stamp(&self.stamp);
            l.lit(b"end ");
            l.num(number);
            l.end();
        }
    }

    fn ask(&mut self, out: &mut Out) {
        let queue = self.queue.len() + self.kept.len();
        let mut l = out.line();
        l.stamp(&self.stamp);
        l.lit(b"ask queue ");
        l.num(queue as u64);
        l.lit(b" running ");
        l.num(self.running as u64);
        l.lit(b" shutdown ");
        say_whether(&mut l, self.shut);
        l.lit(b" terminated ");
        say_whether(&mut l, self.shut && queue == 0 && self.running == 0);
        l.end();
    }

    fn start(&mut self, w: u8, out: &mut Out) {
        match self.work.get(w as usize) {
            None => return self.say(b"error no worker", out),
            Some(&FREE) => {}
            Some(_) => return self.say(b"error busy", out),
        }
        let first = self.queue.peek().filter(|entry| entry.due() <= self.now);
        while let Some(kept) = self.kept.peek() {
            let is_met = match first {
                Some(first) => kept.is_before(first),
                None => kept.due() <= self.now,
            };
            if !is_met {
                break;
            }
            self.drop_kept(kept.slot);
        }
        let mut l = out.line();
        l.stamp(&self.stamp);
        l.lit(b"start ");
        l.num(w as u64);
        let Some((slot, task)) = first.and_then(|first| Some((first.slot, self.tasks[first.slot as usize].as_mut()?))) else {
            l.lit(b" idle");
            return l.end();
        };
        l.lit(b" task ");
        l.num(task.number);
        l.lit(b" run ");
        l.num(task.run);
        l.lit(b" due ");
        l.num(task.due);
        l.end();
        task.phase = Phase::Running;
        self.queue.remove(slot);
        self.work[w as usize] = slot;
        self.running += 1;
    }

    fn finish(&mut self, w: u8, ending: Ending, out: &mut Out) {
        let slot = match self.work.get(w as usize) {
            None => return self.say(b"error no worker", out),
            Some(&FREE) => return self.say(b"error not running", out),
            Some(&slot) => slot,
        };
        let Some(task) = &mut self.tasks[slot as usize] else { return };
        let number = task.number;
        let mut l = out.line();
        l.stamp(&self.stamp);
        l.lit(b"finish ");
        l.num(w as u64);
        l.lit(b" task ");
        l.num(number);
        l.lit(b" run ");
        l.num(task.run);
        self.work[w as usize] = FREE;
        self.running -= 1;
        let next = match task.kind {
            Kind::Once => None,
            Kind::Rate(period) => Some((task.due + period).min(2 * TOP)),
            Kind::Fixed(delay) => Some(self.now + delay),
        };
        match (task.phase, ending, next) {
            (Phase::Doomed, _, _) => l.lit(b" dropped"),
            (_, Ending::Fault(code), _) => {
                l.lit(b" failed ");
                l.num(code as u64);
            }
            (_, Ending::Value(value), None) => {
                l.lit(b" done ");
                l.num(value);
            }
            (_, Ending::Value(_), Some(due)) => {
                if self.stopped || (self.shut && !self.policies[0]) {
                    l.lit(b" ended");
                } else {
                    l.lit(b" again due ");
                    l.num(due);
                    l.end();
                    task.due = due;
                    task.run += 1;
                    task.phase = Phase::Waiting;
                    return self.queue.insert(Entry::new(due, number, slot));
                }
            }
        }
        l.end();
        self.release(slot, number);
    }
}

#[inline(always)]
fn say_whether(l: &mut W<'_>, is_so: bool) {
    if is_so {
        l.lit(b"yes");
    } else {
        l.lit(b"no");
    }
}
