//! The task that keeps the timeouts.

use sched_tokio::{Delays, Key};
use std::collections::HashMap;
use std::sync::Arc;
use std::sync::atomic::{AtomicU64, Ordering};
use std::time::Duration;
use tokio::sync::{mpsc, oneshot};

/// How many messages may wait for the task.
const ROOM: usize = 1_024;

/// What the task is told of the connection of a number.
enum Message {
    /// It was opened, and is to hear where its client is silent for too long.
    Opened(u64, oneshot::Sender<()>),
    /// Its client has sent something.
    Heard(u64),
    /// It is over.
    Closed(u64),
}

/// Who tells the task of connections that are opened.
#[derive(Clone)]
pub struct Watch {
    messages: mpsc::Sender<Message>,
    opened: Arc<AtomicU64>,
}

/// Who tells the task of one connection.
pub struct Watched {
    messages: mpsc::Sender<Message>,
    number: u64,
}

impl Watch {
    /// Begins the task, which ends with the last who tells it anything. A client may be silent for `idle`.
    pub fn begin(idle: Duration) -> Watch {
        let (messages, told) = mpsc::channel(ROOM);
        tokio::spawn(keep(told, idle));
        let opened = Arc::default();
        Watch { messages, opened }
    }

    /// A connection was opened. The receiver hears where its client is silent for too long.
    pub async fn open(self) -> (Watched, oneshot::Receiver<()>) {
        let number = self.opened.fetch_add(1, Ordering::Relaxed);
        let (hears, silent) = oneshot::channel();
        let messages = self.messages;
        tell(&messages, Message::Opened(number, hears)).await;
        (Watched { messages, number }, silent)
    }
}

impl Watched {
    /// The client has sent something.
    pub async fn heard(&self) {
        tell(&self.messages, Message::Heard(self.number)).await;
    }

    /// The connection is over.
    pub async fn close(self) {
        tell(&self.messages, Message::Closed(self.number)).await;
    }
}

/// Tells the task, which is there as long as anybody may tell it.
async fn tell(messages: &mpsc::Sender<Message>, message: Message) {
    if messages.send(message).await.is_err() {
        unreachable!("the task has ended");
    }
}

/// Keeps the timeouts of all connections: each message sets one, and whoever is silent for too long hears it.
async fn keep(mut told: mpsc::Receiver<Message>, idle: Duration) {
    let mut silences = Delays::new();
    let mut keys: HashMap<u64, Key> = HashMap::new();
    loop {
        tokio::select! {
            message = told.recv() => match message {
                Some(Message::Opened(number, hears)) => {
                    keys.insert(number, silences.insert((number, hears), idle));
                }
                Some(Message::Heard(number)) => {
                    if let Some(key) = keys.get(&number) {
                        silences.reset(key, idle);
                    }
                }
                Some(Message::Closed(number)) => {
                    if let Some(key) = keys.remove(&number) {
                        silences.remove(&key);
                    }
                }
                None => return,
            },
            Some(silence) = silences.next() => {
                let (number, hears) = silence.into_inner();
                keys.remove(&number);
                let _ = hears.send(());
            }
        }
    }
}
