//! Clients in the program itself, each on a connection that is a piece of memory.

use crate::watch::Watch;
use crate::{IDLE, serve};
use std::io;
use std::time::Duration;
use tokio::io::{AsyncReadExt, AsyncWriteExt, duplex};
use tokio::time::{Instant, sleep};

/// How many bytes a connection holds.
const ROOM: usize = 64;

/// A client, which sends bytes, each after a pause, and waits for what comes back. Then it ends the connection, or waits for the
/// server to do so.
struct Client {
    name: &'static str,
    bytes: u32,
    pause: Duration,
    ends: bool,
}

const CLIENTS: [Client; 3] = [
    Client {
        name: "talker",
        bytes: 3,
        pause: Duration::from_millis(2_500),
        ends: true,
    },
    Client {
        name: "one byte",
        bytes: 1,
        pause: Duration::from_secs(1),
        ends: false,
    },
    Client {
        name: "silent",
        bytes: 0,
        pause: Duration::ZERO,
        ends: false,
    },
];

impl Client {
    /// Does what it does, and prints what it meets.
    async fn talk(self, watch: Watch, start: Instant) -> io::Result<()> {
        let tell = |what| {
            println!(
                "{:5} ms  {}: {what}",
                start.elapsed().as_millis(),
                self.name
            )
        };
        let (mut here, there) = duplex(ROOM);
        let server = tokio::spawn(serve(there, watch));
        let mut byte = [0];
        for _ in 0..self.bytes {
            sleep(self.pause).await;
            here.write_all(b"x").await?;
            here.read_exact(&mut byte).await?;
            tell("a byte came back");
        }
        if self.ends {
            tell("ends");
            drop(here);
        } else if here.read(&mut byte).await? == 0 {
            tell("the server hung up");
        }
        server.await?
    }
}

/// Lets all clients talk at once.
pub async fn play() -> io::Result<()> {
    let (watch, start) = (Watch::begin(IDLE), Instant::now());
    let clients = CLIENTS.map(|client| tokio::spawn(client.talk(watch.clone(), start)));
    for client in clients {
        client.await??;
    }
    Ok(())
}
