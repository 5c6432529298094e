//! An echo server that hangs up on who has been silent for too long: idle-timeouts ADDRESS. Without ADDRESS three clients talk to it in
//! the program itself, by a clock that jumps to the next moment at which something happens, so each run writes the same.
//!
//! One task keeps the timeouts of all connections. What it does at a byte, a reset, is the same whether ten connections are open or a
//! million, and it sleeps until the first of them has been silent for too long.

mod script;
mod watch;

use std::env;
use std::future::poll_fn;
use std::io;
use std::task::{Context, Poll};
use std::time::Duration;
use tokio::io::{AsyncRead, AsyncReadExt, AsyncWrite, AsyncWriteExt};
use tokio::net::{TcpListener, TcpStream};
use tokio::runtime::Builder;
use tokio::time::sleep;
use watch::Watch;

/// How long a client may be silent.
const IDLE: Duration = Duration::from_secs(3);

/// How long nobody is let in where that failed, as where too many files are open: who is in may go on, and leave.
const PAUSE: Duration = Duration::from_millis(100);

/// Sends back what a client sends, until that ends it, or has been silent for too long.
async fn serve(connection: impl AsyncRead + AsyncWrite + Unpin, watch: Watch) -> io::Result<()> {
    let (watched, silent) = watch.open().await;
    let (mut from, mut to) = tokio::io::split(connection);
    let echo = async {
        let mut bytes = [0; 1024];
        loop {
            let count = from.read(&mut bytes).await?;
            if count == 0 {
                return Ok(());
            }
            watched.heard().await;
            to.write_all(&bytes[..count]).await?;
        }
    };
    let ended = tokio::select! {
        ended = echo => ended,
        _ = silent => Ok(()),
    };
    watched.close().await;
    ended
}

/// Serves each client that connects, for ever. `accept` lets one in.
async fn listen<C>(
    mut accept: impl FnMut(&mut Context<'_>) -> Poll<io::Result<C>>,
    idle: Duration,
) -> io::Result<()>
where
    C: AsyncRead + AsyncWrite + Unpin + Send + 'static,
{
    let watch = Watch::begin(idle);
    loop {
        let connection = match poll_fn(&mut accept).await {
            Ok(connection) => connection,
            Err(fault) => {
                eprintln!("a connection that was not taken: {fault}");
                sleep(PAUSE).await;
                continue;
            }
        };
        let watch = watch.clone();
        tokio::spawn(async move {
            if let Err(fault) = serve(connection, watch).await {
                eprintln!("a connection: {fault}");
            }
        });
    }
}

/// Lets in who connects.
fn of(listener: TcpListener) -> impl FnMut(&mut Context<'_>) -> Poll<io::Result<TcpStream>> {
    move |context| {
        let accepted = listener.poll_accept(context);
        accepted.map_ok(|(connection, _)| connection)
    }
}

fn main() -> io::Result<()> {
    let address = env::args().nth(1);
    let mut runtime = Builder::new_current_thread();
    runtime.enable_all().start_paused(address.is_none());
    runtime.build()?.block_on(async {
        match address {
            Some(address) => listen(of(TcpListener::bind(address).await?), IDLE).await,
            None => script::play().await,
        }
    })
}

#[cfg(test)]
mod tests {
    use super::*;
    use tokio::io::duplex;
    use tokio::time::{Instant, timeout};

    #[tokio::test(start_paused = true)]
    async fn it_goes_on_where_a_connection_was_not_taken() {
        let (mut client, server) = duplex(16);
        let mut faults = [io::ErrorKind::OutOfMemory, io::ErrorKind::ConnectionAborted].into_iter();
        let mut server = Some(server);
        let accept = move |_: &mut Context<'_>| match faults.next() {
            Some(fault) => Poll::Ready(Err(fault.into())),
            None => server
                .take()
                .map_or(Poll::Pending, |server| Poll::Ready(Ok(server))),
        };
        let serves = tokio::spawn(timeout(10 * IDLE, listen(accept, IDLE)));
        client.write_all(b"x").await.expect("it is open");
        let mut byte = [0];
        client.read_exact(&mut byte).await.expect("it comes back");
        assert!(serves.await.expect("no task panics").is_err(), "it listens");
    }

    /// By the machine's clock: nothing is asserted of the longest time.
    #[tokio::test]
    async fn a_silent_client_is_hung_up_on_and_one_that_talks_is_not() {
        let idle = Duration::from_millis(100);
        let listener = TcpListener::bind("127.0.0.1:0").await.expect("a port");
        let address = listener.local_addr().expect("an address");
        tokio::spawn(listen(of(listener), idle));
        let mut client = TcpStream::connect(address).await.expect("it listens");
        let mut bytes = [0; 16];
        client.write_all(b"hello").await.expect("it is open");
        let heard = Instant::now();
        client
            .read_exact(&mut bytes[..5])
            .await
            .expect("what was sent");
        assert_eq!(&bytes[..5], b"hello");
        assert_eq!(client.read(&mut bytes).await.ok(), Some(0));
        assert!(heard.elapsed() >= idle);
    }
}
