//! `sched live` as a plain, quick Rust program: the yardstick. Tasks stand in a slab, and those that wait in an indexed heap.

mod core;
mod heap;
mod out;
mod text;

use core::Core;
use out::Out;
use std::fs::File;
use std::io::Read;
use std::os::fd::AsFd;
use std::process::exit;

fn die(text: &str) -> ! {
    eprintln!("sched: {text}");
    exit(1)
}

fn main() {
    let words: Vec<String> = std::env::args().collect();
    let workers = match words.get(1..4) {
        Some([live, flag, n]) if live == "live" && flag == "--workers" => n.parse::<u8>().unwrap_or(0),
        _ => 0,
    };
    if workers == 0 || workers > 64 {
        eprintln!("usage: live_by_hand live --workers N");
        exit(2);
    }
    let Ok(input) = std::io::stdin().as_fd().try_clone_to_owned() else { die("read fault") };
    let mut input = File::from(input);
    let mut core = Core::new(workers);
    let mut out = Out::stdout();
    let mut buffer = vec![0u8; 1 << 16];
    let (mut have, mut count) = (0, 0u64);
    loop {
        let Ok(read) = input.read(&mut buffer[have..]) else { die("read fault") };
        if read == 0 {
            break;
        }
        let end = have + read;
        let mut rest = &buffer[..end];
        let full = loop {
            let Some((line, behind)) = text::line(rest) else { break false };
            if !core.line(line, &mut out) {
                break true;
            }
            count += 1;
            rest = behind;
        };
        out.flush();
        if out.failed {
            die("write fault");
        }
        if full {
            die("full");
        }
        have = rest.len();
        if have >= 63 || rest.contains(&b'\n') {
            die(&format!("event line {}", count + 1));
        }
        buffer.copy_within(end - have..end, 0);
    }
    if have > 0 {
        die(&format!("event line {}", count + 1));
    }
}
