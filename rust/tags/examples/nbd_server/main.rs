//! `nbd_server` serves a block device by the NBD protocol, to clients such as fio, qemu and nbdcopy. Each request in
//! flight is a tag of one pool, and the value beside the tag is the request.
//!
//! Each connection has a thread that reads requests. It gets a tag for each, and sleeps while none is free, so that the
//! client's socket fills; then it submits the tag to the workers. A worker takes it, carries the request out, replies,
//! and drops the tag. SIGUSR1 prints who is busy; SIGTERM and SIGINT finish what is in flight, and end.
mod connection;
mod handshake;
mod options;
mod protocol;
mod server;
mod store;
mod system;
mod wire;

use options::Settings;
use server::{Listener, Server};
use std::fmt::Display;
use std::process::exit;
use std::thread;
use system::{Signals, USER};

fn give_up(what: &str, why: &dyn Display) -> ! {
    eprintln!("nbd_server: {what}: {why}");
    exit(1)
}

fn must<T, E: Display>(what: &str, result: Result<T, E>) -> T {
    result.unwrap_or_else(|error| give_up(what, &error))
}

/// Runs until a signal ends it. The workers end last, as they carry out what readers have submitted.
fn run(server: &Server, signals: &Signals, listeners: Vec<Listener>) {
    thread::scope(|workers| {
        for _ in 0..server.settings.workers {
            let hand = must("a worker", server.pool.join());
            workers.spawn(move || server.work(&hand));
        }
        thread::scope(|readers| {
            for listener in listeners {
                readers.spawn(move || server.accept(readers, &listener));
            }
            while signals.wait() == USER {
                server.report_busy();
            }
            server.stop();
        });
        server.end();
    });
}

fn main() {
    // Threads that start later block them too.
    let signals = Signals::block();
    let settings = Settings::read();
    let path = settings.unix.clone();
    let server = Server::open(settings);
    let listeners = Listener::open_all(&server.settings);
    println!("serving {} bytes, {} tags", server.store.size, server.settings.tags);
    run(&server, &signals, listeners);
    if let Some(path) = path {
        let _ = std::fs::remove_file(path);
    }
    let totals = must("the pool", server.pool.close());
    println!("got={}\nback={}", totals.got, totals.back);
    if totals.got != totals.back {
        exit(1);
    }
}
