//! The readers and the workers, over one pool of tags.
use crate::connection::{Connection, Request};
use crate::handshake::agree;
use crate::options::Settings;
use crate::protocol::{command, Fault, Header, REQUEST_SIZE};
use crate::store::Store;
use crate::wire::Wire;
use crate::{give_up, must};
use std::io::{ErrorKind, Result};
use std::net::{Ipv4Addr, Shutdown, TcpListener, TcpStream};
use std::os::fd::OwnedFd;
use std::os::unix::net::{UnixListener, UnixStream};
use std::sync::atomic::{AtomicBool, AtomicU32, Ordering::Relaxed, Ordering::SeqCst};
use std::sync::{Arc, Condvar, Mutex};
use std::thread::Scope;
use std::time::Duration;
use tags::{default_sleeper, Error, Hand, Kind, Pool, Tag};

pub enum Listener {
    Unix(UnixListener),
    Tcp(TcpListener),
}

impl Listener {
    pub fn open_all(settings: &Settings) -> Vec<Listener> {
        let unix = settings.unix.as_ref();
        let unix = unix.map(|path| Listener::Unix(must(path, UnixListener::bind(path))));
        let tcp = settings.port.map(|port| TcpListener::bind((Ipv4Addr::LOCALHOST, port)));
        let tcp = tcp.map(|bound| Listener::Tcp(must("the port", bound)));
        unix.into_iter().chain(tcp).collect()
    }

    fn accept(&self) -> Result<UnixStream> {
        match self {
            Listener::Unix(listener) => Ok(listener.accept()?.0),
            Listener::Tcp(listener) => {
                let stream = listener.accept()?.0;
                stream.set_nodelay(true)?;
                Ok(OwnedFd::from(stream).into())
            }
        }
    }
}

/// Of tags on their way to a worker.
const QUEUE: u32 = 0;

fn give_back(mut tag: Tag<Request>) {
    tag.value_mut().release_large();
}

pub struct Server {
    pub settings: Settings,
    pub pool: Pool<Request>,
    pub store: Store,
    open: Mutex<Vec<Arc<Connection>>>,
    /// A connection has ended, and its hand is free.
    has_ended: Condvar,
    is_stopping: AtomicBool,
    /// No reader is left.
    is_over: AtomicBool,
    /// Workers that wait in the queue, or are about to look there.
    idle: AtomicU32,
}

impl Server {
    pub fn open(settings: Settings) -> Server {
        let options = settings.pool();
        let pool = must("the pool", Pool::open_with(&options, |_| Request::default()));
        Server {
            pool,
            store: Store::open(&settings),
            open: Mutex::default(),
            has_ended: Condvar::new(),
            is_stopping: AtomicBool::new(false),
            is_over: AtomicBool::new(false),
            idle: AtomicU32::new(0),
            settings,
        }
    }

    fn goes_on(&self) -> bool {
        !self.is_stopping.load(Relaxed)
    }

    /// A stop also ends the waits of workers, which go on as long as a reader may submit a tag.
    pub fn work(&self, hand: &Hand<Request>) {
        loop {
            self.idle.fetch_add(1, Relaxed);
            let next = hand.next_blocking(QUEUE);
            self.idle.fetch_sub(1, Relaxed);
            match next {
                Ok(tag) => self.carry_out(tag),
                Err(Error::Stopped) if self.is_over.load(SeqCst) => return,
                Err(Error::Stopped) => (),
                Err(error) => give_up("next", &error),
            }
        }
    }

    /// Data of a reply are in the buffer of the request, so its tag goes back after the reply. Any other tag goes back
    /// before, so that a client which has the reply to its flush finds the reserved tag free.
    fn carry_out(&self, mut tag: Tag<Request>) {
        let request = tag.value_mut();
        let header = request.header;
        // A request that was submitted has a connection.
        let connection = request.connection.take().unwrap();
        let done = self.store.carry_out(&header, request.data());
        if header.command == command::READ && done.is_ok() {
            connection.reply(&header, request.read_reply());
            give_back(tag);
        } else {
            give_back(tag);
            connection.reply(&header, &header.reply(done));
        }
    }

    /// Waits for a hand while all are out. `None` once the server stops.
    fn next_hand(&self) -> Option<Hand<Request>> {
        let mut open = self.open.lock().unwrap();
        while self.goes_on() {
            match self.pool.join() {
                Ok(hand) => return Some(hand),
                Err(Error::NoHand) => open = self.has_ended.wait(open).unwrap(),
                Err(error) => give_up("join", &error),
            }
        }
        None
    }

    /// Accepts clients, each with a thread of its own.
    pub fn accept<'scope>(&'scope self, readers: &'scope Scope<'scope, '_>, listener: &Listener) {
        let mut number = 0;
        while self.goes_on() {
            // The client may have given up.
            let Ok(stream) = listener.accept() else {
                continue;
            };
            let Some(hand) = self.next_hand() else { return };
            let Ok(wire) = Wire::new(stream, self.settings.limit) else {
                continue;
            };
            let connection = Arc::new(Connection::new(number, wire));
            number += 1;
            readers.spawn(move || self.serve(hand, &connection));
        }
    }

    /// Lists a connection as long as it is open, so that a stop finds it.
    fn serve(&self, hand: Hand<Request>, connection: &Arc<Connection>) {
        self.open.lock().unwrap().push(Arc::clone(connection));
        let goes_on = || self.goes_on();
        if goes_on() && agree(&connection.wire, self.store.size, goes_on).is_ok() {
            while goes_on() && self.read_request(&hand, connection).is_ok() {}
        }
        connection.wait_until_idle();
        drop(hand);
        self.open.lock().unwrap().retain(|it| !Arc::ptr_eq(it, connection));
        let _ = connection.wire.stream.shutdown(Shutdown::Both);
        self.has_ended.notify_all();
    }

    /// A flush and a disconnect get a reserved tag, and so pass requests for which no tag is free. If there is none they
    /// wait for it, with only each other before them.
    fn get_tag<'a>(&self, hand: &'a Hand<Request>, header: &Header) -> tags::Result<Tag<'a, Request>> {
        match header.command {
            command::FLUSH | command::DISC if self.settings.reserved > 0 => hand.get_reserved_blocking(),
            _ => hand.get_blocking(),
        }
    }

    /// Reads a request and submits its tag. An error ends the connection.
    fn read_request(&self, hand: &Hand<Request>, connection: &Arc<Connection>) -> Result<()> {
        let mut bytes = [0; REQUEST_SIZE];
        connection.wire.receive_next(&mut bytes)?;
        let header = Header::of(&bytes).ok_or(ErrorKind::InvalidData)?;
        if let Err(fault) = header.check(self.store.size) {
            return connection.refuse(&header, fault);
        }
        // A disconnect flushes what all requests before it have written.
        if header.command == command::DISC {
            connection.wait_until_idle();
        }
        let submitted = match self.get_tag(hand, &header) {
            Ok(tag) => self.submit(tag, header, connection),
            Err(Error::Stopped) => connection.refuse(&header, Fault::Shutdown),
            Err(error) => give_up("get", &error),
        };
        // A tag that went back at once is not kept while this thread is idle.
        hand.flush();
        submitted?;
        if header.command == command::DISC {
            return Err(ErrorKind::ConnectionAborted.into());
        }
        Ok(())
    }

    fn submit(&self, mut tag: Tag<Request>, header: Header, connection: &Arc<Connection>) -> Result<()> {
        must("note", tag.note(connection.number << 16 | u64::from(header.command)));
        let request = tag.value_mut();
        if let Err(fault) = request.fill(header) {
            give_back(tag);
            return connection.refuse(&header, fault);
        }
        if header.command == command::WRITE {
            if let Err(error) = connection.wire.receive(request.data()) {
                give_back(tag);
                return Err(error);
            }
        }
        request.connection = Some(Arc::clone(connection));
        connection.begin();
        must("submit", tag.submit(QUEUE));
        Ok(())
    }

    /// Prints which tags are busy. This needs no hand, and stops nobody.
    pub fn report_busy(&self) {
        let [ordinary, reserved] = [Kind::Ordinary, Kind::Reserved].map(|kind| self.pool.show(kind));
        let open = self.open.lock().unwrap().len();
        println!(
            "busy: ordinary {}/{}, reserved {}/{}; connections {open}, of which {} wait for a tag",
            ordinary.busy,
            ordinary.depth,
            reserved.busy,
            reserved.depth,
            self.pool.waiting().saturating_sub(self.idle.load(Relaxed))
        );
        for (tag, note) in must("the notes", self.pool.noted_tags()) {
            // A tag that a hand keeps, or that has just been got, has none.
            let Some(note) = note else { continue };
            println!(
                "tag {tag}: connection {}, {}, {} ms",
                note.value >> 16,
                command::NAMES[(note.value & 0xffff) as usize],
                (default_sleeper().now() - note.since).as_millis()
            );
        }
    }

    /// Each reader stops where it is, waits for the replies to what it has submitted, and ends.
    pub fn stop(&self) {
        self.is_stopping.store(true, Relaxed);
        self.pool.stop();
        // Workers wait on meanwhile.
        self.pool.resume();
        for connection in self.open.lock().unwrap().iter() {
            let _ = connection.wire.stream.shutdown(Shutdown::Read);
        }
        self.has_ended.notify_all();
        // Each listener accepts once more, and finds that the server stops.
        if let Some(path) = &self.settings.unix {
            let _ = UnixStream::connect(path);
        }
        if let Some(port) = self.settings.port {
            let _ = TcpStream::connect_timeout(&(Ipv4Addr::LOCALHOST, port).into(), Duration::from_secs(1));
        }
    }

    /// Once no reader is left each worker carries out what is queued, and ends.
    pub fn end(&self) {
        self.is_over.store(true, SeqCst);
        self.pool.stop();
    }
}
