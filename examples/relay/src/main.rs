//! The relay over the crate's operators: a thread for each socket that is read, and one for each client's writing.
use cellarcliff::sync::{Emitter, Observable};
use cellarcliff::Note;
use std::collections::HashMap;
use std::io::{BufRead, BufReader, Write};
use std::net::{Shutdown, SocketAddr, TcpListener, TcpStream};
use std::sync::mpsc::{sync_channel, Receiver, TrySendError};
use std::sync::Arc;
use std::thread;
use std::time::{Duration, Instant};

type Line = Arc<[u8]>;
type Lines = Observable<'static, Line, &'static str>;

/// A socket as a resource. Whoever reads it finds its end when it is dropped; what is still to be written to it is written.
struct Socket(Arc<TcpStream>);

impl Drop for Socket {
    fn drop(&mut self) {
        let _ = self.0.shutdown(Shutdown::Read);
    }
}

fn text(sign: &str, words: &str) -> Line {
    Line::from(format!("{sign}{words}\n").as_bytes())
}

/// Tells the lines of a socket, and fails where it breaks off in the middle of one.
fn read(socket: &TcpStream, to: &Emitter<'static, Line, &'static str>) {
    let (mut input, mut line) = (BufReader::new(socket), Vec::new());
    while !to.is_closed() && input.read_until(b'\n', &mut line).is_ok_and(|it| it > 0) {
        match line.last() {
            Some(b'\n') => to.next(Line::from(std::mem::take(&mut line))),
            _ => return to.error("its upstream broke off"),
        }
    }
    to.completed()
}

fn upstream(address: SocketAddr) -> Lines {
    let dial = move |to: Emitter<'static, Line, &'static str>| match TcpStream::connect_timeout(&address, Duration::from_secs(1)) {
        Ok(it) => {
            let socket = Arc::new(it);
            to.hold(Socket(socket.clone()));
            read(&socket, &to)
        }
        Err(_) => to.error("its upstream is not reached"),
    };
    Observable::create(move |to| _ = thread::spawn(move || dial(to))).share()
}

fn choices(socket: Arc<TcpStream>) -> Lines {
    Observable::create(move |to| {
        let of = socket.clone();
        thread::spawn(move || {
            read(&of, &to);
            to.error("it has left")
        });
        Socket(socket.clone())
    })
}

fn write(mut socket: &TcpStream, lines: Receiver<Line>, over: Instant) {
    let mut text = Vec::new();
    while let Ok(line) = lines.recv_timeout(over.saturating_duration_since(Instant::now())) {
        text.clear();
        text.extend_from_slice(&line);
        lines.try_iter().take(64).for_each(|it| text.extend_from_slice(&it));
        if socket.write_all(&text).is_err() {
            return;
        }
    }
}

fn serve(socket: Arc<TcpStream>, life: Duration, topics: Arc<HashMap<String, Lines>>) {
    let (queue, lines) = sync_channel(512);
    let told = choices(socket.clone()).switch_map(move |line| {
        let name = String::from_utf8_lossy(&line);
        match topics.get(name.trim()) {
            Some(it) => Observable::of([text("= ", name.trim())]).merge_with(it),
            None => Observable::of([text("? ", name.trim())]),
        }
    });
    let out = socket.clone();
    let subscription = told.observe(move |note| {
        let sent = match note {
            Note::Next(line) => queue.try_send(line),
            Note::Error(why) => queue.try_send(text("! ", why)),
            Note::Completed => Ok(()),
        };
        if let Err(TrySendError::Full(_)) = sent {
            let _ = socket.shutdown(Shutdown::Both); // it is too slow
        }
    });
    let _ = thread::Builder::new().spawn(move || {
        write(&out, lines, Instant::now() + life);
        drop(subscription) // and the socket with it
    });
}

fn main() -> Result<(), Box<dyn std::error::Error>> {
    let (mut life, mut address, mut topics) = (600, String::new(), HashMap::new());
    let mut words = std::env::args().skip(1);
    while let Some(word) = words.next() {
        match word.split_once('=') {
            Some((name, at)) => _ = topics.insert(name.to_string(), upstream(at.parse()?)),
            None if word == "--life" => life = words.next().ok_or("--life SECONDS")?.parse()?,
            None => address = word,
        }
    }
    let (listener, topics) = (TcpListener::bind(address)?, Arc::new(topics));
    println!("listening {}", listener.local_addr()?);
    for socket in listener.incoming().flatten() {
        let _ = socket.set_nodelay(true);
        serve(Arc::new(socket), Duration::from_secs(life), topics.clone());
    }
    Ok(())
}
