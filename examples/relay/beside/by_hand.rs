//! The relay by hand, on std alone: a thread that reads and one that writes for each client, one for each topic that is connected.
use std::io::{BufRead, BufReader, Write};
use std::net::{Shutdown, SocketAddr, TcpListener, TcpStream};
use std::sync::mpsc::{sync_channel, SyncSender, TrySendError};
use std::sync::{Arc, Mutex};
use std::thread;
use std::time::{Duration, Instant};

type Line = Arc<[u8]>;

struct Client {
    number: usize,
    socket: TcpStream,
    queue: SyncSender<Line>,
}

/// Who gets a topic's lines now, and the socket of its upstream, which whoever leaves last shuts down.
#[derive(Default)]
struct State {
    clients: Vec<Arc<Client>>,
    round: usize, // of the connection, so that an old one leaves a newer one alone
    upstream: Option<TcpStream>,
}

struct Topic {
    name: String,
    address: SocketAddr,
    state: Mutex<State>,
}

fn text(words: String) -> Line {
    Line::from(format!("{words}\n").as_bytes())
}

impl Client {
    /// A queue without room is a client that is too slow.
    fn send(&self, line: Line) {
        if let Err(TrySendError::Full(_)) = self.queue.try_send(line) {
            self.drop_it();
        }
    }

    fn drop_it(&self) {
        let _ = self.socket.shutdown(Shutdown::Both);
    }
}

impl Topic {
    fn join(self: &Arc<Self>, client: &Arc<Client>) {
        let mut state = self.state.lock().unwrap();
        client.send(text(format!("= {}", self.name)));
        state.clients.push(client.clone());
        if state.clients.len() == 1 {
            state.round += 1;
            let (it, round) = (self.clone(), state.round);
            if thread::Builder::new().spawn(move || it.follow(round)).is_err() {
                state.clients.drain(..).for_each(|it| it.drop_it());
            }
        }
    }

    fn leave(&self, client: &Client) {
        let mut state = self.state.lock().unwrap();
        let before = state.clients.len();
        state.clients.retain(|it| it.number != client.number);
        if before > 0 && state.clients.is_empty() {
            state.round += 1;
            if let Some(it) = state.upstream.take() {
                let _ = it.shutdown(Shutdown::Both);
            }
        }
    }

    /// Reads the upstream until it ends, or nobody is left.
    fn follow(&self, round: usize) {
        let is_whole = self.read(round).unwrap_or(false);
        let mut state = self.state.lock().unwrap();
        if state.round == round {
            state.upstream = None;
            let clients = std::mem::take(&mut state.clients);
            clients.iter().filter(|_| !is_whole).for_each(|it| {
                it.send(text("! its upstream broke off".into()));
                it.drop_it();
            });
        }
    }

    fn read(&self, round: usize) -> std::io::Result<bool> {
        let socket = TcpStream::connect_timeout(&self.address, Duration::from_secs(1))?;
        let mut lines = BufReader::new(socket.try_clone()?);
        let mut state = self.state.lock().unwrap();
        if state.round != round {
            return Ok(true);
        }
        state.upstream = Some(socket);
        drop(state);
        let mut line = Vec::new();
        while lines.read_until(b'\n', &mut line)? > 0 {
            if line.last() != Some(&b'\n') {
                return Ok(false);
            }
            let whole = Line::from(std::mem::take(&mut line));
            let state = self.state.lock().unwrap();
            if state.round != round {
                return Ok(true);
            }
            state.clients.iter().for_each(|it| it.send(whole.clone()));
        }
        Ok(true)
    }
}

fn serve(socket: TcpStream, number: usize, life: Duration, topics: &[Arc<Topic>]) -> std::io::Result<()> {
    socket.set_nodelay(true)?;
    let (queue, lines) = sync_channel::<Line>(512);
    let (mut out, over) = (socket.try_clone()?, Instant::now() + life);
    let mut input = BufReader::new(socket.try_clone()?);
    let client = Arc::new(Client { number, socket, queue });
    thread::Builder::new().spawn(move || {
        let mut text = Vec::new();
        while let Ok(line) = lines.recv_timeout(over.saturating_duration_since(Instant::now())) {
            text.clear();
            text.extend_from_slice(&line);
            lines.try_iter().take(64).for_each(|it| text.extend_from_slice(&it));
            if Instant::now() >= over || out.write_all(&text).is_err() {
                break;
            }
        }
        let _ = out.shutdown(Shutdown::Both);
    })?;
    let (mut chosen, mut line): (Option<&Arc<Topic>>, _) = (None, String::new());
    while input.read_line(&mut line).is_ok_and(|it| it > 0) {
        match topics.iter().find(|it| it.name == line.trim()) {
            Some(it) => {
                chosen.replace(it).inspect(|it| it.leave(&client));
                it.join(&client);
            }
            None => client.send(text(format!("? {}", line.trim()))),
        }
        line.clear();
    }
    client.drop_it();
    chosen.inspect(|it| it.leave(&client));
    Ok(())
}

fn main() -> Result<(), Box<dyn std::error::Error>> {
    let (mut life, mut address, mut topics) = (600, String::new(), Vec::new());
    let mut words = std::env::args().skip(1);
    while let Some(word) = words.next() {
        match word.split_once('=') {
            Some((name, at)) => topics.push(Arc::new(Topic { name: name.into(), address: at.parse()?, state: Mutex::default() })),
            None if word == "--life" => life = words.next().ok_or("--life SECONDS")?.parse()?,
            None => address = word,
        }
    }
    let (listener, topics) = (TcpListener::bind(address)?, Arc::new(topics));
    println!("listening {}", listener.local_addr()?);
    for (number, socket) in listener.incoming().enumerate() {
        let (Ok(socket), topics) = (socket, topics.clone()) else { continue };
        let _ = thread::Builder::new().spawn(move || serve(socket, number, Duration::from_secs(life), &topics));
    }
    Ok(())
}
