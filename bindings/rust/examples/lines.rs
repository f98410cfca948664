//! Relays lines: whoever connects to port 7001 sends them, until it ends or says `bye`; whoever connects to 7002 receives them all.
use cellarcliff::sync::{Observable, Subject};
use std::io::{BufRead, BufReader, Write};
use std::net::{Shutdown, TcpListener, TcpStream};
use std::{sync::Arc, thread};

struct Socket(Arc<TcpStream>);
impl Drop for Socket {
    fn drop(&mut self) {
        let _ = self.0.shutdown(Shutdown::Both); // whoever reads it finds its end
    }
}

fn lines(of: Arc<TcpStream>) -> Observable<'static, String> {
    Observable::create(move |to| {
        let socket = of.clone();
        thread::spawn(move || {
            BufReader::new(&*socket).lines().map_while(Result::ok).for_each(|line| to.next(line));
            to.completed()
        });
        Socket(of.clone()) // dropped once, when this subscription ends
    })
}

fn main() -> std::io::Result<()> {
    let (senders, receivers) = (TcpListener::bind("127.0.0.1:7001")?, TcpListener::bind("127.0.0.1:7002")?);
    let sockets = Subject::new();
    let until_bye = |lines: Observable<'static, String>| lines.take_until(lines.filter(|line| line == "bye"));
    let all = sockets.observable().flat_map(move |it| until_bye(lines(it).share())).share();
    let _open = all.each(|line| println!("{line}"));
    thread::spawn(move || senders.incoming().flatten().for_each(|it| sockets.next(Arc::new(it))));
    for socket in receivers.incoming().flatten() {
        let (subscription, heard) = all.items();
        thread::spawn(move || {
            heard.iter().take_while(|line| writeln!(&socket, "{line}").is_ok()).for_each(drop);
            subscription.dispose()
        });
    }
    Ok(())
}
