//! Three nodes over TCP on this machine. Each is shared by a thread for each connection that it accepted, which reads, and
//! one that writes, ticks and prints. Every node broadcasts a message; the program ends when all have all three. News of
//! neighbours go to standard error.
use plumtree::{Config, Dice, Name, WireNode};
use std::collections::HashMap;
use std::io::{ErrorKind, Read};
use std::net::{SocketAddr, TcpListener, TcpStream};
use std::sync::{Arc, Mutex, MutexGuard, PoisonError};
use std::thread;
use std::time::Duration;

const NAMES: [&str; 3] = ["a", "b", "c"];

type Places = HashMap<&'static str, SocketAddr>;
type Links = HashMap<Name, TcpStream>;
type Outcome<T> = Result<T, Box<dyn std::error::Error + Send + Sync>>;

/// Random words by the clock: enough for an example.
fn dice() -> Dice {
    let now = std::time::SystemTime::now().duration_since(std::time::UNIX_EPOCH);
    let mut word = now.map_or(1, |since| since.as_nanos() as u64 | 1);
    Dice(std::array::from_fn(|_| {
        word ^= word << 13;
        word ^= word >> 7;
        word ^= word << 17;
        word
    }))
}

fn lock(node: &Mutex<WireNode>) -> MutexGuard<'_, WireNode> {
    node.lock().unwrap_or_else(PoisonError::into_inner)
}

/// Hands the node what a connection brings.
fn read_all(mut stream: TcpStream, node: &Mutex<WireNode>) -> Outcome<()> {
    let connection = lock(node).accept()?;
    let mut buffer = vec![0; 65_536];
    while let Ok(count @ 1..) = stream.read(&mut buffer) {
        lock(node).receive(connection, &buffer[..count], &dice())?;
    }
    Ok(lock(node).ended(connection, &dice())?)
}

/// Writes what waits for a name, as far as the connection to it takes it, which is made where there is none.
fn send(node: &mut WireNode, to: &Name, places: &Places, links: &mut Links) -> std::io::Result<()> {
    if !links.contains_key(to) {
        let place = places.get(to.as_str()).ok_or(ErrorKind::NotFound)?;
        let link = TcpStream::connect(place)?;
        link.set_nonblocking(true)?;
        links.insert(*to, link);
    }
    match links.get_mut(to).map(|link| node.write_to(to, link)) {
        Some(Err(error)) if error.kind() != ErrorKind::WouldBlock => Err(error),
        _ => Ok(()),
    }
}

/// Prints what a node delivers, and its news. Returns how many messages those are.
fn print_all(name: &str, node: &mut WireNode) -> Outcome<usize> {
    while let Some(news) = node.next_news()? {
        eprintln!("{name}: {news:?}");
    }
    let mut delivered = 0;
    while let Some(message) = node.next_delivery()? {
        delivered += 1;
        println!(
            "{}: {}",
            message.id,
            String::from_utf8_lossy(&message.payload)
        );
    }
    Ok(delivered)
}

/// Runs one node until all is delivered, and a while longer for the others.
fn member(name: &'static str, listener: TcpListener, places: &Places) -> Outcome<()> {
    let others = NAMES.iter().filter(|other| **other != name);
    let config = others.fold(Config::new(name), |config, other| config?.peer(other))?;
    let shared = Arc::new(Mutex::new(WireNode::start(&config)?));
    lock(&shared).tell_news(true);
    lock(&shared).broadcast(format!("hello from {name}").as_bytes())?;
    let reading = shared.clone();
    thread::spawn(move || {
        for stream in listener.incoming().flatten() {
            let node = reading.clone();
            thread::spawn(move || read_all(stream, &node));
        }
    });
    let (mut links, mut delivered, mut quiet) = (Links::new(), 0, 0);
    for turn in 0..3_000 {
        let mut node = lock(&shared);
        if turn % 10 == 0 {
            node.tick(&dice())?;
            quiet += usize::from(delivered == NAMES.len());
        }
        for to in node.receivers()? {
            if send(&mut node, &to, places, &mut links).is_err() {
                node.unreachable(&to, &dice())?;
            }
        }
        while let Some(lost) = node.next_lost() {
            links.remove(&lost);
        }
        delivered += print_all(name, &mut node)?;
        if quiet == 10 {
            return Ok(());
        }
        drop(node);
        thread::sleep(Duration::from_millis(10));
    }
    Err(format!("{delivered} of {} messages", NAMES.len()).into())
}

fn main() -> Outcome<()> {
    let mut listeners = Vec::new();
    for name in NAMES {
        listeners.push((name, TcpListener::bind("127.0.0.1:0")?));
    }
    let places = listeners
        .iter()
        .map(|(name, it)| Ok((*name, it.local_addr()?)));
    let places = places.collect::<Outcome<Places>>()?;
    let run = |(name, listener)| {
        let places = places.clone();
        thread::spawn(move || member(name, listener, &places))
    };
    let all: Vec<_> = listeners.into_iter().map(run).collect();
    for one in all {
        one.join().map_err(|_| "a thread panicked")??;
    }
    Ok(())
}
