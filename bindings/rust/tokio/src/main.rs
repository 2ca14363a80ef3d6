//! Three nodes over TCP on this machine. Each broadcasts messages; the program ends when all have all.
//!
//! usage: three_nodes [MESSAGES [BYTES]]    how many messages each broadcasts, 1 without it, and how long they are at least
mod member;

use member::{accept_all, Member};
use plumtree::{Config, Delivery, Dice, Name, WireNode};
use std::collections::HashMap;
use std::net::SocketAddr;
use tokio::net::TcpListener;
use tokio::sync::mpsc::{channel, Receiver};

const NAMES: [&str; 3] = ["a", "b", "c"];

type Outcome<T> = Result<T, Box<dyn std::error::Error + Send + Sync>>;

/// Random words by the clock: enough for an example.
fn roll() -> Dice {
    let now = std::time::SystemTime::now().duration_since(std::time::UNIX_EPOCH);
    let mut word = now.map_or(1, |since| since.as_nanos() as u64 | 1);
    Dice(std::array::from_fn(|_| {
        word ^= word << 13;
        word ^= word >> 7;
        word ^= word << 17;
        word
    }))
}

/// Starts a node, which broadcasts so many messages. Returns what it delivers.
fn start(
    name: &'static str,
    listener: TcpListener,
    places: HashMap<Name, SocketAddr>,
    messages: usize,
    bytes: usize,
) -> Outcome<Receiver<Delivery>> {
    let (told, events) = channel(16);
    let (say, said) = channel(16);
    let (delivered, deliveries) = channel(1_024);
    let others = NAMES.iter().filter(|other| **other != name);
    let config = others.fold(Config::new(name), |config, other| config?.peer(other))?;
    let node = WireNode::start(&config)?;
    tokio::spawn(accept_all(listener, told.clone()));
    let member = Member {
        node,
        places,
        told,
        delivered,
        links: HashMap::new(),
        roll,
    };
    tokio::spawn(async move {
        if let Err(error) = member.run(events, said).await {
            eprintln!("{name}: {error}");
        }
    });
    tokio::spawn(async move {
        let text = format!("{:bytes$}", format!("hello from {name}"));
        for _ in 0..messages {
            let _ = say.send(text.clone().into_bytes()).await;
        }
    });
    Ok(deliveries)
}

/// Prints the messages that a node delivers, until it has so many.
async fn print_all(
    name: &'static str,
    mut deliveries: Receiver<Delivery>,
    all: usize,
) -> Outcome<()> {
    for _ in 0..all {
        let Delivery { id, payload } = deliveries.recv().await.ok_or("the node has ended")?;
        let text = String::from_utf8_lossy(&payload);
        println!("{name} delivers {id}: {}", text.trim_end());
    }
    Ok(())
}

#[tokio::main]
async fn main() -> Outcome<()> {
    let mut numbers = std::env::args().skip(1).map(|word| word.parse());
    let messages = numbers.next().unwrap_or(Ok(1))?;
    let bytes = numbers.next().unwrap_or(Ok(0))?;
    let (mut listeners, mut places) = (Vec::new(), HashMap::new());
    for name in NAMES {
        let listener = TcpListener::bind("127.0.0.1:0").await?;
        places.insert(Name::new(name)?, listener.local_addr()?);
        listeners.push((name, listener));
    }
    let mut all = Vec::new();
    for (name, listener) in listeners {
        let deliveries = start(name, listener, places.clone(), messages, bytes)?;
        let wanted = NAMES.len() * messages;
        all.push(tokio::spawn(print_all(name, deliveries, wanted)));
    }
    for one in all {
        one.await??;
    }
    Ok(())
}
