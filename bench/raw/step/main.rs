//! A yardstick for what a core's step costs: Plumtree's state machine of one node in plain Rust, with the tables that ours has.
//!
//! Its arguments are a word and how many messages there are. Four peers ask to be linked, and the first sends messages of 100 bytes,
//! which the node passes on to the others. It prints what `benchmarks` prints for the same word:
//!
//! - `core`: what these steps take;
//! - `again`: what it takes when the second peer sends them again, after that;
//! - `told`: what it takes when the second peer announces them, 64 in a frame, after that;
//! - `prune`: what it takes when the second peer sends as many PRUNEs, after that.
//!
//! Like ours, a step answers a list of frames to send and a list of messages for the application; the node knows which numbers of
//! each origin came, holds the payloads in order of delivery, and finds by hash what was announced to it. It swaps no
//! branches, has no membership, no histories and no bound on its memory, and aborts where memory is refused.

// The node is whole, with what is not measured.
#![allow(dead_code)]

mod frames;
mod known;
mod names;
mod node;
mod peers;

use frames::{Body, Frame, Out, Payload, Stimulus};
use names::{Id, Name, Origin};
use node::Node;
use std::env;
use std::error::Error;
use std::time::{Duration, Instant};

/// The bytes of each message.
const LENGTH: usize = 100;

/// The names of the node's peers.
const PEERS: [&str; 4] = ["p", "q", "r", "s"];

/// How many messages are announced in one frame.
const ANNOUNCED: u64 = 64;

/// What the program's words have to be.
const USAGE: &str = "arguments: core|again|told|prune MESSAGES";

/// The first run of the node of this name.
fn origin_named(name: &str) -> Origin {
    Origin {
        name: Name::new(name),
        incarnation: 1,
    }
}

/// The arrival of a frame from its sender.
fn arrival(sender: Origin, number: u64, body: Body) -> Stimulus {
    Stimulus::Arrive(Frame {
        sender,
        number,
        body,
    })
}

/// The first peer's messages, sent by this peer.
fn messages(sender: Origin, count: u64) -> impl Iterator<Item = Stimulus> {
    let payload: Payload = vec![b'x'; LENGTH].into();
    let origin = origin_named(PEERS[0]);
    (1..=count).map(move |seq| {
        let body = Body::Gossip {
            id: Id { origin, seq },
            round: 0,
            payload: payload.clone(),
        };
        arrival(sender, seq + 1, body)
    })
}

/// The requests of all peers, and then so many messages of the first.
fn arrivals(count: u64) -> Vec<Stimulus> {
    PEERS
        .iter()
        .map(|peer| arrival(origin_named(peer), 1, Body::Neighbor))
        .chain(messages(origin_named(PEERS[0]), count))
        .collect()
}

/// The second peer's announcements of the first peer's messages.
fn announcements(count: u64) -> Vec<Stimulus> {
    let origin = origin_named(PEERS[0]);
    (0..count / ANNOUNCED)
        .map(|frame| {
            let entry = |place| {
                (
                    Id {
                        origin,
                        seq: frame * ANNOUNCED + place,
                    },
                    0,
                )
            };
            let entries = (1..=ANNOUNCED).map(entry).collect();
            arrival(origin_named(PEERS[1]), frame + 2, Body::Ihave(entries))
        })
        .collect()
}

/// What the second peer sends after the first peer's messages.
fn nothing_new(what: &str, count: u64) -> Result<Vec<Stimulus>, Box<dyn Error>> {
    let second = origin_named(PEERS[1]);
    match what {
        "again" => Ok(messages(second, count).collect()),
        "told" => Ok(announcements(count)),
        "prune" => Ok((0..count)
            .map(|k| arrival(second, k + 2, Body::Prune))
            .collect()),
        _ => Err(USAGE.into()),
    }
}

/// Lets a node take stimuli, and answers how many frames come out and how long it took.
fn time_steps(node: &mut Node, stimuli: &[Stimulus]) -> (u64, Duration) {
    let start = Instant::now();
    let mut sent = 0;
    for stimulus in stimuli {
        let mut out = Out::default();
        node.step(stimulus, &mut out);
        sent += out.sends.len() as u64;
    }
    (sent, start.elapsed())
}

fn main() -> Result<(), Box<dyn Error>> {
    let words: Vec<String> = env::args().skip(1).collect();
    let [what, count] = words.as_slice() else {
        return Err(USAGE.into());
    };
    let count = count.parse()?;
    let mut node = Node::new(origin_named("a"));
    let mut stimuli = arrivals(count);
    if what != "core" {
        let next = nothing_new(what, count)?;
        time_steps(&mut node, &stimuli);
        stimuli = next;
    }
    let (sent, took) = time_steps(&mut node, &stimuli);
    let came = stimuli.len() as u128;
    println!("{what:5} {came:8} in {sent:8} out");
    let (each, all) = (took.as_nanos() / came.max(1), took.as_micros());
    println!("{each} nanoseconds each, {all} microseconds in all");
    Ok(())
}
