//! Plumtree by hand: one thread for each node, or one for all.

use crate::board::Board;
use crate::driving::Driver;
use crate::figures::{tell, Delivered};
use crate::gossip::{Node, Sent};
use crate::links::Link;
use crate::overlay::{listen_all, meet, peers_of};
use crate::plan::{Form, Plan};
use crate::speaker::Speaker;
use std::error::Error;
use std::io;
use std::sync::Arc;
use std::thread;
use std::time::Instant;

/// The links of a node, each with the place of its peer in the overlay.
type Links = Vec<(usize, Link)>;

/// Connects each node to its peers.
fn connect(nodes: usize) -> io::Result<Vec<Links>> {
    let listeners = listen_all(nodes)?;
    let mut all: Vec<Links> = (0..nodes).map(|_| Vec::new()).collect();
    for place in 0..nodes {
        for peer in peers_of(nodes, place) {
            if all[place].iter().all(|(other, _)| *other != peer) {
                let (dialled, accepted) = meet(&listeners[peer])?;
                all[place].push((peer, Link::new(dialled)?));
                all[peer].push((place, Link::new(accepted)?));
            }
        }
    }
    Ok(all)
}

/// The drivers of all nodes, the one whose first node broadcasts first.
fn drivers(plan: &Plan, board: &Arc<Board>) -> io::Result<Vec<Driver>> {
    let mut drivers = vec![Driver::new(board)?];
    drivers[0].speak(Speaker::new(plan, board));
    for (place, links) in connect(plan.nodes)?.into_iter().enumerate() {
        if place > 0 && plan.form == Form::Threads {
            drivers.push(Driver::new(board)?);
        }
        let node = Node::new(place, links.len(), plan, board);
        let links = links.into_iter().map(|(_, link)| link).collect();
        drivers.last_mut().expect("there is one").add(node, links)?;
    }
    Ok(drivers)
}

/// Runs all drivers, the first one in this thread, and answers their nodes, and when each message was broadcast.
fn run_all(mut drivers: Vec<Driver>) -> io::Result<(Vec<Node>, Vec<Instant>)> {
    let first = drivers.remove(0);
    let threads: Vec<_> = drivers
        .into_iter()
        .map(|driver| thread::spawn(move || driver.run()))
        .collect();
    let (mut nodes, starts) = first.run()?;
    for thread in threads {
        nodes.append(&mut thread.join().expect("no driver panics")?.0);
    }
    Ok((nodes, starts))
}

/// How many frames of each kind all nodes sent.
fn sent_by(nodes: &[Node]) -> Sent {
    nodes.iter().fold(Sent::default(), |all, node| Sent {
        messages: all.messages + node.sent.messages,
        announcements: all.announcements + node.sent.announcements,
        grafts: all.grafts + node.sent.grafts,
        prunes: all.prunes + node.sent.prunes,
    })
}

/// Runs the nodes, and prints the figures.
pub fn run(plan: &Plan) -> Result<(), Box<dyn Error>> {
    let board = Arc::new(Board::new(plan));
    let (nodes, starts) = run_all(drivers(plan, &board)?)?;
    let delivered: Vec<Delivered> = nodes.iter().flat_map(|node| node.got.clone()).collect();
    let links = nodes.iter().map(Node::peers).sum();
    tell(plan, &board, links, &starts, delivered.iter());
    let sent = sent_by(&nodes);
    print!(
        "sent: {} messages, {} announcements, ",
        sent.messages, sent.announcements
    );
    println!("{} grafts, {} prunes", sent.grafts, sent.prunes);
    Ok(())
}
