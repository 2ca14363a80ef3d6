//! Who is connected to whom.

use std::io;
use std::net::{TcpListener, TcpStream};

/// How far on in the ring a node's peers are, as in the group that runs: its neighbours, two that are further, and the one that is
/// farthest, where two nodes are that to each other.
fn steps_of(nodes: usize) -> [usize; 5] {
    let chord = (nodes / 8).max(2);
    let farthest = if nodes % 2 == 0 { nodes / 2 } else { 1 };
    [1, nodes - 1, chord, nodes.saturating_sub(chord), farthest]
}

/// The peers of the node at this place, each once.
pub fn peers_of(nodes: usize, place: usize) -> Vec<usize> {
    let mut peers = Vec::new();
    for step in steps_of(nodes) {
        let peer = (place + step) % nodes;
        if peer != place && !peers.contains(&peer) {
            peers.push(peer);
        }
    }
    peers
}

/// So many listeners, at ports that are free.
pub fn listen_all(count: usize) -> io::Result<Vec<TcpListener>> {
    (0..count)
        .map(|_| TcpListener::bind(("127.0.0.1", 0)))
        .collect()
}

/// Both ends of a new connection: of who dials, and of who listens.
pub fn meet(listener: &TcpListener) -> io::Result<(TcpStream, TcpStream)> {
    let dialled = TcpStream::connect(listener.local_addr()?)?;
    let (accepted, _) = listener.accept()?;
    dialled.set_nodelay(true)?;
    accepted.set_nodelay(true)?;
    Ok((dialled, accepted))
}
