//! The payloads alone, along a tree that is given, by threads for each connection.
//!
//! Node `k` has the node `(k - 1) / 4` as its parent, so that no node has more than five neighbours. Whoever gets a message passes
//! it on to all neighbours but the one that it came from. There is no repair, no history and no check of what comes.

use crate::board::{Board, Waiting};
use crate::figures::{tell, Delivered};
use crate::overlay::{listen_all, meet};
use crate::plan::{Plan, TURN};
use std::error::Error;
use std::io::{self, BufReader, Read, Write};
use std::net::{Shutdown, TcpStream};
use std::sync::mpsc::{self, Receiver, Sender};
use std::sync::{Arc, Mutex};
use std::thread::{self, JoinHandle};
use std::time::{Duration, Instant};

/// How many bytes stand before a message's payload: its length and its number.
const HEAD: usize = 8;

/// A message as it is written, which all links share.
type Message = Arc<Vec<u8>>;

/// One node: when it got which message, and the links on which it passes messages on.
struct Node {
    board: Arc<Board>,
    got: Mutex<Vec<Delivered>>,
    links: Mutex<Vec<(usize, Sender<Message>)>>,
}

impl Node {
    fn new(board: &Arc<Board>) -> Node {
        Node {
            board: Arc::clone(board),
            got: Mutex::default(),
            links: Mutex::default(),
        }
    }

    /// Takes a message that came from this neighbour, if from any, and passes it on to the others.
    fn take(&self, number: usize, from: Option<usize>, message: &Message) {
        self.got
            .lock()
            .unwrap()
            .push((number as u32, Instant::now()));
        for (peer, link) in self.links.lock().unwrap().iter() {
            if Some(*peer) != from {
                let _ = link.send(Arc::clone(message));
            }
        }
        self.board.deliver();
    }
}

/// The message of this number.
fn message(number: usize, bytes: usize) -> Message {
    let mut text = Vec::with_capacity(HEAD + bytes);
    text.extend_from_slice(&(bytes as u32).to_be_bytes());
    text.extend_from_slice(&(number as u32).to_be_bytes());
    text.resize(HEAD + bytes, b'x');
    Arc::new(text)
}

/// Reads the next message and its number.
fn read_message(stream: &mut impl Read) -> io::Result<(usize, Message)> {
    let mut text = vec![0; HEAD];
    stream.read_exact(&mut text)?;
    let length = u32::from_be_bytes([text[0], text[1], text[2], text[3]]) as usize;
    let number = u32::from_be_bytes([text[4], text[5], text[6], text[7]]) as usize;
    text.resize(HEAD + length, 0);
    stream.read_exact(&mut text[HEAD..])?;
    Ok((number, Arc::new(text)))
}

/// Lets a node take all messages of a stream.
fn read_all(stream: TcpStream, node: &Node, from: usize) {
    let mut stream = BufReader::new(stream);
    while let Ok((number, message)) = read_message(&mut stream) {
        node.take(number, Some(from), &message);
    }
}

/// Writes all messages of a queue.
fn write_all(mut stream: TcpStream, queue: Receiver<Message>) {
    for message in queue {
        if stream.write_all(&message).is_err() {
            return;
        }
    }
    let _ = stream.shutdown(Shutdown::Write);
}

/// Gives a node one end of a connection: a thread that reads and one that writes.
fn attach(
    node: &Arc<Node>,
    peer: usize,
    stream: TcpStream,
    threads: &mut Vec<JoinHandle<()>>,
) -> io::Result<()> {
    let reading = stream.try_clone()?;
    let reader = Arc::clone(node);
    let (link, queue) = mpsc::channel();
    node.links.lock().unwrap().push((peer, link));
    threads.push(thread::spawn(move || read_all(reading, &reader, peer)));
    threads.push(thread::spawn(move || write_all(stream, queue)));
    Ok(())
}

/// Connects the nodes to their parents.
fn connect(nodes: &[Arc<Node>], threads: &mut Vec<JoinHandle<()>>) -> io::Result<()> {
    let listeners = listen_all(nodes.len())?;
    for place in 1..nodes.len() {
        let parent = (place - 1) / 4;
        let (dialled, accepted) = meet(&listeners[parent])?;
        attach(&nodes[place], parent, dialled, threads)?;
        attach(&nodes[parent], place, accepted, threads)?;
    }
    Ok(())
}

/// Broadcasts all messages from number 1 on, and answers when each was.
fn broadcast_all(plan: &Plan, nodes: &[Arc<Node>]) -> Vec<Instant> {
    let messages: Vec<Message> = (1..=plan.messages)
        .map(|number| message(number, plan.bytes))
        .collect();
    let mut starts = Vec::with_capacity(plan.messages);
    for (place, message) in messages.iter().enumerate() {
        if place > 0 && place % plan.in_turn() == 0 {
            thread::sleep(TURN);
        }
        starts.push(Instant::now());
        nodes[plan.origin(place)].take(place + 1, None, message);
    }
    starts
}

/// Waits as long as this says of the board that it is not so far, or until nothing more comes.
fn wait(board: &Board, is_so_far: impl Fn(&Board) -> bool) {
    let mut waiting = Waiting::new();
    while !is_so_far(board) && waiting.goes_on(board, Instant::now()) {
        thread::sleep(Duration::from_millis(1));
    }
}

/// Runs the nodes, and prints the figures.
pub fn run(plan: &Plan) -> Result<(), Box<dyn Error>> {
    let board = Arc::new(Board::new(plan));
    let nodes: Vec<Arc<Node>> = (0..plan.nodes)
        .map(|_| Arc::new(Node::new(&board)))
        .collect();
    let mut threads = Vec::new();
    connect(&nodes, &mut threads)?;
    nodes[plan.origin(0)].take(0, None, &message(0, plan.bytes));
    wait(&board, Board::is_warm);
    board.begin();
    let starts = broadcast_all(plan, &nodes);
    wait(&board, Board::is_over);
    let got: Vec<Delivered> = nodes
        .iter()
        .flat_map(|node| node.got.lock().unwrap().clone())
        .collect();
    tell(plan, &board, threads.len() / 2, &starts, got.iter());
    for node in &nodes {
        node.links.lock().unwrap().clear();
    }
    for thread in threads {
        let _ = thread.join();
    }
    Ok(())
}
