//! A thread that runs some of the nodes.

use crate::board::{Board, Waiting};
use crate::epoll::{Event, Poll};
use crate::frames::Frame;
use crate::gossip::Node;
use crate::links::Link;
use crate::speaker::Speaker;
use std::io;
use std::sync::Arc;
use std::time::{Duration, Instant};

/// How long is waited at most before it is looked whether the run is over.
const LOOK: Duration = Duration::from_millis(100);

/// How many bytes are read at once at most.
const ROOM: usize = 65_536;

/// A node and its links.
struct Seat {
    node: Node,
    /// The link to each of its peers, by its number in the driver.
    links: Vec<usize>,
}

/// One end of a connection, and whose it is.
struct Line {
    link: Link,
    seat: usize,
    /// Which of the peers of its node is at the other end.
    peer: usize,
    /// Whether frames were put that nobody has tried to write.
    is_fresh: bool,
    /// Whether it is waited for until it can be written to.
    is_full: bool,
    is_open: bool,
}

/// A thread that runs some of the nodes.
pub struct Driver {
    seats: Vec<Seat>,
    lines: Vec<Line>,
    poll: Poll,
    board: Arc<Board>,
    speaker: Option<Speaker>,
    room: Vec<u8>,
    frames: Vec<Frame>,
    out: Vec<(usize, Frame)>,
}

impl Driver {
    pub fn new(board: &Arc<Board>) -> io::Result<Driver> {
        Ok(Driver {
            seats: Vec::new(),
            lines: Vec::new(),
            poll: Poll::new()?,
            board: Arc::clone(board),
            speaker: None,
            room: vec![0; ROOM],
            frames: Vec::new(),
            out: Vec::new(),
        })
    }

    /// Adds a node, with the link to each of its peers.
    pub fn add(&mut self, node: Node, links: Vec<Link>) -> io::Result<()> {
        let seat = self.seats.len();
        let first = self.lines.len();
        for (peer, link) in links.into_iter().enumerate() {
            self.poll.add(&link.stream, self.lines.len())?;
            self.lines.push(Line {
                link,
                seat,
                peer,
                is_fresh: false,
                is_full: false,
                is_open: true,
            });
        }
        let links = (first..self.lines.len()).collect();
        self.seats.push(Seat { node, links });
        Ok(())
    }

    /// Lets its first node broadcast.
    pub fn speak(&mut self, speaker: Speaker) {
        self.speaker = Some(speaker);
    }

    /// Runs the nodes until all is delivered, and answers them, and when each message was broadcast.
    pub fn run(mut self) -> io::Result<(Vec<Node>, Vec<Instant>)> {
        let mut waiting = Waiting::new();
        let mut events = Vec::new();
        let mut now = Instant::now();
        while waiting.goes_on(&self.board, now) {
            let done = self.turn(now, &mut events);
            if !self.board.is_over() {
                done?;
            }
            now = Instant::now();
        }
        let nodes = self.seats.into_iter().map(|seat| seat.node).collect();
        let starts = self.speaker.map_or(Vec::new(), |speaker| speaker.starts);
        Ok((nodes, starts))
    }

    /// Waits until there is something to do, and does it. Once all is delivered others may have hung up.
    fn turn(&mut self, now: Instant, events: &mut Vec<Event>) -> io::Result<()> {
        self.poll.wait(self.timeout(now), events)?;
        for event in events.iter() {
            self.obey(event)?;
        }
        self.wake(Instant::now());
        self.write_all()
    }

    /// How long to wait.
    fn timeout(&self, now: Instant) -> Duration {
        let spoken = self.speaker.as_ref().and_then(Speaker::due);
        let nodes = self.seats.iter().filter_map(|seat| seat.node.due());
        let first = nodes.chain(spoken).min();
        first.map_or(LOOK, |at| at.saturating_duration_since(now).min(LOOK))
    }

    /// Does what an event makes possible.
    fn obey(&mut self, event: &Event) -> io::Result<()> {
        if event.is_writable {
            self.lines[event.token].is_fresh = true;
        }
        if event.is_readable && self.lines[event.token].is_open {
            self.read(event.token)?;
        }
        Ok(())
    }

    /// Lets a node take what came over one of its links. Nobody hangs up before the run is over.
    fn read(&mut self, place: usize) -> io::Result<()> {
        let line = &mut self.lines[place];
        line.is_open = line.link.read(&mut self.room, &mut self.frames)?;
        let (seat, peer) = (line.seat, line.peer);
        for frame in self.frames.drain(..) {
            self.seats[seat].node.take(peer, frame, Instant::now());
        }
        self.send(seat);
        Ok(())
    }

    /// Puts what a node sent to its links.
    fn send(&mut self, seat: usize) {
        let Seat { node, links } = &mut self.seats[seat];
        node.take_out(&mut self.out);
        for (peer, frame) in self.out.drain(..) {
            let line = &mut self.lines[links[peer]];
            line.link.put(&frame);
            line.is_fresh = true;
        }
    }

    /// Lets the nodes do what is due.
    fn wake(&mut self, now: Instant) {
        for seat in 0..self.seats.len() {
            self.seats[seat].node.wake(now);
            if let Some(speaker) = self.speaker.as_mut().filter(|_| seat == 0) {
                speaker.wake(&mut self.seats[seat].node, now);
            }
            self.send(seat);
        }
    }

    /// Writes what was put, as far as the connections take it.
    fn write_all(&mut self) -> io::Result<()> {
        for (place, line) in self.lines.iter_mut().enumerate() {
            if !line.is_fresh || !line.is_open {
                continue;
            }
            line.is_fresh = false;
            let is_full = !line.link.flush()?;
            if is_full != line.is_full {
                line.is_full = is_full;
                self.poll.change(&line.link.stream, place, is_full)?;
            }
        }
        Ok(())
    }
}
