//! One end of a connection between two nodes, which never waits.

use crate::frames::{cut, put, Cut, Frame, Payload};
use std::collections::VecDeque;
use std::io::{self, ErrorKind, IoSlice, Read, Write};
use std::net::TcpStream;

/// A payload of so many bytes is shared until it is written, and a smaller one is copied behind its head.
const SHARED: usize = 4_096;

/// How many pieces are written at once at most.
const PIECES: usize = 64;

/// What waits to be written.
enum Piece {
    Own(Vec<u8>),
    Shared(Payload),
}

impl Piece {
    fn bytes(&self) -> &[u8] {
        match self {
            Piece::Own(text) => text,
            Piece::Shared(payload) => payload,
        }
    }
}

/// One end of a connection.
pub struct Link {
    pub stream: TcpStream,
    /// Less than a frame that was read.
    input: Vec<u8>,
    output: VecDeque<Piece>,
    /// How many bytes of the first piece are written.
    written: usize,
}

impl Link {
    /// A link over a stream, which is to wait no more.
    pub fn new(stream: TcpStream) -> io::Result<Link> {
        stream.set_nonblocking(true)?;
        Ok(Link {
            stream,
            input: Vec::new(),
            output: VecDeque::new(),
            written: 0,
        })
    }

    /// The piece of its own that is last.
    fn last(&mut self) -> &mut Vec<u8> {
        if !matches!(self.output.back(), Some(Piece::Own(_))) {
            self.output.push_back(Piece::Own(Vec::new()));
        }
        match self.output.back_mut() {
            Some(Piece::Own(text)) => text,
            _ => unreachable!("it was put there"),
        }
    }

    /// Puts a frame behind what waits to be written.
    pub fn put(&mut self, frame: &Frame) {
        let text = self.last();
        put(text, frame);
        if let Frame::Gossip(_, payload) = frame {
            if payload.len() < SHARED {
                text.extend_from_slice(payload);
            } else {
                self.output.push_back(Piece::Shared(payload.clone()));
            }
        }
    }

    /// Reads what there is, the size of the room at most, and puts the frames that are whole last. The answer is whether the
    /// connection is still open.
    pub fn read(&mut self, room: &mut [u8], frames: &mut Vec<Frame>) -> io::Result<bool> {
        match self.stream.read(room) {
            Ok(0) => Ok(false),
            Ok(count) => {
                self.input.extend_from_slice(&room[..count]);
                self.cut_all(frames)
            }
            Err(error) if error.kind() == ErrorKind::WouldBlock => Ok(true),
            Err(error) if error.kind() == ErrorKind::Interrupted => Ok(true),
            Err(error) => Err(error),
        }
    }

    /// Puts the frames that are whole last.
    fn cut_all(&mut self, frames: &mut Vec<Frame>) -> io::Result<bool> {
        let mut taken = 0;
        loop {
            match cut(&self.input[taken..]) {
                Cut::Whole(frame, length) => {
                    frames.push(frame);
                    taken += length;
                }
                Cut::Part => break,
                Cut::Broken => return Err(ErrorKind::InvalidData.into()),
            }
        }
        self.input.drain(..taken);
        Ok(true)
    }

    /// Writes what waits, as far as the connection takes it. The answer is whether all is written.
    pub fn flush(&mut self) -> io::Result<bool> {
        while !self.output.is_empty() {
            let pieces: Vec<IoSlice> = self
                .output
                .iter()
                .take(PIECES)
                .enumerate()
                .map(|(place, piece)| {
                    let from = if place == 0 { self.written } else { 0 };
                    IoSlice::new(&piece.bytes()[from..])
                })
                .collect();
            match self.stream.write_vectored(&pieces) {
                Ok(0) => return Err(ErrorKind::WriteZero.into()),
                Ok(count) => self.drop_written(count),
                Err(error) if error.kind() == ErrorKind::WouldBlock => return Ok(false),
                Err(error) if error.kind() == ErrorKind::Interrupted => {}
                Err(error) => return Err(error),
            }
        }
        Ok(true)
    }

    /// Drops so many more bytes that are written.
    fn drop_written(&mut self, count: usize) {
        self.written += count;
        while let Some(first) = self.output.front() {
            let length = first.bytes().len();
            if self.written < length {
                return;
            }
            self.written -= length;
            self.output.pop_front();
        }
    }
}
