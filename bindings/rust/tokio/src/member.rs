//! A node over TCP: one task has the node, and each connection has one of its own.
use plumtree::{Connection, Delivery, Dice, Error, Name, WireNode};
use std::collections::HashMap;
use std::net::SocketAddr;
use std::time::Duration;
use tokio::io::{AsyncReadExt, AsyncWriteExt};
use tokio::net::{TcpListener, TcpStream};
use tokio::sync::mpsc::{channel, error::TrySendError, Receiver, Sender};

/// What the node's task is told.
pub enum Told {
    Opened(TcpStream),
    Came(Connection, Vec<u8>),
    Ended(Connection),
    Wrote,
    Failed(Name),
}

/// Takes connections. Each is of some node that calls this one, and only that one writes there.
pub async fn accept_all(listener: TcpListener, told: Sender<Told>) {
    while !told.is_closed() {
        if let Ok((stream, _)) = listener.accept().await {
            let _ = told.send(Told::Opened(stream)).await;
        }
    }
}

/// Hands on what a connection brings, until it ends.
async fn read_all(mut stream: TcpStream, connection: Connection, told: Sender<Told>) {
    let mut buffer = vec![0; 65_536];
    while let Ok(count @ 1..) = stream.read(&mut buffer).await {
        let came = Told::Came(connection, buffer[..count].to_vec());
        if told.send(came).await.is_err() {
            return;
        }
    }
    let _ = told.send(Told::Ended(connection)).await;
}

/// Connects to a peer, and writes there what it is given.
async fn write_all(
    place: SocketAddr,
    mut bytes: Receiver<Vec<u8>>,
    told: &Sender<Told>,
) -> std::io::Result<()> {
    let mut stream = TcpStream::connect(place).await?;
    stream.set_nodelay(true)?;
    while let Some(some) = bytes.recv().await {
        stream.write_all(&some).await?;
        let _ = told.send(Told::Wrote).await;
    }
    Ok(())
}

/// A node, where its peers are, and the tasks that write to them.
pub struct Member {
    pub node: WireNode,
    pub places: HashMap<Name, SocketAddr>,
    pub told: Sender<Told>,
    pub delivered: Sender<Delivery>,
    pub links: HashMap<Name, Sender<Vec<u8>>>,
    pub roll: fn() -> Dice,
}

impl Member {
    /// The task that writes to a peer, which is started where there is none.
    fn link(&mut self, to: &Name) -> Option<&Sender<Vec<u8>>> {
        let place = *self.places.get(to)?;
        Some(self.links.entry(*to).or_insert_with(|| {
            let (sender, bytes) = channel(16);
            let (peer, told) = (*to, self.told.clone());
            tokio::spawn(async move {
                if write_all(place, bytes, &told).await.is_err() {
                    let _ = told.send(Told::Failed(peer)).await;
                }
            });
            sender
        }))
    }

    /// Gives a peer's task what waits for it, as far as it has room.
    fn send(&mut self, to: &Name) -> Result<(), Error> {
        while self.node.waiting(to) > 0 {
            let bytes = self.node.transmit(to).map(|part| part.to_vec()).concat();
            let count = bytes.len();
            match self.link(to).map(|link| link.try_send(bytes)) {
                Some(Ok(())) => self.node.transmitted(to, count),
                Some(Err(TrySendError::Full(_))) => break,
                _ => self.node.unreachable(to, &(self.roll)())?,
            }
        }
        Ok(())
    }

    /// Hands on what the node gives, and ends the connections to names that were lost.
    async fn give_out(&mut self) -> Result<(), Error> {
        while let Some(delivery) = self.node.next_delivery()? {
            let _ = self.delivered.send(delivery).await;
        }
        for to in self.node.receivers()? {
            self.send(&to)?;
        }
        while let Some(lost) = self.node.next_lost() {
            self.links.remove(&lost);
        }
        Ok(())
    }

    /// Takes what a task told.
    fn take(&mut self, told: Told) -> Result<(), Error> {
        let dice = (self.roll)();
        match told {
            Told::Opened(stream) => {
                let connection = self.node.accept()?;
                tokio::spawn(read_all(stream, connection, self.told.clone()));
                Ok(())
            }
            Told::Came(connection, bytes) => self.node.receive(connection, &bytes, &dice),
            Told::Ended(connection) => self.node.ended(connection, &dice),
            Told::Wrote => Ok(()),
            Told::Failed(peer) => self.node.unreachable(&peer, &dice),
        }
    }

    /// Whether little enough waits for the slowest peer.
    fn may_broadcast(&mut self) -> Result<bool, Error> {
        let names = self.node.receivers()?;
        Ok(names.iter().all(|to| self.node.waiting(to) < 32_768))
    }

    /// Runs the node until a call is refused, as for want of memory.
    pub async fn run(
        mut self,
        mut events: Receiver<Told>,
        mut messages: Receiver<Vec<u8>>,
    ) -> Result<(), Error> {
        let mut ticks = tokio::time::interval(Duration::from_millis(100));
        loop {
            self.give_out().await?;
            let may_broadcast = self.may_broadcast()?;
            tokio::select! {
                _ = ticks.tick() => self.node.tick(&(self.roll)())?,
                Some(told) = events.recv() => match self.take(told) {
                    Err(Error::BadFrame(_) | Error::NoConnection) => {}
                    answer => answer?,
                },
                Some(payload) = messages.recv(), if may_broadcast => {
                    self.node.broadcast(&payload)?;
                }
            }
        }
    }
}
