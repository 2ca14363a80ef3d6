//! Two nodes of one process: one broadcasts, and the other delivers.
use plumtree::{Config, Dice, Error, Node, Output};

fn main() -> Result<(), Error> {
    let mut a = Node::start(&Config::new("a")?.peer("b")?)?;
    let mut b = Node::start(&Config::new("b")?.peer("a")?)?;
    a.broadcast(b"hello")?;
    while let Some(output) = a.poll()? {
        if let Output::Send { frame, .. } = output {
            b.receive(&frame, &Dice::default())?;
        }
    }
    while let Some(output) = b.poll()? {
        if let Output::Deliver { id, payload } = output {
            let text = String::from_utf8_lossy(&payload);
            println!("message {} of {}: {text}", id.number, id.name);
        }
    }
    Ok(())
}
