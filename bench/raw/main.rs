//! Yardsticks for groups that run: plain programs that broadcast over connections of this machine, and print how fast and at what
//! cost the messages are delivered.
//!
//! Its arguments are a form, how many nodes, how many messages and how many bytes each. One message before the others makes the
//! tree and is not counted. The forms are
//!
//! - `threads`: Plumtree, one thread for each node;
//! - `epoll`: Plumtree, one thread for all nodes;
//! - `tree`: the payloads alone, along a tree that is given, with threads for each connection.
//!
//! Words that may follow: `unpaced` broadcasts all messages at once instead of 64 in five milliseconds at most; `flood` sends each
//! message over all links, without a tree; `timer=MS` says after how many milliseconds a message that was announced is asked for;
//! `spread` has each message of `tree` begin at another node.

mod board;
mod driving;
mod epoll;
mod figures;
mod frames;
mod gossip;
mod links;
mod overlay;
mod plan;
mod plumtree;
mod process;
mod speaker;
mod tree;

use plan::{Form, Plan};
use std::env;
use std::error::Error;

fn main() -> Result<(), Box<dyn Error>> {
    let words: Vec<String> = env::args().skip(1).collect();
    let plan = Plan::parse(&words)?;
    match plan.form {
        Form::Threads | Form::Epoll => plumtree::run(&plan),
        Form::Tree => tree::run(&plan),
    }
}
