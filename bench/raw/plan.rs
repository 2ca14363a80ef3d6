//! What a run is to do.

use std::error::Error;
use std::time::Duration;

/// How many messages an origin broadcasts in one turn at most.
const TEXTS: usize = 64;

/// How long a turn takes at least.
pub const TURN: Duration = Duration::from_millis(5);

/// After how many milliseconds a message that was announced is asked for, where the words do not say.
const TIMER: u64 = 20;

/// What the program's words have to be.
const USAGE: &str =
    "arguments: threads|epoll|tree NODES MESSAGES BYTES [unpaced] [flood] [timer=MS] [spread]";

/// Which program runs.
#[derive(Clone, Copy, Debug, PartialEq, Eq)]
pub enum Form {
    Threads,
    Epoll,
    Tree,
}

/// What a run is to do.
#[derive(Clone, Copy, Debug)]
pub struct Plan {
    pub form: Form,
    pub nodes: usize,
    /// How many messages are broadcast after the one that makes the tree.
    pub messages: usize,
    /// The bytes of each.
    pub bytes: usize,
    pub is_paced: bool,
    pub is_flood: bool,
    pub timer: Duration,
    pub is_spread: bool,
}

impl Plan {
    /// The plan of a program's words.
    pub fn parse(words: &[String]) -> Result<Plan, Box<dyn Error>> {
        let [form, nodes, messages, bytes, rest @ ..] = words else {
            return Err(USAGE.into());
        };
        let mut plan = Plan {
            form: parse_form(form)?,
            nodes: nodes.parse::<usize>()?.max(1),
            messages: messages.parse()?,
            bytes: bytes.parse()?,
            is_paced: true,
            is_flood: false,
            timer: Duration::from_millis(TIMER),
            is_spread: false,
        };
        for word in rest {
            plan.take(word)?;
        }
        Ok(plan)
    }

    /// Takes one of the words that may follow.
    fn take(&mut self, word: &str) -> Result<(), Box<dyn Error>> {
        match word {
            "unpaced" => self.is_paced = false,
            "flood" => self.is_flood = true,
            "spread" => self.is_spread = true,
            _ => match word.strip_prefix("timer=") {
                Some(millis) => self.timer = Duration::from_millis(millis.parse()?),
                None => return Err(USAGE.into()),
            },
        }
        Ok(())
    }

    /// The node at which this message begins.
    pub fn origin(&self, message: usize) -> usize {
        if self.is_spread {
            message % self.nodes
        } else {
            0
        }
    }

    /// How many messages are broadcast in one turn at most.
    pub fn in_turn(&self) -> usize {
        match (self.is_paced, self.is_spread) {
            (false, _) => self.messages.max(1),
            (true, false) => TEXTS,
            (true, true) => TEXTS * self.nodes,
        }
    }

    /// How many deliveries there are of the message that makes the tree and of the others.
    pub fn wanted(&self) -> usize {
        self.nodes * (self.messages + 1)
    }
}

/// The form of this name.
fn parse_form(word: &str) -> Result<Form, Box<dyn Error>> {
    match word {
        "threads" => Ok(Form::Threads),
        "epoll" => Ok(Form::Epoll),
        "tree" => Ok(Form::Tree),
        _ => Err(USAGE.into()),
    }
}
