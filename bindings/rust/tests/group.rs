//! Groups in one process, and every error.
use plumtree::{Config, Dice, Error, Input, Limits, MsgId, Name, Node, Output, PAYLOAD_MAX};
use std::collections::{BTreeMap, VecDeque};

/// A group whose frames arrive in the order in which they were sent.
struct Group {
    nodes: BTreeMap<Name, Node>,
    flight: VecDeque<(Name, Vec<u8>)>,
    delivered: BTreeMap<(Name, MsgId), Vec<u8>>,
}

impl Group {
    fn new() -> Group {
        Group {
            nodes: BTreeMap::new(),
            flight: VecDeque::new(),
            delivered: BTreeMap::new(),
        }
    }

    fn start(&mut self, config: &Config, name: &str) {
        let node = Node::start(config).expect("a node starts");
        self.nodes.insert(Name::new(name).expect("a name"), node);
        self.collect(name);
    }

    /// Takes what a node gives. A message that comes twice fails the test.
    fn collect(&mut self, name: &str) {
        let name = Name::new(name).expect("a name");
        let node = self.nodes.get_mut(&name).expect("a node");
        while let Some(output) = node.poll().expect("memory") {
            match output {
                Output::Send { to, frame } => self.flight.push_back((to, frame)),
                Output::Deliver { id, payload } => {
                    assert!(self.delivered.insert((name, id), payload).is_none());
                }
            }
        }
    }

    /// Lets all frames arrive.
    fn settle(&mut self) {
        while let Some((to, frame)) = self.flight.pop_front() {
            let node = self.nodes.get_mut(&to).expect("a node");
            assert_eq!(node.receive(&frame, &Dice::default()), Ok(frame.len()));
            self.collect(to.as_str());
        }
    }
}

#[test]
fn a_line_delivers_each_message_once() {
    let mut group = Group::new();
    for (name, peers) in [("a", &["b"][..]), ("b", &["a", "c"]), ("c", &["b"])] {
        let config = Config::new(name).expect("a name");
        let config = peers
            .iter()
            .try_fold(config, |config, peer| config.peer(peer));
        group.start(&config.expect("names"), name);
    }
    for (number, name) in [(1, "a"), (1, "b"), (2, "a")] {
        let node = group.nodes.get_mut(&Name::new(name).unwrap()).unwrap();
        assert_eq!(node.broadcast(name.as_bytes()), Ok(number));
        group.collect(name);
        group.settle();
    }
    assert_eq!(group.delivered.len(), 9);
    for ((_, id), payload) in &group.delivered {
        assert_eq!(payload, id.name.as_bytes());
    }
}

#[test]
fn a_node_joins_by_a_contact() {
    let mut group = Group::new();
    group.start(&Config::new("a").unwrap(), "a");
    group.start(&Config::new("b").unwrap().contact("a").unwrap(), "b");
    group.settle();
    let (a, b) = (Name::new("a").unwrap(), Name::new("b").unwrap());
    assert_eq!(group.nodes.get_mut(&a).unwrap().active(), [b]);
    assert_eq!(group.nodes.get_mut(&b).unwrap().active(), [a]);
    assert_eq!(group.nodes.get_mut(&b).unwrap().eager(), [a]);
    assert!(group.nodes.get_mut(&b).unwrap().lazy().is_empty());
    assert!(group.nodes.get_mut(&b).unwrap().passive().is_empty());
}

#[test]
fn a_node_joins_again_after_all_its_links_failed() {
    let mut group = Group::new();
    group.start(&Config::new("a").unwrap().peer("b").unwrap(), "a");
    group.start(&Config::new("b").unwrap().peer("a").unwrap(), "b");
    let (a, b) = (Name::new("a").unwrap(), Name::new("b").unwrap());
    for (at, peer) in [(a, b), (b, a)] {
        let node = group.nodes.get_mut(&at).unwrap();
        node.link_down(&peer, &Dice::default()).unwrap();
        assert!(node.active().is_empty());
    }
    group
        .nodes
        .get_mut(&a)
        .unwrap()
        .broadcast(b"early")
        .unwrap();
    let node = group.nodes.get_mut(&b).unwrap();
    assert_eq!(node.step(Input::Join(&b)), Ok(0));
    assert_eq!(node.poll(), Ok(None));
    assert_eq!(node.step(Input::Join(&a)), Ok(0));
    assert_eq!(node.counts().sends, 1);
    group.collect("b");
    group.settle();
    for (at, peer) in [(a, b), (b, a)] {
        let node = group.nodes.get_mut(&at).unwrap();
        assert_eq!(node.active(), [peer]);
        assert_eq!(node.join(&peer), Ok(()));
        assert_eq!(node.counts().sends, 0);
    }
    group.nodes.get_mut(&a).unwrap().broadcast(b"late").unwrap();
    group.collect("a");
    group.settle();
    let of_b = group.delivered.iter().filter(|((at, _), _)| *at == b);
    assert_eq!(
        of_b.map(|(_, payload)| &payload[..]).collect::<Vec<_>>(),
        [b"late"]
    );
}

#[test]
fn a_frame_is_taken_when_it_is_whole() {
    let mut a = Node::start(&Config::new("a").unwrap().peer("b").unwrap()).unwrap();
    let mut b = Node::start(&Config::new("b").unwrap().peer("a").unwrap()).unwrap();
    a.broadcast(&vec![7; PAYLOAD_MAX]).unwrap();
    let frame = loop {
        match a.poll().unwrap() {
            Some(Output::Send { frame, .. }) => break frame,
            Some(Output::Deliver { .. }) => {}
            None => panic!("no frame"),
        }
    };
    for end in [0, 1, 4, 5, frame.len() - 1] {
        assert_eq!(b.step(Input::Bytes(&frame[..end], &Dice::default())), Ok(0));
        assert_eq!(b.counts().known, 0);
    }
    assert_eq!(
        b.step(Input::Bytes(&frame, &Dice::default())),
        Ok(frame.len())
    );
    assert_eq!(b.counts().known, 1);
}

#[test]
fn a_refused_call_says_why() {
    assert_eq!(Name::new(""), Err(Error::BadName));
    assert_eq!(Name::new("A"), Err(Error::BadName));
    assert_eq!(
        Config::new("a").unwrap().peer("a b").err(),
        Some(Error::BadName)
    );
    let twice = Config::new("a")
        .unwrap()
        .peer("b")
        .unwrap()
        .peer("b")
        .unwrap();
    assert_eq!(Node::start(&twice).err(), Some(Error::BadPeers));
    let limits = Limits {
        active: 0,
        ..Limits::default()
    };
    let none = Config::new("a").unwrap().limits(limits);
    assert_eq!(Node::start(&none).err(), Some(Error::BadLimits));
    let mut a = Node::start(&Config::new("a").unwrap()).unwrap();
    let long = vec![0; PAYLOAD_MAX + 1];
    assert_eq!(a.broadcast(&long), Err(Error::PayloadTooLong));
    let fault = a.receive(&[255; 64], &Dice::default());
    assert!(matches!(fault, Err(Error::BadFrame(_))), "{fault:?}");
    assert!(!Error::BadPeers.to_string().is_empty());
    assert_eq!(a.counts().known, 0);
}

#[test]
fn a_bad_frame_behind_others_is_said_by_the_next_call() {
    let mut a = Node::start(&Config::new("a").unwrap().peer("b").unwrap()).unwrap();
    let mut b = Node::start(&Config::new("b").unwrap().peer("a").unwrap()).unwrap();
    a.broadcast(b"m").unwrap();
    let mut bytes = Vec::new();
    while let Some(output) = a.poll().unwrap() {
        if let Output::Send { frame, .. } = output {
            bytes.extend(frame);
        }
    }
    let whole = bytes.len();
    bytes.extend([255; 64]);
    assert_eq!(b.receive(&bytes, &Dice::default()), Ok(whole));
    assert_eq!(b.counts().known, 1);
    let fault = b.receive(&bytes[whole..], &Dice::default());
    assert!(matches!(fault, Err(Error::BadFrame(_))), "{fault:?}");
}

#[test]
fn a_missing_message_is_asked_for() {
    let mut b = Node::start(&Config::new("b").unwrap().peer("a").unwrap()).unwrap();
    let mut a = Node::start(&Config::new("a").unwrap().peer("b").unwrap()).unwrap();
    // `b` makes the link lazy, so that `a` announces its messages
    b.broadcast(b"m").unwrap();
    let mut back = Vec::new();
    while let Some(output) = b.poll().unwrap() {
        if let Output::Send { frame, .. } = output {
            a.receive(&frame, &Dice::default()).unwrap();
            a.receive(&frame, &Dice::default()).unwrap();
        }
    }
    while let Some(output) = a.poll().unwrap() {
        if let Output::Send { frame, .. } = output {
            back.push(frame);
        }
    }
    for frame in back {
        b.receive(&frame, &Dice::default()).unwrap();
    }
    b.broadcast(b"lost").unwrap();
    b.tick(&Dice::default()).unwrap();
    while let Some(output) = b.poll().unwrap() {
        if let Output::Send { frame, .. } = output {
            a.receive(&frame, &Dice::default()).unwrap();
        }
    }
    let missing = a.missing();
    assert_eq!(missing.len(), 1);
    assert!(!a.knows(&missing[0]));
    assert_eq!(a.fire(&missing[0]), Ok(true));
    let graft = a.poll().unwrap().into_iter().chain(a.poll().unwrap());
    assert!(graft.filter(|it| matches!(it, Output::Send { .. })).count() >= 1);
}

#[test]
fn a_node_goes_to_another_thread() {
    let mut a = Node::start(&Config::new("a").unwrap()).unwrap();
    let number = std::thread::spawn(move || a.broadcast(b"x"))
        .join()
        .unwrap();
    assert_eq!(number, Ok(1));
}
