//! Groups of nodes of bytes in one process, and every error.
use plumtree::{
    Config, Connection, Dice, Error, Limits, MsgId, Name, News, Parting, WireNode, PAYLOAD_MAX,
};
use std::collections::BTreeMap;

/// A group whose bytes go from node to node, a part at a time.
struct Group {
    nodes: BTreeMap<Name, WireNode>,
    links: BTreeMap<(Name, Name), Connection>,
    delivered: BTreeMap<(Name, MsgId), Vec<u8>>,
    part: usize,
}

fn name(text: &str) -> Name {
    Name::new(text).expect("a name")
}

fn two() -> (WireNode, WireNode) {
    let a = WireNode::start(&Config::new("a").unwrap().peer("b").unwrap()).unwrap();
    let b = WireNode::start(&Config::new("b").unwrap().peer("a").unwrap()).unwrap();
    (a, b)
}

/// Takes what waits for a name, and returns it.
fn written(node: &mut WireNode, to: &str) -> Vec<u8> {
    let mut bytes = Vec::new();
    node.write_to(&name(to), &mut bytes).unwrap();
    bytes
}

impl Group {
    fn new(part: usize, members: &[(&str, &[&str])]) -> Group {
        let start = |(it, peers): &(&str, &[&str])| {
            let config = peers
                .iter()
                .fold(Config::new(it), |config, peer| config?.peer(peer));
            (name(it), WireNode::start(&config.unwrap()).unwrap())
        };
        Group {
            nodes: members.iter().map(start).collect(),
            links: BTreeMap::new(),
            delivered: BTreeMap::new(),
            part,
        }
    }

    /// Carries one part of what waits at a node for a name.
    fn carry(&mut self, from: Name, to: Name) {
        let slices = self.nodes.get_mut(&from).unwrap().transmit(&to);
        let mut bytes: Vec<u8> = slices.iter().flat_map(|it| it.iter().copied()).collect();
        assert!(!bytes.is_empty());
        bytes.truncate(self.part);
        self.nodes
            .get_mut(&from)
            .unwrap()
            .transmitted(&to, bytes.len());
        let node = self.nodes.get_mut(&to).unwrap();
        let link = self
            .links
            .entry((from, to))
            .or_insert_with(|| node.accept().unwrap());
        node.receive(*link, &bytes, &Dice::default()).unwrap();
    }

    /// Carries all bytes, and takes what is delivered. A message that comes twice fails the test.
    fn settle(&mut self) {
        loop {
            let mut waiting = Vec::new();
            for (at, node) in &mut self.nodes {
                while let Some(message) = node.next_delivery().unwrap() {
                    let before = self.delivered.insert((*at, message.id), message.payload);
                    assert!(before.is_none());
                }
                waiting.extend(node.receivers().unwrap().into_iter().map(|to| (*at, to)));
            }
            if waiting.is_empty() {
                return;
            }
            for (from, to) in waiting {
                self.carry(from, to);
            }
        }
    }
}

#[test]
fn a_line_delivers_each_message_once_however_it_is_cut() {
    for part in [1, 7, 50, 100_000] {
        let mut group = Group::new(part, &[("a", &["b"]), ("b", &["a", "c"]), ("c", &["b"])]);
        for (number, it) in [(1, "a"), (1, "b"), (2, "a")] {
            let node = group.nodes.get_mut(&name(it)).unwrap();
            assert_eq!(node.broadcast(it.as_bytes()), Ok(number));
            group.settle();
        }
        assert_eq!(group.delivered.len(), 9);
        for ((at, id), payload) in &group.delivered {
            assert_eq!(payload, id.name.as_bytes());
            assert!(group.nodes.get_mut(at).unwrap().knows(id));
        }
    }
}

#[test]
fn a_node_joins_by_a_contact() {
    let mut a = WireNode::start(&Config::new("a").unwrap()).unwrap();
    let mut b = WireNode::start(&Config::new("b").unwrap().contact("a").unwrap()).unwrap();
    assert_eq!(b.receivers(), Ok(vec![name("a")]));
    let link = a.accept().unwrap();
    let joins = written(&mut b, "a");
    a.receive(link, &joins, &Dice::default()).unwrap();
    assert_eq!((a.active(), a.eager()), (vec![name("b")], vec![name("b")]));
    assert!(a.passive().is_empty() && a.lazy().is_empty() && a.missing().is_empty());
    assert!(b.receivers().unwrap().is_empty());
}

#[test]
fn a_node_joins_again_after_all_its_links_failed() {
    let mut group = Group::new(9, &[("a", &["b"]), ("b", &["a"])]);
    let (a, b) = (name("a"), name("b"));
    for (at, peer) in [(a, b), (b, a)] {
        let node = group.nodes.get_mut(&at).unwrap();
        node.unreachable(&peer, &Dice::default()).unwrap();
        assert!(node.active().is_empty() && node.next_lost() == Some(peer));
    }
    group
        .nodes
        .get_mut(&a)
        .unwrap()
        .broadcast(b"early")
        .unwrap();
    let node = group.nodes.get_mut(&b).unwrap();
    assert_eq!(node.join(&b, &Dice::default()), Ok(()));
    assert!(node.receivers().unwrap().is_empty());
    assert_eq!(node.join(&a, &Dice::default()), Ok(()));
    assert_eq!(node.receivers(), Ok(vec![a]));
    group.settle();
    for (at, peer) in [(a, b), (b, a)] {
        let node = group.nodes.get_mut(&at).unwrap();
        assert_eq!(node.active(), [peer]);
        assert_eq!(node.join(&peer, &Dice::default()), Ok(()));
        assert!(node.receivers().unwrap().is_empty());
    }
    group.nodes.get_mut(&a).unwrap().broadcast(b"late").unwrap();
    group.settle();
    let of_b = group.delivered.iter().filter(|((at, _), _)| *at == b);
    assert_eq!(
        of_b.map(|(_, payload)| &payload[..]).collect::<Vec<_>>(),
        [b"late"]
    );
}

#[test]
fn long_payloads_are_lent_whole() {
    let (mut a, mut b) = two();
    let link = b.accept().unwrap();
    for byte in 1..=5 {
        a.broadcast(&vec![byte; PAYLOAD_MAX]).unwrap();
    }
    let (waiting, bytes) = (a.waiting(&name("b")), written(&mut a, "b"));
    assert_eq!((waiting, a.waiting(&name("b"))), (bytes.len(), 0));
    b.receive(link, &bytes, &Dice::default()).unwrap();
    for byte in 1..=5 {
        let message = b.next_delivery().unwrap().expect("a message");
        assert_eq!(message.payload, vec![byte; PAYLOAD_MAX]);
    }
    assert_eq!((b.next_delivery(), b.counts().held), (Ok(None), 5));
}

#[test]
fn a_name_goes_down_with_what_waits_for_it() {
    let (mut a, mut b) = two();
    a.broadcast(b"x").unwrap();
    let link = b.accept().unwrap();
    let bytes = written(&mut a, "b");
    b.receive(link, &bytes, &Dice::default()).unwrap();
    b.ended(link, &Dice::default()).unwrap();
    assert_eq!((b.next_lost(), b.next_lost()), (Some(name("a")), None));
    assert_eq!(b.ended(link, &Dice::default()), Err(Error::NoConnection));
    a.broadcast(b"y").unwrap();
    a.unreachable(&name("b"), &Dice::default()).unwrap();
    assert!(a.receivers().unwrap().is_empty() && a.active().is_empty());
    assert_eq!(a.next_lost(), Some(name("b")));
    let config = Config::new("a").unwrap().peer("b").unwrap();
    let mut small = WireNode::start_with(&config, 100).unwrap();
    small.broadcast(&[0; 200]).unwrap();
    assert_eq!(small.next_lost(), Some(name("b")));
}

#[test]
fn a_refused_call_says_why() {
    let twice = Config::new("a").unwrap().peer("b").unwrap().peer("b");
    assert_eq!(
        WireNode::start(&twice.unwrap()).err(),
        Some(Error::BadPeers)
    );
    let limits = Limits {
        active: 0,
        ..Limits::default()
    };
    let none = Config::new("a").unwrap().limits(limits);
    assert_eq!(WireNode::start(&none).err(), Some(Error::BadLimits));
    let (mut a, mut b) = two();
    let long = vec![0; PAYLOAD_MAX + 1];
    assert_eq!(a.broadcast(&long), Err(Error::PayloadTooLong));
    let link = b.accept().unwrap();
    a.broadcast(b"m").unwrap();
    let mut bytes = written(&mut a, "b");
    bytes.extend([255; 64]);
    let fault = b.receive(link, &bytes, &Dice::default());
    assert!(matches!(fault, Err(Error::BadFrame(_))), "{fault:?}");
    let fault = b.receive(link, b"", &Dice::default());
    assert_eq!(fault, Err(Error::NoConnection));
    assert!(!Error::NoConnection.to_string().is_empty());
    assert!(
        b.next_delivery().unwrap().is_some(),
        "the frame before it was taken"
    );
    b.tick(&Dice::default()).unwrap();
    assert_eq!(b.counts().ticks, 1);
}

#[test]
fn a_writer_that_takes_no_more_keeps_the_rest_waiting() {
    struct Narrow(Vec<u8>);
    impl std::io::Write for Narrow {
        fn write(&mut self, bytes: &[u8]) -> std::io::Result<usize> {
            if self.0.len() >= 10 {
                return Err(std::io::ErrorKind::WouldBlock.into());
            }
            self.0.extend(bytes.iter().take(4));
            Ok(bytes.len().min(4))
        }
        fn flush(&mut self) -> std::io::Result<()> {
            Ok(())
        }
    }
    let (mut a, mut b) = two();
    a.broadcast(b"m").unwrap();
    let mut first = Narrow(Vec::new());
    let blocked = a.write_to(&name("b"), &mut first).unwrap_err();
    assert_eq!(blocked.kind(), std::io::ErrorKind::WouldBlock);
    let link = b.accept().unwrap();
    for bytes in [first.0, written(&mut a, "b")] {
        b.receive(link, &bytes, &Dice::default()).unwrap();
    }
    assert_eq!(b.next_delivery().unwrap().expect("a message").payload, b"m");
}

/// Takes all news.
fn heard(node: &mut WireNode) -> Vec<News> {
    std::iter::from_fn(|| node.next_news().unwrap()).collect()
}

/// Hands over what waits at one node for the other.
fn hand(from: &mut WireNode, to: (&mut WireNode, &str)) {
    let link = to.0.accept().unwrap();
    let bytes = written(from, to.1);
    to.0.receive(link, &bytes, &Dice::default()).unwrap();
}

#[test]
fn a_node_tells_each_change_of_its_neighbours_once_and_why() {
    let one = |name, peer| {
        let limits = Limits {
            active: 1,
            ..Limits::default()
        };
        let config = Config::new(name).unwrap().limits(limits);
        WireNode::start(&config.peer(peer).unwrap()).unwrap()
    };
    let down = |it, why| News::NeighborDown {
        name: name(it),
        why,
    };
    let (mut a, mut b) = (one("a", "b"), one("b", "a"));
    let config = Config::new("c").unwrap().contact("a").unwrap();
    let mut c = WireNode::start(&config).unwrap();
    for node in [&mut a, &mut b, &mut c] {
        assert_eq!(node.next_news(), Ok(None));
        node.tell_news(true);
        assert_eq!(node.next_news(), Ok(None));
    }
    hand(&mut c, (&mut a, "a"));
    hand(&mut a, (&mut b, "b"));
    hand(&mut a, (&mut c, "c"));
    let displaced = [down("b", Parting::Displaced), News::NeighborUp(name("c"))];
    assert_eq!(heard(&mut a), displaced);
    assert_eq!(heard(&mut b), [down("a", Parting::Left), News::Isolated]);
    let joined = [News::NeighborUp(name("a")), News::Joined];
    assert_eq!(heard(&mut c), joined);
    c.unreachable(&name("a"), &Dice::default()).unwrap();
    assert_eq!(c.next_news(), Ok(Some(down("a", Parting::Failed))));
    c.tell_news(false);
    c.join(&name("a"), &Dice::default()).unwrap();
    assert_eq!(heard(&mut c), [News::Isolated]);
}

#[test]
fn a_node_goes_to_another_thread() {
    let (mut a, _b) = two();
    let run = move || a.broadcast(b"x");
    assert_eq!(std::thread::spawn(run).join().unwrap(), Ok(1));
}
