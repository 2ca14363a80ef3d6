"""Groups of nodes of bytes in one process, and every error."""
from __future__ import annotations

import unittest

from plumtree import (
    PAYLOAD_MAX,
    Config,
    Deliver,
    Isolated,
    Joined,
    Limits,
    MsgId,
    NeighborDown,
    NeighborUp,
    Parting,
    PlumtreeError,
    WireNode,
)


class Group:
    """A group whose bytes go from node to node, a part at a time."""

    def __init__(self, part: int, *configs: Config) -> None:
        self.nodes = {config.name: WireNode(config) for config in configs}
        self.links: dict[tuple[str, str], int] = {}
        self.delivered: dict[tuple[str, MsgId], bytes] = {}
        self.part = part

    def carry(self, at: str, to: str) -> None:
        data = self.nodes[at].transmit(to)[: self.part]
        assert data
        self.nodes[at].transmitted(to, len(data))
        if (at, to) not in self.links:
            self.links[at, to] = self.nodes[to].accept()
        self.nodes[to].receive(self.links[at, to], data)

    def settle(self) -> None:
        while waiting := [(at, to) for at, node in self.nodes.items() for to in node.receivers()]:
            for at, to in waiting:
                self.carry(at, to)
        for name, node in self.nodes.items():
            for message in node.deliveries():
                assert (name, message.id) not in self.delivered
                self.delivered[name, message.id] = message.payload


def two() -> tuple[WireNode, WireNode]:
    return WireNode(Config("a", peers=["b"])), WireNode(Config("b", peers=["a"]))


class Groups(unittest.TestCase):
    def test_a_line_delivers_each_message_once_however_it_is_cut(self) -> None:
        for part in (1, 7, 50, 100_000):
            group = Group(part, Config("a", peers=["b"]), Config("b", peers=["a", "c"]), Config("c", peers=["b"]))
            for number, name in ((1, "a"), (1, "b"), (2, "a")):
                self.assertEqual(group.nodes[name].broadcast(name.encode()), number)
                group.settle()
            self.assertEqual(len(group.delivered), 9)
            for (at, message), payload in group.delivered.items():
                self.assertEqual(payload, message.name.encode())
                self.assertTrue(group.nodes[at].knows(message))

    def test_a_node_joins_by_a_contact(self) -> None:
        group = Group(9, Config("a"), Config("b", contact="a"))
        group.settle()
        self.assertEqual(group.nodes["a"].active, ["b"])
        b = group.nodes["b"]
        self.assertEqual((b.active, b.eager, b.lazy, b.passive, b.missing), (["a"], ["a"], [], [], []))

    def test_a_node_joins_again_after_all_its_links_failed(self) -> None:
        group = Group(9, Config("a", peers=["b"]), Config("b", peers=["a"]))
        a, b = group.nodes["a"], group.nodes["b"]
        a.unreachable("b")
        b.unreachable("a")
        self.assertEqual((a.next_lost(), b.next_lost()), ("b", "a"))
        a.broadcast(b"early")
        b.join("b")
        self.assertEqual((b.active, b.passive, b.receivers()), ([], [], []))
        b.join("a")
        self.assertEqual((b.active, b.receivers()), ([], ["a"]))
        group.settle()
        self.assertEqual((a.active, b.active), (["b"], ["a"]))
        b.join("a")
        self.assertEqual(b.receivers(), [])
        a.broadcast(b"late")
        group.settle()
        self.assertEqual([payload for (at, _), payload in group.delivered.items() if at == "b"], [b"late"])

    def test_long_payloads_are_lent_whole(self) -> None:
        a, b = two()
        for byte in range(5):
            a.broadcast(bytes([byte]) * PAYLOAD_MAX)
        self.assertEqual((a.waiting("b"), a.waiting("z")), (len(sent := a.take("b")), 0))
        b.receive(b.accept(), sent)
        wanted = [Deliver(MsgId("a", 1, byte + 1), bytes([byte]) * PAYLOAD_MAX) for byte in range(5)]
        self.assertEqual(list(b.deliveries()), wanted)
        self.assertEqual((b.counts.held, a.receivers(), a.waiting("b")), (5, [], 0))

    def test_a_name_goes_down_with_what_waits_for_it(self) -> None:
        a, b = two()
        a.broadcast(b"x")
        connection = b.accept()
        b.receive(connection, a.take("b"))
        b.ended(connection)
        self.assertEqual((b.next_lost(), b.next_lost()), ("a", None))
        a.broadcast(b"y")
        a.unreachable("b")
        self.assertEqual((a.receivers(), a.active, a.next_lost()), ([], [], "b"))
        small = WireNode(Config("a", peers=["b"]), waiting=100)
        small.broadcast(bytes(200))
        self.assertEqual(small.next_lost(), "b")

    def test_a_node_tells_each_change_of_its_neighbours_once_and_why(self) -> None:
        one = Limits(active=1)
        a, b = WireNode(Config("a", peers=["b"], limits=one)), WireNode(Config("b", peers=["a"], limits=one))
        c = WireNode(Config("c", contact="a"))
        for node in (a, b, c):
            node.tell_news()
            self.assertEqual(list(node.news()), [])
        a.receive(a.accept(), c.take("a"))
        b.receive(b.accept(), a.take("b"))
        c.receive(c.accept(), a.take("c"))
        self.assertEqual(list(a.news()), [NeighborDown("b", Parting.DISPLACED), NeighborUp("c")])
        self.assertEqual(list(b.news()), [NeighborDown("a", Parting.LEFT), Isolated()])
        self.assertEqual(list(c.news()), [NeighborUp("a"), Joined()])
        c.unreachable("a")
        self.assertEqual(next(c.news()), NeighborDown("a", Parting.FAILED))
        c.tell_news(False)
        c.join("a")
        self.assertEqual(list(c.news()), [Isolated()])

    def test_a_node_is_freed_once(self) -> None:
        with WireNode(Config("a")) as node:
            node.broadcast(b"")
            node.tick()
            self.assertEqual(node.counts.ticks, 1)
        node.close()
        with self.assertRaises(PlumtreeError):
            node.broadcast(b"")
        with self.assertRaises(PlumtreeError):
            node.join("b")


class Errors(unittest.TestCase):
    def refused(self, answer: int, call: object, *words: object) -> None:
        with self.assertRaises(PlumtreeError) as caught:
            call(*words)  # type: ignore[operator]
        self.assertEqual(caught.exception.answer, answer)
        self.assertTrue(str(caught.exception))

    def test_each_says_why(self) -> None:
        a, b = two()
        self.refused(-9, WireNode, Config("A"))
        self.refused(-11, WireNode, Config("a", peers=["b", "b"]))
        self.refused(-10, WireNode, Config("a", limits=Limits(active=0)))
        self.refused(-7, a.broadcast, bytes(PAYLOAD_MAX + 1))
        self.refused(-9, a.unreachable, "A")
        self.refused(-9, a.join, "A")
        self.refused(-9, a.transmit, "A")
        self.refused(-9, a.waiting, "A")
        self.refused(-19, a.receive, 1, b"x")
        self.refused(-19, a.ended, 1)

    def test_bytes_that_are_no_frame_end_the_connection(self) -> None:
        a, b = two()
        a.broadcast(b"m")
        connection = b.accept()
        with self.assertRaises(PlumtreeError):
            b.receive(connection, a.take("b") + b"\xff" * 64)
        self.refused(-19, b.receive, connection, b"")
        self.assertEqual([message.payload for message in b.deliveries()], [b"m"])


if __name__ == "__main__":
    unittest.main()
