"""Groups in one process, and every error."""
from __future__ import annotations

import unittest
from collections import deque

from plumtree import PAYLOAD_MAX, Config, Deliver, Limits, MsgId, Node, PlumtreeError, Send


class Group:
    """A group whose frames arrive in the order in which they were sent."""

    def __init__(self, *configs: Config) -> None:
        self.nodes = {config.name: Node(config) for config in configs}
        self.flight: deque[Send] = deque()
        self.delivered: dict[tuple[str, MsgId], bytes] = {}
        self.settle()

    def collect(self, name: str) -> None:
        for output in self.nodes[name]:
            if isinstance(output, Send):
                self.flight.append(output)
            else:
                assert (name, output.id) not in self.delivered
                self.delivered[name, output.id] = output.payload

    def settle(self) -> None:
        for name in self.nodes:
            self.collect(name)
        while self.flight:
            output = self.flight.popleft()
            assert self.nodes[output.to].receive(output.frame) == len(output.frame)
            self.collect(output.to)


class Groups(unittest.TestCase):
    def test_a_line_delivers_each_message_once(self) -> None:
        group = Group(Config("a", peers=["b"]), Config("b", peers=["a", "c"]), Config("c", peers=["b"]))
        for number, name in ((1, "a"), (1, "b"), (2, "a")):
            self.assertEqual(group.nodes[name].broadcast(name.encode()), number)
            group.settle()
        self.assertEqual(len(group.delivered), 9)
        for (_, message), payload in group.delivered.items():
            self.assertEqual(payload, message.name.encode())

    def test_a_node_joins_by_a_contact(self) -> None:
        group = Group(Config("a"), Config("b", contact="a"))
        self.assertEqual(group.nodes["a"].active, ["b"])
        self.assertEqual(group.nodes["b"].active, ["a"])
        self.assertEqual((group.nodes["b"].eager, group.nodes["b"].lazy, group.nodes["b"].passive), (["a"], [], []))

    def test_a_node_joins_again_after_all_its_links_failed(self) -> None:
        group = Group(Config("a", peers=["b"]), Config("b", peers=["a"]))
        a, b = group.nodes["a"], group.nodes["b"]
        a.link_down("b")
        b.link_down("a")
        a.broadcast(b"early")
        b.join("b")
        self.assertEqual((b.active, b.passive, b.poll()), ([], [], None))
        b.join("a")
        self.assertEqual((b.active, b.counts.sends), ([], 1))
        group.settle()
        self.assertEqual((a.active, b.active), (["b"], ["a"]))
        b.join("a")
        self.assertIsNone(b.poll())
        a.broadcast(b"late")
        group.settle()
        self.assertEqual([payload for (at, _), payload in group.delivered.items() if at == "b"], [b"late"])

    def test_a_node_is_freed_once(self) -> None:
        with Node(Config("a")) as node:
            node.broadcast(b"")
        node.close()
        with self.assertRaises(PlumtreeError):
            node.broadcast(b"")
        with self.assertRaises(PlumtreeError):
            node.join("b")


class Errors(unittest.TestCase):
    def refused(self, answer: int, call: object, *words: object) -> None:
        with self.assertRaises(PlumtreeError) as caught:
            call(*words)  # type: ignore[operator]
        self.assertEqual(caught.exception.answer, answer)
        self.assertTrue(str(caught.exception))

    def test_each_says_why(self) -> None:
        node = Node(Config("a"))
        self.refused(-9, Node, Config("A"))
        self.refused(-9, Node, Config("a", peers=["a b"]))
        self.refused(-11, Node, Config("a", peers=["b", "b"]))
        self.refused(-10, Node, Config("a", limits=Limits(active=0)))
        self.refused(-7, node.broadcast, bytes(PAYLOAD_MAX + 1))
        self.refused(-9, node.join, "A")
        self.refused(-9, node.join, "")
        with self.assertRaises(PlumtreeError):
            node.receive(b"\xff" * 64)
        self.assertEqual(node.counts.known, 0)

    def test_a_bad_frame_behind_others_is_said_by_the_next_call(self) -> None:
        a, b = Node(Config("a", peers=["b"])), Node(Config("b", peers=["a"]))
        a.broadcast(b"m")
        (frame,) = [output.frame for output in a if isinstance(output, Send)]
        self.assertEqual(b.receive(frame + b"\xff" * 64), len(frame))
        self.assertEqual(b.counts.known, 1)
        with self.assertRaises(PlumtreeError):
            b.receive(b"\xff" * 64)

    def test_a_frame_is_taken_when_it_is_whole(self) -> None:
        a, b = Node(Config("a", peers=["b"])), Node(Config("b", peers=["a"]))
        a.broadcast(bytes(PAYLOAD_MAX))
        (frame,) = [output.frame for output in a if isinstance(output, Send)]
        for end in (0, 1, 4, 5, len(frame) - 1):
            self.assertEqual(b.receive(frame[:end]), 0)
        self.assertEqual(b.receive(frame + frame[:3]), len(frame))
        (delivery,) = [output for output in b if isinstance(output, Deliver)]
        self.assertEqual(delivery.payload, bytes(PAYLOAD_MAX))


if __name__ == "__main__":
    unittest.main()
