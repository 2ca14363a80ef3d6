"""Plumtree broadcast over HyParView membership, as a node of bytes (WireNode), or as a state machine (Node): what connections
bring goes in, and what is to be sent and what is delivered comes out. The library that does the work is proved; this module
calls it.

    >>> from plumtree import Config, Deliver, Node, Send
    >>> a = Node(Config("a", peers=["b"]))
    >>> b = Node(Config("b", peers=["a"]))
    >>> a.broadcast(b"hello")
    1
    >>> for output in a:
    ...     if isinstance(output, Send):
    ...         b.receive(output.frame) == len(output.frame)
    True
    >>> [(str(output.id), output.payload) for output in b if isinstance(output, Deliver)]
    [('a/1/1', b'hello')]
"""
from ._node import (
    FRAME_MAX,
    PAYLOAD_MAX,
    Config,
    Counts,
    Deliver,
    Limits,
    MsgId,
    Node,
    PlumtreeError,
    Send,
    random_dice,
)
from ._wire import WAITING, Isolated, Joined, NeighborDown, NeighborUp, News, Parting, WireCounts, WireNode

__all__ = [
    "FRAME_MAX",
    "PAYLOAD_MAX",
    "WAITING",
    "Config",
    "Counts",
    "Deliver",
    "Isolated",
    "Joined",
    "Limits",
    "MsgId",
    "NeighborDown",
    "NeighborUp",
    "News",
    "Node",
    "Parting",
    "PlumtreeError",
    "Send",
    "WireCounts",
    "WireNode",
    "random_dice",
]
