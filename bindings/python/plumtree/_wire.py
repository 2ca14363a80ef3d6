"""A node of bytes."""
from __future__ import annotations

import ctypes
import enum
from ctypes import byref, c_size_t, c_uint64
from dataclasses import dataclass, fields
from typing import Iterator, Optional, Sequence, Union

from ._library import LIBRARY, Dice, Name, NewsOf, Pieces, WireCountsOf
from ._node import _ROOM_TOO_SMALL, _ZEROS, Config, Deliver, Kept, _is_done, _parts, _text

WAITING = 8_388_608


@dataclass(frozen=True)
class WireCounts:
    """How much a node of bytes has: messages whose payloads it holds, and that it lacks and may ask for; announcements of
    these that came, and that wait to be sent; and the ticks that were made."""

    held: int
    missing: int
    wants: int
    queued: int
    ticks: int


class Parting(enum.Enum):
    """Why a neighbour went: it said so, the link to it failed, or it was dropped for another name."""

    LEFT = 1
    FAILED = 2
    DISPLACED = 3


@dataclass(frozen=True)
class NeighborUp:
    """This name is a neighbour now."""

    name: str


@dataclass(frozen=True)
class NeighborDown:
    """This name is a neighbour no longer."""

    name: str
    why: Parting


@dataclass(frozen=True)
class Isolated:
    """The last neighbour went."""


@dataclass(frozen=True)
class Joined:
    """There was no neighbour, and now there is one."""


News = Union[NeighborUp, NeighborDown, Isolated, Joined]


def _news(news: NewsOf) -> News:
    if news.kind == 1:
        return NeighborUp(_text(news.name))
    if news.kind == 2:
        return NeighborDown(_text(news.name), Parting(news.why))
    return Isolated() if news.kind == 3 else Joined()


class WireNode(Kept):
    """One node of a group, as a node of bytes: it keeps what is no whole frame yet, and what is to go out, by the name that
    it goes to. Calls of one node must not overlap.

    A name for which more than `waiting` bytes wait is taken down, and is lost.

    >>> a, b = WireNode(Config("a", peers=["b"])), WireNode(Config("b", peers=["a"]))
    >>> a.broadcast(b"hello")
    1
    >>> connection = b.accept()
    >>> for name in a.receivers():
    ...     b.receive(connection, a.take(name))
    >>> [(str(it.id), it.payload) for it in b.deliveries()]
    [('a/1/1', b'hello')]
    """

    def __init__(self, config: Config, waiting: int = WAITING) -> None:
        super().__init__()
        name, sizes, peers, contact = _parts(config)
        incarnation = config.incarnation
        _is_done(
            LIBRARY.plumtree_wire_start(
                self._slot, name, len(name), incarnation, byref(sizes), waiting, peers, len(peers), contact, len(contact)
            )
        )

    def broadcast(self, payload: bytes) -> int:
        """Broadcasts a message of at most PAYLOAD_MAX bytes, and returns its number."""
        number = c_uint64()
        _is_done(LIBRARY.plumtree_wire_broadcast(self._slot, payload, len(payload), byref(number)))
        return number.value

    def tick(self, dice: Sequence[int] = _ZEROS) -> None:
        """Makes a tick: sends queued announcements, at every fifth tick asks for what is missing since the fifth before, for
        128 messages at once at most and for others as these come, and at every tenth shuffles."""
        _is_done(LIBRARY.plumtree_wire_tick(self._slot, Dice(*dice)))

    def accept(self) -> int:
        """Accepts a connection that another node made, and returns its number."""
        number = c_uint64()
        _is_done(LIBRARY.plumtree_wire_accept(self._slot, byref(number)))
        return number.value

    def receive(self, connection: int, data: bytes, dice: Sequence[int] = _ZEROS) -> None:
        """Takes all that came over the connection. Where that is refused, the connection has ended: close it."""
        _is_done(LIBRARY.plumtree_wire_receive(self._slot, connection, data, len(data), Dice(*dice)))

    def ended(self, connection: int, dice: Sequence[int] = _ZEROS) -> None:
        """Says that the connection is over. Refused, if it has ended before."""
        _is_done(LIBRARY.plumtree_wire_ended(self._slot, connection, Dice(*dice)))

    def unreachable(self, name: str, dice: Sequence[int] = _ZEROS) -> None:
        """Says that the name cannot be reached: its peer goes down, and what waits for it is dropped."""
        encoded = name.encode()
        _is_done(LIBRARY.plumtree_wire_unreachable(self._slot, encoded, len(encoded), Dice(*dice)))

    def join(self, contact: str, dice: Sequence[int] = _ZEROS) -> None:
        """Has the node join by this contact, a node that runs, as at its start. It is for a node without active names, since all
        its links failed, and may be called again, with another contact each time. A contact that is the node itself or an
        active name changes nothing."""
        encoded = contact.encode()
        _is_done(LIBRARY.plumtree_wire_join(self._slot, encoded, len(encoded), Dice(*dice)))

    def receivers(self) -> list[str]:
        """Returns the names for which bytes wait, each once."""
        size, length, answer = 16, c_size_t(), _ROOM_TOO_SMALL
        while answer == _ROOM_TOO_SMALL:
            room = (Name * size)()
            answer = LIBRARY.plumtree_wire_receivers(self._slot, room, size, byref(length))
            size = length.value
        _is_done(answer)
        return [_text(name) for name in room[: length.value]]

    def waiting(self, name: str) -> int:
        """Returns how many bytes wait for the name. Who broadcasts only while little waits for the fullest name is held up by a
        slow peer, where its link would fail at the limit."""
        count, encoded = c_size_t(), name.encode()
        _is_done(LIBRARY.plumtree_wire_waiting(self._slot, encoded, len(encoded), byref(count)))
        return count.value

    def transmit(self, name: str) -> bytes:
        """Returns a copy of the first of the bytes that wait for the name. No bytes: none wait."""
        pieces, encoded = Pieces(), name.encode()
        if not _is_done(LIBRARY.plumtree_wire_transmit(self._slot, encoded, len(encoded), byref(pieces))):
            return b""
        return b"".join(ctypes.string_at(piece.at, piece.length) for piece in pieces if piece.length > 0)

    def transmitted(self, name: str, count: int) -> None:
        """Says that the first `count` of the bytes that wait for the name went out."""
        encoded = name.encode()
        _is_done(LIBRARY.plumtree_wire_transmitted(self._slot, encoded, len(encoded), count))

    def take(self, name: str) -> bytes:
        """Takes all bytes that wait for the name, for a connection that is sure to take them."""
        taken = b""
        while data := self.transmit(name):
            self.transmitted(name, len(data))
            taken += data
        return taken

    def deliveries(self) -> Iterator[Deliver]:
        """Takes the messages that the node delivers."""
        while (delivery := self._delivery(LIBRARY.plumtree_wire_next_delivery)) is not None:
            yield delivery

    def next_lost(self) -> Optional[str]:
        """Takes the next name that was lost, or None: bytes for it were dropped, so close the connection to it before more is
        written there."""
        name = Name()
        return _text(name) if _is_done(LIBRARY.plumtree_wire_next_lost(self._slot, byref(name))) else None

    def tell_news(self, tells: bool = True) -> None:
        """Has the node tell news of its next steps, or no more. One that was started tells none: `active` has its first
        neighbours. News that were not taken yet stay."""
        _is_done(LIBRARY.plumtree_wire_tell_news(self._slot, tells))

    def news(self) -> Iterator[News]:
        """Takes the news, each change of the active view once and in order. They are kept until they are taken."""
        news = NewsOf()
        while _is_done(LIBRARY.plumtree_wire_next_news(self._slot, byref(news))):
            yield _news(news)

    @property
    def counts(self) -> WireCounts:
        """How much the node has."""
        counts = WireCountsOf()
        _is_done(LIBRARY.plumtree_wire_counts_of(self._slot, byref(counts)))
        return WireCounts(*(getattr(counts, it.name) for it in fields(WireCounts)))
