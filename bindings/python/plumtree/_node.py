"""A state machine, and what nodes of both kinds share."""
from __future__ import annotations

import ctypes
import secrets
from ctypes import byref, c_size_t, c_uint64
from dataclasses import dataclass, field, fields
from typing import Iterator, Optional, Sequence, Union

from . import _library
from ._library import DICE, LIBRARY, CountsOf, Dice, Id, Name, Sizes, Slot

PAYLOAD_MAX = 32_768
FRAME_MAX = 32_880
_ROOM_TOO_SMALL = -6
_VIEWS = 80
_ZEROS = (0,) * DICE


class PlumtreeError(Exception):
    """A call that was refused: `answer` is the library's number for why, and the text says it in words. The node is then as
    it was, but for a tick, which may have made some of its steps."""

    def __init__(self, answer: int) -> None:
        super().__init__(_library.words(answer))
        self.answer = answer


def _is_done(answer: int) -> bool:
    if answer < 0:
        raise PlumtreeError(answer)
    return answer == 1


def _name(text: str) -> Name:
    name, encoded = Name(), text.encode()
    _is_done(LIBRARY.plumtree_name_of(encoded, len(encoded), byref(name)))
    return name


def _text(name: Name) -> str:
    return name.text.decode()


def random_dice() -> Sequence[int]:
    """Returns random words for a step."""
    return [secrets.randbits(64) for _ in range(DICE)]


def _default_limits() -> Sizes:
    sizes = Sizes()
    LIBRARY.plumtree_limits_default(byref(sizes))
    return sizes


_DEFAULT = _default_limits()


@dataclass(frozen=True)
class MsgId:
    """The id of a message: the run of a node that broadcast it, and its number among the messages of that run, from 1."""

    name: str
    incarnation: int
    number: int

    def __str__(self) -> str:
        return f"{self.name}/{self.incarnation}/{self.number}"


@dataclass(frozen=True)
class Limits:
    """The limits of a node. Those of the HyParView paper are the default. `threshold`: how many links shorter a way must be
    to swap a branch for it (0: no swaps); `keep`: how many of the last payloads are kept for peers that ask (0: all)."""

    active: int = _DEFAULT.active
    passive: int = _DEFAULT.passive
    arwl: int = _DEFAULT.arwl
    prwl: int = _DEFAULT.prwl
    ka: int = _DEFAULT.ka
    kp: int = _DEFAULT.kp
    threshold: int = _DEFAULT.threshold
    keep: int = _DEFAULT.keep


@dataclass(frozen=True)
class Config:
    """What a node starts with. `incarnation` is greater than at each earlier start of a node of this name, as the seconds of
    a clock are. `peers` name this node as their peer too; `contact` is a node that runs, which this one joins."""

    name: str
    incarnation: int = 1
    limits: Limits = field(default_factory=Limits)
    peers: Sequence[str] = ()
    contact: Optional[str] = None


@dataclass(frozen=True)
class Send:
    """A frame that is to be written, whole and behind those before it, to the connection to `to`."""

    to: str
    frame: bytes


@dataclass(frozen=True)
class Deliver:
    """A message of the group, each once in a run of the node."""

    id: MsgId
    payload: bytes


@dataclass(frozen=True)
class Counts:
    """How much a node has: messages that it knows, whose payloads it holds, and that it lacks and may ask for;
    announcements of these that came, and that wait to be sent; and what waits to be taken."""

    known: int
    held: int
    missing: int
    wants: int
    queued: int
    sends: int
    deliveries: int


Output = Union[Send, Deliver]


class Kept:
    """What nodes of both kinds share: the room of a node, and what it can be asked."""

    def __init__(self) -> None:
        self._slot = Slot()
        self._room = ctypes.create_string_buffer(4096)

    def close(self) -> None:
        """Frees the node. Its other calls are refused from then on; a second close does nothing."""
        LIBRARY.plumtree_free(self._slot)

    def __enter__(self) -> "Node":
        return self

    def __exit__(self, *_: object) -> None:
        self.close()

    def __del__(self) -> None:
        if LIBRARY is not None:
            self.close()

    def _in_room(self, call: "ctypes._NamedFuncPointer", what: ctypes.Structure) -> Optional[bytes]:
        """Makes a call that writes into the room, once more with the size that it asks for."""
        length = c_size_t()
        answer = call(self._slot, byref(what), self._room, len(self._room), byref(length))
        if answer == _ROOM_TOO_SMALL:
            self._room = ctypes.create_string_buffer(length.value)
            answer = call(self._slot, byref(what), self._room, len(self._room), byref(length))
        return self._room.raw[: length.value] if _is_done(answer) else None

    def _delivery(self, call: "ctypes._NamedFuncPointer") -> Optional[Deliver]:
        message = Id()
        payload = self._in_room(call, message)
        if payload is None:
            return None
        return Deliver(MsgId(_text(message.name), message.incarnation, message.number), payload)

    def _names(self, call: "ctypes._NamedFuncPointer") -> list[str]:
        room, length = (Name * _VIEWS)(), c_size_t()
        _is_done(call(self._slot, room, _VIEWS, byref(length)))
        return [_text(name) for name in room[: length.value]]

    @property
    def active(self) -> list[str]:
        """The names that the node keeps links to."""
        return self._names(LIBRARY.plumtree_active)

    @property
    def passive(self) -> list[str]:
        """The names that may take the place of active ones."""
        return self._names(LIBRARY.plumtree_passive)

    @property
    def eager(self) -> list[str]:
        """The peers to which messages go whole."""
        return self._names(LIBRARY.plumtree_eager)

    @property
    def lazy(self) -> list[str]:
        """The peers to which messages are announced."""
        return self._names(LIBRARY.plumtree_lazy)

    def knows(self, message: MsgId) -> bool:
        """Returns whether the node has delivered this message."""
        return _is_done(LIBRARY.plumtree_knows(self._slot, byref(self._id(message))))

    @property
    def missing(self) -> list[MsgId]:
        """The messages that the node lacks and may ask for, in the order in which it heard of them."""
        found, message = [], Id()
        while _is_done(LIBRARY.plumtree_timer(self._slot, len(found), byref(message))):
            found.append(MsgId(_text(message.name), message.incarnation, message.number))
        return found

    @staticmethod
    def _id(message: MsgId) -> Id:
        return Id(_name(message.name), message.incarnation, message.number)


def _parts(config: Config) -> tuple[bytes, Sizes, "ctypes.Array[Name]", bytes]:
    """The name, the limits, the peers and the contact, as the library takes them."""
    sizes = Sizes(*(getattr(config.limits, it.name) for it in fields(Limits)))
    peers = (Name * len(config.peers))(*map(_name, config.peers))
    return config.name.encode(), sizes, peers, (config.contact or "").encode()


class Node(Kept):
    """One node of a group, as a state machine. To iterate over it takes what it gives: deliveries first, then frames. Calls of one node must not
    overlap."""

    def __init__(self, config: Config) -> None:
        super().__init__()
        name, sizes, peers, contact = _parts(config)
        _is_done(
            LIBRARY.plumtree_start(
                self._slot, name, len(name), config.incarnation, byref(sizes), peers, len(peers), contact, len(contact)
            )
        )

    def broadcast(self, payload: bytes) -> int:
        """Broadcasts a message of at most PAYLOAD_MAX bytes, and returns its number."""
        number = c_uint64()
        _is_done(LIBRARY.plumtree_broadcast(self._slot, payload, len(payload), byref(number)))
        return number.value

    def receive(self, data: bytes, dice: Sequence[int] = _ZEROS) -> int:
        """Takes all whole frames at the front of what a connection brought, and returns how many bytes these have. The
        caller keeps the others, in front of what comes next. An error is of the first frame; one of a frame behind it
        ends the call with what was taken, and the next call raises it."""
        total, taken, words = 0, c_size_t(), Dice(*dice)
        begin = ctypes.cast(data, ctypes.c_void_p).value or 0  # `data` stays alive until the end of this call
        while True:
            answer = LIBRARY.plumtree_receive(self._slot, begin + total, len(data) - total, words, byref(taken))
            if total > 0 and answer < 0:
                return total
            if not _is_done(answer):
                return total
            total += taken.value

    def tick(self, dice: Sequence[int] = _ZEROS) -> None:
        """Makes a tick: sends queued announcements, lets each armed timer fire, and at every tenth tick shuffles."""
        _is_done(LIBRARY.plumtree_tick(self._slot, Dice(*dice)))

    def flush(self) -> None:
        """Sends the announcements that are queued."""
        _is_done(LIBRARY.plumtree_flush(self._slot))

    def fire(self, message: MsgId) -> bool:
        """Lets the timer of a missing message fire. Returns whether it is armed."""
        return _is_done(LIBRARY.plumtree_fire(self._slot, byref(self._id(message))))

    def shuffle(self, dice: Sequence[int] = _ZEROS) -> None:
        """Exchanges names of the passive view with some other node."""
        _is_done(LIBRARY.plumtree_shuffle(self._slot, Dice(*dice)))

    def link_down(self, peer: str, dice: Sequence[int] = _ZEROS) -> None:
        """Tells the node that its connection to this peer failed, or could not be made."""
        name = peer.encode()
        _is_done(LIBRARY.plumtree_link_down(self._slot, name, len(name), Dice(*dice)))

    def join(self, contact: str) -> None:
        """Has the node join by this contact, a node that runs, as at its start. It is for a node without active names, since all
        its links failed, and may be called again, with another contact each time. A contact that is the node itself or an
        active name changes nothing."""
        name = contact.encode()
        _is_done(LIBRARY.plumtree_join(self._slot, name, len(name)))

    def __iter__(self) -> Iterator[Output]:
        while (output := self.poll()) is not None:
            yield output

    def poll(self) -> Optional[Output]:
        """Takes what the node gives next, deliveries first; None if nothing waits."""
        return self._delivery(LIBRARY.plumtree_next_delivery) or self._next_send()

    def _next_send(self) -> Optional[Send]:
        to = Name()
        frame = self._in_room(LIBRARY.plumtree_next_send, to)
        return None if frame is None else Send(_text(to), frame)

    @property
    def counts(self) -> Counts:
        """How much the node has."""
        counts = CountsOf()
        _is_done(LIBRARY.plumtree_counts_of(self._slot, byref(counts)))
        return Counts(*(getattr(counts, it.name) for it in fields(Counts)))
