"""Three nodes over TCP on this machine, by asyncio: each broadcasts a message, and prints what it delivers."""
from __future__ import annotations

import asyncio

from plumtree import Config, WireNode, random_dice

NAMES = ("a", "b", "c")
TICK = 0.1


class Member:
    """A node with its connections to others."""

    def __init__(self, name: str, ports: dict[str, int]) -> None:
        self.name, self.ports, self.delivered = name, ports, 0
        self.node = WireNode(Config(name, peers=[other for other in NAMES if other != name]))
        self.links: dict[str, asyncio.StreamWriter] = {}

    async def give_out(self) -> None:
        """Prints what the node delivers, and writes what waits for each name."""
        for message in self.node.deliveries():
            self.delivered += 1
            print(f"{self.name} delivers {message.id}: {message.payload.decode()}")
        for to in self.node.receivers():
            try:
                if to not in self.links:
                    _, self.links[to] = await asyncio.open_connection("127.0.0.1", self.ports[to])
                self.links[to].write(self.node.take(to))
            except OSError:
                self.node.unreachable(to, random_dice())
        while lost := self.node.next_lost():
            if link := self.links.pop(lost, None):
                link.close()

    async def read_all(self, reader: asyncio.StreamReader, writer: asyncio.StreamWriter) -> None:
        """Hands the node what a connection brings."""
        connection = self.node.accept()
        while data := await reader.read(65_536):
            self.node.receive(connection, data, random_dice())
        self.node.ended(connection, random_dice())
        writer.close()


async def main() -> None:
    ports: dict[str, int] = {}
    members = [Member(name, ports) for name in NAMES]
    servers = [await asyncio.start_server(member.read_all, "127.0.0.1", 0) for member in members]
    ports.update((member.name, server.sockets[0].getsockname()[1]) for member, server in zip(members, servers))
    for member in members:
        member.node.broadcast(f"hello from {member.name}".encode())
    while any(member.delivered < len(NAMES) for member in members):
        for member in members:
            member.node.tick(random_dice())
            await member.give_out()
        await asyncio.sleep(TICK)


if __name__ == "__main__":
    asyncio.run(asyncio.wait_for(main(), 30))
