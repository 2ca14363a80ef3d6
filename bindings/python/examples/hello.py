"""Two nodes of one process: one broadcasts, and the other delivers."""
from plumtree import Config, Deliver, Node, Send

a = Node(Config("a", peers=["b"]))
b = Node(Config("b", peers=["a"]))
a.broadcast(b"hello")
for output in a:
    if isinstance(output, Send):
        b.receive(output.frame)
for output in b:
    if isinstance(output, Deliver):
        print(f"message {output.id.number} of {output.id.name}: {output.payload.decode()}")
