"""From a queue into a server of hhm: what each of these examples does with its messages. Python's own library.

A message is one batch: two numbers of 8 bytes, the client's and the batch's, and 24 bytes for each cell, all big-endian.
**Both numbers come from where the events arise**, and stand in the message. A place in the queue won't do for a number:
a producer whose reply was lost appends its message again, at another place, and it would count twice.

A message is acknowledged once its batch is **durable**, and not once it is accepted: what a server without a log has
accepted is gone when it is killed, and nobody would send it again. So a group of messages is put, then saved where the
server has no log, and acknowledged then. What a consumer that is killed hasn't acknowledged is delivered again, is put
again, and counts once.
"""
import os
import struct
import sys
from typing import Any, Iterable, List, NamedTuple

HERE = os.path.dirname(os.path.abspath(__file__))
sys.path.insert(0, os.environ.get("HHM_CLIENTS", os.path.join(HERE, "..", "..", "clients", "python")))
from hhm_client import Client, bytes_of, where_of  # noqa: E402


class Message(NamedTuple):
    """What a queue delivers: what it is acknowledged by, and its bytes."""

    token: Any
    body: bytes


def body_of(client: int, number: int, cells: Iterable[Any]) -> bytes:
    """The bytes of a message."""
    return struct.pack(">QQ", client, number) + bytes_of(cells)


class Feeding:
    """Puts messages to a server. `keep` is for one without a log: the bytes that are kept until a save."""

    def __init__(self, address: str, logged: bool, keep: int = 1 << 26, **how: Any):
        self.logged = logged
        self.hhm = Client(**where_of(address), keep=None if logged else keep, **how)

    def put(self, messages: List[Message]) -> List[Any]:
        """Puts a group, and gives the tokens of all of it once it is durable. A refusal is a fault of the producer, and
        none of the group is acknowledged."""
        for message in messages:
            self.hhm.client, number = struct.unpack(">QQ", message.body[:16])
            self.hhm.put(number, struct.iter_unpack(">QQQ", message.body[16:]))
        if messages and not self.logged:
            self.hhm.save()
        return [message.token for message in messages]

    def close(self) -> None:
        self.hhm.close()
