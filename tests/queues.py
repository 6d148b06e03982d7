"""A queue whose messages are published twice and delivered again feeds a server, while consumers and the server are
killed (cluster.py): what examples/queues does with a real one, and what goes wrong where its rules are broken.
"""
import os
import struct
import sys

from server import check

HERE = os.path.dirname(os.path.abspath(__file__))
sys.path.insert(0, os.path.join(HERE, "..", "examples", "queues"))
from feeding import Feeding, Message, body_of  # noqa: E402
from hosts import Hosts, added, batch, sum_in  # noqa: E402

COUNT = 60


class Queue:
    """A stream that is kept: what isn't acknowledged is delivered again, to whoever asks once a consumer is gone."""

    def __init__(self, doubled, positions):
        self.bodies, self.acknowledged = [], set()
        for number in range(COUNT):
            for _ in range(2 if number % 5 == doubled else 1):
                pair = (1, len(self.bodies)) if positions else (3, number)
                self.bodies.append(body_of(*pair, batch(3, number, 20)))
        self.next = 0

    def deliver(self, count):
        places = [at for at in range(self.next, len(self.bodies)) if at not in self.acknowledged][:count]
        self.next = places[-1] + 1 if places else len(self.bodies)
        return [Message(at, self.bodies[at]) for at in places]

    def consumer_is_gone(self):
        self.next = 0


def consumed(queue, host, logged, early):
    """Consumes all: at the fourth group the server is killed behind its put, at the seventh the consumer."""
    group = 0
    feeding = Feeding(host.tcp, logged)
    while messages := queue.deliver(7):
        group += 1
        if early:
            # (the usual way of a consumer: acknowledged once it is accepted, and saved now and then)
            queue.acknowledged.update(message.token for message in messages)
            feeding.logged = group % 3 != 0
        tokens = feeding.put(messages)
        if group == 4:
            host.kill()
            host.start(host.tcp)
            if early:
                feeding.close()
                feeding = Feeding(host.tcp, logged)
        if group == 7:
            feeding.close()
            feeding = Feeding(host.tcp, logged)
            queue.consumer_is_gone()
        else:
            queue.acknowledged.update(tokens)
    feeding.close()


def all_are_tried():
    plain = [batch(3, number, 20) for number in range(COUNT)]
    doubled = [cells for number, cells in enumerate(plain) if number % 5 == 2]
    # Group 4, the places 21 to 27 of the queue, is acknowledged and lost, but for what stands elsewhere too.
    numbers = [struct.unpack(">QQ", body[:16])[1] for body in Queue(2, False).bodies]
    lost = set(numbers[21:28]) - set(numbers[:21]) - set(numbers[28:])
    left = [cells for number, cells in enumerate(plain) if number not in lost]
    for name, logged, positions, early, wanted in [
        ("with a log", True, False, False, added(*plain)), ("without", False, False, False, added(*plain)),
        ("places for numbers", True, True, False, added(*plain, *doubled)),
        ("acknowledged too early", False, False, True, added(*left)),
    ]:
        queue = Queue(2, positions)
        with Hosts(f"queue {name}", 1, logged=logged) as (host,):
            consumed(queue, host, logged, early)
            with host.client() as hhm:
                check(f"a queue, {name}", sum_in(hhm.export()) == wanted, True)
        check(f"a queue, {name}: all is acknowledged", len(queue.acknowledged), len(queue.bodies))
