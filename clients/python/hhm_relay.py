#!/usr/bin/env python3
"""Sums of one server of hhm go to another, each batch once. Python 3.8 or later, its standard library alone.

    hhm_relay.py EDGE_ADDRESS EDGE_SNAPSHOT SPOOL ROOT_ADDRESS HOST

Many sources put to a server beside them, the edge, and what it has since the last time goes to a root server as few
large batches. Run it by a timer on the edge's machine; a run that begins beside another one of its SPOOL ends at once:

1. The edge saves, and its snapshot is copied into the folder SPOOL, as B.snap, B being its number of batches.
2. Of each two files of SPOOL that follow each other, the batches that the second has more than the first are summed,
   and put to the root in parts of 1,000,000 cells (`--part`), under the client HOST: part j behind batch B has the
   number B * 2^20 + j. A file that is there is never made anew, so what is put again is the same. Where the edge has
   folded one of these batches, the two files' sums are compared, which goes over all of their cells.
3. With `--drop` the root saves, and all files of SPOOL but the newest go.

HOST is a number of this edge alone, for as long as its book and SPOOL live: a new book is a new edge, with an empty
folder. The part's size belongs to SPOOL, where it is kept. Killed at any place it is run again with the same words. The
edge may be fed, killed and started again meanwhile, and its clients go by the rules of docs/CLUSTER.md. Its book is
never emptied between two runs, or a batch that is sent again would count twice. With `-` for its address an edge that is
stopped is asked for no save.

The status is 1 for a refusal of the root, and for what needs a person: DIVERGED, where the edge lacks what was shipped
(it is to begin again from the newest file of SPOOL). 2 are bad words, and 4 is what can't be read, written or reached.
"""
import argparse
import collections
import fcntl
import heapq
import itertools
import operator
import os
import shutil
import struct
import sys
from typing import Dict, Iterator, List, Optional, Tuple

sys.path.insert(0, os.path.dirname(os.path.abspath(__file__)))
from hhm_client import PUT_CELLS, BookWentBack, Client, Ended, Refused, number, request  # noqa: E402
from hhm_command import show  # noqa: E402
from hhm_mirror import checked, client_of  # noqa: E402
from hhm_snapshot import Batch, Snapshot  # noqa: E402

PART = 1_000_000
# The most parts of one step, and what a batch's place is multiplied by. A book has at most 2^30 batches, so the numbers
# stay below 2^50.
PARTS = 1 << 20
# A cell of a sum: its row and column, and its count.
Sum = Tuple[Tuple[int, int], int]


class Spool:
    """The folder of frozen snapshots, each under its number of batches."""

    def __init__(self, path: str, program: str):
        os.makedirs(path, exist_ok=True)
        self.path, self.program = path, program
        # Held for as long as this process lives: another one would write the same copy.
        self._lock = open(os.path.join(path, "lock"), "w")
        try:
            fcntl.flock(self._lock, fcntl.LOCK_EX | fcntl.LOCK_NB)
        except BlockingIOError:
            raise ValueError(f"{path}: another run has it") from None

    def counts(self) -> List[int]:
        return sorted(int(name[:-5]) for name in os.listdir(self.path) if name.endswith(".snap"))

    def file(self, count: int) -> str:
        return os.path.join(self.path, f"{count:07d}.snap")

    def snapshot(self, count: int) -> Snapshot:
        return checked(self.program, self.file(count))

    def part_size(self, wanted: int) -> int:
        """The size of a part, which is written down before the first is put."""
        path = os.path.join(self.path, "part")
        if not os.path.exists(path):
            with open(path + ".new", "w") as file:
                file.write(f"{wanted}\n")
                file.flush()
                os.fsync(file.fileno())
            os.rename(path + ".new", path)
        with open(path) as file:
            size = int(file.read())
        if size != wanted:
            raise ValueError(f"{path}: the parts have {size} cells, and --part says {wanted}")
        return size

    def freeze(self, source: str) -> None:
        """Copies a snapshot into the folder, where there is none of as many batches."""
        copy = os.path.join(self.path, "copy.new")
        shutil.copyfile(source, copy)
        with open(copy, "rb+") as file:
            os.fsync(file.fileno())
        taken, counts = checked(self.program, copy), self.counts()
        if counts:
            newest = self.snapshot(counts[-1])
            judge_front(newest, taken)
            judge_sum(newest, taken)
        if len(taken.batches) in counts:
            os.remove(copy)
        else:
            os.rename(copy, self.file(len(taken.batches)))
        self.sync()

    def sync(self) -> None:
        """Makes the files' names durable: what is put of a file that is lost would be made otherwise again."""
        folder = os.open(self.path, os.O_RDONLY)
        try:
            os.fsync(folder)
        finally:
            os.close(folder)

    def is_dropped(self) -> bool:
        """Whether the oldest file's batches were shipped by earlier runs."""
        return os.path.exists(os.path.join(self.path, "dropped"))

    def drop(self) -> None:
        """Removes all files but the newest."""
        with open(os.path.join(self.path, "dropped"), "w"):
            self.sync()
        for count in self.counts()[:-1]:
            os.remove(self.file(count))


def judge_front(old: Snapshot, new: Snapshot) -> None:
    """Ends where a snapshot doesn't begin with the batches of an older one."""
    for at, batch in enumerate(old.batches):
        other: Optional[Batch] = new.batches[at] if at < len(new.batches) else None
        is_same = other is not None and batch.says() == other.says()
        if other is None or not is_same or (batch.cells and other.cells and batch.cells != other.cells):
            raise Ended(1, f"DIVERGED: the edge lacks batch {at}, {batch.pair()}, which was shipped")


def added(batches: List[Batch]) -> List[Sum]:
    """The sum of batches that aren't folded, its cells in order."""
    sums: Dict[Tuple[int, int], int] = {}
    for batch in batches:
        for row, col, count in struct.iter_unpack(">QQQ", batch.cells or b""):
            sums[row, col] = sums.get((row, col), 0) + count
    return sorted(sums.items())


def summed(snapshot: Snapshot) -> Iterator[Sum]:
    """The cells of a snapshot's sum, in order."""
    folded = (((row, col), count) for row, col, count in struct.iter_unpack(">QQQ", snapshot.base))
    others = added(snapshot.batches)
    if not others:
        yield from folded
        return
    for place, same in itertools.groupby(heapq.merge(folded, others), key=operator.itemgetter(0)):
        yield place, sum(count for _, count in same)


def gained(before: Snapshot, now: Snapshot) -> Iterator[Sum]:
    """The cells that the sum of a snapshot has and that of an older one hasn't, and how much it has more of others."""
    olds = summed(before)
    old = next(olds, None)
    for place, count in summed(now):
        if old is None or place < old[0]:
            yield place, count
            continue
        if place > old[0] or count < old[1]:
            break
        if count > old[1]:
            yield place, count - old[1]
        old = next(olds, None)
    if old is not None:
        raise Ended(1, f"DIVERGED: the edge counts less at {old[0]} than was shipped")


def has_folded_since(before: Snapshot, now: Snapshot) -> bool:
    """Whether a snapshot has folded batches that an older one hasn't."""
    return any(batch.cells is None for batch in now.batches[len(before.batches) :])


def judge_sum(before: Snapshot, now: Snapshot) -> None:
    """Ends where a snapshot counts less than an older one, as far as a step needs their sums."""
    if has_folded_since(before, now):
        collections.deque(gained(before, now), maxlen=0)


def since(before: Snapshot, now: Snapshot) -> List[Sum]:
    """The sum of the batches that a snapshot has more than an older one."""
    if has_folded_since(before, now):
        return list(gained(before, now))
    return added(now.batches[len(before.batches) :])


def steps(spool: Spool, host: int, size: int) -> Iterator[Tuple[str, List[Tuple[int, bytes]]]]:
    """Of each step, what is told of it and its parts, (number, frame)."""
    first, *others = spool.counts()
    before = spool.snapshot(first)
    if not spool.is_dropped():
        yield step(before._replace(batches=[], base=before.base[:0]), before, host, size)
    for count in others:
        now = spool.snapshot(count)
        judge_front(before, now)
        yield step(before, now, host, size)
        before = now


def step(before: Snapshot, now: Snapshot, host: int, size: int) -> Tuple[str, List[Tuple[int, bytes]]]:
    """The step from one snapshot to the next."""
    first, cells, frames = len(before.batches), since(before, now), []
    for part, begin in enumerate(range(0, len(cells), size)):
        body = b"".join(struct.pack(">QQQ", *at, count) for at, count in cells[begin : begin + size])
        frames.append((first * PARTS + part, request(PUT_CELLS, host, first * PARTS + part, body=body)))
    if len(frames) > PARTS:
        raise ValueError(f"{len(frames)} parts: at most {PARTS} have numbers")
    return f"batches {first} to {len(now.batches)}: cells {len(cells)} parts {len(frames)}", frames


def ship(spool: Spool, root: Client, size: int) -> None:
    for told, frames in steps(spool, root.client, size):
        for _ in root._put_frames(iter(frames), 4):
            pass
        show(f"{told}\n".encode())


def relay(given: argparse.Namespace) -> int:
    spool = Spool(given.spool, given.program)
    size = spool.part_size(given.part)
    if given.edge != "-":
        with client_of(given.edge) as edge:
            edge.save()
    spool.freeze(given.snapshot)
    with client_of(given.root, given.host) as root:
        ship(spool, root, size)
        if given.drop:
            # (the root has then for ever what was shipped, and nothing of it is put again)
            root.save()
            spool.drop()
    return 0


def main() -> int:
    words = argparse.ArgumentParser(description="Puts what an edge has since the last time to a root.")
    words.add_argument("edge", help="the edge's HOST:PORT, or the path of its Unix socket; - where it is stopped")
    words.add_argument("snapshot", help="the edge's snapshot")
    words.add_argument("spool", help="a folder of this edge")
    words.add_argument("root", help="the root's HOST:PORT, or the path of its Unix socket")
    words.add_argument("host", type=number, help="the number under which this edge is a client of the root")
    words.add_argument("--part", type=int, default=PART, metavar="CELLS", help=f"the cells of a part ({PART})")
    words.add_argument("--drop", action="store_true", help="lets the root save, and then keeps the newest file alone")
    words.add_argument("--program", default="hhm", help="the program that checks the files (hhm)")
    given = words.parse_args()
    if not 1 <= given.part <= PART:
        words.error(f"--part is a number from 1 to {PART}")
    try:
        return relay(given)
    except Ended as ended:
        print(ended, file=sys.stderr)
        return ended.status
    except Refused as refused:
        print(f"refused: {refused}", file=sys.stderr)
        return 1
    except (OSError, ValueError, BookWentBack) as fault:
        print("failed:", fault, file=sys.stderr)
        return 4


if __name__ == "__main__":
    sys.exit(main())
