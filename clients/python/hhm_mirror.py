#!/usr/bin/env python3
"""Two servers of hhm that have the same batches. Python 3.8 or later, its standard library alone.

    with Mirror("a:7000", "b:7000", client=7) as hhm:
        hhm.put(1, [(0, 0, 5), (2, 1, 7)])      # accepted once both have accepted it

Servers don't know of each other: a batch counts once at each, whoever puts it and how often, so two servers that were
put the same batches have the same sum, in whatever order. While one is away puts fail, or with `alone` go on at the
other; when it is back, this program puts what it lacks from the other's snapshot:

    hhm_mirror.py A.snap B.snap ADDRESS_OF_B

Save both servers first (`hhmc save`), so that the files have what the servers have; new batches may be put to both
meanwhile. Where the server has another book than B.snap, by their identities, nothing is put. Else the program puts
each batch of A that B lacks, in A's order and under its own numbers, and reports
- CONFLICT: both have the pair, with another number of cells or another total; a server would answer NumberReused;
- SILENT: both have the pair, with as many cells and the same total, and other cells: no server can tell that;
- FOLDED: B lacks the batch, and A has its cells no more. Nothing is put then: run it the other way, so that A has what
  B has, save A, stop B, start it from a copy of A's file, with no log or snapshot of its own, and bring it up once more.
Its status is 1 where it told one of these or a server refused, 2 for bad words, and 4 where something can't be read or
reached. Run it the other way too where both were put to alone. A server folds of itself once it has more cells that
aren't folded than its `--fold-above` says: give both 0, or more than may come while one is away.
"""
import argparse
import itertools
import os
import subprocess
import sys
from typing import Any, Dict, Iterable, Iterator, List, Set, Tuple

sys.path.insert(0, os.path.dirname(os.path.abspath(__file__)))
from hhm_client import (  # noqa: E402
    MAX_DEPTH, PUT_CELLS, Accepted, BookWentBack, Cells, Client, Refused, are_other_books, put_cells_frame, request,
    where_of,
)
from hhm_cluster import Half, Outcome, Part, Place, Several  # noqa: E402
from hhm_snapshot import Batch, Snapshot, read_snapshot  # noqa: E402


class Mirror(Several):
    """Two servers that each batch is put to. They may answer other places in their books.

    `one` and `other` are their addresses, as a `Cluster` has them. With `alone`, puts go on at one server where the
    other can't be reached: that one's place, 0 or 1, is then in `away`, and it isn't asked any more before `back`,
    which is to be called once it was brought up. `client`, `keep`, `timeout`, `attempts`, `pause` and `wait` are those
    of a `Client`.
    """

    def __init__(self, one: Place, other: Place, *, client: int, alone: bool = False, **how: Any):
        super().__init__([Part(server, place, client=client, **how) for place, server in enumerate((one, other))])
        self.client, self.alone = client, alone
        self.away: Set[int] = set()

    def __enter__(self) -> "Mirror":
        return self

    def back(self) -> None:
        """Both servers are asked again from now on."""
        self.away = set()

    def put(self, number: int, cells: Cells) -> Dict[int, Accepted]:
        """Puts a batch to both, and gives their replies by their places. A `Half` where one refused it and the other
        accepted it."""
        [(_, replies)] = self.put_all([(number, cells)])
        return replies

    def put_all(
        self, batches: Iterable[Tuple[int, Cells]], depth: int = 16
    ) -> Iterator[Tuple[int, Dict[int, Accepted]]]:
        """Puts batches (number, cells) and gives (number, replies) in order, with up to `depth` of them on the way.
        Where one fails, those before it are given first, and all from there on can be put again."""
        source = iter(batches)
        while ahead := [
            (number, put_cells_frame(self.client, number, cells))
            for number, cells in itertools.islice(source, max(1, min(depth, MAX_DEPTH)))
        ]:
            replies: Dict[int, List[Accepted]] = {part.place: [] for part in self.parts if part.place not in self.away}

            def put(part: Part) -> None:
                for _, reply in part._put_frames(iter(ahead), len(ahead)):
                    replies[part.place].append(reply)

            outcome = self._at_once([self.parts[place] for place in replies], put)
            self._leave(outcome, replies)
            for at in range(min(map(len, replies.values()))):
                yield ahead[at][0], {place: accepted[at] for place, accepted in replies.items()}
            self._judge(outcome, ahead, replies)

    def _leave(self, outcome: Outcome, replies: Dict[int, List[Accepted]]) -> None:
        """With `alone`: the one that can't be reached is away, where the other can."""
        gone = [place for place, fault in outcome.faults.items() if isinstance(fault, OSError)]
        if self.alone and len(gone) == 1 and len(replies) == 2:
            del outcome.faults[gone[0]], replies[gone[0]]
            self.away.add(gone[0])

    @staticmethod
    def _judge(outcome: Outcome, ahead: List[Tuple[int, bytes]], replies: Dict[int, List[Accepted]]) -> None:
        refused = {place: fault for place, fault in outcome.faults.items() if isinstance(fault, Refused)}
        if refused:
            at = min(len(replies[place]) for place in refused)
            these = {place: why for place, why in refused.items() if len(replies[place]) == at}
            if any(len(accepted) > at for accepted in replies.values()):
                outcome.faults[min(these)] = Half(ahead[at][0], these)
        outcome.judge()


class Differences:
    """What one snapshot has and another lacks, and what both have otherwise."""

    def __init__(self, a: Snapshot, b: Snapshot):
        theirs = {batch.pair(): batch for batch in b.batches}
        self.lacks: List[Batch] = []
        self.lines: List[str] = []
        self.is_folded = False
        self.uncompared = 0
        for batch in a.batches:
            other = theirs.get(batch.pair())
            if other is None:
                self.note_lack(batch)
            elif batch.says() != other.says():
                told = f"cells {batch.entries}, {other.entries}; total {batch.total}, {other.total}"
                self.lines.append(f"CONFLICT {batch.pair()}: {told}")
            elif batch.cells is None or other.cells is None:
                self.uncompared += 1
            elif batch.cells != other.cells:
                self.lines.append(f"SILENT {batch.pair()}: {batch.entries} cells, total {batch.total}, and other cells")

    def note_lack(self, batch: Batch) -> None:
        self.lacks.append(batch)
        if batch.cells is None:
            self.is_folded = True
            self.lines.append(f"FOLDED {batch.pair()}: B lacks it, and A has its cells no more")


def put_batches(hhm: Client, batches: List[Batch]) -> List[str]:
    """Puts batches under their own numbers, and gives a line for each refusal."""
    lines, done = [], 0
    while done < len(batches):
        frames = ((it.number, request(PUT_CELLS, it.client, it.number, body=it.cells or b"")) for it in batches[done:])
        try:
            for _ in hhm._put_frames(frames, 16):
                done += 1
        except Refused as why:
            lines.append(f"REFUSED {batches[done].pair()}: {why}")
            done += 1
    return lines


def client_of(place: str, client: int = 0) -> Client:
    """The client of a server at an address of `where_of`."""
    return Client(**where_of(place), client=client)


def checked(program: str, path: str) -> Snapshot:
    """The snapshot in a file that `hhm check` has found whole."""
    ended = subprocess.run([program, "check", path], stdout=subprocess.DEVNULL, stderr=subprocess.PIPE, text=True)
    if ended.returncode != 0:
        raise ValueError(f"{path}: {ended.stderr.strip()}")
    return read_snapshot(path)


def judge_book(hhm: Client, snapshot: Snapshot, path: str) -> None:
    """A ValueError where a server has another book than its snapshot, which then doesn't say what the server lacks."""
    known = snapshot.book.hex() if any(snapshot.book) else None
    if are_other_books(known, has := hhm.book_id()):
        raise ValueError(f"{path} is of book {known}, and the server has book {has}: save that server first")


def mirror(given: argparse.Namespace) -> int:
    from hhm_command import show  # (the class needs no command line)

    a, b = checked(given.program, given.a), checked(given.program, given.b)
    if (a.rows, a.cols) != (b.rows, b.cols):
        raise ValueError("the snapshots have different numbers of rows and columns")
    found = Differences(a, b)
    lines, put = found.lines, 0
    if not found.is_folded:
        with client_of(given.address) as hhm:
            judge_book(hhm, b, given.b)
            refused = put_batches(hhm, found.lacks)
        put = len(found.lacks) - len(refused)
        lines = lines + refused
    for line in lines:
        show(f"{line}\n".encode())
    if found.is_folded:
        print("nothing was put: A has folded what B lacks, so B must begin from a copy of A's file", file=sys.stderr)
    last = f"batches {len(a.batches)} lacked {len(found.lacks)} put {put} not compared {found.uncompared}"
    show(f"{last}\n".encode())
    return 1 if lines else 0


def main() -> int:
    words = argparse.ArgumentParser(description="Puts to a server what its snapshot B lacks of the snapshot A.")
    words.add_argument("a", help="the snapshot that has more")
    words.add_argument("b", help="the snapshot of the server that is brought up")
    words.add_argument("address", help="that server's HOST:PORT, or the path of its Unix socket")
    words.add_argument("--program", default="hhm", help="the program that checks the files (hhm)")
    try:
        return mirror(words.parse_args())
    except (OSError, ValueError, BookWentBack) as fault:
        print("failed:", fault, file=sys.stderr)
        return 4


if __name__ == "__main__":
    sys.exit(main())
