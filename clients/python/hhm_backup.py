"""Copies a server's snapshot and log into a folder of backups, on the server's machine, while it runs.

This is the word `backup` of `hhm_client.py`, which asks no server:

    hhmc backup /mnt/backup /var/lib/hhm/sum.snap /var/lib/hhm/sum.hhmlog

Each backup is a folder of its own below DIR, named after its time in UTC, with both files under their own names. The
log is copied first: a save in between puts its batches into the snapshot, which is copied then. So everything that was
answered Accepted before the backup began is in one of the two. A copy of a log in use may end amid a block that is
being written, or miss pages of it; `hhm check` finds that, and then both are copied again. So that it is rare, the end
of a file, where a server writes, is read first and at once, however slow the disk of the copy is. A copy has no name as
a backup before it was checked and is on the disk, and only then earlier ones are removed.
"""
import argparse
import contextlib
import fcntl
import os
import re
import shutil
import stat
import subprocess
import tempfile
import time
from typing import Iterator, List, NamedTuple, Optional

from hhm_client import Ended
from hhm_version import program_in_use

# How often a copy is made at most, and the seconds before it is made again.
TRIES, PAUSE = 10, 0.1
# The bytes of a file's end that are read first, and those that are copied at once. A log has room of 16 MiB at its end.
TAIL, PIECE = 1 << 25, 1 << 20
# The names of backups, and what those begin with that aren't checked yet.
NAME, FORM = re.compile(r"\d{8}T\d{6}Z"), "%Y%m%dT%H%M%SZ"
UNCHECKED = ".unchecked-"


class Checked(NamedTuple):
    """What `hhm check` has said of a copy: its status, and the first line of its output, or its fault."""

    status: int
    line: str


class Pair(NamedTuple):
    """A snapshot and its log. A server without a path for snapshots has none."""

    snapshot: Optional[str]
    log: str

    def paths(self) -> List[str]:
        """Those that there are, the log first."""
        return [path for path in (self.log, self.snapshot) if path is not None]

    def copy(self, folder: str) -> "Pair":
        """Copies the log and then the snapshot, and returns the copies once they are on the disk."""
        for path in self.paths():
            copy_file(path, copy_of(path, folder))
        sync_folder(folder)
        return Pair(None if self.snapshot is None else copy_of(self.snapshot, folder), copy_of(self.log, folder))

    def check(self, program: str) -> Checked:
        words = [*self.paths()[1:], "--log", self.log]
        try:
            ended = subprocess.run([program, "check", *words], stdin=subprocess.DEVNULL, capture_output=True, text=True,
                                   errors="replace")
        except OSError:
            raise Ended(4, f"{program}, which checks the copy, can't be run: give --program FILE") from None
        said = next(iter((ended.stderr if ended.returncode else ended.stdout).splitlines()), "hhm was ended")
        # The copy's own name says nothing to who asked: the copy goes.
        for path in self.paths():
            said = said.replace(f" ({path})", "")
        return Checked(ended.returncode, said)


def copy_of(path: str, folder: str) -> str:
    return os.path.join(folder, os.path.basename(path))


def copy_file(source: str, target: str) -> None:
    """Copies a file, with its mode and, where that is allowed, its owner. It is on the disk then."""
    with open(source, "rb") as file, open(target, "wb") as copy:
        had = os.fstat(file.fileno())
        with contextlib.suppress(PermissionError):
            os.fchown(copy.fileno(), had.st_uid, had.st_gid)
        os.fchmod(copy.fileno(), stat.S_IMODE(had.st_mode))
        front = max(0, had.st_size - TAIL)
        file.seek(front)
        tail = file.read(had.st_size - front)
        file.seek(0)
        for begin in range(0, front, PIECE):
            copy.write(file.read(min(PIECE, front - begin)))
        copy.write(tail)
        copy.flush()
        os.fsync(copy.fileno())


def sync_folder(folder: str) -> None:
    """Returns once the names in a folder are on the disk."""
    named = os.open(folder, os.O_RDONLY | os.O_DIRECTORY)
    try:
        os.fsync(named)
    finally:
        os.close(named)


@contextlib.contextmanager
def locked(folder: str) -> Iterator[None]:
    """Holds a folder of backups for one backup. What an earlier one that was killed has left there is removed."""
    held = os.open(folder, os.O_RDONLY | os.O_DIRECTORY)
    try:
        try:
            fcntl.flock(held, fcntl.LOCK_EX | fcntl.LOCK_NB)
        except BlockingIOError:
            raise Ended(4, f"{folder}: another backup is being made there") from None
        for name in os.listdir(folder):
            if name.startswith(UNCHECKED):
                shutil.rmtree(os.path.join(folder, name))
        yield
    finally:
        os.close(held)


def new_name(folder: str) -> str:
    """The name of a backup that is made now, which none has."""
    while os.path.lexists(path := os.path.join(folder, time.strftime(FORM, time.gmtime()))):
        time.sleep(PAUSE)
    return path


def checked_copy(pair: Pair, folder: str, program: str) -> str:
    """Copies a pair until its check finds no fault, and returns what the check says. An Ended where it always does."""
    for attempt in range(TRIES):
        time.sleep(PAUSE * attempt)
        found = pair.copy(folder).check(program)
        if found.status == 0:
            return found.line
    told = f"{', '.join(reversed(pair.paths()))}: {found.line}, in each of {TRIES} copies: no backup was made"
    raise Ended(found.status if found.status > 0 else 4, told)


def remove_earlier(folder: str, keep: int, newest: str) -> None:
    """Removes all backups but this one and the newest before it, so many in all."""
    earlier = sorted(name for name in os.listdir(folder) if NAME.fullmatch(name) and name != newest)
    for name in earlier[: max(0, len(earlier) + 1 - keep)]:
        shutil.rmtree(os.path.join(folder, name))


def backup(given: argparse.Namespace) -> str:
    """Makes a backup, and returns the line that is to be printed. An Ended, or an OSError, where it can't."""
    pair = Pair(None if given.snap == "-" else given.snap, given.log)
    if os.path.basename(given.snap) == os.path.basename(given.log):
        raise Ended(2, f"{given.snap}, {given.log}: snapshot and log have one name, and would be copied to one place")
    program = given.program or program_in_use()
    if program is None:
        raise Ended(4, "there is no program hhm on the path, which checks the copy: give --program FILE")
    with locked(given.folder):
        unchecked = tempfile.mkdtemp(prefix=UNCHECKED, dir=given.folder)
        try:
            line = checked_copy(pair, unchecked, program)
            path = new_name(given.folder)
            os.rename(unchecked, path)
        except BaseException:
            shutil.rmtree(unchecked, ignore_errors=True)
            raise
        sync_folder(given.folder)
        remove_earlier(given.folder, given.keep, os.path.basename(path))
    return f"backup {path} {numbers_of(line)}\n"


def numbers_of(line: str) -> str:
    """The batches and the total of a line of `hhm check`."""
    found = re.search(r"batches \d+ total \d+", line)
    return found[0] if found else line


def at_least_one(word: str) -> int:
    if not (word.isascii() and word.isdigit() and int(word)):
        raise argparse.ArgumentTypeError(f"{word!r} isn't a number from 1")
    return int(word)


def add_words(words: argparse.ArgumentParser) -> None:
    """Adds the words of `backup` to those of the command line."""
    words.add_argument("folder", metavar="DIR", help="where backups are kept, a folder that is there, on another disk")
    words.add_argument("snap", metavar="SNAP", help="the server's snapshot; - where it has none")
    words.add_argument("log", metavar="LOG", help="the server's log")
    words.add_argument("--keep", type=at_least_one, default=2, metavar="N", help="how many backups stay in DIR (2)")
    words.add_argument("--program", metavar="FILE", help="the hhm that checks the copy (hhm)")

