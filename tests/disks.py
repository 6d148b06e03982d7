"""What a loss of power may leave of the files of a folder, by what tests/lose_power.c wrote down of a program.

A file has what is durable, and what was written since then, call by call. A sync makes durable what was written since
the file was opened or last synced; what was written before a sync that failed it doesn't. A loss of power leaves of
each write since then any bytes as they were written, and all others as they were, and some length between. Names stand
for files: a rename, a new file or a removal outlasts a loss of power once the folder was synced; until then each name
may have the file that it had at any moment since. A kill leaves all that was written and every name as it is.
"""
import contextlib
import mmap
import os
import struct
import time
from typing import NamedTuple, Optional

OPENS, WRITES, CUTS, SYNCS, RENAMES, REMOVES, SYNCS_OF_FOLDERS, SENDS, CLOSES, READS = range(1, 11)
FAIL, DIE_BEFORE, DIE_BEHIND, HOLD, SHORT, HOLD_AND_FAIL = range(1, 7)
HEAD = struct.Struct("<iiqqqq")
BEGUN = -1_000_000


class Record(NamedTuple):
    """A call of the program, before it (`result` is BEGUN) or behind it."""

    call: int
    handle: int
    at: int
    size: int
    result: int
    bytes: bytes


def records_of(path):
    """The records that are whole, in order."""
    with open(path, "rb") as file:
        data = file.read()
    at, records = 0, []
    while at + HEAD.size <= len(data):
        *head, more = HEAD.unpack_from(data, at)
        at += HEAD.size
        if at + more > len(data):
            break
        records.append(Record(*head, data[at : at + more]))
        at += more
    return records


class Page:
    """The numbers that the tests and the program share."""

    CALL, LEFT, TIMES, ACTION, ERROR, PART, HOLD, DELAY, LOG_ONLY, PRETEND, HELD = range(11)
    OF_LOG, OF_OTHERS = 16, 32

    def __init__(self, path):
        with open(path, "wb") as file:
            file.write(bytes(4096))
        with open(path, "r+b") as file:
            self.memory = mmap.mmap(file.fileno(), 4096)

    def __getitem__(self, place):
        return struct.unpack_from("<q", self.memory, 8 * place)[0]

    def __setitem__(self, place, number):
        struct.pack_into("<q", self.memory, 8 * place, number)

    def arm(self, call, action, left=1, times=1, error=5, part=0, log_only=True):
        """The call number `left` of this kind from now on is the first of `times` in a row at which this is done."""
        self[self.CALL] = 0
        self[self.TIMES], self[self.ACTION], self[self.ERROR], self[self.PART] = times, action, error, part
        self[self.LEFT], self[self.LOG_ONLY] = left, log_only
        self[self.CALL] = call

    def disarm(self):
        self[self.CALL] = 0

    def count(self, call, of_log=True):
        """How many such calls there were so far."""
        return self[(self.OF_LOG if of_log else self.OF_OTHERS) + call]


class Room:
    """A place of one server's files, and what the library needs beside it: `log` and `snap` are the paths there.

    The folder may be that of another server too, whose files have other names.
    """

    library = ""

    def __init__(self, top, folder=None, names=("log", "snap")):
        self.top, self.folder = top, folder or os.path.join(top, "files")
        os.makedirs(top, exist_ok=True)
        os.makedirs(self.folder, exist_ok=folder is not None)
        self.log, self.snap = (os.path.join(self.folder, name) for name in names)
        # All names that the server's files may have.
        self.names = {name + end for name in names for end in ("", ".new", ".lock")}
        self.trace, self.page = os.path.join(top, "trace"), Page(os.path.join(top, "page"))
        # Power isn't lost indeed, so that nothing has to wait for a disk.
        self.page[Page.PRETEND] = 1

    def role(self, path):
        """Whether a path is of the log or of the snapshot, or of neither."""
        plain = path.removesuffix(".new").removesuffix(".lock")
        return {self.log: "log", self.snap: "snap"}.get(plain)

    def present(self):
        """The names of the server's files that are there."""
        return sorted(self.names & {*os.listdir(self.folder)})

    def how(self, traced=False):
        """How a program is started whose calls on the files are followed."""
        more = {"LD_PRELOAD": self.library, "POWER_FOLDER": self.folder, "POWER_LOG": self.log}
        more["POWER_PAGE"] = os.path.join(self.top, "page")
        return {"env": {**os.environ, **more, **({"POWER_TRACE": self.trace} if traced else {})}}


class Write(NamedTuple):
    """Bytes that were written, 00 behind `bytes` up to `size`; or, where `size` is None, a cut to a length."""

    at: int
    size: Optional[int]
    bytes: bytes


def put(content, at, size, data):
    """Writes over a file's bytes, of which 00 behind the last others may be left out."""
    end = at + len(data)
    if data:
        content.extend(bytes(max(0, end - len(content))))
        content[at:end] = data
    rest = min(len(content), at + size)
    if rest > end:
        content[end:rest] = bytes(rest - end)


class File:
    """What is durable, what was written since, and what was written before a sync that failed."""

    def __init__(self, durable=b"", path="", size=0):
        # Zeros behind the last other bytes are left out.
        self.durable, self.size = bytearray(durable), size
        self.fresh, self.stale = [], []
        # Where it stood when it was made or found, and whether it is written to as it was found.
        self.path, self.is_found = path, False

    def change(self, at, size, data=b""):
        self.fresh.append(Write(at, size, data))

    def end_write(self, moved):
        """The last write has moved so many bytes. Of one that failed any may be there, which no sync makes durable."""
        last = self.fresh.pop()
        if moved < 0:
            self.stale.append(last)
        else:
            self.change(last.at, moved, last.bytes[:moved])

    def sync(self):
        self.is_found = False
        for write in self.fresh:
            self.stale = [rest for old in self.stale for rest in without(old, write)]
            if write.size is None:
                del self.durable[write.at :]
                self.size = min(self.size, write.at)
            else:
                put(self.durable, *write)
                self.size = max(self.size, write.at + write.size)
        self.fresh = []

    def fail_sync(self):
        """Nothing that was written so far is made durable by a later sync. A cut is: file systems keep a journal of
        lengths.
        """
        self.stale += [write for write in self.fresh if write.size is not None]
        self.fresh = [write for write in self.fresh if write.size is None]

    def left(self, draw):
        """A content that a loss of power may leave, without zeros at its end, and its length."""
        content, length = bytearray(self.durable), self.size
        lengths = [length]
        how = draw.choice(["none", "all", "some", "some", "some", "front", "back"])
        writes = [write for write in self.stale + self.fresh if write.size != 0]
        kept = draw.randrange(len(writes) + 1)
        for number, write in enumerate(writes):
            length = min(length, write.at) if write.size is None else max(length, write.at + write.size)
            lengths.append(length)
            share = {"none": 0, "all": 1, "some": draw.random(), "front": number < kept, "back": number >= kept}[how]
            apply_some(draw, content, write, share)
        size = draw.choice([*lengths, draw.randint(min(lengths), max(lengths))])
        return bytes(content[:size]), size


def apply_some(draw, content, write, share):
    """Does a part of a write, as it is drawn: stretches of bytes, of a sector or of a page; of a cut all or nothing."""
    if write.size is None:
        if draw.random() < share:
            del content[write.at :]
        return
    if share in (0, 1):
        if share:
            put(content, *write)
        return
    # Zeros that were written ahead may be many: of these few stretches are drawn.
    step = draw.choice([1, 7, 60, 512, 4096]) if write.size <= 65536 and write.bytes else 65536
    for place in range(0, write.size, step):
        if draw.random() < share:
            size = min(step, write.size - place)
            put(content, write.at + place, size, write.bytes[place : place + size])


def without(old, new):
    """What of a write isn't written over or cut off by another one."""
    if new.size is None:
        return piece(old, old.at, min(old.at + old.size, new.at))
    end = old.at + old.size
    return piece(old, old.at, min(end, new.at)) + piece(old, max(old.at, new.at + new.size), end)


def piece(write, begin, end):
    if begin >= end:
        return []
    return [Write(begin, end - begin, write.bytes[begin - write.at : end - write.at])]


class Disk:
    """A folder's files by their names: those that stand there now, and which others a loss of power may leave there."""

    def __init__(self, folder, misses=None, names=None):
        self.folder, self.files, self.older = folder, {}, {}
        # The names of the files that are followed, where others in the folder aren't.
        self.names = names
        self.handles, self.renaming = {}, None
        # Whether a record isn't taken, as if the program hadn't made the call: so tests are tested.
        self.misses = misses

    def name(self, path, file):
        """A name stands for another file, or for none, until the folder is synced perhaps."""
        self.older.setdefault(path, []).append(self.files.get(path))
        self.files.pop(path, None)
        if file is not None:
            self.files[path] = file

    def take(self, records):
        """Does what the records tell; what is begun and has no end may have been done in part."""
        for record in records:
            self.take_one(record)

    def take_one(self, record):
        call, path = record.call, record.bytes.decode(errors="replace")
        file = self.handles.get(record.handle)
        if self.misses and self.misses(record, file):
            if call == SYNCS and record.result != BEGUN:
                file.is_found = False
            return
        if call == OPENS:
            self.open(record, path)
        elif call == WRITES and record.result == BEGUN:
            file.change(record.at, record.size, record.bytes)
        elif call == WRITES:
            file.end_write(record.result)
        elif call == CUTS and record.result == BEGUN:
            file.change(record.at, None)
        elif call == SYNCS and record.result != BEGUN:
            file.sync() if record.result == 0 else file.fail_sync()
        elif call == SYNCS_OF_FOLDERS and record.result == 0:
            self.older = {}
        elif call in (RENAMES, REMOVES):
            self.rename(record, path)

    def open(self, record, path):
        if record.size:
            self.handles[record.handle] = None
            return
        if path not in self.files:
            self.name(path, File(path=path))
        file = self.files[path]
        file.is_found = not record.at & os.O_CREAT
        if record.at & os.O_TRUNC:
            file.change(0, None)
        self.handles[record.handle] = file

    def rename(self, record, words):
        """A rename or a removal that has begun may be done already; one that failed may be too."""
        if record.result == BEGUN:
            source, _, target = words.partition("\0")
            self.renaming = (source, target)
            if target:
                self.older.setdefault(target, []).append(self.files.get(source))
            self.older.setdefault(source, []).append(None)
            return
        if record.result == 0:
            self.end_rename()
        self.renaming = None

    def end_rename(self):
        source, target = self.renaming
        file = self.files.get(source)
        self.name(source, None)
        if target:
            self.name(target, file)

    def lose_power(self, draw, folder):
        """Writes what a loss of power may leave to a folder, which is empty, under the names below this one."""
        for path in sorted({*self.files, *self.older}):
            file = draw.choice([self.files.get(path), *self.older.get(path, [])])
            if file is not None and not path.endswith(".lock"):
                write_sparse(os.path.join(folder, os.path.relpath(path, self.folder)), *file.left(draw))

    def after_kill(self, forgets):
        """Takes over what a killed program has left, in which files and names are as they were. Where the system
        forgets, it found meanwhile that some of it can't be written, and no sync tells of that."""
        standing = {os.path.join(self.folder, name) for name in self.followed()}
        if self.renaming and self.renaming[0] not in standing:
            self.end_rename()
        for path in {*self.files, *standing}:
            if (path in standing) != (path in self.files):
                self.name(path, File(path=path) if path in standing else None)
        self.handles, self.renaming = {}, None
        for file in self.files.values():
            if forgets:
                file.fail_sync()

    def followed(self):
        """The names in the folder that are followed."""
        return [name for name in os.listdir(self.folder) if self.names is None or name in self.names]

    def settle(self):
        """What stands in the folder is all durable, as after a loss of power."""
        self.files, self.older, self.handles, self.renaming = {}, {}, {}, None
        for name in self.followed():
            path = os.path.join(self.folder, name)
            with contextlib.suppress(OSError), open(path, "rb") as file:
                held = file.read()
                self.files[path] = File(without_zeros(held), path, len(held))


def without_zeros(content):
    """A file's bytes without the long stretches of zeros at its end, which take time and room."""
    size, step = len(content), 65536
    while size >= step and content[size - step : size] == bytes(step):
        size -= step
    return content[:size]


def write_sparse(path, content, size):
    """Writes a file of this size, 00 behind these bytes."""
    with open(path, "wb") as file:
        file.write(content)
        file.truncate(size)


def is_until(call, seconds=30):
    """Waits until a call answers something that is true, and tells whether it did."""
    ends = time.monotonic() + seconds
    while not call():
        if time.monotonic() > ends:
            return False
        time.sleep(0.001)
    return True


class Sent:
    """The replies that a program has sent over all its connections: whole frames that were offered to the system."""

    def __init__(self):
        self.waiting, self.offered = {}, {}

    def frames(self, record):
        """The whole frames that a record adds."""
        if record.call == CLOSES:
            self.waiting.pop(record.handle, None)
            return []
        if record.result == BEGUN:
            self.offered[record.handle] = record.bytes + bytes(record.size - len(record.bytes))
            return whole_frames(self.waiting.get(record.handle, b"") + self.offered[record.handle])[0]
        taken = self.offered.get(record.handle, b"")[: max(record.result, 0)]
        self.waiting[record.handle] = whole_frames(self.waiting.get(record.handle, b"") + taken)[1]
        return []


def whole_frames(stream):
    """The whole frames at the front, each with its kind and body, and the rest."""
    frames, at = [], 0
    while at + 5 <= len(stream):
        size = int.from_bytes(stream[at : at + 4], "big")
        if at + 5 + size > len(stream):
            break
        frames.append((stream[at + 4], stream[at + 5 : at + 5 + size]))
        at += 5 + size
    return frames, stream[at:]
