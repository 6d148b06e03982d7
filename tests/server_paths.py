#!/usr/bin/env python3
"""Starts servers and folds that share a path for snapshots, and servers that must load or save.

    python3 tests/server_paths.py PATH-TO-HHM

Who saves under a path holds the lock of the file whose name has `.lock` behind it. Here this program holds it too, so
that nothing depends on time. What is wanted was worked out by hand from docs/FORMATS.md. It prints a line for each check
that fails and at the end `N passed, M failed`; the status is 1 where one fails. Linux, and nothing but Python's own
library.
"""
import contextlib
import fcntl
import os
import shutil
import stat
import struct
import subprocess
import sys
import tempfile
import time

import program
import server
from server import SMALL, WAIT, Server, accepted, check, content, put_frame, refused, text
from server_faults import GROUP, ONE, OTHER, SAVE, STOP, STOPPING, asked, belongs, in_folder, write
from snap_bytes import OWNED

ONE_FOLDED = program.snapshot([], 5, past=program.FIVE, origin=OWNED)
TWO = program.snapshot([(7, 1, [(0, 0, 5)]), (8, 1, [(0, 0, 3)])], 8, past=program.NONE, origin=OWNED)
SAVED_TWO = struct.pack(">IBQ", 8, 0x86, 2)
BUSY = ("", "hhm: file: Busy\n", 4)
CREATE = ("", "hhm: file: Create\n", 4)
NOT_FOUND = ("", "hhm: file: NotFound\n", 4)
STOPPED = ("stopped batches 1 total 5\n", "", 0)


def hhm(*words, **how):
    """What the program writes to both outputs, and its status."""
    ended = subprocess.run([server.PROGRAM, *words], capture_output=True, text=True, timeout=WAIT, **how)
    return ended.stdout, ended.stderr, ended.returncode


def serve(path, *more, **how):
    """The same of a server that takes no connection, without the line of its address."""
    words = ["serve", "--tcp", "127.0.0.1:0", *SMALL, "--sessions", "0", "--snapshot", path]
    output, error, status = hhm(*words, *more, **how)
    return output[output.find("\n") + 1 :] if output.startswith("listening") else output, error, status


@contextlib.contextmanager
def folder_of(*files):
    """A folder of its own with these files, each of which has one batch."""
    with tempfile.TemporaryDirectory(dir=server.FOLDER) as folder:
        for name in files:
            write(os.path.join(folder, name), ONE)
        yield folder


@contextlib.contextmanager
def held(path):
    """The lock of a path, held by this program."""
    with open(path + ".lock", "w") as file:
        fcntl.flock(file, fcntl.LOCK_EX)
        yield


def a_second_is_told():
    """Beside a server no other one starts, and nothing is folded; what only reads is not kept away."""
    with folder_of("snap") as folder:
        path, second = os.path.join(folder, "snap"), os.path.join(folder, "second")
        words = ["serve", "--unix", second, *SMALL, "--sessions", "0", "--snapshot", path, "--lock-wait", "0"]
        with Server([*SMALL, "--snapshot", path], tcp=False) as at:
            for more in [[], ["--must-load"], ["--must-save"], ["--must-load", "--must-save"]]:
                check(f"a second server, {more}", hhm(*words, *more), BUSY)
            check("it was not bound", os.path.exists(second), False)
            check("a fold beside a server", hhm("fold", path), BUSY)
            check("the file beside a server", content(path), ONE)
            line = "rows 3 cols 3 shards 2 batches 1 total 5 entries 1\n"
            check("a check beside a server", hhm("check", path), (line, "", 0))
            sum_of_all = program.BANNER + "3 3 1\n1 1 5\n"
            check("an export beside a server", hhm("export", path), (sum_of_all, "", 0))
            with at.link() as link:
                check("put", asked(link, put_frame(8, 1, text(3)), 21), accepted(1, 8))
                check("saved", asked(link, SAVE, 13), SAVED_TWO)
                check("stop", asked(link, STOP, 5), STOPPING)
            at.ends("a server beside which others were", 2, 8)
        check("what was saved", content(path), TWO)
        check("all files", sorted(os.listdir(folder)), ["snap", "snap.lock"])
        check("a fold behind it", hhm("fold", path), ("folded 2 total 8\n", "", 0))


def an_end_gives_the_lock_back():
    """However a server ends."""
    with folder_of("snap") as folder:
        path = os.path.join(folder, "snap")
        with Server([*SMALL, "--snapshot", path]) as at:
            at.process.kill()
            at.process.wait(WAIT)
            check("a fold behind a killed server", hhm("fold", path), ("folded 1 total 5\n", "", 0))
        check("a server behind a fold", serve(path), STOPPED)
        full = ["serve", "--unix", folder, *SMALL, "--snapshot", path]
        check("an address that can't be had", hhm(*full), ("", f"hhm: listen failed: {folder}\n", 4))
        check("a server behind one that didn't listen", serve(path), STOPPED)


def a_lock_of_another():
    """Whoever holds the lock: nothing is read, made or changed. The lock itself stays where it is."""
    with folder_of("snap") as folder:
        path = os.path.join(folder, "snap")
        with held(path):
            before = os.stat(path + ".lock").st_ino
            check("a fold of what is held", hhm("fold", path), BUSY)
            check("a server of what is held", serve(path, "--lock-wait", "0"), BUSY)
            check("numbers come first", serve(path, "--workers", "0"), ("", "hhm: settings: BadWorkers\n", 2))
            check("a server of no file, held", serve(path + "x"), ("stopped batches 0 total 0\n", "", 0))
            check("the lock is as it was", os.stat(path + ".lock").st_ino, before)
        check("a fold of what was held", hhm("fold", path), ("folded 1 total 5\n", "", 0))
        check("the folded file", content(path), ONE_FOLDED)
        with held(path):
            write(path, b"no snapshot")
            check("a fold of no snapshot, held", hhm("fold", path), BUSY)
            check("a check of no snapshot, held", hhm("check", path), ("", "hhm: snapshot: BadMark\n", 3))


def a_lock_is_waited_for():
    """A start waits for the locks of both paths while another has one, and says so after a second."""
    with folder_of("snap") as folder:
        path, log = os.path.join(folder, "snap"), os.path.join(folder, "log")
        words = ["serve", "--tcp", "127.0.0.1:0", *SMALL, "--sessions", "0", "--snapshot", path, "--log", log]
        for name, of, seconds, said in [
            ("for a moment", path, 0.3, ""),
            ("for the snapshot", path, 1.5, f"hhm: waiting for the lock of {path}\n"),
            ("for the log", log, 1.5, f"hhm: waiting for the lock of {log}\n"),
        ]:
            with held(of):
                pipes = {"stdout": subprocess.PIPE, "stderr": subprocess.PIPE, "text": True}
                process = subprocess.Popen([server.PROGRAM, *words], **pipes)
                time.sleep(seconds)
                check(f"{name}: it waits", process.poll(), None)
            output, error = process.communicate(timeout=WAIT)
            check(f"{name}: then it starts", output.splitlines()[1:], ["stopped batches 1 total 5"])
            check(f"{name}: what it says", error, said)
            check(f"{name}: status", process.returncode, 0)
        with held(path):
            begun = time.monotonic()
            told = hhm(*words, "--lock-wait", "2")
            check("no longer than it was told", 1.9 < time.monotonic() - begun < 8, True)
            check("no longer", told, ("", f"hhm: waiting for the lock of {path}\n" + BUSY[1], 4))
            check("not at all", hhm(*words, "--lock-wait", "0"), BUSY)
            check("no number", hhm(*words, "--lock-wait", "-1")[2], 2)


def names_of_other_files_are_refused():
    """A path that ends in .new or .lock, or one path for both files, is refused before anything is opened or made."""
    with folder_of("snap", "sum.new", "sum.lock") as folder:
        at = lambda name: os.path.join(folder, name)
        before = sorted(os.listdir(folder))
        words = ["serve", "--tcp", "127.0.0.1:0", *SMALL, "--sessions", "0"]
        bad = lambda option: ("", f"hhm: settings: BadPath ({option})\n", 2)
        for name in ["sum.new", "sum.lock", "other.new", "other.lock", ".new", "x.new.lock"]:
            check(f"--snapshot {name}", hhm(*words, "--snapshot", at(name)), bad("--snapshot"))
            check(f"--log {name}", hhm(*words, "--snapshot", at("snap"), "--log", at(name)), bad("--log"))
            check(f"--log {name} alone", hhm(*words, "--log", at(name)), bad("--log"))
            check(f"fold {name}", hhm("fold", at(name)), bad("PATH"))
        check("the snapshot's first", hhm(*words, "--snapshot", at("a.new"), "--log", at("a.new")), bad("--snapshot"))
        check("before one path for both", hhm(*words, "--snapshot", at("a"), "--log", at("a.lock")), bad("--log"))
        os.symlink(folder, at("folder"))
        for one, other in [("sum", "./sum"), ("sum", "folder/sum"), ("folder/./sum", "sum"), ("snap", "folder/snap")]:
            told = hhm(*words, "--snapshot", at(one), "--log", at(other))
            check(f"{one} and {other}", told, ("", "hhm: settings: SamePath\n", 2))
        os.remove(at("folder"))
        check("nothing was made", sorted(os.listdir(folder)), before)
        check("nothing was changed", [content(at(it)) for it in before], [ONE] * len(before))
        for name in ["new", "a.new.snap", "a.locked", "a.NEW", "lock"]:
            told = hhm(*words, "--snapshot", at(name))
            check(f"{name} is taken", (told[1], told[2]), ("", 0))


def two_fold_at_once():
    """Of two folds of a long file one is told, and the file is that of the other."""
    with folder_of() as folder:
        path = os.path.join(folder, "long")
        cells = [(n, n, 1) for n in range(500_000)]
        write(path, program.snapshot([(1, 1, cells)], 500_000, 10**6, 10**6, (), 1, 10**6))
        words = [server.PROGRAM, "fold", path]
        first = subprocess.Popen(words, stdout=subprocess.PIPE, stderr=subprocess.PIPE, text=True)
        begun = time.monotonic()
        while not os.path.exists(path + ".lock") and time.monotonic() - begun < 1:
            time.sleep(0.001)
        time.sleep(0.005)
        second = hhm("fold", path)
        output, error = first.communicate(timeout=WAIT)
        check("the first fold", (output, error, first.returncode), ("folded 1 total 500000\n", "", 0))
        check("the second fold", second, BUSY)
        folded = program.snapshot([], 500_000, 10**6, 10**6, (), 1, 10**6, past=([(1, 1, 500_000, 500_000)], cells))
        check("the file of both", content(path) == folded, True)
        check("all files of both", sorted(os.listdir(folder)), ["long", "long.lock"])


def no_file_makes_no_lock():
    """A fold of a mistyped path, and of a folder, leaves nothing behind."""
    with folder_of() as folder:
        os.mkdir(os.path.join(folder, "inner"))
        check("a fold of nothing", hhm("fold", os.path.join(folder, "nothing")), NOT_FOUND)
        check("a fold of a folder", hhm("fold", os.path.join(folder, "inner")), ("", "hhm: snapshot: Read\n", 4))
        check("a server of a folder", serve(os.path.join(folder, "inner")), ("", "hhm: snapshot: Read\n", 4))
        check("a mistyped path", serve(os.path.join(folder, "nothing"), "--must-load"), NOT_FOUND)
        check("no file is left", os.listdir(folder), ["inner"])


def be_other():
    os.setgroups([])
    os.setgid(OTHER)
    os.setuid(OTHER)


def without_a_lock(name, path, ended, **how):
    """A server and a fold where the lock can't be had: the one goes on, unless it must save, and the other doesn't."""
    check(f"{name}: a server", serve(path, **how), ended)
    check(f"{name}: a server that must save", serve(path, "--must-save", **how), CREATE)
    check(f"{name}: a fold", hhm("fold", path, **how), CREATE)


def a_lock_that_cannot_be_had():
    with folder_of("snap") as folder:
        path = os.path.join(folder, "snap")
        os.mkdir(path + ".lock")
        without_a_lock("a folder as the lock", path, STOPPED)
        os.rmdir(path + ".lock")
        os.mkfifo(path + ".lock")
        without_a_lock("a FIFO as the lock", path, STOPPED)
        check("the FIFO stays", stat.S_ISFIFO(os.stat(path + ".lock").st_mode), True)
        os.remove(path + ".lock")
        os.symlink(os.path.join(folder, "elsewhere"), path + ".lock")
        without_a_lock("a link to nothing as the lock", path, STOPPED)
        check("nothing is made through a link", os.path.exists(os.path.join(folder, "elsewhere")), False)
    # With `.new` behind it a name may have 255 bytes, with `.lock` 256.
    name = "s" * 251
    with folder_of(name) as folder:
        without_a_lock("a long name", os.path.join(folder, name), STOPPED)
        check("a long name: all files", os.listdir(folder), [name])

def another_user_has_no_lock():
    """A user who may not write the folder serves all the same; one who may read the lock is kept out by it."""
    if os.getuid() != 0:
        return
    own, known = in_folder("program of all"), server.PROGRAM
    shutil.copy(known, own)
    for path in [server.FOLDER, own]:
        os.chmod(path, 0o755)
    other = {"preexec_fn": be_other}
    server.PROGRAM = own
    with folder_of("snap") as folder:
        path = os.path.join(folder, "snap")
        os.chmod(folder, 0o755)
        without_a_lock("no right to the folder", path, CREATE, **other)
        check("no right to the folder: all files", os.listdir(folder), ["snap"])
        os.chmod(folder, 0o777)
        with held(path):
            check("the lock of another user", hhm("fold", path, **other), BUSY)
        check("the lock of another user, given back", hhm("fold", path, **other), ("folded 1 total 5\n", "", 0))
    server.PROGRAM = known


def the_lock_belongs_to_the_owner():
    """A lock that is made gets the owner and the mode of the snapshot, so that its owner may lock it again."""
    for mode in [0o600, 0o640, 0o644]:
        with folder_of("snap") as folder:
            path = os.path.join(folder, "snap")
            own = (os.getuid(), os.getgid())
            if own[0] == 0:
                own = (OTHER, GROUP)
                os.chown(path, *own)
            os.chmod(path, mode)
            check(f"mode {mode:o}: fold", hhm("fold", path), ("folded 1 total 5\n", "", 0))
            check(f"mode {mode:o}: the file", belongs(path), (*own, oct(mode)))
            check(f"mode {mode:o}: the lock", belongs(path + ".lock"), (*own, oct(mode)))


def a_server_must_load():
    with folder_of("snap") as folder:
        path, absent = os.path.join(folder, "snap"), os.path.join(folder, "no", "snap")
        check("it must load: a file", serve(path, "--must-load"), STOPPED)
        check("it must load: no folder", serve(absent, "--must-load"), NOT_FOUND)
        check("it needn't load", serve(os.path.join(folder, "new")), ("stopped batches 0 total 0\n", "", 0))
        write(path, ONE[:-1])
        check("it must load: a front", serve(path, "--must-load"), ("", "hhm: snapshot: Truncated\n", 3))


def a_server_must_save():
    with folder_of("snap") as folder:
        path, absent = os.path.join(folder, "snap"), os.path.join(folder, "no", "snap")
        check("it must save: a file", serve(path, "--must-save"), STOPPED)
        check("it must save: no file yet", serve(os.path.join(folder, "a"), "--must-save")[1:], ("", 0))
        check("it must save: no folder", serve(absent, "--must-save"), CREATE)
        check("it needn't save: no folder", serve(absent), CREATE)
        write(path + ".new", b"left" * 1000)
        check("it must save: what was left", serve(path, "--must-save"), STOPPED)
        check("it must save: nothing is left", sorted(os.listdir(folder)), ["a", "a.lock", "snap", "snap.lock"])
        os.mkdir(path + ".new")
        check("it must save: a folder under the name", serve(path, "--must-save"), CREATE)
        before = content(path)
        unix = os.path.join(folder, "unix")
        ended = hhm("serve", "--unix", unix, *SMALL, "--snapshot", path, "--must-save", "--must-load")
        check("it must save and load: it doesn't listen", (ended, os.path.exists(unix)), (CREATE, False))
        check("it must save: the file is as it was", content(path), before)
        os.rmdir(path + ".new")
        check("it must save and load", serve(path, "--must-save", "--must-load"), STOPPED)


def words_are_refused():
    """An empty path, and what must be of a path that isn't given."""
    alone = [["--must-save"], ["--must-load"], ["--must-save", "--must-load"]]
    for words in [["--snapshot", ""], ["--snapshot="], *alone]:
        output, error, status = hhm("serve", "--tcp", "127.0.0.1:0", *SMALL, "--sessions", "0", *words)
        check(f"serve {words}", (output, error.startswith("error: "), status), ("", True, 2))


def main():
    if len(sys.argv) != 2:
        print(__doc__.strip())
        sys.exit(2)
    server.PROGRAM = os.path.abspath(sys.argv[1])
    with tempfile.TemporaryDirectory() as server.FOLDER:
        a_second_is_told()
        an_end_gives_the_lock_back()
        a_lock_of_another()
        a_lock_is_waited_for()
        names_of_other_files_are_refused()
        two_fold_at_once()
        no_file_makes_no_lock()
        a_lock_that_cannot_be_had()
        another_user_has_no_lock()
        the_lock_belongs_to_the_owner()
        a_server_must_load()
        a_server_must_save()
        words_are_refused()
    print(f"{server.passed} passed, {server.failed} failed")
    sys.exit(1 if server.failed else 0)


if __name__ == "__main__":
    main()
