#!/usr/bin/env python3
"""Compares what the lines of faults of the built program name: the word, the file, the process or the address.

    python3 tests/culprits.py PATH-TO-HHM

What is wanted was worked out by hand from docs/FORMATS.md. It prints a line for each check that fails and at the end
`N passed, M failed`; the status is 1 where one fails. Linux, and nothing but Python's own library.
"""
import os
import subprocess
import sys

import program
import server
from server import SMALL, WAIT, Server

LOCK = "in use by process {}"


def hhm(*words, **how):
    """What a command writes on standard error, and its status."""
    ran = subprocess.run([server.PROGRAM, *words], capture_output=True, text=True, timeout=WAIT, **how)
    return ran.stderr, ran.returncode


def check(name, got, wanted):
    """Compares whole lines: those of the other scripts are compared without what is in these brackets."""
    server.check_exactly(name, got, wanted)


def in_folder(name):
    return os.path.join(server.FOLDER, name)


def written(name, data):
    path = in_folder(name)
    with open(path, "wb") as file:
        file.write(data)
    return path


def a_word_is_named():
    """The first word that isn't a number, or is one out of range, of each word of the program that takes some."""
    start = ["serve", "--unix", in_folder("words")]
    whole = written("words.snap", program.snapshot([(7, 1, [(0, 0, 5)])], 5, past=program.NONE))
    for words, told in [
        ([*start, "--rows", "4e9", "--cols", "3"], "BadNumber (--rows 4e9)"),
        ([*start, "--rows", "3", "--cols", ""], "BadNumber (--cols )"),
        ([*start, *SMALL, "--workers", "x"], "BadNumber (--workers x)"),
        ([*start, *SMALL, "--idle", "1.5", "--drain", "y"], "BadNumber (--idle 1.5)"),
        ([*start, "--rows", "3", "--cols", "3", "--cuts", "1,,2"], "BadNumber (--cuts 1,,2)"),
        ([*start, "--rows", "0", "--cols", "3"], "BadDimension (--rows 0)"),
        ([*start, "--rows", "3", "--cols", str(2**60 + 1)], f"BadDimension (--cols {2**60 + 1})"),
        ([*start, "--rows", "3", "--cols", "3", "--cuts", "4,4"], "BadCuts (--cuts 4,4)"),
        ([*start, "--rows", "3", "--cols", "3", "--shards", "65"], "BadShards (--shards 65)"),
        ([*start, "--rows", "3", "--cols", "3", "--limit", "0"], "BadLimit (--limit 0)"),
        ([*start, "--rows", "3", "--cols", "3", "--max-batches", "0"], "BadBatches (--max-batches 0)"),
        ([*start, *SMALL, "--workers", "33"], "BadWorkers (--workers 33)"),
        ([*start, *SMALL, "--compactors", "3"], "BadCompactors (--compactors 3)"),
        (["serve", *SMALL], "NoAddress (neither --tcp nor --unix is given)"),
        ([*start, *SMALL, "--snapshot", "a", "--log", "a"], "SamePath (a and a)"),
        (["fold", whole, "--shards", "0x3"], "BadNumber (--shards 0x3)"),
        (["fold", whole, "--shards", "65"], "BadShards (--shards 65)"),
        (["sum", "--cuts", "1;2"], "BadNumber (--cuts 1;2)"),
        (["sum", "--cuts", "2,1"], "BadCuts (--cuts 2,1)"),
        (["top", "-n", "ten", whole], "BadNumber (-n ten)"),
        (["list", "--rows", "1-2", "--cols", "5-1", whole], "BadNumber (--cols 5-1)"),
        (["has", whole, "me", "1"], "BadNumber (CLIENT me)"),
        (["has", whole, "7", "-"], "BadNumber (NUMBER -)"),
        (["roll", in_folder("to"), "x", whole], "BadNumber (CLIENT x)"),
        (["roll", in_folder("to"), "9", f"{2**64}={whole}"], f"BadNumber (FILE {2**64}={whole})"),
        (["roll", whole, "9", whole], f"SamePath ({whole})"),
    ]:
        check(" ".join(words), hhm(*words, cwd=server.FOLDER, stdin=subprocess.DEVNULL), (f"hhm: settings: {told}\n", 2))


def a_file_is_named():
    """A snapshot and a log that aren't there, can't be opened or aren't whole, of each word that reads them."""
    none, folder, out = in_folder("none"), in_folder("folder"), in_folder("out")
    os.makedirs(folder, exist_ok=True)
    cut = written("cut.snap", program.snapshot([(7, 1, [(0, 0, 5)])], 5, past=program.NONE)[:100])
    start = ["serve", *SMALL, "--unix", in_folder("files"), "--snapshot"]
    for word in ["check", "export", "top", "list", "degrees", "fold"]:
        check(f"{word}: none", hhm(word, none), (f"hhm: file: NotFound ({none})\n", 4))
        check(f"{word}: cut", hhm(word, cut), (f"hhm: snapshot: Truncated ({cut})\n", 3))
    for words in [["has", none, "7", "1"], ["fork", out, none], ["fold", none, "--to", out]]:
        check(f"{words[0]}: none", hhm(*words), (f"hhm: file: NotFound ({none})\n", 4))
    check("serve: none", hhm(*start, none, "--must-load"), (f"hhm: file: NotFound ({none})\n", 4))
    check("serve: cut", hhm(*start, cut), (f"hhm: snapshot: Truncated ({cut})\n", 3))
    check("serve: no folder", hhm(*start, none + "/snap", "--must-save"), (f"hhm: file: Create ({none}/snap)\n", 4))
    check("a log: none", hhm("check", cut, "--log", none), (f"hhm: snapshot: Truncated ({cut})\n", 3))
    check("a log alone: none", hhm("check", "--log", none), (f"hhm: log: NotFound ({none})\n", 4))
    no_log = written("no.log", b"no log" * 1000)
    check("no log", hhm("check", "--log", no_log), (f"hhm: log: BadMark at page 0 ({no_log})\n", 3))
    words = ["serve", *SMALL, "--unix", in_folder("files"), "--log", no_log]
    check("serve: no log", hhm(*words), (f"hhm: log: BadMark at page 0 ({no_log})\n", 3))
    check("OUT in no folder", hhm("fork", none + "/out", cut), (f"hhm: snapshot: Truncated ({cut})\n", 3))
    if os.geteuid():
        shut = written("shut.snap", b"")
        os.chmod(shut, 0)
        check("shut", hhm("check", shut), (f"hhm: file: OpenFailed ({shut}: Permission denied)\n", 4))
    pipe = in_folder("pipe")
    os.mkfifo(pipe)
    check("a pipe", hhm("check", pipe), (f"hhm: file: OpenFailed ({pipe})\n", 4))
    check("several", hhm("top", cut, none), (f"hhm: snapshot: Truncated in {cut}\n", 3))
    check("relative", hhm("check", "none", cwd=server.FOLDER), ("hhm: file: NotFound (none)\n", 4))


def who_uses_a_file_is_named():
    """A second server, a fold and a fork beside a server: its process is named, also by another name of the file."""
    snap, log = in_folder("used.snap"), in_folder("used.log")
    os.symlink(snap, in_folder("link"))
    other = ["serve", *SMALL, "--unix", in_folder("second")]
    with Server([*SMALL, "--snapshot", snap, "--log", log], tcp=False) as at, at.client(7) as client:
        client.put(1, [(0, 0, 5)])
        client.save()
        used = LOCK.format(at.process.pid)
        for name, words, told in [
            ("a second server", [*other, "--snapshot", snap, "--lock-wait", "0"], f"file: Busy ({snap} is {used})"),
            ("of the log", [*other, "--log", log, "--lock-wait", "0"], f"log: Busy ({log} is {used})"),
            ("a fold", ["fold", snap], f"file: Busy ({snap} is {used})"),
            ("a fold of both", ["fold", snap, "--log", log], f"log: Busy ({log} is {used})"),
            ("a fork", ["fork", in_folder("copy"), snap], f"file: Busy ({snap} is {used})"),
            ("a salvage", ["salvage", in_folder("copy"), "--log", log], f"log: Busy ({log} is {used})"),
            ("a roll", ["roll", snap, "9", in_folder("none")], f"file: Busy in {snap} ({snap} is {used})"),
        ]:
            check(name, hhm(*words), (f"hhm: {told}\n", 4))
        at.process.kill()
        at.process.wait()
    check("nobody", hhm("fold", snap, "--log", log), ("", 0))


def an_address_is_named():
    """Addresses that can't be listened at, with what the system says, and one where nobody listens."""
    gone = in_folder("no folder/f.sock")
    long = in_folder("s" * 120)
    with Server(SMALL, unix=False) as at:
        for words, told in [
            (["--unix", gone], f"{gone} (No such file or directory)"),
            (["--tcp", at.tcp], f"{at.tcp} (Address already in use)"),
            (["--unix", "f.sock/x"], "f.sock/x (No such file or directory)"),
        ]:
            check(words, hhm("serve", *SMALL, *words, cwd=server.FOLDER), (f"hhm: listen failed: {told}\n", 4))
        found = hhm("serve", *SMALL, "--unix", long)
        check("too long", (found[0].startswith(f"hhm: listen failed: {long} ("), found[1]), (True, 4))
    for address in ["./nobody", in_folder("nobody")]:
        for word in ["status", "end"]:
            found = hhm(word, address, cwd=server.FOLDER)
            check(f"{word} {address}", found, (f"hhm: server: NotReached ({address})\n", 4))


def all_are_tried():
    a_word_is_named()
    a_file_is_named()
    who_uses_a_file_is_named()
    an_address_is_named()


if __name__ == "__main__":
    sys.exit(server.run_all(all_are_tried))
