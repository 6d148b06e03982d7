#!/usr/bin/env python3
"""Installs the built program into an empty folder, and tries what is there then: the files, and `hhm-run`.

    python3 tests/install.py PATH-TO-HHM

The program isn't built here: `tools/install.sh --program` installs the one that is given. What is wanted was worked out
by hand from what tools/install.sh and tools/hhm-run say of themselves and from docs/FORMATS.md. It prints a line for
each check that fails and at the end `N passed, M failed`; the status is 1 where one fails. Where there is no compiler
the C client isn't tried, where there is no groff the page isn't formatted, and a line says so. Linux, and nothing but
Python's own library.
"""
import contextlib
import os
import re
import resource
import shutil
import signal
import socket
import subprocess
import sys
import tempfile
import time

import program
import server
from faults import bare
from server import SMALL, check
from server_faults import in_snap
from snap_bytes import OWNED

TOP = os.path.dirname(server.HERE)
# The most seconds that an end after a signal takes, or a run that serves nobody, and those of an install.
WAIT = 20
INSTALL_WAIT = 120

# What hhm-run says at the first signal, and at one that comes later.
ENDS = "hhm-run: the server saves and ends once its sessions are served; a further signal kills it\n"
KILLED = "hhm-run: the server is killed\n"

PYTHON = sorted(it for it in os.listdir(os.path.join(TOP, "clients", "python")) if it.endswith(".py"))
DOCUMENTS = ["README.md", "CHANGELOG.md", "LICENSES", "clients/README.md",
             *(f"docs/{it}" for it in os.listdir(os.path.join(TOP, "docs")))]
EXAMPLES = [os.path.relpath(os.path.join(at, it), TOP) for at, _, names in os.walk(os.path.join(TOP, "examples"))
            for it in names if "__pycache__" not in at]


def mode_of(name):
    return 0o755 if os.access(os.path.join(TOP, name), os.X_OK) else 0o644


# Each installed file, its mode, and where it comes from; no source where it is made.
FILES = {
    "bin/hhm": (0o755, None),
    "bin/hhm-run": (0o755, "tools/hhm-run"),
    **{f"lib/hhm/{it}": (mode_of(f"clients/python/{it}"), f"clients/python/{it}") for it in PYTHON},
    "bin/hhmc": (0o755, "clients/python/hhm_client.py"),
    **{f"include/{it}.h": (0o644, f"clients/c/{it}.h") for it in ("hhm_client", "hhm_cluster")},
    **{f"share/hhm/{it}.c": (0o644, f"clients/c/{it}.c") for it in ("hhm_client", "hhm_cluster")},
    **{f"share/hhm/{it}.rs": (0o644, f"clients/rust/{it}.rs") for it in ("hhm_client", "hhm_cluster")},
    "lib/systemd/system/hhm.service": (0o644, None),
    **{f"share/man/man1/{it}.1": (0o644, None) for it in ("hhm", "hhmc", "hhm-run")},
    **{f"share/bash-completion/completions/{it}": (0o644, None) for it in ("hhm", "hhmc")},
    **{f"share/zsh/site-functions/_{it}": (0o644, None) for it in ("hhm", "hhmc")},
    **{f"share/fish/vendor_completions.d/{it}.fish": (0o644, None) for it in ("hhm", "hhmc")},
    **{f"share/hhm/{it}": (0o644, None) for it in ("BUILD", "FILES")},
    "share/doc/hhm/BUILD": (0o644, None),
    **{f"share/doc/hhm/{it}": (0o644, it) for it in DOCUMENTS},
    **{f"share/doc/hhm/{it}": (mode_of(it), it) for it in EXAMPLES},
}


def content(path):
    with open(path, "rb") as file:
        return file.read()


def ran(*words, timeout=WAIT, **how):
    """The status of a command and what it writes to both outputs."""
    ended = subprocess.run(words, capture_output=True, text=True, timeout=timeout, **how)
    return ended.returncode, ended.stdout, ended.stderr


def install(*words, **how):
    return ran(os.path.join(TOP, "tools", "install.sh"), *words, timeout=INSTALL_WAIT, **how)


def files_below(folder):
    found = (os.path.join(at, name) for at, _, names in os.walk(folder) for name in names)
    return {os.path.relpath(it, folder) for it in found}


def all_files_are_there(prefix):
    """Each file with its mode and what it was copied from, and no other; each is told."""
    status, output, error = install("--program", server.PROGRAM, prefix)
    check("install", (status, error), (0, ""))
    check("all files", files_below(prefix), set(FILES))
    told = {it.strip() for it in output.splitlines() if it.startswith("  ")}
    check("all are told", told, {f"{prefix}/{it}" for it in FILES if it != "share/hhm/FILES"})
    check("the path is told", f"{prefix}/bin isn't on your PATH" in output, True)
    for name, (mode, source) in FILES.items():
        path = os.path.join(prefix, name)
        check(f"{name}: the mode", oct(os.stat(path).st_mode & 0o7777), oct(mode))
        if source:
            check(f"{name}: the file", content(path) == content(os.path.join(TOP, source)), True)
    check("the program", content(f"{prefix}/bin/hhm") == content(server.PROGRAM), True)
    check("the client", ran(f"{prefix}/bin/hhmc", "--help")[::2], (0, ""))
    # The client finds the modules that draw, and the program on the path, which reads the file.
    words = ["--from", f"{TOP}/examples/packets.mtx", "plot", "degrees", os.path.join(server.FOLDER, "drawn.svg")]
    found = {**os.environ, "PATH": f"{prefix}/bin:{os.environ['PATH']}"}
    check("a picture", ran(f"{prefix}/bin/hhmc", *words, env=found), (0, "cells 4 rows 4 cols 3 total 54\n", ""))


def it_installs_again(prefix):
    """Over what is there, while it runs too; below DESTDIR; and where it may not write."""
    with Served(prefix, []):
        check("install again", install("--program", server.PROGRAM, prefix)[0], 0)
    check("the same files", files_below(prefix), set(FILES))
    with tempfile.TemporaryDirectory() as folder:
        # Not a prefix of the machine, which an installer with a fault would write to.
        own = os.path.join(server.FOLDER, "staged")
        status, *_ = install("--program", server.PROGRAM, own, env={**os.environ, "DESTDIR": folder})
        check("DESTDIR", (status, files_below(f"{folder}{own}"), os.path.exists(own)), (0, set(FILES), False))
        unit = f"{folder}{own}/lib/systemd/system/hhm.service"
        check("DESTDIR: the unit", f"ExecStart={own}/bin/hhm-run ".encode() in content(unit), True)
    file = os.path.join(server.FOLDER, "file")
    open(file, "w").close()
    check("below a file", install("--program", server.PROGRAM, f"{file}/x")[0], 1)


def bad_words_install_nothing():
    """Each wrong command line is told, and nothing is made."""
    prefix = os.path.join(server.FOLDER, "unmade")
    own = ["--program", server.PROGRAM]
    for words in [["--prove"], [*own, "-p", prefix], [*own, prefix, prefix], ["--program"], ["--program", ""], [""]]:
        status, output, error = install(*words)
        check(f"install {words}", (status, output, error.startswith("usage: ")), (2, "", True))
    for path in ["/nothing", "/etc/passwd", "/tmp"]:
        check(f"install {path}", install("--program", path, prefix)[::2], (1, f"install: {path} is no program\n"))
    status, _, error = install("--program", shutil.which("true"), prefix)
    check("another program", (status, "isn't hhm" in error), (1, True))
    check("nothing is made", files_below(prefix), set())
    status, output, error = install("--help")
    check("help", (status, "--unproved" in output, error), (0, True, ""))


def checkout_in(folder):
    """A copy of the checkout without its crates, and an environment whose programs are first those of FOLDER/bin."""
    top, programs = os.path.join(folder, "top"), os.path.join(folder, "bin")
    for name in ["tools", "clients", "docs", "examples"]:
        shutil.copytree(os.path.join(TOP, name), os.path.join(top, name))
    for name in ["README.md", "CHANGELOG.md", "LICENSES"]:
        shutil.copy(os.path.join(TOP, name), top)
    os.makedirs(os.path.join(top, "crates", "hhm"))
    os.mkdir(programs)
    return top, {**os.environ, "PATH": f"{programs}:{os.environ['PATH']}"}


def program_of(folder, name, text):
    """A shell script of this name among the programs of FOLDER/bin."""
    path = os.path.join(folder, "bin", name)
    with open(path, "w") as file:
        file.write(f"#!/bin/sh\n{text}\n")
    os.chmod(path, 0o755)


def only_what_was_built_is_installed():
    """The two ways that build, with an `rt` that only says that it proved, or that it didn't."""
    with tempfile.TemporaryDirectory() as folder:
        prefix, asked = (os.path.join(folder, it) for it in ["prefix", "asked"])
        top, found = checkout_in(folder)
        script = (f"[ $1 = version ] && exit 1\necho \"$PWD $*\" > {asked}\n"
                  f"mkdir -p out && cp {server.PROGRAM} out/hhm\nexit ")
        for status, wanted in [(1, set()), (0, set(FILES))]:
            program_of(folder, "rt", f"{script}{status}")
            ended = ran(os.path.join(top, "tools", "install.sh"), prefix, env=found, timeout=INSTALL_WAIT)
            check(f"a proof that ends with {status}", (ended[0], files_below(prefix)), (status, wanted))
            check("what is proved", content(asked).decode(), f"{top}/crates/hhm run -- --version\n")
        check("it is said", ["proofs" in ended[1], ended[2]], [True, ""])
        check("BUILD", b"\nproved: yes, by rt run; " in content(f"{prefix}/share/hhm/BUILD"), True)
        shutil.rmtree(prefix)
        ended = ran(os.path.join(top, "tools", "install.sh"), "--unproved", prefix, env=found)
        check("no build without a toolchain", (ended[0], files_below(prefix)), (1, set()))
        check("why", ended[2].splitlines()[-1], "install: hhm wasn't built, and nothing is installed")
        check("what it means", "Nothing is proved of this program" in ended[1], True)


def a_long_build_says_how_far_it_is():
    """Each minute, of which a `sleep` of this test makes a tenth of a second, the last line of the build is shown."""
    for writes, wanted in [("echo first >&2\necho 'crate 3 of 40' >&2", "crate 3 of 40"), ("", "the build goes on")]:
        with tempfile.TemporaryDirectory() as folder:
            top, found = checkout_in(folder)
            slept = os.path.join(folder, "slept")
            program_of(folder, "sleep", f'[ "$1" = 60 ] && echo "$1" >>{slept}\nexec {shutil.which("sleep")} 0.1')
            program_of(folder, "rt", f"{writes}\ntouch {slept}\nat=0\n"
                                     f"while [ $(wc -l <{slept}) -lt 4 ] && [ $at -lt 300 ]; do\n"
                                     "    at=$((at + 1))\n    sleep 1\ndone\nexit 1")
            status, output, _ = ran(os.path.join(top, "tools", "install.sh"), os.path.join(folder, "prefix"), env=found,
                                    timeout=INSTALL_WAIT)
            lines = output.splitlines()
            check("a build: its step", (status, lines[0].startswith("Step 1 of 2: build hhm ")), (1, True))
            minutes = [re.sub(r"\d+", "N", it, count=1) for it in lines[1:]]
            check("a build: each minute", (len(minutes) >= 3, minutes[-1:]), (True, [f"  N s: {wanted}"]))


def the_page_has_all_options(prefix):
    """Each line that the words' helps have, and no fault that groff finds."""
    page = content(f"{prefix}/share/man/man1/hhm.1").decode()
    check("hhm.1: options can be copied", "--" in page, False)
    page = " ".join(page.replace("\\-", "-").split())
    for word in ["sum", "check", "export", "fold", "serve"]:
        check(f"hhm.1: {word}", f".SS hhm {word}" in page, True)
        _, output, _ = ran(server.PROGRAM, word, "--help")
        for line in output.splitlines():
            if not line.startswith(("Options:", "Arguments:")):
                check(f"hhm.1: {line}", " ".join(line.removeprefix("Usage: ").split()) in page, True)
    if not shutil.which("groff"):
        print("groff isn't there: the man page isn't formatted")
        return
    check("groff", ran("groff", "-man", "-ww", "-z", f"{prefix}/share/man/man1/hhm.1"), (0, "", ""))


def the_unit_is_right(prefix):
    """It starts what was installed, by options that there are."""
    check("install for the unit", install("--program", server.PROGRAM, prefix)[0], 0)
    unit = content(f"{prefix}/lib/systemd/system/hhm.service").decode().replace("\\\n", " ")
    started = re.search(r"^ExecStart=(.*)$", unit, re.M)[1].split()
    check("the unit: the program", started[0], f"{prefix}/bin/hhm-run")
    started += re.search(r'^Environment="HHM_OPTIONS=(.*)"$', unit, re.M)[1].split()
    _, output, _ = ran(server.PROGRAM, "serve", "--help")
    for word in started[1:]:
        if word.startswith("--"):
            check(f"the unit: {word}", re.search(rf"^ +{word} ", output, re.M) is not None, True)
    check("the unit: no path of another prefix", "/usr/local" in unit, False)
    source = content(os.path.join(TOP, "tools", "hhm.service")).decode()
    check("the unit: docs/OPERATING.md", source in content(os.path.join(TOP, "docs", "OPERATING.md")).decode(), True)


def the_c_client_is_whole(prefix):
    """A program is compiled and linked with the installed header and source."""
    compiler = shutil.which("cc") or shutil.which("gcc") or shutil.which("clang")
    if not compiler:
        print("there is no C compiler: the installed C client isn't compiled")
        return
    source, made = os.path.join(server.FOLDER, "own.c"), os.path.join(server.FOLDER, "own")
    with open(source, "w") as file:
        file.write('#include <hhm_client.h>\nint main(void) { return hhm_open_tcp("127.0.0.1:1", 1) == 0; }\n')
    words = ["-I", f"{prefix}/include", source, f"{prefix}/share/hhm/hhm_client.c", "-o", made]
    check("the C client", ran(compiler, *words)[0], 0)
    check("the C client runs", ran(made)[0], 0)


def heed_signals():
    """A shell can't trap what is ignored where it starts, as SIGINT is in the background and SIGHUP under nohup."""
    for number in [signal.SIGTERM, signal.SIGINT, signal.SIGHUP]:
        signal.signal(number, signal.SIG_DFL)


def server_of(wrapper):
    """The process of `hhm serve`, a child of the wrapper; None where it has ended."""
    try:
        with open(f"/proc/{wrapper}/task/{wrapper}/children") as file:
            pids = [int(it) for it in file.read().split()]
    except FileNotFoundError:
        return None
    names = {it: content(f"/proc/{it}/comm") for it in pids if os.path.exists(f"/proc/{it}/comm")}
    return next((it for it, name in names.items() if name == b"hhm\n"), None)


class Served:
    """A server that the installed `hhm-run` has started, at a Unix socket."""

    def __init__(self, prefix, words, error=subprocess.PIPE, setup=SMALL, by=(), **how):
        self.path = os.path.join(server.FOLDER, "socket")
        words = [*by, f"{prefix}/bin/hhm-run", f"--unix={self.path}", *setup, *words]
        how = {"preexec_fn": heed_signals, **how}
        self.process = subprocess.Popen(words, stdout=subprocess.PIPE, stderr=error, text=True,
                                        start_new_session=True, **how)

    def __enter__(self):
        return self

    def __exit__(self, *_):
        # All that it has started is in its group.
        try:
            os.killpg(self.process.pid, signal.SIGKILL)
        except ProcessLookupError:
            pass
        self.process.communicate()
        if os.path.lexists(self.path):
            os.remove(self.path)

    def listens(self):
        check("the line of the socket", self.process.stdout.readline(), f"listening unix {self.path}\n")
        return self

    def is_told_to_end(self):
        """Sends the first signal, and waits until it is heeded."""
        self.process.terminate()
        check("the first signal", self.process.stderr.readline(), ENDS)

    def link(self):
        link = socket.socket(socket.AF_UNIX)
        link.settimeout(WAIT)
        link.connect(self.path)
        return link

    def puts(self, link, client, count, index, total):
        link.sendall(server.put_frame(client, 1, server.text(count)))
        check(f"put of client {client}", link.recv(64), server.accepted(index, total))

    def ends(self, name, output, error, status):
        begun = time.monotonic()
        try:
            got = self.process.communicate(timeout=WAIT)
        except subprocess.TimeoutExpired:
            got = ("it goes on", "")
        check(name, (*got, self.process.returncode), (output, error, status))
        check(f"{name}: soon", time.monotonic() - begun < WAIT / 2, True)


def saved(count):
    """The snapshot of one batch of client 7 with one cell of this count, by the book of the examples."""
    return program.snapshot([(7, 1, [(0, 0, count)])], count, past=program.NONE, origin=OWNED)


# What a server saves at its first start.
EMPTY = program.snapshot([], 0, past=program.NONE, origin=OWNED)


def each_signal_saves_and_stops(prefix):
    """One signal to the wrapper, or to all of its group as Ctrl-C sends it, ends the server in order."""
    path = os.path.join(server.FOLDER, "signal.snap")
    for number in [signal.SIGTERM, signal.SIGINT, signal.SIGHUP]:
        for kill in [os.kill, os.killpg]:
            name = f"{number.name} by {kill.__name__}"
            with Served(prefix, ["--snapshot", path]).listens() as at:
                with at.link() as link:
                    at.puts(link, 7, 5, 0, 5)
                kill(at.process.pid, number)
                at.ends(name, "stopped batches 1 total 5\n", ENDS, 0)
                check(f"{name}: the path is gone", os.path.lexists(at.path), False)
            check(f"{name}: the snapshot", in_snap(path), saved(5))
            os.remove(path)
    with Served(prefix, []).listens() as at:
        at.process.terminate()
        at.ends("no snapshot", "stopped batches 0 total 0\n", ENDS, 0)


def the_server_heeds_no_signal_itself(prefix):
    """SIGTERM to the server's own process does nothing, so that nobody ends it by mistake before it has saved."""
    with Served(prefix, []).listens() as at:
        os.kill(server_of(at.process.pid), signal.SIGTERM)
        with at.link() as link:
            at.puts(link, 7, 5, 0, 5)
        at.process.terminate()
        at.ends("a signal to the server", "stopped batches 1 total 5\n", ENDS, 0)


def the_umask_decides_who_connects(prefix):
    """The mode of the socket is what the umask leaves of 777."""
    for mask in [0o000, 0o007, 0o022, 0o077]:
        with Served(prefix, [], umask=mask).listens() as at:
            check(f"umask {mask:o}", oct(os.stat(at.path).st_mode & 0o7777), oct(0o777 & ~mask))


def a_second_signal_kills(prefix):
    """A session that stays open holds the end; what came before the first signal is saved, what came after isn't."""
    path = os.path.join(server.FOLDER, "second.snap")
    with Served(prefix, ["--snapshot", path]).listens() as at:
        with at.link() as link:
            at.puts(link, 7, 5, 0, 5)
            at.is_told_to_end()
            waits_for(lambda: in_snap(path) != EMPTY)
            at.puts(link, 8, 3, 1, 8)
            time.sleep(1.1)
            check("a session holds the end", at.process.poll(), None)
            at.process.terminate()
            at.ends("a second signal", "", KILLED, 128 + signal.SIGKILL)
    check("a second signal: the snapshot", in_snap(path), saved(5))


def signals_at_once_are_one(prefix):
    """A terminal that is closed hangs up twice, and a session that ends terminates and hangs up: nothing is killed.
    All of the group may get each signal, and then what asks the server gets it too, and goes on."""
    path = os.path.join(server.FOLDER, "once.snap")
    for several in [(signal.SIGHUP, signal.SIGHUP), (signal.SIGTERM, signal.SIGHUP), (signal.SIGINT,) * 3]:
        for kill in [os.kill, os.killpg]:
            name = f"{several} by {kill.__name__}"
            with Served(prefix, ["--snapshot", path]).listens() as at:
                with at.link() as link:
                    at.puts(link, 7, 5, 0, 5)
                    for number in several:
                        kill(at.process.pid, number)
                        time.sleep(0.1)
                    check(f"{name}: a session holds the end", at.process.poll(), None)
                at.ends(name, "stopped batches 1 total 5\n", ENDS, 0)
            check(f"{name}: the snapshot", in_snap(path), saved(5))
            os.remove(path)


def nobody_reads_what_it_says(prefix):
    """A full pipe as standard error, which nobody reads, keeps neither a Stop nor a kill from the server."""
    reading, writing = os.pipe()
    os.set_blocking(writing, False)
    try:
        while True:
            os.write(writing, bytes(4096))
    except BlockingIOError:
        os.set_blocking(writing, True)
    for kills, wanted, status in [(False, "stopped batches 1 total 5\n", 0), (True, "", 128 + signal.SIGKILL)]:
        with Served(prefix, [], error=writing).listens() as at, at.link() as link:
            at.puts(link, 7, 5, 0, 5)
            at.process.terminate()
            ends = time.monotonic() + 3 * WAIT
            if not kills:
                link.close()
            while at.process.poll() is None and time.monotonic() < ends:
                time.sleep(1.5)
                if kills:
                    at.process.terminate()
            check(f"unread lines: it ends, {kills}", at.process.poll(), status)
            if at.process.poll() is not None:
                check(f"unread lines: what it wrote, {kills}", at.process.stdout.read(), wanted)
    os.close(writing)
    os.close(reading)


def waits_for(is_so):
    until = time.monotonic() + WAIT
    while not is_so() and time.monotonic() < until:
        time.sleep(0.02)


def a_worker_that_is_held_holds_the_save(prefix):
    """Where each worker has a silent session the Save waits; a second signal ends that too, and nothing was saved."""
    path = os.path.join(server.FOLDER, "held.snap")
    with Served(prefix, ["--snapshot", path, "--workers", "1"]).listens() as at:
        with at.link() as link:
            at.puts(link, 7, 5, 0, 5)
            at.is_told_to_end()
            time.sleep(1.1)
            at.process.send_signal(signal.SIGINT)
            at.ends("a held worker", "", KILLED, 128 + signal.SIGKILL)
    check("a held worker: nothing is saved", in_snap(path), EMPTY)
    with Served(prefix, ["--snapshot", path, "--workers", "1", "--idle", "1"]).listens() as at:
        with at.link() as link:
            at.puts(link, 7, 5, 0, 5)
            at.process.terminate()
            at.ends("a held worker, --idle", "stopped batches 1 total 5\n", ENDS, 0)
    check("a held worker, --idle: the snapshot", in_snap(path), saved(5))


def a_refused_save_is_told(prefix):
    """The Save is refused, which is told; so is the fault of the server's own save at its end, with its status."""
    path = os.path.join(server.FOLDER, "refused.snap")
    with Served(prefix, ["--snapshot", path]).listens() as at:
        os.makedirs(os.path.join(path + ".new", "full"))
        at.process.terminate()
        # (the wrapper and the server write these lines, each when it can)
        said = {ENDS, "hhm-run: the save was refused; the server tries once more at its end\n", "hhm: file: Create\n"}
        output, error = at.process.communicate(timeout=WAIT)
        found = (output, set(bare(error).splitlines(keepends=True)), at.process.returncode)
        check("a refused save", found, ("", said, 4))
    check("a refused save: nothing is saved", in_snap(path), EMPTY)


def a_server_that_loads_is_ended_too(prefix):
    """A signal before it listens: it is asked as soon as it does, and what it has loaded is saved."""
    path, count = os.path.join(server.FOLDER, "many.snap"), 100_000
    batches = [(7, n, [(0, 0, 1)]) for n in range(count)]
    held = program.snapshot(batches, count, most=10**6, limit=10**6, past=program.NONE, origin=OWNED)
    with open(path, "wb") as file:
        file.write(held)
    words = ["--max-batches", "1000000", "--limit", "1000000", "--snapshot", path]
    own = [it for it in SMALL if it not in ("--limit", "--max-batches", "100", "10")]
    words = [f"{prefix}/bin/hhm-run", "--unix", os.path.join(server.FOLDER, "socket"), *own, *words]
    loads = subprocess.Popen(words, stdout=subprocess.PIPE, stderr=subprocess.PIPE, text=True)
    # The wrapper heeds signals from before it starts the server.
    waits_for(lambda: server_of(loads.pid))
    loads.terminate()
    output, error = loads.communicate(timeout=WAIT)
    check("a load", (output.splitlines()[-1:], loads.returncode), ([f"stopped batches {count} total {count}"], 0))
    check("a load: the errors", re.sub(r"hhm-run: nobody answers at .* yet\n", "", error), ENDS)
    check("a load: the snapshot", content(path) == held, True)
    os.remove(path)


# A program in the place of hhm: it refuses each Save and the first two Stops for want of memory, and ends at the third
# Stop. The words of `end` it gives to the program.
SHORT_OF_MEMORY = f"""#!{sys.executable}
import os, socket, struct, sys
if sys.argv[1] == "end":
    os.execv("PROGRAM", sys.argv)
path = next(word.removeprefix("--unix=") for word in sys.argv if word.startswith("--unix="))
with socket.socket(socket.AF_UNIX) as listener:
    listener.bind(path)
    listener.listen()
    print("listening unix", path, flush=True)
    stops = 0
    while stops < 3:
        link = listener.accept()[0]
        with link:
            stops += link.recv(5)[4] == 7
            link.sendall(b"\\0\\0\\0\\0\\x87" if stops == 3 else struct.pack(">IBHQ", 10, 255, 1, 0))
print("stopped batches 0 total 0")
"""


def a_refused_stop_is_asked_for_again(prefix):
    """A server without memory refuses a Stop: it is asked for until it is answered, and so is said."""
    with tempfile.TemporaryDirectory(dir=server.FOLDER) as folder:
        shutil.copy(f"{prefix}/bin/hhm-run", folder)
        with open(os.path.join(folder, "hhm"), "w", encoding="utf-8") as file:
            file.write(SHORT_OF_MEMORY.replace("PROGRAM", server.PROGRAM))
        os.chmod(os.path.join(folder, "hhm"), 0o755)
        words = [os.path.join(folder, "hhm-run"), f"--unix={os.path.join(folder, 'socket')}", "--snapshot=x"]
        process = subprocess.Popen(words, stdout=subprocess.PIPE, stderr=subprocess.PIPE, text=True,
                                   preexec_fn=heed_signals)
        process.stdout.readline()
        process.terminate()
        output, error = process.communicate(timeout=WAIT)
        check("a refused stop: the output", output, "stopped batches 0 total 0\n")
        check("a refused stop: what it says", error, (
            f"{ENDS}hhm-run: the save was refused; the server tries once more at its end\n"
            "hhm-run: the stop was refused; it is asked for again each second\n"))
        check("a refused stop: status", process.returncode, 0)


def bash_is_enough(prefix):
    """With bash and the core utilities alone on the path the server is ended in order."""
    with tempfile.TemporaryDirectory() as folder:
        for name in ("bash", "dirname", "printf", "readlink", "sleep", "timeout"):
            os.symlink(shutil.which(name), os.path.join(folder, name))
        words, path = [shutil.which("bash")], os.path.join(server.FOLDER, "bash.snap")
        with Served(prefix, ["--snapshot", path], by=words, env={"PATH": folder}).listens() as at:
            with at.link() as link:
                at.puts(link, 7, 5, 0, 5)
            at.is_told_to_end()
            at.ends("bash alone", "stopped batches 1 total 5\n", "", 0)
        check("bash alone: the snapshot", in_snap(path), saved(5))
        os.remove(path)


# A program in the place of hhm: a server that ends by no request, and whose `end` gets no reply that is one.
MUTE = """#!/bin/bash
[[ $1 == end ]] && { echo "hhm: server: BadReply" >&2; exit 3; }
echo listening
exec sleep 100
"""


def an_answer_that_is_none_is_said(prefix):
    """The server goes on, and a further signal kills it."""
    said = "hhm-run: the server wasn't asked to stop (hhm: server: BadReply); a further signal kills it\n"
    with tempfile.TemporaryDirectory(dir=server.FOLDER) as folder:
        shutil.copy(f"{prefix}/bin/hhm-run", folder)
        with open(os.path.join(folder, "hhm"), "w", encoding="utf-8") as file:
            file.write(MUTE)
        os.chmod(os.path.join(folder, "hhm"), 0o755)
        words = [os.path.join(folder, "hhm-run"), f"--unix={os.path.join(folder, 'socket')}"]
        process = subprocess.Popen(words, stdout=subprocess.PIPE, stderr=subprocess.PIPE, text=True,
                                   preexec_fn=heed_signals)
        check("no reply: it runs", process.stdout.readline(), "listening\n")
        process.terminate()
        check("no reply: what it says", (process.stderr.readline(), process.stderr.readline()), (ENDS, said))
        time.sleep(1.1)
        process.terminate()
        output, error = process.communicate(timeout=WAIT)
        check("no reply: a further signal", (output, error, process.returncode), ("", KILLED, 128 + signal.SIGKILL))


def a_limit_of_a_file_refuses_puts(prefix):
    """A limit of a file's size (ulimit -f) refuses puts by LogFull, and doesn't end the server."""
    log = os.path.join(server.FOLDER, "limited.hhmlog")
    with Served(prefix, ["--log", log]).listens() as at:
        resource.prlimit(server_of(at.process.pid), resource.RLIMIT_FSIZE, (3 * 4096, 3 * 4096))
        with at.link() as link:
            at.puts(link, 1, 1, 0, 1)
            at.puts(link, 2, 1, 1, 2)
            link.sendall(server.put_frame(3, 1, server.text(1)))
            check("a limited file: the third", link.recv(64), server.refused(34))
        at.is_told_to_end()
        at.ends("a limited file: the end", "stopped batches 2 total 2\n", "", 0)
    os.remove(log)


def in_a_small_space():
    heed_signals()
    resource.setrlimit(resource.RLIMIT_AS, (170 << 20, 170 << 20))


def a_limit_of_memory_is_enough_for_a_start(prefix):
    """In an address space of 170 MiB a server takes 8,000 batches, is killed, and starts again with all of them."""
    paths = [os.path.join(server.FOLDER, f"space.{it}") for it in ("snap", "hhmlog")]
    words = ["--snapshot", paths[0], "--log", paths[1], "--workers", "8"]
    how = {"setup": ["--rows", str(1 << 32), "--cols", str(1 << 32)], "preexec_fn": in_a_small_space}
    with Served(prefix, words, **how).listens() as at:
        given = content(f"/proc/{server_of(at.process.pid)}/environ").split(b"\0")
        check("a small space: arenas", [it for it in given if it.startswith(b"MALLOC_")], [b"MALLOC_ARENA_MAX=1"])
        with server.Client(unix=at.path, client=1, attempts=1) as hhm:
            taken = 0
            with contextlib.suppress(server.Refused):
                for taken, _ in hhm.put_all(((number, [(number, number, 1)]) for number in range(1, 8_001)), 128):
                    pass
        check("a small space: batches", taken, 8_000)
        os.kill(server_of(at.process.pid), signal.SIGKILL)
        at.ends("a small space: a kill", "", "", 128 + signal.SIGKILL)
    with Served(prefix, words, **how).listens() as at:
        with server.Client(unix=at.path) as hhm:
            check("a small space: after a start", hhm.status(), (8_000, 8_000))
        at.is_told_to_end()
        at.ends("a small space: the end", "stopped batches 8000 total 8000\n", "", 0)
    for path in paths:
        os.remove(path)
    with Served(prefix, [], env={**os.environ, "MALLOC_ARENA_MAX": "4"}).listens() as at:
        told = b"MALLOC_ARENA_MAX=4" in content(f"/proc/{server_of(at.process.pid)}/environ").split(b"\0")
        check("arenas that are given", told, True)


def a_log_of_an_earlier_installation_goes_on(prefix):
    """A unit that named sum.log is installed anew and names sum.hhmlog: what was accepted after the last save is there."""
    snap, earlier, log = (os.path.join(server.FOLDER, f"before.{it}") for it in ("snap", "log", "hhmlog"))
    with Served(prefix, ["--snapshot", snap, f"--log={earlier}"]).listens() as at, at.link() as link:
        at.puts(link, 7, 5, 0, 5)
        link.sendall(b"\0\0\0\0\6")
        check("before: a save", link.recv(64)[4], 0x86)
        for client in (1, 2, 3):
            at.puts(link, client, 1, client, 5 + client)
        os.killpg(at.process.pid, signal.SIGKILL)
    said = f"hhm-run: no {log} is there; the server goes on with {earlier}\n"
    for words in [["--log", log], [f"--log={log}"]]:
        with Served(prefix, ["--snapshot", snap, *words]).listens() as at:
            check(f"{words}: what it says", at.process.stderr.readline(), said)
            at.is_told_to_end()
            at.ends(f"{words}: all four are there", "stopped batches 4 total 8\n", "", 0)
        check(f"{words}: no other log", os.path.exists(log), False)
    os.remove(earlier)
    for _ in range(2):
        with Served(prefix, ["--log", log]).listens() as at:
            at.is_told_to_end()
            at.ends("a log of its own name", "stopped batches 0 total 0\n", "", 0)
        check("that is there", os.path.exists(log), True)
        # An earlier one beside it is left alone.
        with open(earlier, "wb"):
            pass
    check("and the earlier isn't read", os.path.getsize(earlier), 0)


def statuses_are_those_of_the_program(prefix):
    """Faults before anything listens, as `hhm serve` tells them, and what the wrapper itself wants."""
    wrapper, unix = f"{prefix}/bin/hhm-run", ["--unix", os.path.join(server.FOLDER, "unused")]
    check("no number", ran(wrapper, *unix, "--rows", "x", "--cols", "3"), (2, "", "hhm: settings: BadNumber\n"))
    check("no rows", ran(wrapper, *unix)[:2], (2, ""))
    empty = os.path.join(server.FOLDER, "empty.snap")
    open(empty, "w").close()
    check("no snapshot", ran(wrapper, *unix, *SMALL, "--snapshot", empty), (3, "", "hhm: snapshot: Truncated\n"))
    check("no folder", ran(wrapper, "--unix", "/no/folder", *SMALL), (4, "", "hhm: listen failed: /no/folder\n"))
    for words in [[], ["--tcp", "127.0.0.1:0", *SMALL], ["--unix"], ["--unix="]]:
        status, output, error = ran(wrapper, *words)
        check(f"no socket, {words}", (status, output, "--unix PATH is needed" in error), (2, "", True))
    status, output, error = ran(wrapper, "--help")
    check("help", (status, "Usage: hhm-run --unix <PATH>" in output, error), (0, True, ""))


def git(*words):
    """The lines that git writes, none where this is no repository of git."""
    try:
        told = ran("git", "-C", TOP, *words)
    except FileNotFoundError:
        return []
    return told[1].splitlines() if told[0] == 0 else []


def the_repository_is_in_order():
    """Scripts can be run, nothing that Python made is kept, no two compile lines write one file, README is short."""
    names = [name for name in git("ls-files") if os.path.isfile(os.path.join(TOP, name))]
    check("what Python has made", [name for name in names if "__pycache__" in name], [])
    scripts = [name for name in names if content(os.path.join(TOP, name))[:2] == b"#!"]
    stuck = [name for name in scripts if not os.access(os.path.join(TOP, name), os.X_OK)]
    check("scripts that can't be run", stuck, [])
    for name in ["README.md", "clients/README.md"]:
        text = content(os.path.join(TOP, name)).decode()
        made = re.findall(r"^(?:rustc|cc) .* -o (\S+)$", text, re.M)
        check(f"{name}: files of compile lines", sorted(made), sorted(set(made)))
    text = re.sub(r"```.*?```", "", content(os.path.join(TOP, "README.md")).decode(), flags=re.S)
    # At 350 words a minute, which plain English allows, two minutes.
    check("README.md: words beside code", len(re.findall(r"\S*\w\S*", text)) <= 700, True)


def main():
    server.PROGRAM = os.path.abspath(sys.argv[1])
    with tempfile.TemporaryDirectory() as server.FOLDER:
        prefix = os.path.join(server.FOLDER, "prefix with a blank")
        all_files_are_there(prefix)
        it_installs_again(prefix)
        bad_words_install_nothing()
        only_what_was_built_is_installed()
        a_long_build_says_how_far_it_is()
        the_page_has_all_options(prefix)
        the_unit_is_right(os.path.join(server.FOLDER, "plain"))
        the_c_client_is_whole(prefix)
        each_signal_saves_and_stops(prefix)
        the_server_heeds_no_signal_itself(prefix)
        the_umask_decides_who_connects(prefix)
        a_second_signal_kills(prefix)
        signals_at_once_are_one(prefix)
        nobody_reads_what_it_says(prefix)
        a_worker_that_is_held_holds_the_save(prefix)
        a_refused_save_is_told(prefix)
        a_server_that_loads_is_ended_too(prefix)
        a_refused_stop_is_asked_for_again(prefix)
        bash_is_enough(prefix)
        an_answer_that_is_none_is_said(prefix)
        a_limit_of_a_file_refuses_puts(prefix)
        a_limit_of_memory_is_enough_for_a_start(prefix)
        a_log_of_an_earlier_installation_goes_on(prefix)
        statuses_are_those_of_the_program(prefix)
    the_repository_is_in_order()
    print(f"{server.passed} passed, {server.failed} failed")
    return 1 if server.failed else 0


if __name__ == "__main__":
    sys.exit(main())
