#!/usr/bin/env python3
"""Backs a server's files up by `hhmc backup` while it runs, and runs the commands of docs/OPERATING.md on backups.

    python3 tests/backups.py PATH-TO-HHM

Each backup must have all that was answered before it began. The commands are run as they are written, but for folders,
which are those of the test, and for programs that change a machine (systemctl, apt, scp, ssh, chown), which the test
has its own of. It prints a line for each check that fails and at the end `N passed, M failed`; the status is 1 where
one fails. Linux, and nothing but Python's own library and the clients of clients/python.
"""
import fcntl
import os
import re
import resource
import signal
import subprocess
import sys
import threading
import time

import server
import hhm_backup
from peers import until
from server import Server, check

TOP = os.path.dirname(server.HERE)
HHMC = os.path.join(TOP, "clients", "python", "hhm_client.py")
WAIT = 60
LARGE = ["--rows", "4294967296", "--cols", "4294967296"]
NAME = re.compile(r"\d{8}T\d{6}Z")


def ran(*words, **how):
    """What a command writes to both outputs, and its status."""
    ended = subprocess.run(words, capture_output=True, text=True, timeout=WAIT, **how)
    return ended.stdout, ended.stderr, ended.returncode


def written(path, text, mode=0o644):
    with open(path, "w") as file:
        file.write(text)
    os.chmod(path, mode)
    return path


class Files:
    """A server's two files, and a folder of backups beside them."""

    def __init__(self, name):
        self.folder = os.path.join(server.FOLDER, name)
        os.mkdir(self.folder)
        self.snap, self.log, self.backups = (os.path.join(self.folder, it) for it in ("sum.snap", "sum.hhmlog", "backups"))
        os.mkdir(self.backups)
        self.words = [*LARGE, "--snapshot", self.snap, "--log", self.log]

    def serve(self, *more):
        return Server([*self.words, *more], tcp=False)

    def backup(self, *more, program=None, **how):
        words = [sys.executable, HHMC, "backup", self.backups, self.snap, self.log]
        return ran(*words, "--program", program or server.PROGRAM, *more, **how)

    def kept(self):
        """The names in the folder of backups, in order."""
        return sorted(os.listdir(self.backups))


def counted(line):
    """The folder, the batches and the total that a backup prints."""
    found = re.fullmatch(r"backup (\S+) batches (\d+) total (\d+)\n", line)
    return (found[1], int(found[2]), int(found[3])) if found else (None, -1, -1)


class Feeder(threading.Thread):
    """Puts batches of 50 cells each, a hundred at a time, and where it is told so saves now and then; until its end."""

    def __init__(self, at, saves):
        super().__init__()
        self.at, self.saves, self.accepted, self.is_over = at, saves, 0, False

    def run(self):
        with self.at.client(1) as hhm:
            while not self.is_over:
                first = self.accepted
                for number, _ in hhm.put_all(((n, [(n, n, 1)] * 50) for n in range(first, first + 100)), depth=64):
                    self.accepted = number + 1
                if self.saves and first % 2000 == 0:
                    hhm.save()


def backups_beside_puts_have_all(name, *words, saves=True):
    """Backups of a server that takes batches, and saves: each has what was answered before, and starts a server."""
    files = Files(name)
    with files.serve(*words) as at, at.client(2) as other:
        feeder = Feeder(at, saves)
        feeder.start()
        try:
            for turn in range(4):
                # (so that a save comes between any two, by the second look at the log's length at the latest)
                saved = until(lambda: other.stats()["saves_total"] >= turn, True)
                before = feeder.accepted
                output, error, status = files.backup("--keep", "3")
                folder, batches, total = counted(output)
                found = saved, error, status, batches >= before, total
                check(f"{name}: beside puts", found, (True, "", 0, True, 50 * batches))
        finally:
            feeder.is_over = True
            feeder.join()
        check(f"{name}: something was put", feeder.accepted > 100, True)
    check(f"{name}: three are kept", [len(files.kept()), f"{files.backups}/{files.kept()[-1]}"], [3, folder])
    check(f"{name}: their names", [it for it in files.kept() if not NAME.fullmatch(it)], [])
    again = Files(f"{name}-again")
    again.words = [*LARGE, "--snapshot", f"{folder}/sum.snap", "--log", f"{folder}/sum.hhmlog"]
    with again.serve() as at, at.client(1) as hhm:
        check(f"{name}: a server from the last", hhm.status(), (batches, total))
        first = hhm.put(before - 1, [(before - 1, before - 1, 1)] * 50)
        check(f"{name}: what was answered before it is known", first, (before - 1, 50 * before))


def the_end_of_a_file_is_read_first():
    """A copy has the bytes that were there, whatever its end and its pieces; and what comes meanwhile isn't in it."""
    source, target = (os.path.join(server.FOLDER, it) for it in ("source", "target"))
    had = hhm_backup.TAIL, hhm_backup.PIECE
    hhm_backup.TAIL, hhm_backup.PIECE = 100, 7
    for size in (0, 1, 99, 100, 101, 107, 300):
        content = bytes(range(256))[:size] + bytes(max(0, size - 256))
        with open(source, "wb") as file:
            file.write(content)
        hhm_backup.copy_file(source, target)
        check(f"a copy of {size} bytes", server.content(target) == content, True)
    hhm_backup.TAIL, hhm_backup.PIECE = had


def a_copy_is_made_again(files):
    """A copy whose check fails is made again, up to ten times; then what was there stays, and nothing else."""
    tries = os.path.join(files.folder, "tries")
    script = (f"#!/bin/sh\necho >>{tries}\n[ $(wc -l <{tries}) -gt FAILS ] && exec {server.PROGRAM} \"$@\"\n"
              "echo 'hhm: log: Damaged at page 7' >&2\nexit 3\n")
    program = os.path.join(files.folder, "fails")
    for fails, is_made in [(9, True), (10, False)]:
        written(tries, "")
        before = files.kept()
        output, error, status = files.backup(program=written(program, script.replace("FAILS", str(fails)), 0o755))
        with open(tries) as file:
            check(f"{fails} checks fail: checks", len(file.readlines()), 10)
        if is_made:
            check("nine checks fail", (counted(output)[1:], error, status), ((2, 12), "", 0))
            continue
        told = f"{files.snap}, {files.log}: hhm: log: Damaged at page 7, in each of 10 copies: no backup was made\n"
        check("ten checks fail", (output, error, status), ("", told, 3))
        check("ten checks fail: what stays", files.kept(), before)


def what_fails_leaves_the_last_backup(files):
    """A disk without room, a log that isn't there, a check that can't run, a second backup, one that is killed."""
    before = files.kept()
    limited = {"preexec_fn": lambda: resource.setrlimit(resource.RLIMIT_FSIZE, (1000, 1000))}
    output, error, status = files.backup(**limited)
    check("no room", (output, "File too large" in error, status), ("", True, 4))
    log, files.log = files.log, f"{files.folder}/none"
    check("no log", files.backup(), ("", f"failed: {files.log}: No such file or directory\n", 4))
    files.log = log
    snap, files.snap = files.snap, f"{files.folder}/none"
    check("no snapshot", files.backup(), ("", f"failed: {files.snap}: No such file or directory\n", 4))
    files.snap = "-"
    # (the save that began the log had one batch)
    told = f"{files.log}: hhm: log: Gap at batch 1, in each of 10 copies: no backup was made\n"
    check("without the snapshot that goes with the log", files.backup(), ("", told, 3))
    files.snap = snap
    told = "/nothing, which checks the copy, can't be run: give --program FILE\n"
    check("no program", files.backup(program="/nothing"), ("", told, 4))
    check("one name", ran(sys.executable, HHMC, "backup", files.backups, files.log, files.log)[2], 2)
    for words in [["--keep", "0"], ["--keep", "x"]]:
        check(f"{words}", files.backup(*words)[2], 2)
    check("a server", ran(sys.executable, HHMC, "--unix", "x", "backup", files.backups, files.snap, files.log)[2], 2)
    held = os.open(files.backups, os.O_RDONLY)
    fcntl.flock(held, fcntl.LOCK_EX)
    check("a second one", files.backup(), ("", f"{files.backups}: another backup is being made there\n", 4))
    os.close(held)
    check("what fails leaves nothing", files.kept(), before)
    waits = written(os.path.join(files.folder, "waits"), "#!/bin/sh\nexec sleep 60\n", 0o755)
    words = [sys.executable, HHMC, "backup", files.backups, files.snap, files.log, "--program", waits]
    with subprocess.Popen(words, start_new_session=True) as process:
        while process.poll() is None and len(os.listdir(files.backups)) == len(before):
            time.sleep(0.01)
        os.killpg(process.pid, signal.SIGKILL)
    check("killed: what it leaves", len(files.kept()), len(before) + 1)
    check("killed: the next", counted(files.backup("--keep", "1")[0])[1], 2)
    check("killed: what is left", [bool(NAME.fullmatch(it)) for it in files.kept()], [True])


def files_are_copied_as_they_are(files):
    [name] = files.kept()
    for path in (files.snap, files.log):
        copy = os.path.join(files.backups, name, os.path.basename(path))
        check("the copy", server.content(copy) == server.content(path), True)
        check("the copy: mode", oct(os.stat(copy).st_mode), oct(os.stat(path).st_mode))


def backups_of_few_batches():
    """Of a server without a snapshot yet, with one, and of files at rest."""
    files = Files("few")
    with files.serve() as at:
        with at.client(1) as hhm:
            hhm.put(1, [(0, 0, 5)])
            check("no save yet", counted(files.backup()[0])[1:], (1, 5))
            copied = sorted(os.listdir(os.path.join(files.backups, files.kept()[0])))
            check("no save yet: what is copied", copied, ["sum.hhmlog", "sum.snap"])
            hhm.save()
            hhm.put(2, [(1, 0, 7)])
        os.chmod(files.snap, 0o640)
        check("two backups stay", [counted(files.backup()[0])[1:] for _ in range(2)], [(2, 12)] * 2)
        check("two backups stay: the folder", len(files.kept()), 2)
    a_log_alone_is_copied()
    a_copy_is_made_again(files)
    what_fails_leaves_the_last_backup(files)
    files_are_copied_as_they_are(files)


def a_log_alone_is_copied():
    """Of a server without a path for snapshots, by `-` in its place."""
    files = Files("alone")
    files.words, files.snap = [*LARGE, "--log", files.log], "-"
    with files.serve() as at, at.client(1) as hhm:
        hhm.put(1, [(0, 0, 5)])
        output, error, status = files.backup()
        check("a log alone", (counted(output)[1:], error, status), ((1, 5), "", 0))
    check("a log alone: what is copied", os.listdir(os.path.join(files.backups, files.kept()[0])), ["sum.hhmlog"])


# The commands of docs/OPERATING.md.

# What stands for the programs that change a machine. The server is that of the unit, at the test's own socket.
STUBS = """\
systemctl() {
    echo "systemctl $*" >>ROOT/asked
    case $1 in
    start | enable)
        hhm serve --unix ROOT/hhm.sock OPTIONS >>ROOT/said 2>&1 &
        while [ ! -S ROOT/hhm.sock ] && kill -0 $!; do sleep 0.02; done
        ;;
    stop | disable)
        [ ! -S ROOT/hhm.sock ] || hhmc --unix ROOT/hhm.sock stop >/dev/null
        while [ -S ROOT/hhm.sock ]; do sleep 0.02; done
        ;;
    esac
}
apt() { echo "apt $*" >>ROOT/asked; systemctl stop hhm; systemctl start hhm; }
scp() { cp "${@:1:$#-1}" "OTHER${!##root@new:}"; }
ssh() {
    local here=ROOT there=OTHER
    shift
    "${@/#$here/$there}"
}
chown() { echo "chown $*" >>ROOT/asked; }
"""


class Machine:
    """A folder that stands for a machine, and commands that are run there. `other` is the one that they call new."""

    def __init__(self, name, other=None):
        self.root = os.path.join(server.FOLDER, name)
        for folder in ("var/lib/hhm", "etc/default", "mnt", "bin"):
            os.makedirs(os.path.join(self.root, folder))
        os.symlink(server.PROGRAM, os.path.join(self.root, "bin", "hhm"))
        os.symlink(HHMC, os.path.join(self.root, "bin", "hhmc"))
        written(os.path.join(self.root, "etc/default/hhm"), 'HHM_OPTIONS=""\n')
        with open(os.path.join(TOP, "tools", "hhm.service")) as file:
            unit = file.read().replace("\\\n", " ")
        words = [re.search(rf" ({option} \S+)", unit)[1] for option in ("--snapshot", "--log")]
        stubs = STUBS.replace("OPTIONS", self.placed(" ".join([*words, *LARGE])))
        self.stubs = stubs.replace("ROOT", self.root).replace("OTHER", other.root if other else "")

    def placed(self, text):
        """Text with the folders of this machine."""
        text = re.sub(r"(?<![\w.:])/(?=(?:var/lib|etc/default|mnt)\b)", f"{self.root}/", text)
        return text.replace("/usr/local/bin/", "")

    def run(self, commands):
        """Runs commands, and gives what they write and their status."""
        env = {**os.environ, "PATH": f"{self.root}/bin:{os.environ['PATH']}", "HHM_SERVER": ""}
        output, error = os.path.join(self.root, "output"), os.path.join(self.root, "error")
        with open(output, "w") as out, open(error, "w") as err:
            words = ["bash", "-c", self.stubs + self.placed(commands)]
            ended = subprocess.run(words, stdout=out, stderr=err, env=env, timeout=WAIT)
        return server.content(output).decode(), server.content(error).decode(), ended.returncode

    def asked(self):
        """What the programs that change a machine were asked since the last time."""
        with open(os.path.join(self.root, "asked"), "r+") as file:
            lines = file.read().splitlines()
            file.truncate(0)
        return lines

    def client(self, number):
        return server.Client(unix=os.path.join(self.root, "hhm.sock"), client=number, attempts=1)


def section(title):
    """The blocks of a section of docs/OPERATING.md."""
    with open(os.path.join(TOP, "docs", "OPERATING.md")) as file:
        text = file.read().split(f"\n## {title}\n")[1].split("\n## ")[0]
    return re.findall(r"^```\n(.*?)^```$", text, re.M | re.S)


def commands_of_operating():
    """A backup, one by cron, a restore of a damaged log, an upgrade, and a move to another machine."""
    backup, cron, restore, upgrade, move, there = section("Backup, restore, upgrade, another machine")
    new = Machine("new")
    old = Machine("old", new)
    old.run("systemctl start hhm")
    with old.client(7) as hhm:
        hhm.put(1, [(0, 0, 5)])
        hhm.save()
        hhm.put(2, [(1, 0, 7)])
    output, error, status = old.run(backup)
    check("backup", (counted(output)[1:], error, status), ((2, 12), "", 0))
    time_, command = re.fullmatch(r"((?:\S+ ){5})(.*)\n", cron).groups()
    output, error, status = old.run(command)
    check("backup by cron", (time_, counted(output)[1:], error, status), ("30 3 * * * ", (2, 12), "", 0))
    with old.client(7) as hhm:
        hhm.put(3, [(2, 0, 9)])
    old.run("systemctl stop hhm")
    damaged(os.path.join(old.root, "var/lib/hhm"))
    old.asked()
    output, error, status = old.run(restore)
    check("restore", (output.split()[6:10], error, status), (["batches", "2", "total", "12"], "", 0))
    check("restore: asked", old.asked(), ["systemctl stop hhm", "systemctl start hhm"])
    with old.client(7) as hhm:
        check("restore: a batch is known", hhm.put(2, [(1, 0, 7)]), (1, 12))
        check("restore: one is put again", hhm.put(3, [(2, 0, 9)]), (2, 21))
    output, error, status = old.run(upgrade)
    check("upgrade", (counted(output.splitlines(True)[0])[1:], error, status), ((3, 21), "", 0))
    wanted = ["apt install ./hhm_0.1.0_amd64.deb", "systemctl stop hhm", "systemctl start hhm"]
    check("upgrade: asked", old.asked(), wanted)
    check("move", old.run(move), ("", "", 0))
    output, error, status = new.run(there)
    check("move: there", (output.split()[6:10], error, status), (["batches", "3", "total", "21"], "", 0))
    check("move: asked", [*old.asked(), *new.asked()],
          ["systemctl disable --now hhm", f"chown -R hhm:hhm {new.root}/var/lib/hhm", "systemctl enable --now hhm"])
    with new.client(7) as hhm:
        check("move: the book", (hhm.status(), hhm.put(2, [(1, 0, 7)])), ((3, 21), (1, 12)))
    new.run("systemctl stop hhm")


def damaged(folder):
    """Changes a byte of the snapshot: a server doesn't start from it."""
    path = os.path.join(folder, "sum.snap")
    with open(path, "r+b") as file:
        file.seek(-1, os.SEEK_END)
        last = file.read(1)[0]
        file.seek(-1, os.SEEK_END)
        file.write(bytes([last ^ 1]))
    check("damaged", ran(server.PROGRAM, "check", path)[1:], ("hhm: snapshot: BadCheck\n", 3))


def contents_lead_to_sections():
    """The table of contents has each section, and the first one is short."""
    with open(os.path.join(TOP, "docs", "OPERATING.md")) as file:
        text = file.read()
    titles = re.findall(r"^## (.*)$", text, re.M)
    wanted = [(it, re.sub(r"[^\w -]", "", it.lower()).replace(" ", "-")) for it in titles]
    check("contents", re.findall(r"^- \[(.*)\]\(#(.*)\)$", text.partition("\n## ")[0], re.M), wanted)
    first, *lines = text.split("\n## ")[1].split("\n")
    check("before you rely on it", (first, len([it for it in lines if it]) <= 10), ("Before you rely on it", True))


def all_are_tried():
    contents_lead_to_sections()
    backups_of_few_batches()
    backups_beside_puts_have_all("saved-by-a-client", "--save-log-above", "0")
    backups_beside_puts_have_all("saves-by-itself", "--save-log-above", "200000", saves=False)
    the_end_of_a_file_is_read_first()
    commands_of_operating()


if __name__ == "__main__":
    sys.exit(server.run_all(all_are_tried))
