"""Measures `hhm serve --log` beside group commit in C, Redis, PostgreSQL and plain writes, in one run (bench/serve.py).

Each program keeps a record on the disk before it is answered: hhm a batch, Redis a SET with `appendfsync always`,
PostgreSQL an insert into a table with a key. The clients speak over Unix sockets: those of Redis and PostgreSQL are
their own tools, that of hhm is put_load.rs. The programs take turns, and of R rounds the medians count. Records of
Redis and PostgreSQL, and of the program in C, have as many bytes as a batch of 1,000 cells, or 300 where the batch has
one cell. What isn't installed is left out, with a line that says so.
"""
import contextlib
import os
import re
import shutil
import signal
import socket
import statistics
import struct
import subprocess
import time

from run import HERE, SIZE, build

PAGE = 4096
# Connections, puts on the way on each, and cells of a batch.
SHAPES = [(1, 1, 1), (4, 1, 1), (16, 1, 1), (1, 8, 1), (4, 8, 1), (16, 8, 1), (2, 4, 1000)]
WAIT = 60


def record_bytes(cells):
    return 300 if cells == 1 else 24 * cells


class Put:
    """What a program came to: records a second, and what else it tells."""

    def __init__(self, rate, p50=None, p99=None, group=None):
        self.rate, self.p50, self.p99, self.group = rate, p50, p99, group


def is_there(path):
    """Waits until somebody listens at a socket."""
    ends = time.monotonic() + WAIT
    while time.monotonic() < ends:
        with contextlib.suppress(OSError), socket.socket(socket.AF_UNIX) as link:
            link.connect(path)
            return True
        time.sleep(0.02)
    return False


def remove(*paths):
    for path in paths:
        with contextlib.suppress(FileNotFoundError):
            os.remove(path)


def blocks_of(path):
    """How many blocks a log has, and how many batches, by the heads of their pages."""
    blocks = batches = 0
    with open(path, "rb") as file:
        file.seek(PAGE)
        while (page := file.read(PAGE)) and (head := struct.unpack_from(">HHQII", page, 4)) and head[1] == 1:
            if head[3] == 0:
                blocks, batches = blocks + 1, batches + int.from_bytes(page[24:32], "big")
    return blocks, batches


class Hhm:
    """hhm with a log, or without one."""

    def __init__(self, program, load, folder, has_log):
        self.words, self.load, self.has_log = [program, "serve"], load, has_log
        self.name = "hhm" if has_log else "hhm, no log"
        self.socket, self.log = os.path.join(folder, "hhm.sock"), os.path.join(folder, "hhm.log")

    def put(self, connections, depth, cells, seconds):
        remove(self.socket, self.log, self.log + ".lock")
        words = [*self.words, "--unix", self.socket, "--rows", str(SIZE), "--cols", str(SIZE)]
        words += ["--workers", str(max(connections, 4)), *(["--log", self.log] if self.has_log else [])]
        with subprocess.Popen(words, stdout=subprocess.DEVNULL) as server:
            if not is_there(self.socket):
                raise SystemExit(f"{self.name} doesn't listen")
            words = [self.load, self.socket, *map(str, (connections, depth, cells, seconds))]
            done = subprocess.run(words, capture_output=True, text=True, check=True)
            server.kill()
        rate, p50, p99 = map(float, done.stdout.split())
        group = None
        if self.has_log:
            blocks, batches = blocks_of(self.log)
            group = batches / max(blocks, 1)
        remove(self.log)
        return Put(rate, p50, p99, group)


class GroupCommit:
    name = "group commit in C"

    def __init__(self, program, folder):
        self.program, self.file = program, os.path.join(folder, "group")

    def put(self, connections, depth, cells, seconds):
        words = [self.program, self.file, *map(str, (connections, depth, record_bytes(cells), seconds))]
        done = subprocess.run(words, capture_output=True, text=True, check=True)
        remove(self.file)
        rate, group = map(float, done.stdout.split())
        return Put(rate, group=group)


class Redis:
    name = "Redis, appendfsync always"

    def __init__(self, folder):
        self.folder, self.socket = os.path.join(folder, "redis"), os.path.join(folder, "redis.sock")
        # (so many requests as the last second had)
        self.rates = {}

    def put(self, connections, depth, cells, seconds):
        shutil.rmtree(self.folder, ignore_errors=True)
        os.mkdir(self.folder)
        words = ["redis-server", "--port", "0", "--unixsocket", self.socket, "--dir", self.folder, "--save", ""]
        words += ["--appendonly", "yes", "--appendfsync", "always", "--auto-aof-rewrite-percentage", "0"]
        with subprocess.Popen(words, stdout=subprocess.DEVNULL) as server:
            is_there(self.socket)
            shape = connections, depth, cells
            count = max(100, int(self.rates.get(shape, 1000) * seconds))
            done = self.ask(count, *shape)
            if shape not in self.rates:
                # The first answer says how many requests take the time.
                self.rates[shape] = done.rate
                done = self.ask(max(100, int(done.rate * seconds)), *shape)
            self.rates[shape] = done.rate
            server.terminate()
        shutil.rmtree(self.folder, ignore_errors=True)
        return done

    def ask(self, count, connections, depth, cells):
        words = ["redis-benchmark", "-s", self.socket, "-c", str(connections), "-P", str(depth), "-n", str(count)]
        words += ["-d", str(record_bytes(cells)), "-r", "100000000", "-t", "set", "--csv"]
        done = subprocess.run(words, capture_output=True, text=True, check=True)
        fields = [field.strip('"') for field in done.stdout.splitlines()[-1].split(",")]
        # test, rps, avg, min, p50, p95, p99, max: in milliseconds
        return Put(float(fields[1]), 1000 * float(fields[4]), 1000 * float(fields[6]))


class PostgreSQL:
    name = "PostgreSQL, an insert"

    def __init__(self, folder):
        self.tools = os.path.dirname(os.path.realpath(shutil.which("postgres")))
        self.folder, self.sockets = os.path.join(folder, "pg"), os.path.join(folder, "pg.sock")
        self.how = {"user": "postgres"} if os.getuid() == 0 else {}
        os.chmod(folder, 0o777)
        for path in [self.folder, self.sockets]:
            os.mkdir(path)
            if os.getuid() == 0:
                shutil.chown(path, "postgres")
        self.run("initdb", "-D", self.folder, "-A", "trust", "-U", "postgres")
        words = ["-D", self.folder, "-k", self.sockets, "-c", "listen_addresses=", "-c", "max_connections=100"]
        words += ["-c", "max_wal_size=8GB", "-c", "checkpoint_timeout=1h", "-c", "logging_collector=off"]
        self.server = subprocess.Popen([os.path.join(self.tools, "postgres"), *words], stdout=subprocess.DEVNULL,
                                       stderr=subprocess.DEVNULL, cwd="/", **self.how)
        is_there(os.path.join(self.sockets, ".s.PGSQL.5432"))
        time.sleep(0.5)

    def end(self):
        self.server.send_signal(signal.SIGINT)
        self.server.wait(WAIT)

    def run(self, tool, *words):
        words = [os.path.join(self.tools, tool), *words]
        done = subprocess.run(words, capture_output=True, text=True, cwd="/", **self.how)
        if done.returncode:
            raise SystemExit(f"{tool}: {done.stderr}")
        return done.stdout

    def put(self, connections, depth, cells, seconds):
        at = ["-h", self.sockets, "-U", "postgres"]
        size = record_bytes(cells)
        made = "drop table if exists batch; create table batch (client int, number bigserial, cells bytea, "
        self.run("psql", *at, "-qc", made + "primary key (client, number)); checkpoint;")
        script = os.path.join(self.sockets, "insert.sql")
        with open(script, "w") as file:
            # With more puts on the way than one, as many statements go together, each a transaction of its own.
            insert = f"insert into batch (client, cells) values (:client_id, decode(repeat('5a', {size}), 'hex'));\n"
            file.write(insert if depth == 1 else "\\startpipeline\n" + insert * depth + "\\endpipeline\n")
        words = ["-n", "-f", script, "-c", str(connections), "-j", str(min(connections, 4))]
        words += ["-T", str(max(1, round(seconds)))]
        told = self.run("pgbench", *at, *words, "-M", "extended" if depth > 1 else "prepared", "-d", "postgres")
        rate = float(re.search(r"tps = ([\d.]+)", told)[1]) * depth
        return Put(rate, 1000 * float(re.search(r"latency average = ([\d.]+)", told)[1]))


def syncs_of_dd(folder, is_over_zeros, count=500):
    """Writes of a page with a sync each, a second: of a growing file, or over zeros that are there."""
    path = os.path.join(folder, "dd")
    remove(path)
    if is_over_zeros:
        with open(path, "wb") as file:
            file.write(bytes(PAGE * count))
            os.fsync(file.fileno())
    words = ["dd", "if=/dev/zero", f"of={path}", f"bs={PAGE}", f"count={count}", "oflag=dsync", "conv=notrunc"]
    begin = time.perf_counter()
    subprocess.run(words, capture_output=True, check=True)
    seconds = time.perf_counter() - begin
    remove(path)
    return count / seconds


def programs(hhm, folder):
    """The programs that are there."""
    load = build("put_load.rs", folder)
    found = [Hhm(hhm, load, folder, True), Hhm(hhm, load, folder, False)]
    compiler = shutil.which("cc")
    if compiler:
        path = os.path.join(folder, "group_commit")
        source = os.path.join(HERE, "group_commit.c")
        subprocess.run([compiler, "-O2", "-pthread", "-o", path, source], check=True)
        found.append(GroupCommit(path, folder))
    else:
        print("cc is not installed: the program in C is left out")
    for words, kind in [(("redis-server", "redis-benchmark"), Redis), (("postgres", "pgbench", "initdb"), PostgreSQL)]:
        if all(map(shutil.which, words)):
            found.append(kind(folder))
        else:
            print(f"{words[0]} is not installed: it is left out")
    return found


def shape_name(connections, depth, cells):
    return f"{connections} with {depth}" + ("" if cells == 1 else f", {cells:,} cells")


def print_tables(rounds, plain):
    """The rates, and hhm's as parts of the others'."""
    rates = {name: {shape: statistics.median(it.rate for it in found[shape]) for shape in SHAPES}
             for name, found in rounds.items()}  # fmt: skip
    print("\nRecords a second; columns are connections and records on the way on each\n")
    print(f"| | {' | '.join(shape_name(*shape) for shape in SHAPES)} |\n|---{'|---' * len(SHAPES)}|")
    for name, found in rates.items():
        print(f"| {name} | {' | '.join(f'{found[shape]:,.0f}' for shape in SHAPES)} |")
    for name, found in rates.items():
        if name != "hhm":
            parts = [rates["hhm"][shape] / found[shape] for shape in SHAPES]
            print(f"| hhm as a part of {name} | {' | '.join(f'{part:.2f}' for part in parts)} |")
    groups = [statistics.median(it.group for it in rounds["hhm"][shape]) for shape in SHAPES]
    print(f"| batches of a sync of hhm | {' | '.join(f'{group:.1f}' for group in groups)} |")
    for part in ("p50", "p99"):
        times = [statistics.median(getattr(it, part) for it in rounds["hhm"][shape]) for shape in SHAPES]
        print(f"| a put of hhm, microseconds at {part} | {' | '.join(f'{time:,.0f}' for time in times)} |")
    for name, found in plain.items():
        print(f"\n{name}: {statistics.median(found):,.0f} a second", end="")
    print(f"\nload {' '.join(f'{it:.1f}' for it in os.getloadavg())}", flush=True)


def measure_logs(arguments, folder):
    """Measures all programs in all shapes, in turns, and prints the tables."""
    found = programs(arguments.hhm, folder)
    rounds = {program.name: {shape: [] for shape in SHAPES} for program in found}
    plain = {"dd with syncs, growing": [], "dd with syncs, over zeros": []}
    print(f"load {' '.join(f'{it:.1f}' for it in os.getloadavg())}")
    for _ in range(arguments.repeat):
        for name, results in plain.items():
            results.append(syncs_of_dd(folder, "zeros" in name))
        for shape in SHAPES:
            for program in found:
                rounds[program.name][shape].append(program.put(*shape, arguments.seconds))
    for program in found:
        if isinstance(program, PostgreSQL):
            program.end()
    print_tables(rounds, plain)
    return True
