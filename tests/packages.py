#!/usr/bin/env python3
"""Installs the clients as their languages' own tools do, without a network, and asks the built program by them.

    python3 tests/packages.py PATH-TO-HHM

Each is built in a folder of its own and serves the example of its language, whose output was worked out by hand
(clients.py). A tool that isn't installed leaves a line which says that its client wasn't tried. It prints a line for
each check that fails and at the end `N passed, M failed`; the status is 1 where one fails.
"""
import base64
import hashlib
import os
import shutil
import subprocess
import sys
import tarfile
import zipfile

import server
from clients import CLIENTS, EXAMPLE
from server import SMALL, Server, check

WAIT = 120
WHEEL = "hhm_client-0.1.0-py3-none-any.whl"


def run(words, **how):
    """Both outputs of a program, and its status."""
    ended = subprocess.run(words, capture_output=True, text=True, timeout=WAIT, **how)
    return ended.stdout, ended.stderr, ended.returncode


def copied(language):
    """A copy of a client's folder, in which tools may write."""
    folder = os.path.join(server.FOLDER, language)
    shutil.copytree(os.path.join(CLIENTS, language), folder, ignore=shutil.ignore_patterns("__pycache__", "build"))
    return folder


def lacks(what, *tools):
    missing = [tool for tool in tools if shutil.which(tool) is None]
    if missing:
        print(f"not tried: {what}: there is no {missing[0]}")
    return bool(missing)


def writes_the_example(name, program):
    """A program that makes every call once, on a new server of three rows and columns."""
    with Server([*SMALL, "--snapshot", os.path.join(server.FOLDER, f"{name}.snap")], tcp=False) as at:
        check(f"{name}: the example", run([program, "--unix", at.path]), (EXAMPLE, "", 0))


def wheel_is_whole():
    """The wheel has each module beside the client, a sum of each file, and the same bytes twice; the sdist has all."""
    folder, script = copied("python"), os.path.join("packaging", "wheel_backend.py")
    contents = []
    for name in ["one", "two"]:
        out = os.path.join(server.FOLDER, name)
        os.mkdir(out)
        made = run([sys.executable, script, out], cwd=folder)
        check("wheel", made, (f"{WHEEL}\n", "", 0))
        with open(os.path.join(out, WHEEL), "rb") as file:
            contents.append(file.read())
    check("wheel: the same bytes", contents[0] == contents[1], True)
    modules = {name for name in os.listdir(folder) if name.startswith("hhm_")}
    with zipfile.ZipFile(os.path.join(server.FOLDER, "one", WHEEL)) as wheel:
        names = {name for name in wheel.namelist() if "/" not in name}
        check("wheel: modules", names, modules)
        for line in wheel.read("hhm_client-0.1.0.dist-info/RECORD").decode().splitlines()[:-1]:
            name, sum_, length = line.split(",")
            data = wheel.read(name)
            digest = base64.urlsafe_b64encode(hashlib.sha256(data).digest()).decode().rstrip("=")
            check(f"wheel: {name}", (f"sha256={digest}", str(len(data))), (sum_, length))
    script = "import sys, wheel_backend as it; print(it.build_sdist(sys.argv[1]))"
    made = run([sys.executable, "-c", script, server.FOLDER],
               env={**os.environ, "PYTHONPATH": os.path.join(folder, "packaging")})
    check("sdist", made, ("hhm_client-0.1.0.tar.gz\n", "", 0))
    with tarfile.open(os.path.join(server.FOLDER, "hhm_client-0.1.0.tar.gz")) as sources:
        names = {os.path.basename(name) for name in sources.getnames()}
    check("sdist: files", names, modules | {"pyproject.toml", "wheel_backend.py"})
    shutil.rmtree(folder)


def by_pip():
    """`pip install ./clients/python` gives the module and the command `hhmc`."""
    if run([sys.executable, "-c", "import ensurepip, venv"])[2] != 0:
        print("not tried: pip install: there is no pip or venv for this Python")
        return
    own = os.path.join(server.FOLDER, "venv")
    made = run([sys.executable, "-m", "venv", own])
    check("pip: a place of its own", made[2], 0)
    # Without index and cache pip has what it has without a network; this machine's packages aren't seen.
    words = ["install", "--quiet", "--disable-pip-version-check", "--no-index", "--no-cache-dir", copied("python")]
    check("pip install", run([os.path.join(own, "bin", "pip"), *words])[1:], ("", 0))
    hhmc = os.path.join(own, "bin", "hhmc")
    events = os.path.join(server.FOLDER, "events.pairs")
    with open(events, "w") as file:
        file.write("0 1\n2 2\n0 1\n")
    modules = "import hhm_ask, hhm_cells, hhm_client, hhm_load, hhm_metrics, hhm_plot, hhm_sheet, hhm_watch"
    check("the modules", run([os.path.join(own, "bin", "python"), "-c", modules], cwd=server.FOLDER), ("", "", 0))
    module = [os.path.join(own, "bin", "python"), "-m", "hhm_client"]
    helps = [run([*it, "--help"], cwd=server.FOLDER) for it in ([hhmc], module)]
    check("python -m hhm_client", (helps[0] == helps[1], helps[1][1:]), (True, ("", 0)))
    told, error, status = run([hhmc, "--version"])
    check("hhmc --version", (told.splitlines()[0], error, status), ("hhmc 0.1.0", "", 0))
    with Server(SMALL, tcp=False) as at:
        status = run([*module, "--unix", at.path, "status"])
        check("python -m hhm_client status", status, ("batches 0 total 0\n", "", 0))
        load = run([hhmc, "--unix", at.path, "load", "--state", events + ".state", "7", events])
        check("hhmc load", load, ("new 1 repeats 0 events 3\n", "", 0))
        check("hhmc cell", run([hhmc, "--unix", at.path, "cell", "0", "1"]), ("2\n", "", 0))
        check("hhmc stop", run([hhmc, "--unix", at.path, "stop"]), ("stopping\n", "", 0))
        check("the server ends", at.process.wait(timeout=WAIT), 0)


def by_cargo():
    """A program with `hhm_client = { path = .. }` among what it stands on, and the examples."""
    if lacks("the package of Rust", "cargo", "rustc"):
        return
    folder = copied("rust")
    built = run(["cargo", "build", "--offline", "--quiet", "--examples"], cwd=folder)
    check("cargo build", (built[1], built[2]), ("", 0))
    writes_the_example("cargo", os.path.join(folder, "target", "debug", "examples", "example"))
    program = os.path.join(server.FOLDER, "asks")
    os.makedirs(os.path.join(program, "src"))
    with open(os.path.join(program, "Cargo.toml"), "w") as file:
        file.write('[package]\nname = "asks"\nversion = "0.1.0"\nedition = "2021"\n\n[dependencies]\n'
                   f'hhm_client = {{ path = "{folder}" }}\n')
    with open(os.path.join(program, "src", "main.rs"), "w") as file:
        file.write('fn main() {\n    let path = std::env::args().nth(1).unwrap();\n'
                   '    let mut hhm = hhm_client::Client::unix(path, 7);\n'
                   '    println!("{}", hhm.status().unwrap().batches);\n}\n')
    with Server(SMALL, tcp=False) as at:
        check("cargo run", run(["cargo", "run", "--offline", "--quiet", "--", at.path], cwd=program), ("0\n", "", 0))


def by_make():
    """`make -C clients/c install`, and a program by what pkg-config says."""
    if lacks("the library of C", "make", "cc", "ar", "pkg-config"):
        return
    folder, prefix = copied("c"), os.path.join(server.FOLDER, "prefix")
    built = run(["make", "-C", folder, "install", f"PREFIX={prefix}"])
    check("make install", (built[1], built[2]), ("", 0))
    paths = {**os.environ, "PKG_CONFIG_PATH": os.path.join(prefix, "lib", "pkgconfig")}
    flags, _, status = run(["pkg-config", "--cflags", "--libs", "hhm_client"], env=paths)
    check("pkg-config", status, 0)
    source, program = os.path.join(server.FOLDER, "example.c"), os.path.join(server.FOLDER, "example")
    shutil.copy(os.path.join(folder, "example.c"), source)
    check("cc", run(["cc", source, *flags.split(), "-o", program]), ("", "", 0))
    writes_the_example("make", program)


def all_are_tried():
    wheel_is_whole()
    by_pip()
    by_cargo()
    by_make()


if __name__ == "__main__":
    sys.exit(server.run_all(all_are_tried))
