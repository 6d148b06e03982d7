#!/usr/bin/env python3
"""Packs the built program by tools/package.sh, and tries what a package has without a toolchain.

    python3 tests/distribution.py PATH-TO-HHM

It looks at the files of the tarball and of the Debian package, and runs README.md's tour from both. What is wanted
comes from what the repository has, from the texts of `--help`, and from README.md. It prints a line for each check that
fails and at the end `N passed, M failed`; the status is 1 where one fails. Where a tool isn't there (dpkg-deb,
systemd-analyze, groff, objdump, git, zsh, fish, a compiler), a line says so and its part isn't tried.
"""
import functools
import hashlib
import json
import os
import re
import shutil
import stat
import sys
import tempfile

import install
import server
from install import FILES, TOP, content, files_below
from server import SMALL, Server, check

ran = functools.partial(install.ran, timeout=300)
# The version of the clients, which is the program's (`versions_are_one`).
VERSION = re.search(r'^version = "(.*)"$', content(f"{TOP}/clients/python/pyproject.toml").decode(), re.M)[1]
NAME = f"hhm-{VERSION}-unproved-x86_64-linux"
DEB = f"hhm_{VERSION}~unproved_amd64.deb"
WHEEL = f"share/hhm/hhm_client-{VERSION}-py3-none-any.whl"
COMMANDS = {"hhm": "sum check export fold top list degrees serve".split(),
            "hhmc": "put load plot top list stats watch metrics cell row status stored export save fold stop backup".split()}
# The files of the tree that the Debian package has elsewhere, below /usr.
MOVED = {**{f"share/man/man1/{it}.1": f"share/man/man1/{it}.1.gz" for it in ("hhm", "hhmc", "hhm-run")},
         **{f"share/zsh/site-functions/_{it}": f"share/zsh/vendor-completions/_{it}" for it in COMMANDS}}
OF_DEBIAN = ["etc/default/hhm", "usr/share/lintian/overrides/hhm", "usr/share/doc/hhm/copyright",
             "usr/share/doc/hhm/changelog.gz"]


def lacks(tool, what):
    if shutil.which(tool):
        return False
    print(f"not tried: {what}: there is no {tool}")
    return True


def package(*words, top=TOP, **how):
    return ran(os.path.join(top, "tools", "package.sh"), *words, **how)


def mode_of(path):
    return stat.S_IMODE(os.lstat(path).st_mode)


def beside(prefix):
    """An environment whose commands are first those below a prefix."""
    return {**os.environ, "PATH": f"{prefix}/bin:{os.environ['PATH']}", "HHM_SERVER": ""}


class Made:
    """What is packed, and unpacked."""

    def __init__(self, folder):
        self.folder = folder
        self.has_deb = not lacks("dpkg-deb", "the Debian package")
        self.files = [f"{NAME}.tar.gz", *([DEB] if self.has_deb else [])]
        self.outs = [os.path.join(folder, it) for it in ("one", "two")]
        self.tree = os.path.join(folder, NAME)
        self.deb = os.path.join(folder, "deb")
        self.control = os.path.join(folder, "control")

    def pack(self):
        words = ["--unproved", "--program", server.PROGRAM, *([] if self.has_deb else ["--no-deb"])]
        for out in self.outs:
            status, output, error = package(*words, out)
            check("package", (status, error), (0, ""))
            check("package: its lines", output.splitlines(), [f"{out}/{it}" for it in [*self.files, "SHA256SUMS"]])

    def unpack(self):
        check("tar", ran("tar", "-xzf", os.path.join(self.outs[0], f"{NAME}.tar.gz"), "-C", self.folder)[0], 0)
        if self.has_deb:
            for words in [("-x", self.deb), ("-e", self.control)]:
                check("dpkg-deb", ran("dpkg-deb", words[0], os.path.join(self.outs[0], DEB), words[1])[0], 0)

    def bytes_are_the_same_twice(self):
        for name in [*self.files, "SHA256SUMS"]:
            one, two = (content(os.path.join(out, name)) for out in self.outs)
            check(f"{name}: the same bytes twice", one == two, True)
        sums = [f"{hashlib.sha256(content(os.path.join(self.outs[0], it))).hexdigest()}  {it}" for it in self.files]
        check("SHA256SUMS", content(os.path.join(self.outs[0], "SHA256SUMS")).decode().splitlines(), sums)


def tarball_has_its_files(made):
    own = {"install.sh": 0o755, "Dockerfile": 0o644, WHEEL: 0o644}
    tree = {name: mode for name, (mode, _) in FILES.items() if name != "share/hhm/FILES"}
    check("tarball: files", files_below(made.tree), {*tree, *own, "README.md", "BUILD"})
    for name, mode in {**tree, **own}.items():
        path = os.path.join(made.tree, name)
        check(f"tarball: mode of {name}", oct(stat.S_IMODE(os.stat(path).st_mode)), oct(mode))
    for name in ["README.md", "BUILD", "share/doc/hhm/BUILD", "bin/hhmc"]:
        check(f"tarball: {name} leads to a file", os.path.isfile(os.path.join(made.tree, name)), True)
    check("tarball: the program", content(f"{made.tree}/bin/hhm") == content(server.PROGRAM), True)


def build_says_what_it_is(made):
    """BUILD claims no proof of an unproved program, and has the sum of the program."""
    lines = content(f"{made.tree}/BUILD").decode().splitlines()
    _, version, _ = ran(server.PROGRAM, "--version")
    check("BUILD: version", lines[0], version.strip())
    check("BUILD: proved", [it for it in lines if it.startswith("proved:")], ["proved: no"])
    sum_ = hashlib.sha256(content(server.PROGRAM)).hexdigest()
    check("BUILD: sum", [it for it in lines if it.startswith("program:")], [f"program: sha256 {sum_}"])


def deb_has_its_files(made):
    wanted = {f"usr/{MOVED.get(it, it)}" for it in [*FILES, WHEEL] if it != "share/hhm/FILES"} | set(OF_DEBIAN)
    check("deb: files", files_below(made.deb), wanted)
    programs = {"hhm", "hhm-run"}
    for at, folders, names in os.walk(made.deb):
        check(f"deb: mode of {at}", oct(mode_of(at)), "0o755")
        wrong = [it for it in names if not os.path.islink(f"{at}/{it}") and mode_of(f"{at}/{it}") not in (0o644, 0o755)]
        check(f"deb: modes in {at}", wrong, [])
    runs = {it for it in os.listdir(f"{made.deb}/usr/bin") if mode_of(f"{made.deb}/usr/bin/{it}") == 0o755}
    check("deb: programs", programs <= runs, True)
    owners = {line.split()[1] for line in ran("dpkg-deb", "-c", os.path.join(made.outs[0], DEB))[1].splitlines()}
    check("deb: owners", owners, {"root/root"})


def deb_has_its_control(made):
    fields = dict(it.split(": ", 1) for it in content(f"{made.control}/control").decode().splitlines() if ": " in it)
    told = {it: fields.get(it) for it in ("Package", "Version", "Architecture")}
    check("deb: control", told, {"Package": "hhm", "Version": f"{VERSION}~unproved", "Architecture": "amd64"})
    check("deb: it says that it isn't proved", b"WITHOUT PROOFS" in content(f"{made.control}/control"), True)
    check("deb: conffiles", content(f"{made.control}/conffiles"), b"/etc/default/hhm\n")
    for name in ["postinst", "prerm", "postrm"]:
        path = f"{made.control}/{name}"
        check(f"deb: {name}", (oct(mode_of(path)), ran("sh", "-n", path)), ("0o755", (0, "", "")))
    for line in content(f"{made.control}/md5sums").decode().splitlines():
        sum_, name = line.split("  ", 1)
        check(f"deb: md5 of {name}", hashlib.md5(content(f"{made.deb}/{name}")).hexdigest(), sum_)


def unit_is_right(made):
    """It starts what is installed, and the conffile and the unit have the same options."""
    unit = content(f"{made.deb}/usr/lib/systemd/system/hhm.service").decode()
    check("unit: no path of another prefix", "/usr/local" in unit, False)
    program = re.search(r"^ExecStart=(\S+)", unit, re.M)[1]
    check("unit: its program", os.access(f"{made.deb}{program}", os.X_OK), True)
    options = re.search(r'^Environment="HHM_OPTIONS=(.*)"$', unit.replace("\\\n", ""), re.M)[1].split()
    default = re.search(r'^HHM_OPTIONS="(.*)"$', content(f"{made.deb}/etc/default/hhm").decode(), re.M)[1].split()
    check("unit: the conffile", default, options)
    if lacks("systemd-analyze", "the unit by systemd"):
        return
    path = os.path.join(made.folder, "hhm.service")
    with open(path, "w") as file:
        file.write(unit.replace(program, f"{made.deb}{program}"))
    status, output, error = ran("systemd-analyze", "verify", "--man=no", path)
    check("systemd-analyze verify", (status, [it for it in (output + error).splitlines() if "hhm" in it]), (0, []))


def image_is_of_the_tarball_alone(made):
    """Each path that the Dockerfile copies is in the tarball, and what it starts has these options."""
    text = re.sub(r"^#.*\n", "", content(f"{made.tree}/Dockerfile").decode(), flags=re.M).replace("\\\n", " ")
    steps = [it.split(None, 1) for it in text.splitlines() if it.strip()]
    check("Dockerfile: it begins", steps[0], ["FROM", "debian:stable-slim"])
    places = {}
    for source, target in (it[1].split() for it in steps if it[0] == "COPY"):
        check(f"Dockerfile: {source}", os.path.exists(os.path.join(made.tree, source)), True)
        places[source] = target
    check("Dockerfile: one prefix", (places["bin"], places["lib/hhm"]), ("/usr/local/bin", "/usr/local/lib/hhm"))
    words = {name: json.loads(rest[rest.index("["):]) for name, rest in steps
             if name in ("ENTRYPOINT", "CMD", "HEALTHCHECK")}
    check("Dockerfile: commands", (words["ENTRYPOINT"][0], words["HEALTHCHECK"]), ("hhm-run", ["hhm", "status", "/run/hhm/hhm.sock"]))
    _, known, _ = ran(server.PROGRAM, "serve", "--help")
    unknown = [it for it in words["ENTRYPOINT"] + words["CMD"] if it.startswith("--") and f" {it} " not in known]
    check("Dockerfile: options", unknown, [])
    check("Dockerfile: volume", ["VOLUME", "/var/lib/hhm"] in steps, True)


def program_needs_an_old_glibc():
    """It needs the C library alone, of the version that README.md and the package name."""
    if not lacks("ldd", "the libraries of the program"):
        needed = {it.split()[0] for it in ran("ldd", server.PROGRAM)[1].splitlines()}
        others = {it for it in needed if not it.startswith(("linux-vdso.so", "libc.so", "/lib64/ld-linux"))}
        check("libraries beside libc", others, set())
    if lacks("objdump", "the glibc that the program needs"):
        return
    versions = re.findall(r"\bGLIBC_([\d.]+)\b", ran("objdump", "-T", server.PROGRAM)[1])
    check("objdump names versions", bool(versions), True)
    newest = max(versions, key=lambda it: [int(part) for part in it.split(".")])
    check("the glibc of README.md", re.search(r"glibc ([\d.]+\d)", content(f"{TOP}/README.md").decode())[1], newest)
    control = content(f"{TOP}/tools/debian/control").decode()
    check("the glibc of the package", re.search(r"libc6 \(>= ([\d.]+)\)", control)[1], newest)


def versions_are_one():
    """Each package of a client has the program's version, and so have the packages that README.md names."""
    version = ran(server.PROGRAM, "--version")[1].split()[1]
    for name, pattern in [("python/pyproject.toml", r'^version = "(.*)"$'), ("rust/Cargo.toml", r'^version = "(.*)"$'),
                          ("c/Makefile", r"^VERSION *[:?]?= *(\S+)$")]:
        found = re.search(pattern, content(f"{TOP}/clients/{name}").decode(), re.M)
        check(f"version of clients/{name}", found and found[1], version)
    named = set(re.findall(r"\bhhm[-_](\d[\d.]*\d)[-_]", content(f"{TOP}/README.md").decode()))
    check("version in README.md", named, {version})


@functools.lru_cache(None)
def options_of(program, *words):
    """The options that a help lists."""
    wide = {**os.environ, "COLUMNS": "200"}
    lines = ran(program, *words, "--help", env=wide)[1].splitlines()
    return {name for line in lines if line.startswith("  ") and line.strip().startswith("-")
            for name in re.findall(r"(?:^|, )(--?[A-Za-z][\w-]*)", re.split(r" {2,}", line.strip())[0])}


def completions_have_each_option(tree):
    """Each option of each help, in the line of its command."""
    for name, commands in COMMANDS.items():
        program = f"{tree}/bin/{name}"
        files = (f"bash-completion/completions/{name}", f"zsh/site-functions/_{name}",
                 f"fish/vendor_completions.d/{name}.fish")
        texts = [content(f"{tree}/share/{it}").decode() for it in files]
        for command in ["", *commands]:
            options = options_of(program, *([command] if command else []))
            check(f"{name} {command}: a help with options", "--help" in options, True)
            for shell, part in zip(("bash", "zsh", "fish"), parts_of(texts, command)):
                lacking = sorted(it for it in options if not has_option(shell, part, it))
                check(f"{name} {command}: {shell}", lacking, [])


def parts_of(texts, command):
    """What the texts for bash, zsh and fish have of a command; of none, what they have of the program."""
    bash, zsh, fish = texts
    in_bash = re.search(rf"^ +{command or chr(39) * 2}\) options=(.*);;$", bash, re.M)
    in_zsh = re.search(rf"^ +{command}\)\n(.*?);;$" if command else r"_arguments -C(.*?)case", zsh, re.M | re.S)
    seen = f"'__fish_seen_subcommand_from {command}'" if command else "'not __fish_seen_subcommand_from"
    return in_bash[1], in_zsh[1], "\n".join(it for it in fish.splitlines() if seen in it)


def has_option(shell, text, option):
    if shell == "bash":
        return option in re.split(r'[ "]', text)
    if shell == "zsh":
        return f"'{option}[" in text
    return re.search(rf" -{'l' if option.startswith('--') else 's'} {option.lstrip('-')}( |$)", text) is not None


def shells_complete(tree):
    """Bash offers commands, options and values; the files of zsh and fish can be read by these."""
    asked = [("hhm se", "serve"), ("hhm serve --fold", "--fold-above"), ("hhmc --unix x lo", "load"),
             ("hhmc --unix x load --ma", "--map"), ("hhmc load --map i", "ip int"),
             ("hhmc --unix x top --by e", "entries"), ("hhm top --by t", "total")]
    for line, wanted in asked:
        name, words = line.split()[0], line.split()
        script = (f"source {tree}/share/bash-completion/completions/{name}; COMP_WORDS=({line}); "
                  f"COMP_CWORD={len(words) - 1}; _{name}; echo ${{COMPREPLY[*]}}")
        check(f"bash: {line}", ran("bash", "-c", script), (0, f"{wanted}\n", ""))
    for name in COMMANDS:
        if not lacks("zsh", "completion by zsh"):
            check("zsh", ran("zsh", "-n", f"{tree}/share/zsh/site-functions/_{name}"), (0, "", ""))
        if not lacks("fish", "completion by fish"):
            file = f"{tree}/share/fish/vendor_completions.d/{name}.fish"
            check("fish", ran("fish", "--no-execute", file), (0, "", ""))


def pages_have_each_line(tree):
    """The page of hhmc has each item of each help, and groff finds no fault in any page."""
    page = " ".join(content(f"{tree}/share/man/man1/hhmc.1").decode().replace("\\-", "-").split())
    for command in COMMANDS["hhmc"]:
        for option in options_of(f"{tree}/bin/hhmc", command):
            section = page.partition(f".SS hhmc {command} ")[2].partition(".SS ")[0]
            check(f"hhmc.1: {command} {option}", re.search(rf"\.B .*{option}\b", section) is not None, True)
    check("hhmc.1: the environment", "HHM_SERVER" in page, True)
    for name in ["hhm", "hhmc", "hhm-run"] if not lacks("groff", "the man pages by groff") else []:
        check(f"groff: {name}", ran("groff", "-man", "-ww", "-z", f"{tree}/share/man/man1/{name}.1"), (0, "", ""))


def version_is_told(made):
    """`hhmc --version` compares the program in use with the sum; another program is named, with status 1."""
    build = content(f"{made.tree}/BUILD").decode()
    hhmc = f"{made.tree}/bin/hhmc"
    wanted = f"{build}\nthe program in use, {made.tree}/bin/hhm, has this sum\n"
    check("hhmc --version", ran(hhmc, "--version", env=beside(made.tree)), (0, wanted, ""))
    other = os.path.join(made.folder, "other")
    os.makedirs(f"{other}/bin")
    with open(f"{other}/bin/hhm", "w") as file:
        file.write("#!/bin/sh\n")
    os.chmod(f"{other}/bin/hhm", 0o755)
    sum_ = hashlib.sha256(b"#!/bin/sh\n").hexdigest()
    wanted = f"the program in use, {other}/bin/hhm, has another sum, {sum_}: this BUILD says nothing of it"
    status, output, _ = ran(hhmc, "--version", env=beside(other))
    check("hhmc --version: another program", (status, output.splitlines()[-1]), (1, wanted))
    checkout = os.path.join(TOP, "clients", "python", "hhm_client.py")
    status, output, _ = ran(sys.executable, checkout, "--version")
    check("hhmc --version: no package", (status, "nothing is known of a program's proof" in output), (0, True))


def address_of_the_environment(tree):
    """HHM_SERVER is used where no address is given; what isn't its form is refused, and so are two addresses."""
    hhmc = f"{tree}/bin/hhmc"

    def asked(address, *words):
        return ran(hhmc, *words, "status", env={**os.environ, "HHM_SERVER": address}, cwd=server.FOLDER)

    with Server(SMALL) as at:
        for address in [f"unix:{at.path}", f"unix:{os.path.relpath(at.path, server.FOLDER)}", f"tcp:{at.tcp}"]:
            check(f"HHM_SERVER={address}", asked(address), (0, "batches 0 total 0\n", ""))
        check("an option goes before", asked("tcp:nobody:1", "--unix", at.path), (0, "batches 0 total 0\n", ""))
    for address in ["socket", "/run/x", "127.0.0.1:7000", "unix:", "tcp:", "tcp:x", "tcp:7000", "http:x:1"]:
        status, output, error = asked(address)
        check(f"HHM_SERVER={address}", (status, output, "error: HHM_SERVER: " in error), (2, "", True))
    status, _, error = asked("")
    check("no address", (status, "or HHM_SERVER in the environment" in error), (2, True))
    for words in [["--unix", "a", "--unix", "b"], ["--tcp", "a:1", "--tcp", "a:1"]]:
        status, _, error = asked("", *words)
        check(f"{words}", (status, f"argument {words[0]}: given twice, and one is meant" in error), (2, True))
    status, _, error = asked("", "--unix", "a", "--tcp", "b:1")
    check("two addresses", (status, "argument --tcp: not allowed with argument --unix" in error), (2, True))


LANGUAGES = {"python": "ask.py", "rust": "ask.rs", "c": "ask.c"}


def tour_of(text):
    """The sessions of README.md and the programs in it, by their files."""
    blocks = re.findall(r"^```(\w*)\n(.*?)^```$", text, re.M | re.S)
    programs = {LANGUAGES[language]: block for language, block in blocks if language}
    return [block for language, block in blocks if not language and block.startswith("$ ")], programs


def tour_is_as_written(name, prefix):
    """All sessions of README.md, one after another in one shell, write what is below their commands, and leave nothing
    in the folder where they begin."""
    sessions, programs = tour_of(content(f"{TOP}/README.md").decode())
    check("README.md: programs", sorted(programs), ["ask.c", "ask.py", "ask.rs"])
    folder, here = (os.path.join(server.FOLDER, it, name) for it in ("tour", "checkout"))
    for it in (folder, here):
        os.makedirs(it)
    for file, text in programs.items():
        with open(os.path.join(folder, file), "w") as out:
            out.write(text)
    lines = [line for it in sessions for line in it.splitlines()]
    missing = [it for it in ("rustc", "cc") if lacks(it, "a program of README.md's tour")]
    commands = [it[2:] for it in lines if it.startswith("$ ") and not any(f"{tool} " in it for tool in missing)]
    # The tour's own folder is made, and the programs are there as a reader has written them.
    begin = f"mktemp() {{ echo {folder}; }}"
    status, output, error = ran("bash", "-c", "\n".join([begin, *commands, "wait"]), cwd=here,
                                env={**beside(prefix), "XDG_STATE_HOME": folder})
    check(f"README.md, {name}: what is left", os.listdir(here), [])
    wanted = [it for it in lines if not it.startswith("$ ")]
    if missing:
        # (without a compiler there are fewer batches)
        output, wanted = (re.sub(r"(?m)^(Some|stopped batches \d total [78]).*\n", "", it)
                          for it in (output, "\n".join([*wanted, ""])))
        wanted = wanted.splitlines()
    # The servers and their clients write side by side.
    check(f"README.md, {name}", (status, sorted(output.splitlines()), error), (0, sorted(wanted), ""))


def tarball_installs(made):
    """By its own installer, and by that of a checkout; --uninstall removes all of it, and nothing else."""
    for name, words in [("own", [f"{made.tree}/install.sh"]),
                        ("checkout", [f"{TOP}/tools/install.sh", "--tarball", f"{made.outs[0]}/{NAME}.tar.gz"])]:
        prefix = os.path.join(server.FOLDER, f"prefix {name}")
        status, output, error = ran(*words, prefix)
        check(f"install, {name}", (status, error), (0, ""))
        check(f"install, {name}: files", files_below(prefix), {*FILES, WHEEL})
        steps = re.findall(r"^Step (\d) of (\d): |^Step (\d) took \d+ s\.$", output, re.M)
        check(f"install, {name}: steps", len(steps), 2 * int(steps[0][1]))
        kept = os.path.join(prefix, "lib", "own")
        open(kept, "w").close()
        if name == "own":
            tour_is_as_written("tour of the tarball", prefix)
        check(f"uninstall, {name}", ran(f"{TOP}/tools/install.sh", "--uninstall", prefix)[::2], (0, ""))
        check(f"uninstall, {name}: files", files_below(prefix), {"lib/own"})
        status, _, error = ran(f"{TOP}/tools/install.sh", "--uninstall", prefix)
        check(f"uninstall again, {name}", (status, "nothing is removed: " in error), (1, True))
    for words in [["--unproved"], ["--program", server.PROGRAM]]:
        status, _, error = ran(f"{made.tree}/install.sh", *words, prefix)
        check(f"an unpacked tarball: {words[0]}", (status, "is for a checkout" in error), (1, True))
    status, _, error = ran(f"{TOP}/tools/install.sh", "--tarball", server.PROGRAM, prefix)
    check("no tarball", (status, "is no tarball" in error), (1, True))


GATE = """\
== hhm
logic /kit/project.json: libraries=16 files=9 sum=0123abcd
logic=proved functions=45 sum=0123 native=nat
rt: hhm proved
rt: ok; handles allowed: Net
7 passed, 0 failed
processor time 12 s, wall time 3 s
9 passed, 0 failed
"""


def record_is_of_a_gate(folder):
    """A log that lacks one of its lines, or reports a failure, makes no record; a whole one makes one."""
    log = os.path.join(folder, "log")

    def recorded(text):
        with open(log, "w") as file:
            file.write(text)
        return ran(f"{TOP}/tools/build_record.py", server.PROGRAM, "gate", log)

    status, output, _ = recorded(GATE)
    check("record", (status, "proved: yes, by the gate" in output, "9 passed, 0 failed" in output), (0, True, True))
    lines = GATE.splitlines(keepends=True)
    for at, line in enumerate(lines):
        check(f"record without {line.strip()}", recorded("".join(lines[:at] + lines[at + 1:]))[0], 1)
    for old, new in [("9 passed, 0", "9 passed, 1"), ("rt: ok", "rt: x NOT PROVED\nrt: ok"),
                     ("7 passed, 0", "7 passed, 2")]:
        check(f"record with {new}", recorded(GATE.replace(old, new))[0], 1)
    return output


def proved_packages_need_their_record(folder):
    """Without a record of this very program at this very commit nothing is packed; with it names say no `unproved`."""
    if lacks("git", "packages of a proved program"):
        return
    top, out = os.path.join(folder, "clone"), os.path.join(folder, "proved")
    for name in ["tools", "clients", "docs", "examples"]:
        shutil.copytree(os.path.join(TOP, name), os.path.join(top, name), ignore=shutil.ignore_patterns("__pycache__"))
    for name in ["README.md", "CHANGELOG.md", "LICENSES"]:
        shutil.copy(os.path.join(TOP, name), top)
    built = os.path.join(top, "out")
    os.makedirs(built)
    shutil.copy(server.PROGRAM, f"{built}/hhm")
    with open(f"{top}/.gitignore", "w") as file:
        file.write("out/\n__pycache__/\n")
    who = ["-c", "user.name=hhm", "-c", "user.email=hhm@localhost"]
    for words in [["init", "--quiet"], ["add", "."], [*who, "commit", "--quiet", "--message", "all"]]:
        check(f"git {words[0]}", ran("git", "-C", top, *words)[0], 0)
    log = os.path.join(folder, "gate")
    with open(log, "w") as file:
        file.write(GATE)
    record = ran(f"{top}/tools/build_record.py", f"{built}/hhm", "gate", log)[1]
    words = ["--no-deb", "--program", f"{built}/hhm", out]
    for why, text in [("there is no record", None),
                      ("is of another program", record.replace("program: sha256 ", "program: sha256 0")),
                      ("doesn't say that the gate proved it", record.replace("yes, by the gate", "no")),
                      ("is of another commit", re.sub(r"commit: .*", f"commit: {'0' * 40}", record))]:
        if text is not None:
            with open(f"{built}/BUILD", "w") as file:
                file.write(text)
        status, _, error = package(*words, top=top)
        check(f"package: {why}", (status, why in error, os.path.exists(out)), (1, True, False))
    with open(f"{built}/BUILD", "w") as file:
        file.write(record)
    open(f"{top}/changed", "w").close()
    status, _, error = package(*words, top=top)
    check("package: changes", (status, "differ from their commit, as changed" in error), (1, True))
    os.remove(f"{top}/changed")
    status, _, error = package(*words, top=top)
    check("package: proved", (status, error, sorted(os.listdir(out))),
          (0, "", ["SHA256SUMS", f"hhm-{VERSION}-x86_64-linux.tar.gz"]))


def bad_words_pack_nothing(folder):
    out = os.path.join(folder, "unmade")
    for words in [[], ["--prove", out], [out, out], ["--program"], [""]]:
        status, output, error = package(*words)
        check(f"package {words}", (status, output, error.startswith("usage: ")), (2, "", True))
    for path, why in [("/nothing", "is no program"), (shutil.which("true"), "isn't hhm")]:
        status, _, error = package("--unproved", "--program", path, "--no-deb", out)
        check(f"package {path}", (status, why in error, os.path.exists(out)), (1, True, False))


def main():
    server.PROGRAM = os.path.abspath(sys.argv[1])
    with tempfile.TemporaryDirectory() as server.FOLDER:
        made = Made(os.path.join(server.FOLDER, "made"))
        os.mkdir(made.folder)
        made.pack()
        made.unpack()
        made.bytes_are_the_same_twice()
        tarball_has_its_files(made)
        build_says_what_it_is(made)
        image_is_of_the_tarball_alone(made)
        completions_have_each_option(made.tree)
        shells_complete(made.tree)
        pages_have_each_line(made.tree)
        version_is_told(made)
        address_of_the_environment(made.tree)
        tarball_installs(made)
        if made.has_deb:
            deb_has_its_files(made)
            deb_has_its_control(made)
            unit_is_right(made)
            tour_is_as_written("tour of the deb", f"{made.deb}/usr")
        program_needs_an_old_glibc()
        versions_are_one()
        record_is_of_a_gate(made.folder)
        proved_packages_need_their_record(made.folder)
        bad_words_pack_nothing(made.folder)
    print(f"{server.passed} passed, {server.failed} failed")
    return 1 if server.failed else 0


if __name__ == "__main__":
    sys.exit(main())
