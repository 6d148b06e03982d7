#!/usr/bin/env python3
"""Writes the man pages and the shells' completions of the programs in TREE/bin, made of what their `--help` says.

    tools/help_files.py TREE
"""
import contextlib
import io
import os
import subprocess
import sys
from pathlib import Path

from completions import bash, fish, zsh
from help_text import Program
from man_page import page

COMPLETED = ("hhm", "hhmc")


def asking(program):
    """What asks a program for its help."""
    def ask(*words):
        return subprocess.run([program, *words, "--help"], stdout=subprocess.PIPE, text=True, check=True).stdout

    return ask


def asking_hhmc(library):
    """What asks hhmc for its help, within this process: it takes a fifth of a second to start."""
    sys.path.insert(0, str(library))
    from hhm_command import parser

    # (argparse breaks lines at the terminal's width)
    os.environ["COLUMNS"] = "2000"
    words_of_hhmc = parser()

    def ask(*words):
        text = io.StringIO()
        with contextlib.redirect_stdout(text), contextlib.suppress(SystemExit):
            words_of_hhmc.parse_args([*words, "--help"])
        return text.getvalue()

    return ask


def files_of(program, version):
    """The path below the prefix and the text of each file of a program."""
    name = program.name
    yield f"share/man/man1/{name}.1", page(program, version)
    if name in COMPLETED:
        yield f"share/bash-completion/completions/{name}", bash(program)
        yield f"share/zsh/site-functions/_{name}", zsh(program)
        yield f"share/fish/vendor_completions.d/{name}.fish", fish(program)


def main():
    if len(sys.argv) != 2:
        sys.exit(__doc__)
    tree = Path(sys.argv[1])
    programs = tree / "bin"
    version = subprocess.run([programs / "hhm", "--version"], stdout=subprocess.PIPE, text=True, check=True).stdout
    asks = {"hhm": asking(programs / "hhm"), "hhm-run": asking(programs / "hhm-run"),
            "hhmc": asking_hhmc(tree / "lib" / "hhm")}
    for name, ask in asks.items():
        for path, text in files_of(Program(name, ask), version.strip()):
            (tree / path).parent.mkdir(parents=True, exist_ok=True)
            (tree / path).write_text(text)


if __name__ == "__main__":
    main()
