"""What a package of hhm says of its proof: its file BUILD, and whether the program in use has the sum that it names.

This is the option `--version` of `hhm_command.py`. `tools/build_record.py` writes the file."""
import hashlib
import os
import re
import shutil
from typing import Optional, Tuple

# The prefix that these modules are installed below, in lib/hhm.
PREFIX = os.path.dirname(os.path.dirname(os.path.dirname(os.path.realpath(__file__))))
BUILD = os.path.join(PREFIX, "share", "hhm", "BUILD")
SUM = re.compile(r"^program: sha256 ([0-9a-f]{64})$", re.M)


def program_in_use() -> Optional[str]:
    """The path of the `hhm` that the path of commands names, or else of that of this package. None without one."""
    beside = os.path.join(PREFIX, "bin", "hhm")
    return shutil.which("hhm") or (beside if os.path.isfile(beside) else None)


def sum_of(path: str) -> str:
    with open(path, "rb") as file:
        return hashlib.sha256(file.read()).hexdigest()


def comparison(build: str) -> Tuple[str, int]:
    """A line on whether the program in use has the sum of a BUILD, and the status: 1 where it has another sum."""
    program, wanted = program_in_use(), SUM.search(build)
    if program is None or wanted is None:
        return f"nothing is compared: there is no {'program hhm on the path' if wanted else 'sum in this BUILD'}", 0
    found = sum_of(program)
    if found == wanted[1]:
        return f"the program in use, {program}, has this sum", 0
    return f"the program in use, {program}, has another sum, {found}: this BUILD says nothing of it", 1


def name_with_version() -> str:
    """The name of the command, with the version of the clients' package where pip has installed it."""
    from importlib import metadata

    try:
        return f"hhmc {metadata.version('hhm-client')}"
    except metadata.PackageNotFoundError:
        return "hhmc"


def version() -> Tuple[str, int]:
    """The text of `hhmc --version`, and its status. An OSError where a file can't be read."""
    try:
        with open(BUILD, encoding="utf-8") as file:
            build = file.read()
    except FileNotFoundError:
        return f"{name_with_version()}\nthere is no {BUILD}, so nothing is known of a program's proof", 0
    line, status = comparison(build)
    return f"{build}\n{line}", status
