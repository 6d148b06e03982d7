"""Several values of one load, each with a server of its own: packets and bytes, say.

    hhmc load --value packets=unix:a.sock --value bytes=unix:b.sock 7 flows.csv
    hhmc top rows 10 --value bytes

A load notes which server has which value in `~/.local/state/hhm/values.json`, so that a question finds it.
"""
import argparse
import json
import os
from typing import Callable, Dict, List, NamedTuple, Optional

from hhm_client import exact_where_of


class Value(NamedTuple):
    """A value of events, and the server that it goes to: at most one of `tcp` and `unix`."""

    name: str
    tcp: Optional[str]
    unix: Optional[str]

    @classmethod
    def of(cls, word: str) -> "Value":
        """A value of the command line: NAME, NAME=unix:PATH or NAME=tcp:HOST:PORT. A ValueError for another word."""
        name, equals, place = word.partition("=")
        where = exact_where_of(place) if equals else {}
        unix = where.get("unix")
        return cls(name, where.get("tcp"), unix and os.path.abspath(unix))

    def has_server(self) -> bool:
        return self.tcp is not None or self.unix is not None

    def place(self) -> str:
        return f"tcp:{self.tcp}" if self.unix is None else f"unix:{self.unix}"


def folder_of_states() -> str:
    """Where loads keep what they note."""
    home = os.environ.get("XDG_STATE_HOME") or os.path.join(os.path.expanduser("~"), ".local", "state")
    return os.path.join(home, "hhm")


def noted() -> Dict[str, str]:
    """The servers of values, as loads noted them."""
    try:
        with open(os.path.join(folder_of_states(), "values.json")) as file:
            return json.load(file)
    except FileNotFoundError:
        return {}


def note(values: List[Value]) -> None:
    """Notes the servers of values; the file has the old ones or the new ones whole."""
    path = os.path.join(folder_of_states(), "values.json")
    found = {**noted(), **{value.name: value.place() for value in values}}
    os.makedirs(os.path.dirname(path), exist_ok=True)
    with open(f"{path}.{os.getpid()}", "w") as file:
        json.dump(found, file)
    os.replace(file.name, path)


def choose(given: argparse.Namespace, error: Callable[[str], None]) -> None:
    """Gives the command line the server of its value: for a load the first one's, for a question the one that was
    noted. `error` gets a message where they don't fit."""
    has_server = given.tcp is not None or given.unix is not None
    if given.word == "load":
        with_server = [value for value in given.value if value.has_server()]
        if with_server and (has_server or len(with_server) < len(given.value)):
            error("each --value has its server, and there is no --tcp and no --unix, or none has")
        if len(given.value) > 1 and not with_server:
            error("several values need a server each, as --value packets=unix:a.sock --value bytes=unix:b.sock")
        found: Optional[Value] = with_server[0] if with_server else None
    else:
        if has_server:
            error("--value asks the server that hhmc load noted: leave --tcp and --unix out")
        place = noted().get(given.value, "")
        if not place:
            error(f"--value {given.value}: no load has noted a server of this value")
        found = Value.of(f"{given.value}={place}")
    if found:
        given.tcp, given.unix = found.tcp, found.unix
