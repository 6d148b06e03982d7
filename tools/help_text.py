"""Reads what a program prints for `--help`: of hhm and hhm-run, as clap lays it out, and of hhmc, as argparse does."""
import re
from typing import Callable, Dict, List, NamedTuple, Tuple

# A line `-s, --long <VALUE>  text` of options, or `name  text` of commands and arguments.
ITEM = re.compile(r"^ {2,6}(?P<name>\S.*?)(?: {2,}(?P<text>\S.*))?$")
# The heads of lists, and what each is called here.
LISTS = {
    "Options:": "Options", "options:": "Options", "optional arguments:": "Options",
    "Arguments:": "Arguments", "positional arguments:": "Arguments", "Commands:": "Commands", "commands:": "Commands",
}  # fmt: skip
USAGE = re.compile(r"^usage: ", re.I)

Item = Tuple[str, str]


class Option(NamedTuple):
    """An option: its names as they are typed, the word for its value, empty where it has none, and its text."""

    names: List[str]
    value: str
    text: str

    def choices(self) -> List[str]:
        """The values that it may have, where the help names each."""
        found = re.fullmatch(r"\{(.*)\}", self.value) or re.search(r"\[possible values: (.*?)\]", self.text)
        return re.split(", ?", found[1]) if found else []


class Help:
    """What a program, or one of its commands, says of itself."""

    def __init__(self, text: str):
        blocks = re.split(r"\n{2,}", text.strip("\n"))
        self.usage = " ".join(next(USAGE.sub("", it) for it in blocks if USAGE.match(it)).split())
        self.lists: Dict[str, List[Item]] = {}
        self.paragraphs: List[str] = []
        for block in blocks:
            name = LISTS.get(block.splitlines()[0])
            if name:
                self.lists.setdefault(name, []).extend(items_of(block))
            elif not USAGE.match(block):
                self.paragraphs.append(block)

    def commands(self) -> List[Item]:
        """The commands with their texts."""
        return [it for it in self.lists.get("Commands", []) if it[0] not in ("help", "COMMAND")]

    def options(self) -> List[Option]:
        return [option_of(*it) for it in self.lists.get("Options", [])]


class Program:
    """What a program says of itself and of each of its commands. `ask` gives what it prints for words and `--help`."""

    def __init__(self, name: str, ask: Callable[..., str]):
        self.name = name
        self.said = Help(ask())
        self.commands = self.said.commands()
        self.helps = {command: Help(ask(command)) for command, _ in self.commands}

    def options(self) -> Dict[str, List[Option]]:
        """The options of each command, and under the empty name those before a command."""
        return {"": self.said.options(), **{name: it.options() for name, it in self.helps.items()}}


def items_of(block: str) -> List[Item]:
    """The names and texts of a list of options, commands or arguments, whose further lines are indented deeper."""
    items: List[List[str]] = []
    for line in block.splitlines()[1:]:
        found = ITEM.match(line)
        if found:
            items.append([found["name"], found["text"] or ""])
        else:
            items[-1][1] = f"{items[-1][1]} {line.strip()}".strip()
    return [(name, text) for name, text in items]


def option_of(name: str, text: str) -> Option:
    """An option of a list's item, as `-n, --count <N>` or `--tcp HOST:PORT`."""
    parts = [it.partition(" ") for it in name.split(", -")]
    names = [("-" if at else "") + first for at, (first, _, _) in enumerate(parts)]
    return Option(names, parts[-1][2].strip(), text)
