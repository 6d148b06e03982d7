"""Reads the part of YAML that examples/ uses: maps, lists, words and numbers, one to a line, in block form; `[a, b]`,
`{}`, and quotes. What it can't read is a ValueError. Where the module `yaml` is there, its reading must be the same.
"""
import json
import re

NUMBER = re.compile(r"-?[0-9]+")
KEY = re.compile(r"""(?P<key>[\w./-]+):(?: +(?P<rest>.*))?""")


class Line:
    """A line with something on it: how far it is indented, and its text."""

    def __init__(self, text):
        self.text = text.lstrip(" ")
        self.indent = len(text) - len(self.text)


def documents(text):
    """The documents of a file, one after the other."""
    found = [[]]
    for line in text.splitlines():
        if line == "---":
            found.append([])
        elif bare := without_comment(line).rstrip():
            found[-1].append(Line(bare))
    return [block(lines, lines[0].indent) for lines in found if lines]


def without_comment(line):
    quote = None
    for at, letter in enumerate(line):
        if quote:
            quote = None if letter == quote else quote
        elif letter in "\"'" and line[:at].endswith((" ", "[", "{")):
            quote = letter
        elif letter == "#" and (at == 0 or line[at - 1] == " "):
            return line[:at]
    return line


def block(lines, indent):
    """The value that the first lines spell, which are removed: those of this indent, and what is below them."""
    return items(lines, indent) if lines[0].text.startswith("- ") else pairs(lines, indent)


def items(lines, indent):
    found = []
    while lines and lines[0].indent == indent and lines[0].text.startswith("- "):
        first = lines[0]
        first.text = first.text[2:].lstrip(" ")
        first.indent = indent + 2
        found.append(block(lines, indent + 2) if KEY.fullmatch(first.text) else word(lines.pop(0).text))
    return found


def pairs(lines, indent):
    found = {}
    while lines and lines[0].indent == indent and not lines[0].text.startswith("- "):
        line = lines.pop(0)
        parts = KEY.fullmatch(line.text)
        if not parts or parts["key"] in found:
            raise ValueError(f"{line.text!r} isn't a key with a value, or its key is there already")
        is_list = lines and lines[0].indent == indent and lines[0].text.startswith("- ")
        is_below = is_list or (lines and lines[0].indent > indent)
        if parts["rest"]:
            found[parts["key"]] = word(parts["rest"])
        else:
            found[parts["key"]] = block(lines, lines[0].indent) if is_below else None
    if lines and lines[0].indent > indent:
        raise ValueError(f"{lines[0].text!r} is indented too far")
    return found


def word(text):
    """The value of a word."""
    if text.startswith('"'):
        return json.loads(text)
    if text == "{}":
        return {}
    if text.startswith("[") and text.endswith("]"):
        return [word(it.strip()) for it in text[1:-1].split(",") if it.strip()]
    if text in ("true", "false"):
        return text == "true"
    if text[0] in "'{[&*!|>%@`" or ": " in text:
        raise ValueError(f"{text!r} is written in a form that isn't read here")
    return int(text) if NUMBER.fullmatch(text) else text
