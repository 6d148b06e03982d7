"""The man page of a program, made of what its own `--help` says."""
import re

PROGRAMS = ("hhm", "hhmc", "hhm-run")
# What each page is found by, in one line.
NAMES = {"hhmc": "ask a server of hhm"}


def escaped(text):
    """Text as troff reads it."""
    text = text.replace("\\", "\\e").replace("-", "\\-")
    return re.sub(r"^(?=[.'])", r"\\&", text, flags=re.M)


def list_of(items):
    return "".join(f".TP\n.B {escaped(name)}\n{escaped(text)}\n" for name, text in items)


def paragraph(block):
    """A block of a help's text: a table, which is indented, as it stands, and else a paragraph."""
    if all(line.startswith("  ") for line in block.splitlines()):
        return f".PP\n.RS\n.nf\n{escaped(block)}\n.fi\n.RE\n"
    return f".PP\n{escaped(block)}\n"


def sentence(text):
    return escaped(text if text.endswith(".") else f"{text}.")


def lists_of(said):
    return "".join(list_of(said.lists.get(it, [])) for it in ("Arguments", "Options"))


def section_of(said, text):
    """The part of the page on one command; `text` is what the list of commands has of it."""
    first = said.paragraphs[:1] or [text[:1].upper() + text[1:]]
    rest = "".join(map(paragraph, said.paragraphs[1:]))
    return f".SS {escaped(said.usage)}\n{sentence(first[0])}\n{lists_of(said)}{rest}"


def see_also(name):
    others = ",\n".join(f".BR {escaped(it)} (1)" for it in PROGRAMS if it != name)
    return f".SH SEE ALSO\n{others}\n"


def page(program, version):
    """The text of the page of a `help_text.Program`; `version` is what `hhm --version` says."""
    about, *rest = program.said.paragraphs
    commands = [(program.helps[name], text) for name, text in program.commands]
    usages = "\n.br\n".join(f".B {escaped(it.usage)}" for it in [it for it, _ in commands] or [program.said])
    sections = "".join(section_of(*it) for it in commands)
    name = escaped(program.name)
    return (
        f'.TH {name.upper()} 1 "" "{version}"\n'
        f".SH NAME\n{name} \\- {escaped(NAMES.get(program.name, about))}\n"
        f".SH SYNOPSIS\n{usages}\n"
        f".SH DESCRIPTION\n{sentence(about)}\n{lists_of(program.said)}{''.join(map(paragraph, rest))}"
        f"{'.SH COMMANDS' + chr(10) + sections if commands else ''}{see_also(program.name)}"
    )
