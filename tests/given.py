"""The numbers of a setup that a start is given, and what its files say then, as docs/FORMATS.md has it.

For the scripts beside it. A given number is a value by its field's name in log_bytes.Setup; those that aren't there
aren't given.
"""
from log_bytes import Setup

OPTIONS = {
    "rows": "--rows", "cols": "--cols", "cuts": "--cuts", "shards": "--shards", "limit": "--limit",
    "most": "--max-batches",
}  # fmt: skip
# What a server has where neither a file nor an option says it. Rows and columns have no default.
DEFAULTS = {"cuts": (4096, 65536, 1048576), "shards": 8, "limit": 2**64 - 1, "most": 1_000_000}


def words_of(given):
    """The words of these numbers."""
    return [word for name, value in given.items() for word in (OPTIONS[name], word_of(value))]


def word_of(value):
    return (",".join(map(str, value)) or "none") if isinstance(value, tuple) else str(value)


def new_setup(rows, cols, given):
    """The setup of a server without files."""
    return Setup(**{"rows": rows, "cols": cols, **DEFAULTS, **given})


def steps(files, given):
    """The setups that files say one after the other: theirs, all new numbers but rows and columns, and all."""
    last = files._replace(**given)
    return [files, last._replace(rows=files.rows, cols=files.cols), last]
