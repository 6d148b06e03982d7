"""The lines of faults. A line may go on with what the fault is of, in brackets, which tests/culprits.py compares."""
import re

# A fault's line up to what it is of. Some faults have brackets of their own.
OWN = (
    r"settings: (?:BadPath|SnapshotDiffers|NeedsNumber|NeedsLog) |file: Exists |server: Refused |log: (?:NotDurable|Hangs) "
)
GOES_ON = re.compile(rf"^(hhm: (?!{OWN})[^()\r\n]*) \([^\r\n]*\)(?=\r?$)", re.M)


def bare(got):
    """What was got, with each line of a fault without what it is of."""
    if isinstance(got, bytes):
        return bare(got.decode("latin-1")).encode("latin-1")
    if isinstance(got, str):
        return GOES_ON.sub(r"\1", got)
    if type(got) in (tuple, list):
        return type(got)(bare(it) for it in got)
    return got
