"""The command line of `hhm_client.py`, which is installed as `hhmc`: one word for each question, and more of modules
beside it: `load` (hhm_load.py), `plot` (hhm_plot.py), all questions (hhm_ask.py), `export` (hhm_export.py), `watch`
(hhm_watch.py), `metrics` (hhm_metrics.py) and `backup` (hhm_backup.py)."""
import argparse
import contextlib
import importlib
import importlib.util
import os
import re
import signal
import sys
import threading
from typing import Any, Iterable, Optional, Sequence, Set

import hhm_version
from hhm_client import MAX_BODY, SILENCE, Client, Ended, Refused, address, exact_where_of, number

# Of the command line: the seconds that it waits for an answer, and what it adds to refusals.
TIMEOUT, SAVE_TIMEOUT = 60, 600
SPLIT = "put it as several batches, as the word load does with files of events"
TOO_LONG = "the text has more than 64 MiB: save, and take the snapshot (`hhm export`, `hhmc --from`)"
UNKNOWN = "this server doesn't know the question"
ADVICE = {"TooManyEntries": f": {SPLIT}", "ReplyTooLarge": f": {TOO_LONG}", "UnknownKind": f": {UNKNOWN}"}
STATUSES = ("Statuses: 0; 1 where the server refused; 2 for wrong words; 3 for lines that are no events and files that "
            "are no sum; 4 where the server can't be reached, or a file can't be read; 130 after Ctrl-C.")
# The words with a module of their own, and what the help says of each; those of hhm_ask.py; and all others.
MODULES = {
    "load": ("hhm_load", "puts the events of files, in batches that count once"),
    "plot": ("hhm_plot", "draws degrees, where cells are, or rates"),
    "watch": ("hhm_watch", "shows on a terminal what the server does"),
    "metrics": ("hhm_metrics", "tells it to Prometheus, and on a page for a browser"),
    "export": ("hhm_export", "writes the sum as a Matrix Market text, or in a format of other tools"),
    "backup": ("hhm_backup", "copies a server's files, on its machine, and checks the copy"),
}
QUESTIONS = ("cell", "row", "top", "list", "range", "degrees", "status", "stored", "stats")
PLAIN = ("put", "save", "fold", "stop")
# The words that ask for long, and so don't say that they wait for an answer.
LONG = ("load", "top", "list", "range", "degrees", "row", "export", "plot")
# The variable with the server's address, and what the help says of it.
SERVER = "HHM_SERVER"
ENVIRONMENT = (
    f"Where no address is given, that of the environment variable {SERVER} is used: unix:PATH or tcp:HOST:PORT, as "
    f"{SERVER}=unix:/run/hhm/hhm.sock."
)
NUMBER = re.compile("0*[1-9][0-9]*", re.ASCII)
# The refusals of which a server may know a reason, which it tells in its stats.
REASONED = ("OverTotal", "BookFull", "LogFull", "LogFailed", "SaveFailed")
KEPT_RUNNING = ": nothing was stopped; `stop --discard` stops the server without what it can't save"


def module_of(name: str) -> Any:
    """A module with further words, as hhm_load, where it stands beside this one."""
    try:
        return importlib.import_module(name)
    except ImportError:
        return None


class Once(argparse.Action):
    """An option that may be given once: of two values one would be passed over in silence."""

    def __call__(self, words: Any, given: argparse.Namespace, value: Any, option: Any = None) -> None:
        if getattr(given, self.dest) is not None:
            words.error(f"argument {option}: given twice, and one is meant")
        setattr(given, self.dest, value)


class Parser(argparse.ArgumentParser):
    """Words whose help is written as an answer is, also where its reader has gone."""

    def print_help(self, file: Any = None) -> None:
        # (a text in the place of standard output, which a program may set, has no bytes)
        if file is None and hasattr(sys.stdout, "buffer"):
            show(self.format_help().encode())
        else:
            super().print_help(file)


class Version(argparse.Action):
    """Prints what the package says of its proof, and whether the program in use has its sum."""

    def __init__(self, **how: Any):
        super().__init__(nargs=0, **how)

    def __call__(self, words: argparse.ArgumentParser, *_: Any) -> None:
        try:
            text, status = hhm_version.version()
        except OSError as fault:
            words.exit(4, f"failed: {fault.filename}: {fault.strerror}\n")
        show(f"{text}\n".encode())
        words.exit(status)


def add_word(asked: argparse._SubParsersAction, name: str, named: Set[str]) -> None:
    """Adds a word of a module beside this one, where that is there. Its options are added only where the command line
    names the word, or none: so other modules aren't loaded."""
    module, told = MODULES[name]
    if named and name not in named:
        if importlib.util.find_spec(module):
            asked.add_parser(name, help=told)
    elif found := module_of(module):
        found.add_words(asked.add_parser(name, help=told))


def parser(given: Sequence[str] = ()) -> argparse.ArgumentParser:
    """What reads the words of a command line, with the options of the commands that are among them, or of all."""
    about = "Asks a server of hhm. Rows and columns count from 0."
    words = Parser(prog="hhmc", description=about)
    version = "prints the package's file BUILD: version and proof, and whether the program hhm in use has its sum"
    words.add_argument("--version", action=Version, dest=argparse.SUPPRESS, help=version)
    where = words.add_mutually_exclusive_group()
    where.add_argument("--tcp", type=address, action=Once, metavar="HOST:PORT", help="the server's address")
    where.add_argument("--unix", action=Once, metavar="PATH", help="the path of the server's Unix socket")
    source = "a snapshot or a Matrix Market text (- for standard input) in place of a server, for plot alone"
    where.add_argument("--from", dest="source", action=Once, metavar="FILE", help=source)
    longer = f"{SAVE_TIMEOUT} for a save or a fold, which takes longer the more was accepted"
    timeout = f"for each answer ({TIMEOUT}; {longer})"
    words.add_argument("--timeout", type=float, metavar="SECONDS", help=timeout)
    attempts = "how often a request is sent (3, within a moment; of a load 14, for a minute, as a server takes to start)"
    words.add_argument("--attempts", type=int, metavar="N", help=attempts)
    asked = words.add_subparsers(dest="word", required=True, title="commands", metavar="COMMAND")
    put = asked.add_parser("put", help="puts a Matrix Market text as a batch: no more rows or columns than the server")
    put.add_argument("client", type=number)
    put.add_argument("number", type=number)
    put.add_argument("file", nargs="?", help="standard input where none is given")
    named = set() if {"-h", "--help"} & {*given} else {*given} & {*MODULES, *QUESTIONS, *PLAIN}
    for name in ("load", "plot"):
        add_word(asked, name, named)
    if (not named or named & {*QUESTIONS}) and (questions := module_of("hhm_ask")):
        questions.add_words(asked)
    for name in ("watch", "metrics", "export"):
        add_word(asked, name, named)
    asked.add_parser("save", help="saves a snapshot")
    asked.add_parser("fold", help="folds what was accepted, so that the server needs less memory for it")
    add_stop(asked)
    add_word(asked, "backup", named)
    words.epilog = f"{ENVIRONMENT} {STATUSES}"
    for word in asked.choices.values():
        word.epilog = STATUSES
    return words


def add_stop(asked: argparse._SubParsersAction) -> None:
    stop = asked.add_parser("stop", help="saves, where the server has a place for snapshots, and stops the server")
    stop.add_argument("--discard", action="store_true", help="stops it also where saving fails, without trying first")


def given_words() -> argparse.Namespace:
    """The words of the command line, with the address of a value, or of the environment, where they have none."""
    words = parser(sys.argv[1:])
    given, rest = words.parse_known_args()
    # (argparse leaves an N over that comes after options)
    if given.word == "top" and given.most is None and len(rest) == 1 and NUMBER.fullmatch(rest[0]):
        given.most = int(rest[0])
    elif rest:
        words.error(f"unrecognized arguments: {' '.join(rest)}")
    if getattr(given, "value", None):
        module_of("hhm_values").choose(given, words.error)
    has_server = any(place is not None for place in (given.tcp, given.unix, given.source))
    if getattr(given, "snapshot", None) is not None:
        if has_server:
            words.error("--file is in place of a server: leave --tcp, --unix and --from out")
        return given
    if given.word == "backup":
        if has_server:
            words.error("backup copies files of this machine: leave --tcp, --unix and --from out")
        return given
    if given.source is not None and given.word != "plot":
        words.error(f"--from is for plot: give --tcp or --unix for {given.word}")
    if not has_server:
        if not os.environ.get(SERVER):
            words.error(f"one of the arguments --tcp --unix --from is required, or {SERVER} in the environment")
        try:
            vars(given).update(exact_where_of(os.environ[SERVER]))
        except ValueError as fault:
            words.error(f"{SERVER}: {fault}")
    return given


def text_to_put(path: Optional[str]) -> bytes:
    """The text of a file, or of standard input. A ValueError where no batch can be so long."""
    most = MAX_BODY - 16
    with sys.stdin.buffer if path is None else open(path, "rb") as file:
        text = file.read(most + 1)
    if len(text) > most:
        raise ValueError(f"{path or 'the text'} has more than the {most} bytes of a batch: {SPLIT}")
    return text


def stop(hhm: Client, discards: bool) -> None:
    """Stops the server, which saves first where it has a place for snapshots, unless what isn't saved may be lost."""
    try:
        if not discards:
            hhm.save()
    except Refused as refused:
        if refused.name != "SaveOff":
            raise
    hhm.stop()


def answer(hhm: Client, given: argparse.Namespace, text: bytes) -> bytes:
    """Does what a word asks that has one answer, and gives what is to be printed."""
    if given.word == "load":
        return module_of("hhm_load").load(hhm, given).encode()
    if given.word == "plot":
        return module_of("hhm_plot").plot(hhm, given).encode()
    if given.word == "put":
        return b"index %d total_after %d\n" % hhm.put_text(given.number, text)
    if given.word == "save":
        return b"saved %d\n" % hhm.save()
    if given.word == "fold":
        return b"folded %d\n" % hhm.fold()
    stop(hhm, given.discard)
    return b"stopping\n"


def answers_of(word: str) -> Any:
    """The function that answers a word piece by piece; None for a word that has one short answer."""
    if word == "export":
        return getattr(module_of("hhm_export"), "export", None)
    return getattr(module_of("hhm_ask"), "ANSWERS", {}).get(word)


def asked(given: argparse.Namespace) -> Iterable[bytes]:
    """Asks, and gives what is to be printed, piece by piece. With a connection it says after two seconds that it waits
    for an answer; without one the client says so itself."""
    if given.source is not None:
        yield module_of("hhm_plot").plot(None, given).encode()
        return
    if given.word == "backup":
        yield module_of("hhm_backup").backup(given).encode()
        return
    if given.word in ("watch", "metrics"):
        yield from module_of(f"hhm_{given.word}").run(given)
        return
    if getattr(given, "snapshot", None) is not None:
        yield from answers_of(given.word)(None, given)
        return
    text = text_to_put(given.file) if given.word == "put" else b""
    place = given.unix if given.tcp is None else given.tcp
    client = given.client if given.word in ("put", "load") else 0
    usual = SAVE_TIMEOUT if given.word in ("save", "fold", "stop") else TIMEOUT
    attempts = given.attempts or (14 if given.word == "load" else 3)
    limits = {"timeout": usual if given.timeout is None else given.timeout, "attempts": attempts}
    hhm = Client(tcp=given.tcp, unix=given.unix, client=client, **limits)

    def tell() -> None:
        if given.word not in LONG and hhm._link is not None:
            print(f"waiting for the server at {place}", file=sys.stderr, flush=True)

    waits = threading.Timer(SILENCE, tell)
    waits.daemon = True
    waits.start()
    try:
        with hhm:
            if answers := answers_of(given.word):
                yield from answers(hhm, given)
            else:
                yield answer(hhm, given, text)
    finally:
        waits.cancel()


def show(piece: bytes) -> None:
    """Writes on standard output. Where its reader has gone, as `head` does, SIGPIPE ends the program."""
    try:
        sys.stdout.buffer.write(piece)
        sys.stdout.buffer.flush()
    except BrokenPipeError:
        signal.signal(signal.SIGPIPE, signal.SIG_DFL)
        os.kill(os.getpid(), signal.SIGPIPE)


def reason_of(given: argparse.Namespace, refused: Refused) -> str:
    """Why the server refused, as its stats have it; nothing where they don't."""
    if refused.name not in REASONED:
        return ""
    words = []
    with contextlib.suppress(OSError, Refused):
        with Client(tcp=given.tcp, unix=given.unix, timeout=SILENCE, attempts=1) as hhm:
            stats = hhm.stats()
        figures = module_of("hhm_figures")
        words = [figures.REASONS.get(why, why) for name, why in figures.failures_of(stats)
                 if name == refused.name and why != figures.OTHER]
    return f" ({words[-1]})" if words else ""


def main() -> int:
    """The command line. 0; 1 where the server refused; 2 for bad words; 3 for lines that are no events and files that are
    no sum; 4 where it can't be reached or a file read."""
    given = given_words()
    try:
        for piece in asked(given):
            show(piece)
    except Ended as ended:
        print(ended, file=sys.stderr)
        return ended.status
    except Refused as refused:
        advice = KEPT_RUNNING if given.word == "stop" else ADVICE.get(refused.name, "")
        print(f"refused: {refused}{reason_of(given, refused)}{advice}", file=sys.stderr)
        return 1
    except (OSError, ValueError) as error:
        is_named = isinstance(error, OSError) and error.filename is not None and error.strerror
        print("failed:", f"{error.filename}: {error.strerror}" if is_named else error, file=sys.stderr)
        return 4
    except KeyboardInterrupt:
        return 130
    return 0
