#!/usr/bin/env python3
"""Asks a server what it reads from standard input, by the client for Python. tests/client_faults.py has the words."""
import os
import signal
import socket
import sys

sys.path.insert(0, os.path.join(os.path.dirname(os.path.abspath(__file__)), "..", "..", "clients", "python"))
from hhm_client import BadReply, Client, Refused  # noqa: E402


def wide(count):
    return [(place, 0, 1) for place in range(count)]


def put_wide(hhm, first, count, cells):
    """Whether a process of a fork could put its batches."""
    try:
        for number in range(first, first + count):
            hhm.put(number, wide(cells))
    except Exception:
        return False
    return True


def fork(hhm, first, count, cells):
    child = os.fork()
    if child == 0:
        os._exit(0 if put_wide(hhm, first, count, cells) else 1)
    is_put = put_wide(hhm, first + count, count, cells)
    return "both" if os.waitpid(child, 0)[1] == 0 and is_put else "not both"


def split(hhm, first, count):
    """A fork at the first reply of many; each process goes on."""
    child, is_right = None, True
    for number, accepted in hhm.put_all(((number, wide(1)) for number in range(first, first + count)), depth=count):
        is_right = is_right and accepted.index == number - first
        child = os.fork() if child is None else child
    if child == 0:
        os._exit(0 if is_right else 1)
    return "both" if os.waitpid(child, 0)[1] == 0 and is_right else "not both"


def many(hhm, first, count, depth, cells):
    batches = ((number, wide(cells)) for number in range(first, first + count))
    shifts = [accepted.index - number for number, accepted in hhm.put_all(batches, depth)]
    return f"{len(shifts)} answered" if len(set(shifts)) == 1 else "out of order"


def threes(cells):
    return " ".join("%d,%d,%d" % cell for cell in cells)


def alarms():
    signal.signal(signal.SIGALRM, lambda *_: None)
    signal.setitimer(signal.ITIMER_REAL, 0.02, 0.02)
    return "alarms"


def answer(hhm, word, *numbers):
    if word == "put":
        return "index %d total %d" % hhm.put(numbers[0], [(0, 0, numbers[1])])
    if word == "many":
        return many(hhm, *numbers)
    if word == "cell":
        count = hhm.cell(*numbers)
        return "none" if count is None else str(count)
    if word == "status":
        return "batches %d total %d" % hhm.status()
    if word == "save":
        return f"saved {hhm.save()}"
    if word == "fold":
        return f"folded {hhm.fold()}"
    if word == "page":
        page = hhm.page(numbers[0:2], numbers[2:4], tuple(numbers[4:6]), numbers[6])
        return f"more {int(page.has_more)}: {threes(page.cells)}"
    if word == "range":
        return threes(hhm.range(numbers[0:2], numbers[2:4], numbers[4]))
    if word == "top":
        return threes(hhm.top(numbers[1], ("total", "entries")[numbers[0]]))
    if word == "groups":
        return threes(hhm.groups(numbers[3:5], numbers[2], numbers[1], ("total", "entries")[numbers[0]]))
    if word == "stats":
        return ",".join(f"{name} {value}" for name, value in hhm.stats().items())
    if word in ("fork", "split"):
        return fork(hhm, *numbers) if word == "fork" else split(hhm, *numbers)
    return alarms()


def main():
    path, timeout, attempts = sys.argv[1:]
    hhm = Client(unix=path, client=7, timeout=int(timeout) / 1000, attempts=int(attempts), pause=0.001)
    for line in sys.stdin:
        word, *numbers = line.split()
        try:
            told = answer(hhm, word, *map(int, numbers))
        except socket.timeout:
            told = "timed out"
        except BadReply:
            told = "what came is no reply to what was asked"
        except OSError:
            told = "lost"
        except Refused as refused:
            told = f"refused: {refused}"
        except Exception as fault:
            told = str(fault)
        print(told, flush=True)


if __name__ == "__main__":
    main()
