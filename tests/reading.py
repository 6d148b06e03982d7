#!/usr/bin/env python3
"""Reads files of events as `hhmc load` does, without a server: heads, formats, odd numbers, lines that are no events.

    python3 tests/reading.py PATH-TO-HHM

What a file's events are is written beside it by hand, or worked out line by line by a loop. It prints a line for each
check that fails and at the end `N passed, M failed`; the status is 1 where one fails. PATH-TO-HHM isn't used.
"""
import collections
import io
import ipaddress
import os
import random
import sys

import server
from server import check
from hhm_client import Ended  # noqa: E402 (server.py has put the client's folder on the path)
from hhm_events import Events, Limit, NoEvent, Tally, format_of, whole_of
from hhm_heads import Wanted

EXAMPLES = os.path.join(server.HERE, "..", "examples")


class Text:
    """A text read as a file."""

    def __init__(self, text):
        self.path, self.text = "f", io.StringIO(text, newline="")


class Numbered(dict):
    """A table of names that gives numbers from 0 on."""

    def __missing__(self, name):
        self[name] = len(self)
        return self[name]


def read(text, kind="csv", cols=None, values=(), how="ip", most=10_000, limit=Limit(1.0, 0), table=None):
    """The events of a text, the line of each, how many lines were none, by reasons, and what is said of the columns."""
    tally = Tally(limit)
    try:
        events = Events(Text(text), kind, Wanted(cols, values), how, table, tally)
        batches = []
        while batch := events.next_batch(len(batches), most):
            batches.append(batch)
    except Ended as fault:
        return fault.status, str(fault)
    cells = [cell for batch in batches for cell in zip(*batch.parts)]
    lines = [line for batch in batches for line in batch.lines]
    return cells, lines, dict(tally.reasons), events.columns.told() if events.is_guessed() else ""


A, B = "0.0.0.1", "0.0.0.2"
# A head of each tool, a line of it, and the event.
HEADS = [
    ("source,destination,packets", f"{A},{B},3", (1, 2, 3), ""),
    ("source,destination", f"{A},{B}", (1, 2, 1), ""),
    ("ts,src,sport,dst,dport,packets,bytes", f"9,{A},80,{B},81,3,400", (1, 2, 3), "row src, column dst, count packets"),
    ("Src IP Addr;Dst IP Addr;Bytes", f"{A};{B};77", (1, 2, 77), "row Src IP Addr, column Dst IP Addr, count Bytes"),
    ("sIP|dIP|sPort|dPort|pro|   packets|bytes|", f"   {A}|   {B}|80|81|6|   3|400|", (1, 2, 3),
     "row sIP, column dIP, count packets"),
    ("StartTime\tSrcAddr\tDstAddr\tTotPkts\tTotBytes", f"x\t{A}\t{B}\t3\t9", (1, 2, 3),
     "row SrcAddr, column DstAddr, count TotPkts"),
    ("SRC_IP,DST_IP,PACKETS,BYTES", f"{A},{B},3,9", (1, 2, 3), "row SRC_IP, column DST_IP, count PACKETS"),
    ("version,srcaddr,dstaddr,pkts", f"2,{A},{B},3", (1, 2, 3), "row srcaddr, column dstaddr, count pkts"),
    ("sourceIPv4Address,destinationIPv4Address,octetDeltaCount,packetDeltaCount", f"{A},{B},9,3", (1, 2, 3),
     "row sourceIPv4Address, column destinationIPv4Address, count packetDeltaCount"),
    ('"IPV4_SRC_ADDR","IPV4_DST_ADDR","IN_BYTES","IN_PKTS"', f'"{A}","{B}","9","3"', (1, 2, 3),
     "row IPV4_SRC_ADDR, column IPV4_DST_ADDR, count IN_PKTS"),
    ('"No.","Time","Source","Destination","Protocol","Length"', f'"1","0.1","{A}","{B}","TCP","60"', (1, 2, 1),
     "row Source, column Destination, each line counts 1"),
    ("source, destination, packets", f"{A}, {B}, 3", (1, 2, 3), ""),
    ('source, destination, packets', f'"{A}", "{B}", "3"', (1, 2, 3), ""),
    ("# made by a tool\n\n# and more\nsource,destination,packets", f"{A},{B},3", (1, 2, 3), ""),
]


def heads_are_known():
    for head, line, event, told in HEADS:
        for end in ("\n", "\r\n"):
            text = (head + "\n" + line + "\n" + line + "\n").replace("\n", end)
            first = head.count("\n") + 2
            check(f"head {head!r}", read(text), ([event] * 2, [first, first + 1], {}, told))
    two = "src,srcaddr,dst\n"
    check("two sources", read(two)[0], 2)
    check("two sources: told", "'src' or 'srcaddr'" in read(two)[1], True)
    for head in ("a,b,c\n", "", "# told\n", "source,dest_port\n"):
        check(f"no head {head!r}", (read(head)[0], "give --cols" in read(head)[1]), (2, True))


def values_are_asked_for():
    text = f"src,dst,pkts,bytes,weird\n{A},{B},3,400,5\n"
    for value, count in [("packets", 3), ("bytes", 400), ("weird", 5), ("pkts", 3)]:
        check(f"value {value}", read(text, values=(value,))[0], [(1, 2, count)])
        check(f"value {value}, with --cols", read(text, cols="dst,src", values=(value,))[0], [(2, 1, count)])
    check("two values", read(text, values=("packets", "bytes"))[0], [(1, 2, 3, 400)])
    check("a place", read(f"{A},{B},3,400\n", cols="1,2", values=("4",))[0], [(1, 2, 400)])
    for given, why in [({"values": ("flows",)}, "no column for --value flows"), ({"values": ("x",)}, "no column for"),
                       ({"cols": "src,dst,pkts", "values": ("bytes",)}, "leave one of them out"),
                       ({"cols": "1,2", "values": ("bytes",)}, "is a place too")]:
        check(f"bad {given}", (read(text, **given)[0], why in read(text, **given)[1]), (2, True))


NUMBERS = [("3", 3), ("3.0", 3), ("3.", 3), ("1e3", 1000), ("1E+3", 1000), ("1.5e1", 15), (" 7 ", 7), ("007", 7),
           ("0", 0), (str((1 << 64) - 1), (1 << 64) - 1), ("12345678901234567.0", 12345678901234567), ("0e999", 0)]
NO_NUMBERS = [
    *((word, "no number") for word in ("", "-3", "+3", "3.5", "1e-3", "1_000", "\u0665", "nan", "inf", "0x10", "1,5")),
    *((word, "too big") for word in (str(1 << 64), "1e20", "9" * 40, "1e999")),
]


def numbers_are_whole():
    """Each number alone, and amid others that are read at once."""
    for word, number in NUMBERS:
        check(f"number {word!r}", whole_of(word), number)
        events = [(1, 2, n) for n in (5, number, 6)]
        check(f"number {word!r} amid others", read(f"{A};{B};5\n{A};{B};{word}\n{A};{B};6\n", cols="1,2,3")[0], events)
    for word, reason in NO_NUMBERS:
        try:
            check(f"no number {word!r}", whole_of(word), None)
        except NoEvent as why:
            check(f"no number {word!r}", why.reason, reason)
        found = read(f"{A};{B};5\n{A};{B};{word}\n{A};{B};6\n", cols="1,2,3")
        check(f"no number {word!r} amid others", found[:3], ([(1, 2, 5), (1, 2, 6)], [1, 3], {reason: 1}))


def tools_are_read():
    """The samples of examples/, whose sums were added up by a loop over their words."""
    with open(os.path.join(EXAMPLES, "nfdump.csv")) as file:
        text = file.read()
    flows = [line.split(",") for line in text.splitlines()[1:-3]]
    number = lambda word: int(ipaddress.ip_address(word))  # noqa: E731
    wanted = [(number(it[3]), number(it[4]), int(it[11])) for it in flows]
    check("nfdump", read(text, "nfdump"), (wanted, list(range(2, 12)), {}, "row sa, column da, count ipkt"))
    check("nfdump, bytes", [it[2] for it in read(text, "nfdump", values=("bytes",))[0]], [int(it[12]) for it in flows])
    check("nfdump twice", read(text + text, "nfdump")[::2], (wanted * 2, {}))
    check("nfdump, a bad line", read(text.replace("10.1.1.9", "10.1.1"), "nfdump")[2], {"no address": 2})
    newer = ("firstSeen,duration,proto,srcAddr,srcPort,dstAddr,dstPort,packets,bytes,bps,bpp,flows\n"
             f"2026-11-28 10:00:00.000,0.1,TCP,{A},80,{B},81,3,400,0,0,1\n")
    check("nfdump 1.7", read(newer, "nfdump")[0], [(1, 2, 3)])
    with open(os.path.join(EXAMPLES, "conn.log")) as file:
        log = file.read()
    table = Numbered()
    cells, lines, reasons, told = read(log, "zeek", table=table)
    names = {**{value: name for name, value in table.items()}}
    events = [line.split("\t") for line in log.splitlines() if not line.startswith("#")]
    got = [tuple(names.get(n) if n < 100 else str(ipaddress.ip_address(n)) for n in cell[:2]) for cell in cells]
    check("zeek: hosts", got, [(it[2], it[4]) for it in events])
    check("zeek: packets", [it[2] for it in cells], [int(it[16]) for it in events])
    check("zeek: the rest", (lines, reasons, told), (list(range(9, 16)), {},
                                                     "row id.orig_h, column id.resp_h, count orig_pkts"))
    sent = read(log, "zeek", values=("orig_bytes",), table=Numbered())[0]
    check("zeek: what is unset is 0", [it[2] for it in sent], [int(it[9].replace("-", "0")) for it in events])
    check("zeek: two logs", len(read(log + log, "zeek", table=Numbered())[0]), 14)
    check("zeek: other fields", read(log + log.replace("\tuid", "\tid"), "zeek", table=Numbered())[0], 3)
    check("zeek: no table", read(log, "zeek")[0], 2)
    check("zeek: JSON", (read('{"ts":1}\n', "zeek")[0], "has a line `#fields`" in read("{}", "zeek")[1]), (3, True))
    check("zeek: by its name", format_of("conn.zeek.gz"), "zeek")


def words_of(dice, how):
    """A line of three words, and its event; None where it is none."""
    words = [str(dice.randrange(9)) for _ in range(3)]
    row, col, count = map(int, words)
    if how == "ip":
        words[:2] = [f"0.0.0.{word}" for word in words[:2]]
    kind = dice.random()
    if kind < 0.05:
        return dice.choice([words[:2], words + ["1"], ["x", *words[1:]], [*words[:2], "-1"], [*words[:2], ""]]), None
    if kind < 0.1:
        words[2] = f"{count}.0"
    if kind > 0.9:
        words = [f'"{word}"' for word in words]
    return words, (row, col, count)


def drawn_files_are_read():
    """Files with lines that are no events, blank lines, quotes and decimals, in batches of each size: no event and no
    line number differs from a loop over the lines."""
    for seed in range(60):
        dice = random.Random(seed)
        how, end = dice.choice(["ip", "int"]), dice.choice(["\n", "\r\n"])
        lines, wanted, numbers, bad = [], [], [], 0
        for number in range(2, dice.randrange(2, 120)):
            if dice.random() < 0.03:
                lines.append("")
                continue
            words, event = words_of(dice, how)
            lines.append(dice.choice([",", ", "]).join(words))
            bad += event is None
            if event:
                wanted.append(event)
                numbers.append(number)
        text = end.join(["src,dst,packets", *lines]) + dice.choice(["", end])
        for most in (1, 7, 1000):
            cells, at, reasons, _ = read(text, how=how, most=most)
            check(f"drawn {seed} by {most}", (cells, at, sum(reasons.values())), (wanted, numbers, bad))


def quotes_that_are_not_closed():
    """Such a line is no event, whatever column has the quote, and the lines after it are read as they are."""
    head, good = "src,dst,packets,note\n", f"{A},{B},3,x\n"
    for bad in [f'{A},"{B},3,x\n', f'{A},{B},"3,x\n', f'{A},{B},3,"x\n', f'"{A},{B},3,x\n', f'{A},{B},3,"x""\n']:
        for after in (1, 3, 150, 20_000):
            wanted = [(1, 2, 3)] * (1 + after), [2, *range(4, 4 + after)], {"quotes": 1}
            check(f"{bad!r} before {after}", read(head + good + bad + good * after)[:3], wanted)
        found = read(head + (good + bad) * 40 + good, most=7)
        # (of two quotes in the last column all between is a word; of others each line is by itself)
        is_last = ',3,"' in bad
        check(f"{bad!r} again and again", (len(found[0]), found[2]), (41, {} if is_last else {"quotes": 40}))
    most = read(head + good + f'{A},{B},3,"x\n' + good * 99 + f'{A},{B},3,x"\n' + good)
    check("a word on too many lines", (len(most[0]), most[2]), (102, {"quotes": 1}))
    whole = read(head + good + f'{A},{B},4,"two\nlines"\n' + good)[:3]
    check("a word on two lines", whole, ([(1, 2, 3), (1, 2, 4), (1, 2, 3)], [2, 4, 5], {}))
    long = read(head + good + f'{A},{B},3,"{"x" * 200_000}"\n' + good)[:3]
    check("a word that is too long", long, ([(1, 2, 3)] * 2, [2, 4], {"quotes": 1}))


def quotes_anywhere_are_read_alike():
    """Quotes at drawn places, of which many aren't closed: in batches of each size the same events of the same lines."""
    for seed in range(150):
        dice, lines = random.Random(seed), []
        for _ in range(dice.randrange(1, 260 if seed % 5 == 0 else 40)):
            line, kind = f"{A},{B},{dice.randrange(9)},n", dice.random()
            if kind < 0.25:
                place = dice.randrange(len(line) + 1)
                line = line[:place] + '"' + line[place:]
            elif kind < 0.45:
                line = dice.choice([f'"{A}","{B}","3","x"', "", f'{A},{B},3,"two', 'lines"', f'{A},{B},3,"a ""b"" c"'])
            lines.append(line)
        text = dice.choice(["\n", "\r\n"]).join(["src,dst,packets,note", *lines, ""])
        found = [read(text, most=most)[:3] for most in (1, 2, 7, 60, 1000)]
        check(f"quotes {seed}", [it for it in found if it != found[0]], [])


def bad_lines_are_counted():
    """At most five are shown, and all counted; too many end the reading at the line that is one too many."""
    good = [f"{A},{B},{n}" for n in range(2000)]
    bad = [f"{A},{B}", f"{A},x,1", f"{A},{B},y", f"x,{B},1", f"{A},{B},1,1", f"{A},{B},-1", f"{A},{B},{1 << 64}"]
    text = "\n".join(["source,destination,packets", *good[:1000], *bad, *good[1000:]]) + "\n"
    cells, _, reasons, _ = read(text)
    check("reasons", (cells, reasons), ([(1, 2, n) for n in range(2000)],
                                        {"columns": 2, "no address": 2, "no number": 2, "too big": 1}))
    status, why = read(text, limit=Limit(0.0, 5))
    whys = "2 columns, and not 3", "'x' is no address", "'y' is no number", "'x' is no address", "4 columns, and not 3"
    shown = [f"f: line {line}: {told}" for line, told in enumerate(whys, 1002)]
    wanted = [*shown, "no events: 2 columns, 2 no address, 2 no number",
              "6 of 1006 lines are no events, and no more may be left out"]
    check("too many", (status, why.split("\n")), (3, wanted))
    named = Numbered()
    read("source,destination,packets\na,b,1\nc,d,x\ne,f,2\n", how="name", table=named)
    check("a line without a count gives no numbers", sorted(named), ["a", "b", "e", "f"])
    text = "%%MatrixMarket matrix coordinate integer general\n9 9 4\n1 1 4\n2.0 1 4\n3 1 4.0\n0 1 4\n"
    found = read(text, "mtx", how="int")[:3]
    check("a Matrix Market text has digits alone", found, ([(0, 0, 4)], [3], {"no number": 3}))
    counts = collections.Counter(it for it, _, _ in read("a b\n# told\n0 1\n", "pairs", how="int")[0])
    check("pairs", counts, {0: 1})


def all_are_tried():
    heads_are_known()
    values_are_asked_for()
    numbers_are_whole()
    tools_are_read()
    drawn_files_are_read()
    quotes_that_are_not_closed()
    quotes_anywhere_are_read_alike()
    bad_lines_are_counted()


if __name__ == "__main__":
    sys.exit(server.run_all(all_are_tried))
