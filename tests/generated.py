#!/usr/bin/env python3
"""Sessions that are drawn, and clients that put at once, against the built program and beside a plain model of it.

    python3 tests/generated.py PATH-TO-HHM [--long]

The model is a list of what was accepted, searched from the front, and a dictionary of all cells; its replies are
spelled from docs/FORMATS.md. Frames are mostly puts, as texts and as cells, with repeats, numbers that are used again,
totals at the limit, full books, texts with faults and bad headers; they are cut anywhere, or end too early. Servers
fold at drawn numbers of cells while they run, and where a session asks for it, at drawn moments; between two starts a
server's snapshot is folded. Of clients that put
at once some share their cells, and some have cells of their own and read them back, also by ranges. The questions of
docs/FORMATS.md are asked as they stand there. It prints a line for each check that fails and at the end `N passed, M
failed`; the status is 1 where one fails. With `--long` there are ten times as many sessions and puts, and clients with
cells of their own put for a minute or more. Linux, and nothing but Python's own library, the client of clients/python
and the server of tests/server.py.
"""
import os
import random
import struct
import sys
import tempfile
import threading
from bisect import bisect_left
from itertools import accumulate

import server as servers
from hhm_client import BANNER, put_cells_frame, put_frame
from server import Server, accepted, check, program, refused

ROWS, COLS = 5, 4
STATUS, EXPORT, SAVE, STOP, STORED, FOLD = (struct.pack(">IB", 0, kind) for kind in (4, 5, 6, 7, 9, 13))
LARGE, KIND, LENGTH = bytes.fromhex("0400000104"), bytes.fromhex("000000000e"), bytes.fromhex("0000000104")


def added(cells):
    """The counts of some cells, each place once."""
    counts = {}
    for row, col, count in cells:
        counts[row, col] = counts.get((row, col), 0) + count
    return counts


def spelled(rows, cols, counts):
    """The canonical text of some counts."""
    lines = [f"{row + 1} {col + 1} {count}\n" for (row, col), count in sorted(counts.items())]
    return BANNER + f"{rows} {cols} {len(lines)}\n{''.join(lines)}".encode()


def range_frame(rows, cols, start, most):
    return struct.pack(">IB7Q", 56, 10, *rows, *cols, *start, most)


def page(counts, rows, cols, start, most):
    """The reply that tells the first cells of a range."""
    found = [(*place, counts[place]) for place in sorted(counts)
             if rows[0] <= place[0] <= rows[1] and cols[0] <= place[1] <= cols[1] and place >= start]  # fmt: skip
    cells = b"".join(struct.pack(">3Q", *cell) for cell in found[:most])
    return struct.pack(">IBB", 1 + len(cells), 0x88, len(found) > most) + cells


def top_frame(by, most):
    return struct.pack(">IBBQ", 9, 11, by, most)


def leading(counts, by, most):
    """The reply that tells the rows that lead."""
    rows = {}
    for (row, _), count in counts.items():
        entries, total = rows.get(row, (0, 0))
        rows[row] = entries + 1, total + count
    order = sorted(rows, key=lambda row: (-rows[row][1 - by], row))[:most]
    return struct.pack(">IB", 24 * len(order), 0x89) + b"".join(struct.pack(">3Q", row, *rows[row]) for row in order)


class Model:
    """What was accepted: of each batch its pair, its cells and the total of all up to it."""

    def __init__(self, limit, most, saves):
        self.limit, self.most, self.saves = limit, most, saves
        self.list, self.cells, self.total = [], {}, 0

    def put(self, pair, cells):
        counts = added(cells)
        total = sum(counts.values())
        for place, (known, other, after) in enumerate(self.list):
            if known == pair:
                same = (len(other), sum(other.values())) == (len(counts), total)
                return accepted(place, after) if same else refused(30)
        if self.total + total > self.limit:
            return refused(31, self.total)
        if len(self.list) >= self.most:
            return refused(32)
        self.total += total
        self.list.append((pair, counts, self.total))
        for place, count in counts.items():
            self.cells[place] = self.cells.get(place, 0) + count
        return accepted(len(self.list) - 1, self.total)

    def cell(self, row, col):
        if row >= ROWS or col >= COLS:
            return refused(41)
        count = self.cells.get((row, col))
        return struct.pack(">IBBQ", 9, 0x82, count is not None, count or 0)

    def row(self, row):
        if row >= ROWS:
            return refused(41)
        counts = [count for place, count in self.cells.items() if place[0] == row]
        return struct.pack(">IBQQ", 16, 0x83, len(counts), sum(counts))

    def status(self):
        return struct.pack(">IBQQ", 16, 0x84, len(self.list), self.total)

    def export(self):
        text = spelled(ROWS, COLS, self.cells)
        return struct.pack(">IB", len(text), 0x85) + text

    def range(self, rows, cols, start, most):
        if not (rows[0] <= rows[1] < ROWS and cols[0] <= cols[1] < COLS):
            return refused(41)
        return page(self.cells, rows, cols, start, most) if 1 <= most <= 1_000_000 else refused(44)

    def top(self, by, most):
        return leading(self.cells, by, most) if by < 2 and 1 <= most <= 1_000_000 else refused(44)

    def save(self):
        return struct.pack(">IBQ", 8, 0x86, len(self.list)) if self.saves else refused(43)

    def fold(self):
        return struct.pack(">IBQ", 8, 0x86, len(self.list))


def placed(numbers, rows, cols):
    """A cell within these dimensions, with a small count."""
    return numbers.randrange(rows), numbers.randrange(cols), numbers.randrange(9)


def drawn_cells(pair, other):
    """At most three cells, some of them at one place, some of count 0: mostly the same for the same pair."""
    numbers = random.Random(f"{pair} {other}")
    return [placed(numbers, ROWS, COLS) for _ in range(numbers.randrange(4))]


def drawn_text(draw, cells):
    """A text of some cells, and the code and the detail of its refusal where it has a fault."""
    rows, cols, count, more, code = ROWS, COLS, len(cells), "", None
    if draw.randrange(3) == 0:
        # no more rows and columns than the cells need
        rows, cols = (max((cell[at] + 1 for cell in cells), default=1) for at in (0, 1))
    fault = draw.randrange(12)
    if fault == 0:
        rows, cols = draw.choice([(ROWS + 1, cols), (rows, COLS + 1)])
        code = (20, 0)
    elif fault == 1:
        more, code = "1 1 1\n", (115, len(cells) + 3)
    elif fault == 2:
        count, code = len(cells) + 1, (114, len(cells) + 3)
    elif fault == 3 and rows > 1 and rows in (used := [cell[0] + 1 for cell in cells]):
        # a row less than the cells need, which the server has
        rows, code = rows - 1, (113, 3 + used.index(rows))
    lines = "".join(f"{row + 1} {col + 1} {number}\n" for row, col, number in cells)
    return BANNER + f"{rows} {cols} {count}\n{lines}{more}".encode(), code


def drawn_put(draw, model):
    """A put as a text or as cells, and its reply."""
    pair = draw.randrange(3), draw.randrange(7)
    cells = drawn_cells(pair, draw.randrange(5) == 0)
    if draw.randrange(40) == 0:
        # what is left up to the limit, or one more
        cells = [(0, 0, model.limit - model.total + draw.randrange(2))]
    if draw.randrange(2):
        text, code = drawn_text(draw, cells)
        return put_frame(*pair, text), refused(*code) if code else model.put(pair, cells)
    outside = draw.randrange(10)
    if outside < 2:
        cells.append([(ROWS, 0, 1), (0, COLS, 1)][outside])
        return put_cells_frame(*pair, cells), refused(22, len(cells) - 1)
    return put_cells_frame(*pair, cells), model.put(pair, cells)


def drawn_question(draw, model):
    """A question about a range of cells or about the rows that lead, and its reply."""
    most = draw.choice([1, 2, 3, 7, 1_000_000, 0, 1_000_001])
    if draw.randrange(3) == 0:
        by = draw.randrange(3)
        return top_frame(by, most), model.top(by, most)
    bounds = [sorted(draw.randrange(size + draw.randrange(2)) for _ in range(2)) for size in (ROWS, COLS)]
    if draw.randrange(9) == 0:
        bounds[0].reverse()
    start = draw.randrange(ROWS + 1), draw.randrange(COLS + 1)
    return range_frame(*bounds, start, most), model.range(*bounds, start, most)


def drawn_frame(draw, model):
    """A frame, its reply, and whether the session goes on behind it."""
    kind = draw.randrange(38)
    if kind == 0:
        frame, code = draw.choice([(LARGE, 50), (KIND, 51), (LENGTH, 52)])
        return frame, refused(code), False
    if kind == 1:
        return EXPORT, model.export(), True
    if kind == 2:
        return SAVE, model.save(), True
    if kind < 5:
        # Without a log all that was accepted is told as stored.
        return draw.choice([STATUS, STORED]), model.status(), True
    if kind < 7:
        row = draw.randrange(ROWS + 1)
        return struct.pack(">IBQ", 8, 3, row), model.row(row), True
    if kind < 12:
        row, col = draw.randrange(ROWS + 1), draw.randrange(COLS + 1)
        return struct.pack(">IBQQ", 16, 2, row, col), model.cell(row, col), True
    if kind < 18:
        return *drawn_question(draw, model), True
    if kind < 20:
        return FOLD, model.fold(), True
    return *drawn_put(draw, model), True


def drawn_session(draw, model):
    """The bytes of a session and their replies. Its last frame may end too early."""
    sent, replies = b"", b""
    for _ in range(draw.randrange(14)):
        if draw.randrange(25) == 0:
            # (this one has 70 bytes)
            return sent + put_frame(1, 1, BANNER)[: draw.randrange(60)], replies
        frame, reply, goes_on = drawn_frame(draw, model)
        sent += frame
        replies += reply
        if not goes_on:
            break
    return sent, replies


def cut(draw, sent):
    """Some bytes in pieces."""
    pieces = []
    while sent:
        size = 1 + draw.randrange(draw.choice([3, 90, 1000]))
        pieces.append(sent[:size])
        sent = sent[size:]
    return pieces


def compare_sessions(name, draw, model, server, count):
    """Compares what is answered to so many sessions, over both sockets in turn, with what the model says."""
    for turn in range(count):
        sent, replies = drawn_session(draw, model)
        check(f"{name}, session {turn}", server.talk(cut(draw, sent), turn % 2 == 0), replies)


def fold(name, path, model):
    """Folds a snapshot, and compares how many batches are folded then and their total."""
    check(f"{name}: fold", program("fold", path), (f"folded {len(model.list)} total {model.total}\n", "", 0))


def sessions_are_answered_alike(sessions):
    """Sessions of servers of many shards, cuts, limits and books; some are saved, and folded between two starts."""
    for shards, cuts, limit, most, saves in [
        (1, "2,4", 100, 1000, False),
        (2, "1,3,9", 60, 1000, True),
        (3, "none", 1000, 9, True),
        (64, "1", 150, 20, True),
    ]:
        name, draw, model = f"{shards} shards", random.Random(limit), Model(limit, most, saves)
        path = os.path.join(servers.FOLDER, f"generated.{shards}")
        words = ["--rows", str(ROWS), "--cols", str(COLS), "--shards", str(shards), "--limit", str(limit)]
        words += ["--max-batches", str(most), "--cuts", cuts, *(["--snapshot", path] if saves else [])]
        folds = random.Random(most)
        for start in range(3 if saves else 1):
            with Server([*words, "--fold-above", str(folds.choice([0, 1, 3, 20]))]) as server:
                compare_sessions(f"{name}, start {start}", draw, model, server, sessions)
                server.stop(name, len(model.list), model.total)
            if saves:
                fold(name, path, model)
                text = spelled(ROWS, COLS, model.cells).decode()
                check(f"{name}: export", program("export", path), (text, "", 0))


# What clients put at once: the dimensions, how many clients and numbers are drawn from, puts of each, and a limit that
# is reached when some two thirds of the pairs were accepted.
AT_ONCE = {"rows": 60, "cols": 5, "clients": 5, "numbers": 600, "puts": 1500, "limit": 20_000}


def many_cells(draw_of):
    """At most five cells of a pair, and the cells of its other batch."""
    numbers = random.Random(f"{draw_of}")
    return [placed(numbers, AT_ONCE["rows"], AT_ONCE["cols"]) for _ in range(numbers.randrange(6))]


def read_reply(stream):
    head = stream.read(5)
    size, kind = struct.unpack(">IB", head)
    return kind, stream.read(size)


def put_at_once(link, seed, puts, lines):
    """Puts from one connection, sixteen ahead: each with what it was answered."""
    draw = random.Random(seed)
    stream = link.makefile("rb")
    for _ in range(0, puts, 16):
        drawn = [(draw.randrange(AT_ONCE["clients"]), draw.randrange(AT_ONCE["numbers"]), draw.randrange(8) == 0)
                 for _ in range(16)]  # fmt: skip
        link.sendall(b"".join(put_cells_frame(of[0], of[1], many_cells(of)) for of in drawn))
        lines += [(of, *read_reply(stream)) for of in drawn]


def read_at_once(link, ended, faults, reads):
    """Reads until all has been put: totals never grow less, and no export is above a status behind it. The last pair of
    these is kept, which a reader that fails has not.
    """
    stream = link.makefile("rb")
    last, last_batches = 0, 0
    while True:
        is_last = ended.is_set()
        link.sendall(EXPORT + STATUS)
        exported = sum(int(line.split()[2]) for line in read_reply(stream)[1].split(b"\n")[2:] if line)
        batches, total = struct.unpack(">QQ", read_reply(stream)[1])
        if not (last <= exported <= total <= AT_ONCE["limit"] and last_batches <= batches):
            faults.append((last, exported, total, last_batches, batches))
        last, last_batches = exported, batches
        if is_last:
            reads.append((exported, batches, total))
            return


def sizes(counts):
    """What tells a batch from another under its pair: how many places it has, and its total."""
    return len(counts), sum(counts.values())


def accepted_list(lines):
    """The accepted batches in order, by their replies: of each its pair, its counts, and the total with it."""
    found, differing = {}, []
    for draw_of, kind, body in lines:
        if kind == 0x81:
            place, after = struct.unpack(">QQ", body)
            batch = draw_of[:2], added(many_cells(draw_of)), after
            known = found.setdefault(place, batch)
            if (known[0], sizes(known[1]), known[2]) != (batch[0], sizes(batch[1]), after):
                differing.append((place, known, batch))
    check("one batch for each place", differing, [])
    check("each place is answered to somebody", sorted(found), list(range(len(found))))
    return [found[place] for place in sorted(found)]


def has_reason(code, detail, counts, place, batches, totals):
    """Whether a put may have been refused so at some moment. Its pair was accepted at this place, if at all."""
    size, total = sizes(counts)
    if code == 30:
        return place is not None and sizes(batches[place][1]) != (size, total)
    at = bisect_left(totals, detail)
    was_total = at < len(totals) and totals[at] == detail
    # Its own batch wasn't accepted by then.
    is_new = place is None or totals[place] >= detail
    return code == 31 and was_total and is_new and detail + total > AT_ONCE["limit"]


def judge_refusals(lines, batches):
    """Each refusal had a reason at some moment, and the limit was reached."""
    places = {batch[0]: place for place, batch in enumerate(batches)}
    totals = [0, *(batch[2] for batch in batches)]
    refusals = [(of, *struct.unpack(">HQ", body)) for of, kind, body in lines if kind == 0xFF]
    unfounded = []
    for of, code, detail in refusals:
        if not has_reason(code, detail, added(many_cells(of)), places.get(of[:2]), batches, totals):
            unfounded.append((of, code, detail))
    check("refusals without a reason", unfounded, [])
    check("the limit was reached", any(code == 31 for _, code, _ in refusals), True)
    check("each put was accepted or refused", {kind for _, kind, _ in lines} <= {0x81, 0xFF}, True)


def batches_of(path):
    """The batches of a snapshot in which nothing is folded: of each its pair and its counts."""
    with open(path, "rb") as file:
        data = file.read()
    # After the mark, the version, the dimensions and the cuts: shards, limit, most batches, batches, total, book, window,
    # log and a check; then no folded batch, no cell of a base, and a check; and a check after each batch.
    head = ">BQQQQ29xQQI"
    at = 29 + 8 * data[28]
    _, _, _, count, _, folded, base, _ = struct.unpack_from(head, data, at)
    check("nothing is folded", (folded, base), (0, 0))
    at += struct.calcsize(head)
    batches = []
    for _ in range(count):
        client, number, entries = struct.unpack_from(">QQQ", data, at)
        at += 24
        counts = {(row, col): n for row, col, n in struct.iter_unpack(">QQQ", data[at : at + 24 * entries])}
        at += 24 * entries + 4
        batches.append(((client, number), counts))
    check("the snapshot's end", at, len(data))
    return batches


def added_up(all_counts):
    """The sum of many counts."""
    sums = {}
    for counts in all_counts:
        for place, count in counts.items():
            sums[place] = sums.get(place, 0) + count
    return sums


def compare_saved(path, batches):
    """Compares the batches of a snapshot, in order, and their sum with the accepted ones."""
    saved = batches_of(path)
    check("the batches in the snapshot", [(pair, sizes(counts)) for pair, counts in saved],
          [(pair, sizes(counts)) for pair, counts, _ in batches])  # fmt: skip
    # Both batches of a pair may have as many places and the same total.
    drawn = [[added(many_cells((*pair, other))) for other in (False, True)] for pair, _ in saved]
    check("each has the cells that were put", all(counts in both for (_, counts), both in zip(saved, drawn)), True)
    text = spelled(AT_ONCE["rows"], AT_ONCE["cols"], added_up(counts for _, counts in saved)).decode()
    check("the sum in the snapshot", program("export", path), (text, "", 0))


def clients_agree_with_a_model(factor):
    """Four clients put at once, with repeats of each other's pairs, up to the limit and past it, while two read."""
    path = os.path.join(servers.FOLDER, "at-once")
    words = ["--rows", str(AT_ONCE["rows"]), "--cols", str(AT_ONCE["cols"]), "--cuts", "16,64", "--shards", "4",
             "--limit", str(AT_ONCE["limit"]), "--workers", "6", "--snapshot", path]  # fmt: skip
    lines, faults, reads, ended = [[] for _ in range(4)], [], [], threading.Event()
    with Server(words) as server:
        links = [server.link(n % 2 == 0) for n in range(6)]
        readers = [threading.Thread(target=read_at_once, args=(link, ended, faults, reads)) for link in links[4:]]
        puts = factor * AT_ONCE["puts"]
        writers = [threading.Thread(target=put_at_once, args=(links[n], n, puts, lines[n])) for n in range(4)]
        for thread in [*readers, *writers]:
            thread.start()
        for thread in writers:
            thread.join()
        ended.set()
        for thread in readers:
            thread.join()
        for link in links:
            link.close()
        check("what was read", faults, [])
        lines = [line for some in lines for line in some]
        check("each put is answered", len(lines) >= 4 * puts, True)
        batches = accepted_list(lines)
        judge_refusals(lines, batches)
        totals = [sum(counts.values()) for _, counts, _ in batches]
        check("the totals add up", [after for _, _, after in batches], list(accumulate(totals)))
        check("what both readers found at last", reads, [(sum(totals), len(batches), sum(totals))] * 2)
        server.stop("at once", len(batches), sum(totals))
    compare_saved(path, batches)


# Several connections each put into columns of their own, so that each knows what its cells have; so many times as many
# puts take a minute or more.
OWN = {"rows": 3000, "columns": 8, "clients": 3, "puts": 250, "cells": 120}
FOR_A_MINUTE = 90
OWN_WORDS = ["--rows", str(OWN["rows"]), "--cols", str(OWN["columns"] * OWN["clients"]), "--cuts", "200,1500,12000",
             "--shards", "3", "--workers", "5"]  # fmt: skip


def ask(link, stream, frame):
    link.sendall(frame)
    return read_reply(stream)


def ask_cell(link, stream, row, col):
    """The count of a cell, 0 where it isn't stored."""
    kind, body = ask(link, stream, struct.pack(">IBQQ", 16, 2, row, col))
    return struct.unpack(">Q", body[1:])[0] if kind == 0x82 else None


def is_read_back(draw, link, stream, columns, sums):
    """Whether a range of a client's own columns has just the cells that it put, page by page."""
    rows, most = sorted(draw.randrange(OWN["rows"]) for _ in range(2)), draw.choice([1, 50, 1_000_000])
    cols, start = (columns[0], columns[-1]), (draw.randrange(OWN["rows"]), draw.randrange(OWN["columns"]))
    for _ in range(3):
        kind, body = ask(link, stream, range_frame(rows, cols, start, most))
        if struct.pack(">IB", len(body), kind) + body != page(sums, rows, cols, start, most):
            return False
        if body[0] == 0:
            return True
        row, col, _ = struct.unpack(">3Q", body[-24:])
        start = row, col + 1
    return True


def has_folded(link, stream, least):
    """Asks for a fold, and tells whether so many batches are folded then, or more."""
    kind, body = ask(link, stream, FOLD)
    return kind == 0x86 and struct.unpack(">Q", body)[0] >= least


def put_and_read_back(link, number, puts, sums, faults):
    """Puts into columns of its own, and asks for a cell of each batch once that was answered, and for one of before."""
    draw, stream, places = random.Random(f"own {number}"), link.makefile("rb"), []
    columns = [number * OWN["columns"] + k for k in range(OWN["columns"])]
    for batch in range(puts):
        cells = [(draw.randrange(OWN["rows"]), draw.choice(columns), draw.randrange(1, 9)) for _ in range(OWN["cells"])]
        kind, _ = ask(link, stream, put_cells_frame(number, batch, cells))
        for row, col, count in cells:
            sums[row, col] = sums.get((row, col), 0) + count
        places.append(cells[0][:2])
        asked = [places[-1], draw.choice(places)]
        found = [ask_cell(link, stream, *place) for place in asked]
        if kind != 0x81 or found != [sums[place] for place in asked]:
            faults.append((number, batch, kind, found))
        if batch % 10 == 9 and not is_read_back(draw, link, stream, columns, sums):
            faults.append((number, batch, "range"))
        if draw.randrange(25) == 0 and not has_folded(link, stream, batch + 1):
            faults.append((number, batch, "fold"))


def exported_entries(link, stream):
    """The number of entries in an export of all, from its size line."""
    kind, body = ask(link, stream, EXPORT)
    return int(body.split(b"\n", 2)[1].split()[2]) if kind == 0x85 else -1


def watch_cells(link, ended, faults):
    """Asks for the same cells and for an export again and again: no cell, and no number of entries, is ever less."""
    stream = link.makefile("rb")
    places = [(row, col) for row in range(0, OWN["rows"], 500) for col in range(OWN["columns"] * OWN["clients"])]
    last, entries = {}, 0
    while not ended.is_set():
        before, entries = entries, exported_entries(link, stream)
        if entries < before:
            faults.append(("entries", before, entries))
        for place in places:
            count = ask_cell(link, stream, *place)
            if count is None or count < last.get(place, 0):
                faults.append((place, last.get(place), count))
            last[place] = count


def own_puts_are_read_back(factor):
    """What a client put and was answered, it finds, while others put, what all left side by side is added up, and what
    was accepted is folded.
    """
    sums, faults, ended = [{} for _ in range(OWN["clients"])], [], threading.Event()
    with Server([*OWN_WORDS, "--fold-above", "2000"]) as server:
        links = [server.link(n % 2 == 0) for n in range(OWN["clients"] + 1)]
        reader = threading.Thread(target=watch_cells, args=(links[-1], ended, faults))
        puts = factor * OWN["puts"]
        writers = [threading.Thread(target=put_and_read_back, args=(links[n], n, puts, sums[n], faults))
                   for n in range(OWN["clients"])]  # fmt: skip
        for thread in [reader, *writers]:
            thread.start()
        for thread in writers:
            thread.join()
        ended.set()
        reader.join()
        check("own puts are read back, and no cell goes back", faults, [])
        exported = ask(links[0], links[0].makefile("rb"), EXPORT)
        all_sums = added_up(sums)
        check("the sum of all", exported, (0x85, spelled(OWN["rows"], OWN["columns"] * OWN["clients"], all_sums)))
        stream = links[0].makefile("rb")
        for by in range(2):
            kind, body = ask(links[0], stream, top_frame(by, 100))
            check(f"the rows that lead by {by}", struct.pack(">IB", len(body), kind) + body, leading(all_sums, by, 100))
        whole = (0, OWN["rows"] - 1), (0, OWN["columns"] * OWN["clients"] - 1), (0, 0), 1_000_000
        kind, body = ask(links[0], stream, range_frame(*whole))
        check("the range of all", struct.pack(">IB", len(body), kind) + body, page(all_sums, *whole))
        stream.close()
        for link in links:
            link.close()
        server.stop("own puts", OWN["clients"] * puts, sum(all_sums.values()))


WORKED = [
    (
        """00000038 0a 0000000000000000 0000000000000002 0000000000000001 0000000000000002
                       0000000000000000 0000000000000000 0000000000000002""",
        """00000031 88 01 0000000000000000 0000000000000002 0000000000000003
                          0000000000000001 0000000000000001 0000000000000008""",
    ),
    (
        """00000038 0a 0000000000000000 0000000000000002 0000000000000001 0000000000000002
                       0000000000000001 0000000000000002 0000000000000002""",
        "00000019 88 00 0000000000000002 0000000000000001 0000000000000000",
    ),
    ("00000038 0a" + bytes(8).hex() + "0000000000000003" + bytes(40).hex(), "0000000a ff 0029 0000000000000000"),
    ("00000038 0a" + bytes(56).hex(), "0000000a ff 002c 0000000000000000"),
    (
        "00000009 0b 00 0000000000000002",
        """00000030 89 0000000000000000 0000000000000002 0000000000000008
                       0000000000000001 0000000000000001 0000000000000008""",
    ),
    (
        "00000009 0b 01 0000000000000003",
        """00000048 89 0000000000000000 0000000000000002 0000000000000008
                       0000000000000001 0000000000000001 0000000000000008
                       0000000000000002 0000000000000001 0000000000000000""",
    ),
    ("00000009 0b 02 0000000000000003", "0000000a ff 002c 0000000000000000"),
    ("00000009 0b 01 0000000000000000", "0000000a ff 002c 0000000000000000"),
    ("00000000 0d", "00000008 86 0000000000000001"),
    ("00000008 0b 0100000000000000", "0000000a ff 0034 0000000000000000"),
]
WORKED_WORDS = ["--rows", "3", "--cols", "3", "--cuts", "2,4", "--shards", "2", "--limit", "100", "--max-batches", "10"]


def worked_questions_are_answered(unix):
    """The ranges, tops and folds of docs/FORMATS.md, alone and in one session, which is cut at each byte."""
    name = "unix" if unix else "tcp"
    asked = [bytes.fromhex(frame) for frame, _ in WORKED]
    told = [bytes.fromhex(reply) for _, reply in WORKED]
    with Server(WORKED_WORDS) as server:
        put = put_cells_frame(7, 1, [(0, 0, 5), (0, 2, 3), (1, 1, 8), (2, 1, 0)])
        check(f"{name}: the cells that are asked for", server.talk([put], unix), accepted(0, 16))
        for frame, reply in zip(asked, told):
            check(f"{name}: the question {frame[:21].hex()}", server.talk([frame], unix), reply)
        sent, wanted = b"".join(asked[:-1]), b"".join(told[:-1])
        for place in range(0, len(sent), 1 if unix else 7):
            check(f"{name}: questions cut at {place}", server.talk([sent[:place], sent[place:]], unix), wanted)
        server.stop(name, 1, 16)


def main():
    servers.PROGRAM = os.path.abspath(sys.argv[1])
    factor = 10 if "--long" in sys.argv[2:] else 1
    with tempfile.TemporaryDirectory() as servers.FOLDER:
        sessions_are_answered_alike(60 * factor)
        clients_agree_with_a_model(factor)
        own_puts_are_read_back(1 if factor == 1 else FOR_A_MINUTE)
        worked_questions_are_answered(unix=True)
        worked_questions_are_answered(unix=False)
    print(f"{servers.passed} passed, {servers.failed} failed")
    return 1 if servers.failed else 0


if __name__ == "__main__":
    sys.exit(main())
