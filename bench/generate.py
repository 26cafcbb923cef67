#!/usr/bin/env python3
"""Writes schedules and the text that answers each, by a model of the index of its own. Always the same ones.

    generate.py FOLDER

FOLDER gets NAME.schedule and NAME.expected for each schedule; timed.txt, a line for each schedule that is to be timed (its name,
records, windows, cells met, operations answered); and compared.txt, the names of those that are for comparison only.
"""

import sys
from pathlib import Path

MOST_BYTES = 60000
SEATS = 16
CELLS = 1008
SPREAD = [0, 7, 14, 5, 12, 3, 10, 1, 8, 15, 6, 13, 4, 11, 2, 9]
SCHEMES = {"full": 1, "owner": 2, "version": 3}
SETUP, JOIN, LEAVE, LOOKUP, INSERT, REMOVE, STEP, ABANDON = range(8)


class Random:
    """A xorshift generator of 64 bits."""

    def __init__(self, seed):
        self.state = seed

    def below(self, n):
        x = self.state
        x ^= (x << 13) & 0xFFFFFFFFFFFFFFFF
        x ^= x >> 7
        x ^= (x << 17) & 0xFFFFFFFFFFFFFFFF
        self.state = x
        return (x >> 11) % n

    def pick(self, choices):
        return choices[self.below(len(choices))]


# ---- The model ----


class Full:
    def __init__(self):
        self.marks = {}

    def get(self, seat):
        return self.marks.get(seat)

    def release(self, seat):
        self.marks.pop(seat, None)

    def reserve(self, seat, place):
        self.marks[seat] = place

    def revoke(self, place):
        self.marks = {seat: mark for seat, mark in self.marks.items() if mark != place}


class Owner(Full):
    def __init__(self):
        super().__init__()
        self.owners = {}

    def get(self, seat):
        mark = self.marks.get(seat)
        if mark is not None and self.owners.get(SPREAD[mark % 16]) == seat:
            return mark
        return None

    def reserve(self, seat, place):
        self.marks[seat] = place
        self.owners[SPREAD[place % 16]] = seat

    def revoke(self, place):
        self.owners.pop(SPREAD[place % 16], None)


class Version(Full):
    def __init__(self):
        super().__init__()
        self.counters = [0] * 16

    def get(self, seat):
        if seat not in self.marks:
            return None
        place, counter = self.marks[seat]
        return place if self.counters[SPREAD[place % 16]] == counter else None

    def reserve(self, seat, place):
        self.marks[seat] = (place, self.counters[SPREAD[place % 16]])

    def revoke(self, place):
        # No schedule is long enough for a counter to go back to 0.
        self.counters[SPREAD[place % 16]] += 1


class Index:
    """The index by the rules; windows, cells met and operations answered are counted."""

    def __init__(self, scheme, cells, window):
        self.scheme = {1: Full, 2: Owner, 3: Version}[scheme]()
        self.window = window
        self.keys = [None] * cells
        self.links = [*range(1, cells), None]
        self.listed = [False] * cells
        self.head = None
        self.free = 0
        # No entry: away; None: idle; else the kind and the target.
        self.rows = {}
        self.ledger = set()
        self.windows = self.met = self.answered = 0

    def call(self, call, seat, sector):
        if seat >= SEATS:
            return "refused 1"
        if call == JOIN:
            if seat in self.rows:
                return "refused 4"
            self.rows[seat] = None
            return "ok"
        if seat not in self.rows:
            return "refused 5"
        if call == LEAVE:
            del self.rows[seat]
            self.scheme.release(seat)
            return "ok"
        running = self.rows[seat] is not None
        if call in (LOOKUP, INSERT, REMOVE):
            if running:
                return "refused 6"
            self.rows[seat] = (call, sector)
            return "ok"
        if not running:
            return "refused 7"
        if call == ABANDON:
            self.rows[seat] = None
            self.scheme.release(seat)
            return "ok"
        return self.step(seat)

    def step(self, seat):
        kind, target = self.rows[seat]
        self.windows += 1
        answer = self.run_window(seat, kind, target)
        if answer.startswith("refused"):
            return answer
        if answer != "wait":
            self.scheme.release(seat)
            self.rows[seat] = None
            self.answered += 1
            if answer != self.whole(kind, target):
                raise AssertionError(f"{answer} is not the answer of a plain set")
        return answer

    def whole(self, kind, target):
        """The operation on a plain set."""
        present = target in self.ledger
        if kind == LOOKUP:
            return "yes" if present else "no"
        if kind == REMOVE:
            self.ledger.discard(target)
            return "yes" if present else "no"
        if present:
            return "no"
        if len(self.ledger) == len(self.keys):
            return "full"
        self.ledger.add(target)
        return "yes"

    def usable(self, place, listed):
        return place < len(self.keys) and self.listed[place] == listed

    def width(self, seat, mark):
        """How many cells a window may meet: from the head one to all of the window's, by the seat."""
        return 1 + seat % self.window if mark is None else self.window

    def run_window(self, seat, kind, target):
        before = self.scheme.get(seat)
        if before is not None and not self.usable(before, True):
            return "refused 8"
        at = self.head if before is None else self.links[before]
        width = self.width(seat, before)
        met = 0
        while at is not None:
            if not self.usable(at, True):
                return "refused 8"
            met += 1
            self.met += 1
            if self.keys[at] >= target:
                break
            if met == width:
                self.scheme.release(seat)
                self.scheme.reserve(seat, at)
                return "wait"
            before, at = at, self.links[at]
        if at is not None and self.keys[at] == target:
            return self.on_present(kind, before, at)
        return self.on_absent(kind, before, at, target)

    def on_present(self, kind, before, at):
        if kind == REMOVE:
            self.lead(before, self.links[at])
            self.listed[at] = False
            self.links[at] = self.free
            self.free = at
            self.scheme.revoke(at)
        return "no" if kind == INSERT else "yes"

    def on_absent(self, kind, before, at, target):
        if kind != INSERT:
            return "no"
        place = self.free
        if place is None:
            return "full"
        if not self.usable(place, False):
            return "refused 8"
        self.free = self.links[place]
        self.keys[place], self.links[place], self.listed[place] = target, at, True
        self.lead(before, place)
        return "yes"

    def lead(self, before, link):
        if before is None:
            self.head = link
        else:
            self.links[before] = link


def records(data):
    """The records after the first byte: call, seat, sector or setup fields; None for what is no record."""
    at = 1
    while at < len(data):
        size = int.from_bytes(data[at : at + 2], "big")
        body = data[at + 2 : at + 2 + size]
        whole = at + 2 <= len(data) and len(body) == size
        at += 2 + size
        fields = (body[0], size) if whole and body else None
        if fields == (SETUP, 5) and body[1] in SCHEMES.values():
            yield SETUP, body[1], (int.from_bytes(body[2:4], "big"), body[4])
        elif fields in [(JOIN, 2), (LEAVE, 2), (STEP, 2), (ABANDON, 2)]:
            yield body[0], body[1], None
        elif fields in [(LOOKUP, 6), (INSERT, 6), (REMOVE, 6)]:
            yield body[0], body[1], int.from_bytes(body[2:6], "big")
        else:
            yield None
            return


def replay(data):
    """The text that answers a schedule, and the index as it is then, or None."""
    if len(data) > MOST_BYTES:
        return "0 refused 9\n", None
    if data[:1] != b"\x01":
        return "0 refused 10\n", None
    lines, index = [], None
    for number, record in enumerate(records(data), 1):
        if record is None or (record[0] == SETUP) != (number == 1):
            lines.append(f"{number} refused 11\n")
            break
        call, seat, rest = record
        if call != SETUP:
            lines.append(f"{number} {index.call(call, seat, rest)}\n")
            continue
        cells, window = rest
        if not (1 <= cells <= CELLS and 1 <= window <= 64):
            lines.append(f"{number} refused 2\n")
            break
        lines.append(f"{number} ok\n")
        index = Index(seat, cells, window)
    return "".join(lines), index


# ---- Schedules ----


def record(call, *fields):
    body = bytes([call]) + b"".join(fields)
    return len(body).to_bytes(2, "big") + body


def setup(scheme, cells, window):
    return record(SETUP, bytes([scheme]), cells.to_bytes(2, "big"), bytes([window]))


def seat_record(call, seat):
    return record(call, bytes([seat]))


def begin(kind, seat, sector):
    return record(kind, bytes([seat]), sector.to_bytes(4, "big"))


class Maker:
    """A schedule that is being written, and the index that it drives."""

    def __init__(self, scheme, cells, window):
        self.data = bytearray(b"\x01" + setup(scheme, cells, window))
        self.index = Index(scheme, cells, window)

    def fits(self, more):
        return len(self.data) + more <= MOST_BYTES

    def seat_call(self, call, seat):
        self.data += seat_record(call, seat)
        return self.index.call(call, seat, None)

    def begin(self, kind, seat, sector):
        self.data += begin(kind, seat, sector)
        return self.index.call(kind, seat, sector)


def key_numbered(n):
    """Keys all over the 32 bits."""
    return 7 + n * 2100001


def filled(scheme, cells, window, entries, seats):
    """The seats join, and fill a list of so many entries."""
    maker = Maker(scheme, cells, window)
    for seat in range(seats):
        maker.seat_call(JOIN, seat)
    # In falling order each insert takes one step.
    for n in reversed(range(entries)):
        maker.begin(INSERT, n % seats, key_numbered(2 * n))
        if maker.seat_call(STEP, n % seats) != "yes":
            raise AssertionError("an insert in front takes one step")
    return maker


def timed_schedule(scheme, entries, window, lookups, seats=4):
    """A list of so many entries, and then operations on twice as many keys, by seats that take turns step by step."""
    random = Random(0x9E3779B97F4A7C15 ^ (entries << 20) ^ (window << 8) ^ lookups)
    maker = filled(scheme, CELLS, window, entries, seats)
    seat, waits, losses = 0, [False] * seats, [0] * seats
    while maker.fits(12):
        if maker.index.rows[seat] is None:
            kind = LOOKUP if random.below(100) < lookups else random.pick([INSERT, REMOVE])
            maker.begin(kind, seat, key_numbered(random.below(2 * entries)))
            losses[seat] = 0
        elif waits[seat] and maker.index.scheme.get(seat) is None:
            losses[seat] += 1
        waits[seat] = maker.seat_call(STEP, seat) == "wait"
        # Seats in step with each other may take each other's slots for ever, so one that lost its mark twice keeps the turn.
        if not (waits[seat] and losses[seat] >= 2):
            seat = (seat + 1) % seats
    return bytes(maker.data)


def together(scheme, window, entries=100, rounds=6):
    """All sixteen seats begin at the head at once: first a lookup past the last key each, then operations near the head and all over."""
    random = Random(0xD1B54A32D192ED03 ^ (scheme << 8) ^ window)
    maker = filled(scheme, entries + SEATS, window, entries, SEATS)
    for n in range(rounds):
        for seat in range(SEATS):
            near = random.pick([2 * SEATS, 2 * entries])
            kind, key = (LOOKUP, 2 * entries) if n == 0 else (random.pick([LOOKUP, INSERT, REMOVE]), random.below(near))
            maker.begin(kind, seat, key_numbered(key))
        # Some steps by turns, some of them of a seat that has its answer; then each seat alone, so that it arrives on every scheme.
        for turn in range(4 * SEATS):
            maker.seat_call(STEP, turn % SEATS)
        for seat in range(SEATS):
            while maker.index.rows[seat] is not None:
                maker.seat_call(STEP, seat)
    return bytes(maker.data)


def any_calls(random, cells, window, seats, length):
    """Calls of all kinds in any order, many of them refused."""
    data = bytearray(b"\x01" + setup(1 + random.below(3), cells, window))
    keys = [random.below(1 << 32) for _ in range(2 * cells)] + [0, (1 << 32) - 1]
    for seat in range(seats):
        if random.below(4) > 0:
            data += seat_record(JOIN, seat)
    for _ in range(length):
        seat = random.below(seats) if random.below(50) > 0 else random.below(256)
        chance = random.below(100)
        if chance < 60:
            data += seat_record(STEP, seat)
        elif chance < 92:
            data += begin(random.pick([LOOKUP, INSERT, INSERT, REMOVE]), seat, random.pick(keys))
        else:
            data += seat_record(random.pick([JOIN, JOIN, LEAVE, ABANDON]), seat)
    return bytes(data)


WORKED = bytes.fromhex("01 0005000100 0302 00020100 00060400 0000000A 00020600 00020600 00020610")


def named_edges():
    """Short, long and refused schedules."""
    good = setup(1, 3, 2)
    joined = b"\x01" + good + seat_record(JOIN, 0)
    filler = seat_record(STEP, 0)
    yield "empty", b""
    for first in (0, 2, 255):
        yield f"first-byte-{first}", bytes([first])
        yield f"first-byte-{first}-and-more", bytes([first]) + WORKED[1:]
    yield "first-byte-alone", b"\x01"
    yield "worked", WORKED
    yield "first-record-join", b"\x01" + seat_record(JOIN, 0) + good
    yield "first-record-begin", b"\x01" + begin(INSERT, 0, 1)
    yield "setup-again", joined + good + filler
    yield "setup-again-at-once", b"\x01" + good + good
    yield "length-zero", joined + b"\x00\x00" + filler
    yield "length-zero-first", b"\x01\x00\x00"
    yield "length-past-the-end", joined + b"\xff\xff" + filler
    for call in range(256):
        if call <= ABANDON or call in (8, 127, 255):
            for length in (1, 2, 3, 4, 5, 6, 7, 8):
                fields = bytes([1, 0, 3, 2, 0, 0, 0][: length - 1])
                yield f"call-{call}-length-{length}", joined + record(call, fields) + filler
                yield f"call-{call}-length-{length}-first", b"\x01" + record(call, fields) + filler
    for scheme in (0, 1, 2, 3, 4, 255):
        yield f"scheme-{scheme}", b"\x01" + setup(scheme, 3, 2) + seat_record(JOIN, 0)
    for cells in (0, 1, 2, 1007, 1008, 1009, 65535):
        for window in (0, 1, 64, 65, 255):
            data = b"\x01" + setup(3, cells, window) + seat_record(JOIN, 0)
            yield f"sizes-{cells}-{window}", data + begin(INSERT, 0, 5) + filler + begin(INSERT, 0, 6) + filler + filler
    for seat in (0, 1, 15, 16, 17, 127, 255):
        calls = b"".join(seat_record(call, seat) for call in (LEAVE, STEP, ABANDON, JOIN, JOIN, STEP, ABANDON))
        calls += begin(INSERT, seat, 1) + begin(LOOKUP, seat, 1) + seat_record(ABANDON, seat) + seat_record(LEAVE, seat)
        yield f"seat-{seat}", b"\x01" + good + calls + begin(REMOVE, seat, 1) + seat_record(STEP, seat)
    longest = b"\x01" + good + seat_record(JOIN, 0) + filler * ((MOST_BYTES - 12) // 4)
    yield "longest", longest
    yield "longest-and-a-byte", longest + b"\x00"
    yield "longest-and-a-byte-first-byte-2", b"\x02" + longest
    yield "longest-first-byte-2", b"\x02" + longest[1:]
    yield "long-zeros", bytes(MOST_BYTES)
    yield "long-cut", longest[:-1]
    yield "much-too-long", longest + longest
    yield "all-refused", b"\x01" + good + seat_record(STEP, 16) * ((MOST_BYTES - 8) // 4)


def damaged(data, random):
    """The schedule cut at each byte, and with each byte changed."""
    for at in range(len(data)):
        yield f"cut-{at}", data[:at]
        for change in (1, 255, 1 + random.below(254)):
            yield f"byte-{at}-changed-by-{change}", data[:at] + bytes([data[at] ^ change]) + data[at + 1 :]


def compared_schedules():
    yield from named_edges()
    random = Random(88172645463325252)
    for name, data in damaged(any_calls(random, 3, 2, 2, 14), random):
        yield f"damaged-{name}", data
    for scheme, number in SCHEMES.items():
        for window in (1, 17, 40, 64):
            yield f"together-{scheme}-w{window}", together(number, window)
    for n in range(138):
        yield f"small-{n}", any_calls(random, 1 + random.below(6), 1 + random.below(3), 3, 120)
    # Sixteen slots and more places: marks are lost.
    for n in range(60):
        yield f"middle-{n}", any_calls(random, 20 + random.below(60), 1 + random.below(8), SEATS, 2000)
    for n in range(100):
        data = bytearray(any_calls(random, 4, 2, 4, 40))
        for _ in range(1 + random.below(3)):
            data[random.below(len(data))] = random.below(256)
        yield f"changed-{n}", bytes(data)
    for n in range(100):
        length = random.below(40)
        yield f"bytes-{n}", b"\x01" + setup(1 + n % 3, 3, 2) + bytes(random.below(8) for _ in range(length))


def timed_schedules():
    for scheme, number in SCHEMES.items():
        for entries in (504, 1008):
            for window in (1, 8, 64):
                for lookups in (0, 33, 80):
                    name = f"{scheme}-{entries}-w{window}-l{lookups}"
                    yield name, timed_schedule(number, entries, window, lookups)


def main():
    folder = Path(sys.argv[1])
    folder.mkdir(parents=True, exist_ok=True)

    def save(name, data):
        text, index = replay(data)
        (folder / f"{name}.schedule").write_bytes(data)
        (folder / f"{name}.expected").write_text(text)
        return text, index

    with (folder / "compared.txt").open("w") as names:
        for name, data in compared_schedules():
            save(name, data)
            names.write(f"{name}\n")
    with (folder / "timed.txt").open("w") as names:
        for name, data in timed_schedules():
            text, index = save(name, data)
            count = text.count("\n")
            names.write(f"{name} {count} {index.windows} {index.met} {index.answered}\n")


if __name__ == "__main__":
    main()
