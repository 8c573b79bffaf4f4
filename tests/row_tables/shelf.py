"""Calls of a shelf on disks in memory, one session after another: what each gives, what the file holds, and what
crashes leave.

The file's format and the disk are modelled here anew: a mark, records of a byte 1, four bytes of length with the high
one first and the payload, and behind them a byte that isn't 1; and a disk that keeps each call. A call's number counts
all calls of its disk, from 0. A write that fails does the first half of its bytes, and any other call that fails
nothing.
"""
from kit import PLAIN_ICP as INCEPTION

PLAIN_ICP = INCEPTION.encode()
OLD, NEW = b"KSHELF01", b"KSHELF02"
GREATEST = {OLD: 65535, NEW: 524288}
WINDOW = 1 << 21
STANDARD = (1048576, 1073741824)


def symbol(byte):
    return chr(byte) if 33 <= byte <= 126 and byte not in b"%&*" else "%%%02x" % byte


def spelled(data):
    """The bytes as rows write them: four and more of one value are a part with their count."""
    text, at = "", 0
    while at < len(data):
        end = at
        while end < len(data) and data[end] == data[at]:
            end += 1
        text += symbol(data[at]) * (end - at) if end - at < 4 else "&%d*%s&" % (end - at, symbol(data[at]))
        at = end
    return text


def sized(kind, members):
    return kind + "".join(" %d %s" % (len(member), spelled(member)) for member in members)


def record(payload):
    return b"\1" + len(payload).to_bytes(4, "big") + payload


def file_of(mark, *payloads, gate=b"\0", behind=b""):
    return mark + b"".join(map(record, payloads)) + gate + behind


def parsed(mark, data):
    """The list that the bytes stand for, or the place at which they fail."""
    if data[:8] != mark:
        return None, 0
    payloads, place = [], 8
    while True:
        if place >= len(data):
            return None, place
        if data[place] != 1:
            return payloads, None
        length = int.from_bytes(data[place + 1:place + 5], "big")
        if len(data) < place + 5 or not 1 <= length <= GREATEST[mark]:
            return None, place + 1
        if len(data) < place + 5 + length:
            return None, place + 5
        payloads.append(data[place + 5:place + 5 + length])
        place += 5 + length


def is_leftover(data):
    """Whether a migration that was stopped may leave the bytes: at most one, or behind a first byte 0 any, or behind
    another than the mark's as much of the rest of the mark as there is."""
    return len(data) < 2 or data[0] == 0 or (data[0] != NEW[0] and data[1:8] == NEW[1:len(data)])


class Fault(Exception):
    """A call of the disk failed, or there is a refusal of this word."""


class Disk:
    def __init__(self, data=b"", failing=()):
        self.first, self.data, self.failing, self.calls = data, data, failing, []

    def call(self, kind, *what):
        fails = len(self.calls) in self.failing
        if kind == "write":
            place, data = what
            if fails:
                data = data[:len(data) // 2]
            self.calls.append(("write", place, data))
            self.data = self.data[:place] + data + self.data[place + len(data):]
        elif kind == "cut" and not fails:
            self.calls.append(("cut", what[0]))
            self.data = self.data[:what[0]]
        else:
            self.calls.append(("sync",) if kind == "sync" and not fails else ("keep",))
        if fails:
            raise Fault("DiskFault")

    def image(self, moment, shape):
        """What a crash just after so many calls leaves: all that was written since the last sync, nothing of it, or
        bytes 1."""
        data = image = self.first
        for kind, *what in self.calls[:moment]:
            if kind == "write":
                place, written = what
                data = data[:place] + written + data[place + len(written):]
                if shape != "lost":
                    written = written if shape == "whole" else b"\1" * len(written)
                    image = image[:place] + written + image[place + len(written):]
            elif kind == "cut":
                data = data[:what[0]]
                image = image if shape == "lost" else image[:what[0]]
            elif kind == "sync":
                image = data
        return image


def words_of(image):
    """What stands in a file, by the parser above."""
    if not image:
        return "empty"
    payloads, place = parsed(NEW, image)
    if payloads is not None:
        return sized("list", payloads)
    if place:
        return "NotAShelf(%d)" % place
    if is_leftover(image):
        return "leftover"
    payloads, place = parsed(OLD, image)
    return sized("old", payloads) if payloads is not None else "NotAShelf(%d)" % place


class Session:
    """The calls of one shelf. Each adds its row."""

    def __init__(self):
        self.rows, self.disk, self.list, self.limits, self.broken = [], None, None, None, False

    def row(self, call, answer):
        self.rows.append((call, answer))
        return self

    def tried(self, call, work):
        try:
            answer = work() or "Ok"
        except Fault as fault:
            self.list, answer = None, str(fault)
        return self.row(call, answer)

    def put_in(self, data, failing=()):
        self.disk, self.list = Disk(data, failing), None
        return self.row("disk %s %s" % (",".join(map(str, failing)), spelled(data)), "Ok")

    def opened(self, payloads, limits):
        self.list, self.limits, self.broken = payloads, limits, False

    def create(self, limits=STANDARD, failing=()):
        self.disk = Disk(b"", failing)

        def work():
            self.disk.call("write", 0, NEW + b"\0")
            self.disk.call("sync")
            self.opened([], limits)
        return self.tried("create %d %d %s" % (*limits, ",".join(map(str, failing))), work)

    def read(self, mark, limits):
        """Syncs, asks for the size, reads the mark, and then a window at a time, each from the gate of a record on."""
        self.disk.call("sync")
        self.disk.call("size")
        data = self.disk.data
        if len(data) >= 8:
            self.disk.call("read")
        payloads, fails = parsed(mark, data)
        if fails != 0:
            place = 8
            while True:
                self.disk.call("read")
                end = min(len(data), place + WINDOW)
                begun = place
                while place < end and data[place] == 1 and place + 5 <= end:
                    length = int.from_bytes(data[place + 1:place + 5], "big")
                    if not 1 <= length <= GREATEST[mark] or place + 5 + length > end:
                        break
                    place += 5 + length
                whole = place + 5 <= end and not 1 <= int.from_bytes(data[place + 1:place + 5], "big") <= GREATEST[mark]
                if end == len(data) or (place < end and data[place] != 1) or whole:
                    break
                assert place > begun
        if payloads is None:
            raise Fault("NotAShelf(%d)" % fails)
        if len(payloads) > limits[0] or 9 + sum(5 + len(payload) for payload in payloads) > limits[1]:
            raise Fault("Full")
        return payloads

    def read_back(self, limits=STANDARD):
        return self.tried("read_back %d %d" % limits, lambda: self.opened(self.read(NEW, limits), limits))

    def read_old(self, limits=STANDARD):
        self.list = None
        return self.tried("read_old %d %d" % limits, lambda: sized("old", self.read(OLD, limits)))

    def size(self):
        return 9 + sum(5 + len(payload) for payload in self.list)

    def append(self, payload):
        return self.row("append " + spelled(payload), self.appended(payload))

    def appended(self, payload):
        if self.broken:
            return "Broken"
        if len(self.list) >= self.limits[0] or self.size() + 5 + len(payload) > self.limits[1]:
            return "Full"
        end = self.size() - 1
        try:
            self.disk.call("write", end + 1, len(payload).to_bytes(4, "big") + payload + b"\0")
            self.disk.call("sync")
            self.disk.call("write", end, b"\1")
            self.disk.call("sync")
        except Fault as fault:
            self.broken = True
            return str(fault)
        self.list = self.list + [payload]
        return "Ok"

    def migrate(self, data, payloads, limits=STANDARD, failing=()):
        self.disk = Disk(data, failing)
        call = "migrate %d %d %s %s" % (*limits, ",".join(map(str, failing)), spelled(data))
        return self.tried(" ".join([call, *map(spelled, payloads)]), lambda: self.brought_over(payloads, limits))

    def brought_over(self, payloads, limits):
        if len(payloads) > limits[0] or 9 + sum(5 + len(payload) for payload in payloads) > limits[1]:
            raise Fault("Full")
        for call in ("cut", 0), ("sync",), ("write", 0, b"\0"), ("sync",), ("write", 1, NEW[1:]):
            self.disk.call(*call)
        place = 8
        for payload in payloads:
            self.disk.call("write", place, record(payload)[:5])
            self.disk.call("write", place + 5, payload)
            place += 5 + len(payload)
        for call in ("write", place, b"\0"), ("sync",), ("write", 0, NEW[:1]), ("sync",):
            self.disk.call(*call)
        self.opened(payloads, limits)

    def told(self):
        """The list and its size."""
        return self.row("list", sized("list", self.list)).row("bytes", str(self.size()))

    def file(self):
        """The shelf is let go, and its file is told."""
        self.list = None
        return self.row("file", sized("file", [self.disk.data]))

    def images(self):
        words = ""
        for moment in range(len(self.disk.calls) + 1):
            words += "".join(", " + words_of(self.disk.image(moment, shape)) for shape in ("whole", "lost", "ones")) + ";"
        return self.row("images", "images" + words)


def a_life():
    """A new shelf, an event's body, and the table of limits."""
    yield Session().create().file()
    yield Session().create().append(PLAIN_ICP).told().file()
    yield Session().create().append(b"abc").append(b"de").told().file().images().read_back().told().append(b"f").told().file()
    yield Session().create((1, STANDARD[1])).append(PLAIN_ICP).append(b"a").told().file()
    yield Session().create((STANDARD[0], 9 + 5 + 3)).append(b"abcd").append(b"abc").append(b"a").told().file()
    yield Session().create((0, 0)).append(b"a").told().file()
    for size in (1, 4, 65535, 65536, 524288):
        yield Session().create().append(b"z" * size).told().file().read_back().told()
    yield Session().create().row("append ", "out-of-range").row("append 524289*z", "out-of-range").told()


def faults():
    """Each call that fails, and what is answered from then on."""
    for number in range(2):
        yield Session().create(failing=(number,)).images()
    for number in range(2, 10):
        yield Session().create(failing=(number,)).append(b"abc").append(b"de").append(b"f").told().file().images().read_back()
    for number in range(5):
        yield Session().put_in(file_of(NEW, b"abc"), (number,)).read_back().file()
        yield Session().put_in(file_of(OLD, b"abc"), (number,)).read_old().file()
    for number in range(14):
        yield Session().migrate(b"", [b"abc", b"de"], failing=(number,)).file().images()


def refusals():
    """Files that are no shelf, at each place that the format has."""
    whole = file_of(NEW, b"abc", b"de")
    for size in range(len(whole) + 1):
        yield Session().put_in(whole[:size]).read_back().file()
    for front in (b"K", NEW[:7], b"ZSHELF02", OLD):
        yield Session().put_in(front + whole[8:]).read_back().read_old()
    for length in (0, 524288, 524289, 4294967295):
        yield Session().put_in(NEW + b"\1" + length.to_bytes(4, "big") + b"abc\0").read_back()
    for length in (0, 65535, 65536):
        yield Session().put_in(OLD + b"\1" + length.to_bytes(4, "big") + b"abc\0").read_old()
    yield Session().put_in(whole[:-1] + b"\1").read_back()
    for gate in (0, 2, 7, 255):
        yield Session().put_in(NEW + bytes([gate]) + record(b"abc")[1:] + b"\0").read_back().told().append(b"x").told().file()
    yield Session().put_in(file_of(NEW, b"abc", behind=record(b"junk") + b"\0")).read_back().told().append(b"x").told().file()
    yield Session().put_in(whole).read_back((2, 24)).told()
    yield Session().put_in(whole).read_back((1, 24)).read_back((2, 23)).file()
    yield Session().put_in(whole[:-1]).read_back((0, 0))
    yield Session().put_in(file_of(OLD, b"abc", b"de")).read_old((2, 24)).read_old((1, 24)).read_old((2, 23)).read_back()


def windows():
    """Files that are read in several windows, with a record across the edge."""
    many = [bytes([97 + number]) * 524288 for number in range(6)]
    yield Session().put_in(file_of(NEW, *many)).read_back().told()
    edge = WINDOW - 5 * 3 - 3 * 524288
    for size in range(edge - 6, edge + 2):
        yield Session().put_in(file_of(NEW, *many[:3], b"y" * size, b"z")).read_back().told()
    yield Session().put_in(file_of(NEW, *many)[:-2]).read_back()
    yield Session().put_in(file_of(NEW, *many[:4], gate=b"\1", behind=b"\0\0\0\0")).read_back()


def migrations():
    """Version 1 brought over, from files that a stop may have left too."""
    yield Session().put_in(file_of(OLD, PLAIN_ICP)).read_old().read_back()
    yield Session().migrate(b"", [PLAIN_ICP]).told().append(b"x").told().file()
    left = (b"", b"\0", b"K", b"\0SHELF02" + record(b"other") + b"\0", b"\1SHELF02" + record(b"other") + b"\0", b"\1SHEL")
    for data in (*left, file_of(OLD, b"other"), b"foreign", b"KSHELF0", b"\1HELF02"):
        yield Session().migrate(data, [b"abc", b"de"]).told().file().images()
    yield Session().migrate(b"", []).told().file().images()
    yield Session().migrate(b"", [b"abc", b"de"], (1, 24)).images()
    yield Session().migrate(b"foreign", [b"abc", b"de"], (2, 23)).file().images()
    yield Session().migrate(b"", [b"abc", b"de"], (2, 24)).told()


def rows():
    for table in (a_life, faults, refusals, windows, migrations):
        yield "# " + table.__doc__.split("\n")[0]
        for session in table():
            yield from session.rows
