"""Runs of shelf_tool over files, and a reader of these that is written here from docs/FORMATS.md ("Shelf file")."""
import os
import pathlib
import subprocess

from checks import Checks

PROGRAM = pathlib.Path(__file__).resolve().parent.parent / "crates" / "shelf_tool" / "out" / "shelf_tool"
SECONDS = 60

MARK, OLD_MARK = b"KSHELF02", b"KSHELF01"
GREATEST, OLD_GREATEST = 524_288, 65_535
RECORDS = 1_048_576
EMPTY = MARK + b"\0"

check = Checks("tests/shelf_stops")


def payloads_of(data, mark=MARK, greatest=GREATEST):
    """The payloads of a file, or the place at which it shows first that it is no shelf."""
    if data[:8] != mark:
        return 0
    place, payloads = 8, []
    while True:
        if place == len(data):
            return place
        if data[place] != 1:
            return payloads
        length = int.from_bytes(data[place + 1:place + 5], "big")
        if len(data) < place + 5 or not 1 <= length <= greatest:
            return place + 1
        if len(data) < place + 5 + length:
            return place + 5
        payloads.append(data[place + 5:place + 5 + length])
        place += 5 + length


def record(payload):
    return b"\1" + len(payload).to_bytes(4, "big") + payload


def shelf(payloads, mark=MARK):
    return mark + b"".join(map(record, payloads)) + b"\0"


def lines(payloads):
    return b"".join(payload + b"\n" for payload in payloads)


def stored(first, last):
    """What is answered to the payloads from one number to another."""
    return b"".join(b"stored %d\n" % number for number in range(first, last + 1))


def run(*words, sent=b"", **more):
    """The status, what was written, and what was written to standard error."""
    more.setdefault("stdout", subprocess.PIPE)
    more["env"] = os.environ | more.get("env", {})
    done = subprocess.run([PROGRAM, *map(str, words)], input=sent, stderr=subprocess.PIPE, timeout=SECONDS, **more)
    return done.returncode, done.stdout, done.stderr


def refused(name, file, place):
    """No command takes the file, which shows at the place that it is no shelf, and none changes it."""
    before = file.read_bytes()
    for command in ("append", "list", "count"):
        answer = run(command, file, sent=b"payload\n")
        check(f"{name}: {command}", answer, (3, b"", b"not a shelf %d\n" % place))
    check(f"{name}: the file", file.read_bytes() == before, True)


def holds(name, file, payloads):
    """The file stands for the payloads, to the reader and to the program, which doesn't change it."""
    before = file.read_bytes()
    check(f"{name}: read here", payloads_of(before), payloads)
    check(f"{name}: list", run("list", file), (0, lines(payloads), b""))
    check(f"{name}: count", run("count", file), (0, b"%d\n" % len(payloads), b""))
    check(f"{name}: the file", file.read_bytes() == before, True)
