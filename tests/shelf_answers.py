"""What shelf_tool takes and refuses. Each test has a folder of its own."""
import fcntl
import os
import pathlib
import resource
import subprocess

from shelf_runs import (EMPTY, GREATEST, MARK, OLD_GREATEST, OLD_MARK, PROGRAM, RECORDS, SECONDS, check, holds, lines, payloads_of, record,
                        refused, run, shelf, stored)


def test_new(top):
    file = top / "shelf"
    check("no payload", run("append", file), (0, b"", b""))
    check("a new shelf", file.read_bytes(), EMPTY)
    holds("a new shelf", file, [])
    check("abc and de", run("append", file, sent=b"abc\nde\n"), (0, b"stored 1\nstored 2\n", b""))
    written = bytes.fromhex("4b5348454c463032 01 00000003 616263 01 00000002 6465 00")
    check("the documented bytes", file.read_bytes(), written)
    check("one more", run("append", file, sent=b"fgh"), (0, b"stored 3\n", b""))
    holds("three", file, [b"abc", b"de", b"fgh"])
    empty = top / "empty"
    empty.write_bytes(b"")
    check("an empty file", run("append", empty, sent=b"a\n"), (0, b"stored 1\n", b""))
    holds("an empty file", empty, [b"a"])
    (top / "link").symlink_to("shelf")
    check("a link to a shelf", run("append", top / "link", sent=b"i\n"), (0, b"stored 4\n", b""))
    check("in the folder that it lies in", run("append", "shelf", sent=b"j\n", cwd=top), (0, b"stored 5\n", b""))


def test_lines(top):
    file = top / "shelf"
    greatest = bytes(range(11, 256)) * (GREATEST // 245 + 1)
    greatest = greatest[:GREATEST]
    sent = [b"a", b"", greatest, greatest + b"x", b"\0\1\r", b"x" * (3 * GREATEST), b"", b"b"]
    told = b"line 2 is empty\nline 4 has over 524288 bytes\nline 6 has over 524288 bytes\nline 7 is empty\nlines were left out\n"
    for end in (b"\n", b""):
        file.unlink(missing_ok=True)
        check("lines", run("append", file, sent=b"\n".join(sent) + end), (3, stored(1, 4), told))
        holds("lines", file, [b"a", greatest, b"\0\1\r", b"b"])
    check("an empty line alone", run("append", file, sent=b"\n"), (3, b"", b"line 1 is empty\nlines were left out\n"))


def test_words(top):
    file = top / "shelf"
    words = ([], ["append"], ["list"], ["count"], ["migrate", file], ["append", file, file], ["list", file, file],
             ["migrate", file, file, file], ["--help"], ["add", file], ["Append", file], ["list", b"\xff"])
    for given in words:
        done = subprocess.run([PROGRAM, *given], input=b"a\n", capture_output=True, timeout=SECONDS)
        check(f"words {given}", (done.returncode, done.stdout, done.stderr[:18], done.stderr.count(b"\n")), (2, b"", b"usage: shelf_tool ", 1))
    check("nothing was made", list(top.iterdir()), [])


def test_in_use(top):
    file, old = top / "shelf", top / "old"
    old.write_bytes(shelf([b"a"], OLD_MARK))
    child = subprocess.Popen([PROGRAM, "append", file], stdin=subprocess.PIPE, stdout=subprocess.PIPE, stderr=subprocess.PIPE)
    child.stdin.write(b"abc\n")
    child.stdin.flush()
    check("answered at once", child.stdout.readline(), b"stored 1\n")
    before, times = file.read_bytes(), file.stat()
    for words in (["append", file], ["list", file], ["count", file], ["migrate", old, file], ["migrate", file, top / "new"]):
        check(f"in use: {words[0]}", run(*words, sent=b"x\n"), (8, b"", b"in use\n"))
    check("the file", (file.read_bytes(), file.stat().st_mtime_ns), (before, times.st_mtime_ns))
    check("nothing was made", sorted(path.name for path in top.iterdir()), ["old", "shelf"])
    written, told = child.communicate(b"de\n")
    check("goes on", (child.returncode, written, told), (0, b"stored 2\n", b""))
    holds("given free", file, [b"abc", b"de"])
    with open(file, "rb") as held:
        fcntl.flock(held, fcntl.LOCK_SH)
        check("locked by another program", run("append", file, sent=b"x\n"), (8, b"", b"in use\n"))
    check("one file for both", run("migrate", old, old), (8, b"", b"in use\n"))
    check("the old file", old.read_bytes(), shelf([b"a"], OLD_MARK))


def test_no_files(top):
    os.mkfifo(top / "pipe")
    (top / "folder").mkdir()
    for path in (top, top / "folder", top / "pipe", pathlib.Path("/dev/null"), pathlib.Path("/dev/zero")):
        for command in ("append", "list", "count"):
            check(f"{command} {path.name}", run(command, path, sent=b"x\n"), (8, b"", b"not a file\n"))
    for path in (top / "none" / "shelf", top / "pipe" / "shelf"):
        for command in ("append", "list", "count"):
            check(f"{command} in {path.parent.name}", run(command, path, sent=b"x\n"), (8, b"", b"disk fault\n"))
    for command in ("list", "count"):
        check(f"{command} of none", run(command, top / "shelf"), (8, b"", b"disk fault\n"))
    check("nothing was made", sorted(path.name for path in top.iterdir()), ["folder", "pipe"])


# Of a shelf of `abc` and `de`, cut to so many bytes, where it shows first that it is none.
CUTS = {0: range(1, 8), 8: [8], 9: range(9, 13), 13: range(13, 16), 16: [16], 17: range(17, 21), 21: range(21, 23), 23: [23]}


def test_not_a_shelf(top):
    file = top / "shelf"
    whole = shelf([b"abc", b"de"])
    for place, sizes in CUTS.items():
        for size in sizes:
            file.write_bytes(whole[:size])
            check(f"cut to {size}: read here", payloads_of(whole[:size]), place)
            refused(f"cut to {size}", file, place)
    for place in range(8):
        file.write_bytes(whole[:place] + bytes([whole[place] ^ 1]) + whole[place + 1:])
        refused(f"another byte {place}", file, 0)
    file.write_bytes(shelf([b"abc"], OLD_MARK))
    refused("version 1", file, 0)
    for length in (0, GREATEST + 1, 2**31, 2**32 - 1):
        for front, place in ((MARK, 9), (whole[:16], 17)):
            file.write_bytes(front + b"\1" + length.to_bytes(4, "big") + bytes(2 * GREATEST))
            refused(f"length {length}", file, place)
    file.write_bytes(b"")
    for command in ("list", "count"):
        check(f"empty: {command}", run(command, file), (3, b"", b"not a shelf 0\n"))
    check("empty still", file.read_bytes(), b"")
    file.write_bytes(MARK + b"\1" + GREATEST.to_bytes(4, "big") + bytes(GREATEST) + b"\0")
    check("the greatest length", run("count", file), (0, b"1\n", b""))


def test_behind_the_gate(top):
    """What stands behind a closed gate counts for nothing, and is written over."""
    file = top / "shelf"
    behind = (b"", b"\1", record(b"x"), record(b"x" * 40) + b"\1", b"\0\0\0\3xyz\0", b"\1" * 40, bytes(range(255, 200, -1)))
    for gate in (0, 2, 7, 255):
        for junk in behind:
            front = shelf([b"abc", b"de"])[:-1]
            file.write_bytes(front + bytes([gate]) + junk)
            holds(f"gate {gate}, {junk}", file, [b"abc", b"de"])
            check(f"gate {gate}, {junk}: append", run("append", file, sent=b"fgh\n"), (0, b"stored 3\n", b""))
            written = front + record(b"fgh") + b"\0"
            check(f"gate {gate}, {junk}: the file", file.read_bytes(), written + (front + b"\0" + junk)[len(written):])


def test_full(top):
    file = top / "shelf"
    many = [b"a"] * RECORDS
    file.write_bytes(shelf(many[1:]))
    check("one more", run("append", file, sent=b"b\nc\n"), (9, b"stored %d\n" % RECORDS, b"full\n"))
    check("as many as may be", payloads_of(file.read_bytes()) == many[1:] + [b"b"], True)
    file.write_bytes(shelf(many + [b"a"]))
    for command in ("append", "list", "count"):
        check(f"too many: {command}", run(command, file, sent=b"b\n"), (9, b"", b"full\n"))
    check("the file", file.read_bytes() == shelf(many + [b"a"]), True)


def test_streams(top):
    """Standard streams that are full or closed; no descriptor of theirs becomes the file."""
    file = top / "shelf"
    run("append", file, sent=b"abc\n")
    with open("/dev/full", "wb") as full:
        check("a full output", run("append", file, sent=b"de\nx\n", stdout=full)[::2], (6, b"output fault\n"))
        check("a full output: list", run("list", file, stdout=full)[::2], (6, b"output fault\n"))
        check("a full output: count", run("count", file, stdout=full)[::2], (6, b"output fault\n"))
    holds("stored, not answered", file, [b"abc", b"de"])
    for closed, outcome in (((0,), (5, b"", b"input fault\n")), ((1,), (6, b"", b"output fault\n")), ((0, 1, 2), (5, b"", b""))):
        answer = run("append", file, sent=b"x\n" * 3, preexec_fn=lambda: [os.close(number) for number in closed])
        check(f"closed: {closed}", answer, outcome)
    holds("closed streams", file, [b"abc", b"de", b"x"])


def test_no_room(top):
    """The system refuses to let the file grow any further."""
    file = top / "shelf"
    run("append", file, sent=lines([b"a" * 250]))
    before = file.read_bytes()
    small = {"preexec_fn": lambda: resource.setrlimit(resource.RLIMIT_FSIZE, (400, 400))}
    check("no room", run("append", file, sent=lines([b"b" * 200]), **small), (8, b"", b"disk fault\n"))
    check("the front", file.read_bytes()[:len(before)], before)
    holds("no room", file, [b"a" * 250])
    check("room again", run("append", file, sent=b"c\n"), (0, b"stored 2\n", b""))
    holds("room again", file, [b"a" * 250, b"c"])


def test_migration(top):
    old, file = top / "old", top / "new"
    payloads = [b"abc", b"x" * OLD_GREATEST, b"\n\0\1", b"de"]
    old.write_bytes(shelf(payloads, OLD_MARK) + b"behind")
    answer = (0, b"stored 4\n", b"")
    check("a new file", run("migrate", old, file), answer)
    check("its bytes", file.read_bytes() == shelf(payloads), True)
    check("once more", run("migrate", old, file), answer)
    check("its bytes still", file.read_bytes() == shelf(payloads), True)
    check("and then append", run("append", file, sent=b"f\n"), (0, b"stored 5\n", b""))
    check("and then again", run("migrate", old, file), (0, b"stored 5\n", b""))
    holds("gone on", file, payloads + [b"f"])
    whole = shelf(payloads)
    left = [b"", b"\0", b"x", b"\0" + whole[1:], b"\0" + whole[1:100], b"\0" * 30, b"x" + whole[1:], b"x" + whole[1:8], b"x" + whole[1:4], b"xS", b"K"]
    for number, data in enumerate(left):
        file.write_bytes(data)
        check(f"left over {number}", run("migrate", old, file), answer)
        check(f"left over {number}: its bytes", file.read_bytes() == whole, True)
    foreign = (b"some text", b"xy", whole[:2], whole[:7], b"x" + OLD_MARK[1:], b"xxSHELF02", shelf([b"abc"], OLD_MARK))
    others = {**{data: b"not a shelf 0\n" for data in foreign}, whole[:20]: b"not a shelf 17\n",
              shelf([b"abc", b"other"]): b"another shelf\n", shelf([b"abc"]): b"another shelf\n"}
    for data, told in others.items():
        file.write_bytes(data)
        check(f"not over {data[:30]}", run("migrate", old, file), (3, b"", told))
        check(f"not over {data[:30]}: its bytes", file.read_bytes() == data, True)
    check("the old file", old.read_bytes() == shelf(payloads, OLD_MARK) + b"behind", True)
    file.unlink()
    whole = shelf([b"abc", b"de"], OLD_MARK)
    for place, sizes in {**CUTS, 0: range(8)}.items():
        for size in sizes:
            old.write_bytes(whole[:size])
            check(f"old, cut to {size}", run("migrate", old, file), (3, b"", b"not a shelf %d\n" % place))
    for length in (0, OLD_GREATEST + 1, 2**32 - 1):
        old.write_bytes(OLD_MARK + b"\1" + length.to_bytes(4, "big") + bytes(2 * OLD_GREATEST))
        check(f"old, length {length}", run("migrate", old, file), (3, b"", b"not a shelf 9\n"))
    old.write_bytes(shelf([b"abc"]))
    check("old, version 2", run("migrate", old, file), (3, b"", b"not a shelf 0\n"))
    old.unlink()
    check("no old file", run("migrate", old, file), (8, b"", b"disk fault\n"))
    check("nothing was made", list(top.iterdir()), [])


TESTS = [test_new, test_lines, test_words, test_in_use, test_no_files, test_not_a_shelf, test_behind_the_gate, test_full, test_streams,
         test_no_room, test_migration]
