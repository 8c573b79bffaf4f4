"""Links whose peers keep the program waiting: the tests of these in tests/links.

A read or a write waits for 30 seconds at most, and a link is read and written for 5 minutes. The program runs behind
quick_clock.c, by which its time is some times as fast; what is told in seconds here is told by its time.
"""
import contextlib
import os
import pathlib
import shutil
import subprocess
import threading
import time

from files_cases import OTHER, OTHER_SIGNED, SIGNED
from kit import PLAIN_ICP as ICP
from link_places import DONE, MESSAGES, READ_FAULT, VALIDATE, WATCH, WITNESS, WRITE_FAULT, check, payloads, receipts
from log_cases import by_prefix, log
from row_tables.witness import OWN_IXN
from skips import skip

SOURCE = pathlib.Path(__file__).resolve().parent / "quick_clock.c"
SILENCE, WHOLE, QUIET = 30, 300, 20  # seconds: of one read or write, of a link, and of a peer that takes its time
QUICKER, QUICKEST = 15, 100
ROOM = 4096


def served(place, command, links, quicker=QUICKER):
    """The program over so many links, whose time is so many times as fast."""
    library = place.folder / "quick_clock.so"
    if not library.exists():
        subprocess.run(["cc", "-shared", "-fPIC", "-o", library, SOURCE], check=True)
    return place.serve(command, links, env=dict(os.environ, LD_PRELOAD=str(library), QUICKER=str(quicker), ROOM=str(ROOM)))


class Clock:
    """How long something takes, in seconds of the program."""

    def __init__(self):
        self.begun = time.monotonic()

    def is_between(self, least, most):
        """Whether so much time has gone by. The program may have begun a moment before."""
        taken = (time.monotonic() - self.begun) * QUICKER
        return "in time" if least - QUICKER / 10 <= taken < most else taken


def test_silent(place):
    """A peer that sends nothing, half a message, and a whole one without an end: it is let go, what is whole was taken,
    and the next link is served."""
    wanted = receipts(*MESSAGES)
    for name, text, answer, stored in (("nothing", "", "", ()), ("half a message", MESSAGES[0][:100], "", ()),
                                       ("a message without an end", MESSAGES[0], wanted[0], MESSAGES[:1]),
                                       ("a message and a half", MESSAGES[0] + OWN_IXN, wanted[0], MESSAGES[:1])):
        (place.folder / "shelf").unlink(missing_ok=True)
        door = served(place, WITNESS, 2)
        silent, other = door.peers(2)
        clock = Clock()
        silent.send(text)
        other.send(MESSAGES[0] + MESSAGES[1] + MESSAGES[2]).end()
        check(f"{name}: the next waits", other.is_quiet(0.5 * SILENCE / QUICKER), True)
        check(f"{name}: the next", other.rest(), "".join(wanted))
        check(f"{name}: when it is let go", clock.is_between(SILENCE, WHOLE), "in time")
        check(f"{name}: its answer", silent.rest(), answer)
        check(name, door.ended(), ("", READ_FAULT))
        check(f"{name}: the shelf", place.shelf(), payloads(*MESSAGES))


def test_byte_by_byte(place):
    """A peer that sends a byte each second, for six minutes."""
    door = served(place, WITNESS, 2)
    slow, other = door.peers(2)
    clock = Clock()
    other.send(MESSAGES[0]).end()
    for count in range(360):
        slow.send(MESSAGES[0][count])
        if not other.is_quiet(1 / QUICKER):
            break
    check("a byte each second: when it is let go", clock.is_between(WHOLE, WHOLE + 2 * SILENCE), "in time")
    check("a byte each second: the next", (other.rest(), slow.rest()), (receipts(MESSAGES[0])[0], ""))
    check("a byte each second", door.ended(), ("", READ_FAULT))


def test_quiet(place):
    """A peer that takes its time between messages, within a message, and before its end."""
    door = served(place, WITNESS, 1)
    peer, wanted = door.peer(), receipts(*MESSAGES)
    half = len(OWN_IXN) // 2
    for part in MESSAGES[0] + MESSAGES[1][:half], MESSAGES[1][half:], MESSAGES[2]:
        time.sleep(QUIET / QUICKER)
        peer.send(part)
    time.sleep(QUIET / QUICKER)
    check("a peer that takes its time: the receipts", peer.end().rest(), "".join(wanted))
    check("a peer that takes its time", door.ended(), ("", DONE))


def send_all(peer, text):
    """Sends the text in a thread of its own, as far as it is taken."""
    def send():
        with contextlib.suppress(OSError):
            peer.send(text)
    thread = threading.Thread(target=send, daemon=True)
    thread.start()
    return thread


def test_deaf(place):
    """A peer that reads nothing, and one that reads a little now and then. The next link is served, and the event is
    stored."""
    for name, pause, least in (("a peer that reads nothing", None, SILENCE), ("a peer that reads a little", SILENCE / 3, WHOLE)):
        (place.folder / "shelf").unlink(missing_ok=True)
        door = served(place, WITNESS, 2)
        peer, other = door.peer(room=ROOM), door.peer()
        clock = Clock()
        sending = send_all(peer, MESSAGES[0] * 2000)
        other.send(MESSAGES[1]).end()
        while pause and other.is_quiet(pause / QUICKER):
            peer.socket.recv(1 << 16)
        check(f"{name} in time: the next", other.rest(), receipts(*MESSAGES)[1])
        check(f"{name} in time: when it is let go", clock.is_between(least, least + WHOLE), "in time")
        peer.reset()
        sending.join()
        check(f"{name} in time", door.ended(), ("", WRITE_FAULT))
        check(f"{name} in time: the shelf", place.shelf(), payloads(*MESSAGES[:2]))


def test_silent_among_others(place):
    """One of three links is silent. What the others hold counts, and what it sent before."""
    faults = {VALIDATE[0]: by_prefix(log(ICP), log(OTHER)) + "fault 1 read\n", WATCH[0]: ""}
    for command in VALIDATE, WATCH:
        door = served(place, command, 3)
        first, silent, third = door.peers(3)
        first.send("").end()
        silent.send(SIGNED)
        third.send(OTHER_SIGNED).end()
        check(f"{command[0]}: a silent peer among others", door.ended(), (faults[command[0]], READ_FAULT))


def test_late(place):
    """All links are taken before the first is read: one that waits for the others meanwhile loses no time."""
    for command, wanted in ((VALIDATE, by_prefix(log(ICP), log(OTHER))), (WATCH, "")):
        door = served(place, command, 2, QUICKEST)
        door.peer().send(SIGNED).end()
        time.sleep(1.2 * WHOLE / QUICKEST)
        check(f"{command[0]}: a link that is late: it is waited for", door.is_running(), True)
        door.peer().send(OTHER_SIGNED).end()
        check(f"{command[0]}: a link that is late", door.ended(), (wanted, DONE))


def long_silence(place):
    """A peer that sends nothing, by the clock of this machine."""
    begun = time.monotonic()
    door = place.serve(WITNESS, 2)
    silent, other = door.peers(2)
    other.send(MESSAGES[0]).end()
    check("half a minute: the next", other.rest(), receipts(MESSAGES[0])[0])
    print(f"a peer that sends nothing was let go after {time.monotonic() - begun:.1f} s")
    check("half a minute: its end", silent.rest(), "")
    check("half a minute", door.ended(), ("", READ_FAULT))


def tests():
    """The tests, where the library can be built."""
    if shutil.which("cc"):
        return [test_byte_by_byte, test_deaf, test_silent, test_quiet, test_silent_among_others, test_late]
    skip("tests/links: there is no C compiler, and how long a peer is waited for isn't tried")
    return []
