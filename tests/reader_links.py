"""`validate` and `watch` over links: the tests of these in tests/links."""
import socket
import time

from files_cases import OTHER, OTHER_SIGNED, SIGNED, VALIDATED, WATCHED
from kit import PLAIN_ICP as ICP, signed
from link_places import DONE, MOST, READ_FAULT, VALIDATE, WATCH, check
from log_cases import IXN_1, REALISTIC, REALISTIC_LINES, by_prefix, log

PAUSE = 0.01


def test_files(place):
    """Each case of several files, with a link in the place of each of them."""
    for command, cases in ((VALIDATE, VALIDATED), (WATCH, WATCHED)):
        for name, (files, order, text, status) in cases.items():
            if any(files.get(file) is None for file in order):
                continue  # what isn't there is no link
            door = place.serve(command, len(order))
            for peer, file in zip(door.peers(len(order)), order):
                peer.send(files[file]).close()
            check(f"{command[0]} over links: {name}", door.ended(), (text, status))


def test_same_as_files(place):
    """The same two files, as files and as links."""
    parts = "".join(REALISTIC[::2]), "".join(REALISTIC[1::2])
    for name, part in zip("ab", parts):
        (place.folder / name).write_text(part)
    for command, wanted in ((VALIDATE, REALISTIC_LINES), (WATCH, "")):
        door = place.serve(command, 2)
        for peer, part in zip(door.peers(2), parts):
            peer.send(part).close()
        over_links = door.ended()
        check(f"{command[0]} over two links", over_links, (wanted, DONE))
        check(f"{command[0]} over the same two files", place.run_words(*command, "a", "b"), over_links)


def test_late_end(place):
    """A link that ends late keeps the run. The first one's peer is told that nothing comes once the next one is asked
    for, and the last one's peer only at the end."""
    door = place.serve(VALIDATE, 2)
    first, second = door.peers(2)
    second.send(signed(IXN_1, 1)).end()
    check("a late end: the first's peer", first.read(1), "")
    check("a late end: the last's peer", second.is_quiet(0.7), True)
    check("a late end: it runs", door.is_running(), True)
    first.send(SIGNED).close()
    check("a late end: the last's peer, in the end", second.rest(), "")
    check("a late end", door.ended(), (log(ICP, IXN_1), DONE))


def test_reset(place):
    """A link that is given up is a fault of that reader alone."""
    door = place.serve(VALIDATE, 3)
    first, second, third = door.peers(3)
    first.send(SIGNED).end()
    third.send(signed(IXN_1, 1)).end()
    second.send(ICP[:100])
    second.reset()
    check("a link given up", door.ended(), (log(ICP, IXN_1) + "fault 1 read\n", READ_FAULT))


def test_reset_behind_messages(place):
    """What came before counts."""
    door = place.serve(VALIDATE, 2)
    first, second = door.peers(2)
    first.send(SIGNED)
    check("a link given up behind a message: it was read", first.is_read(), True)  # a reset takes back what wasn't
    first.reset()
    second.send(OTHER_SIGNED).end()
    check("a link given up behind a message", door.ended(), (by_prefix(log(ICP), log(OTHER)) + "fault 0 read\n", READ_FAULT))


def test_many(place):
    """So many links as may be, which end in the opposite order."""
    door = place.serve(VALIDATE, MOST)
    peers = door.peers(MOST)
    for peer in reversed(peers):
        peer.send("".join(REALISTIC)).end()
    check("as many links as may be", door.ended(), (REALISTIC_LINES, DONE))
    check("as many links as may be: no peer is told anything", {peer.rest() for peer in peers}, {""})


def test_slow(place):
    """A link that gives one byte after the other, and one that is whole at once."""
    door = place.serve(VALIDATE, 2)
    slow, quick = door.peers(2)
    quick.send(signed(IXN_1, 1)).end()
    slow.socket.setsockopt(socket.IPPROTO_TCP, socket.TCP_NODELAY, 1)
    for character in SIGNED:
        slow.send(character)
        time.sleep(PAUSE)
    slow.end()
    check("byte by byte", door.ended(), (log(ICP, IXN_1), DONE))


def test_one_more(place):
    """A link more than are asked for is given up at the end, and nothing of it is read."""
    door = place.serve(VALIDATE, 1)
    first, second = door.peers(2)
    second.send(OTHER_SIGNED)
    first.send(SIGNED).end()
    check("one more link", door.ended(), (log(ICP), DONE))
    try:
        text = second.rest()
    except ConnectionResetError:
        text = ""
    check("one more link: its peer", text, "")


def test_none_at_all(place):
    """Peers that close at once."""
    for command in VALIDATE, WATCH:
        door = place.serve(command, 3)
        for _ in range(3):
            door.peer().close()
        check(f"{command[0]}: links that end at once", door.ended(), ("", DONE))


TESTS = [test_slow, test_files, test_same_as_files, test_late_end, test_reset, test_reset_behind_messages, test_many, test_one_more,
         test_none_at_all]
