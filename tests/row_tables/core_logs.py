"""The logs that a core accepts: live events, conflicts, and cores that begin with a list of texts."""
from event_cases import BASIC, OTHER_ROT, ROT
from kit import PLAIN_ICP as ICP, body, digest, key, said, signed
from log_cases import BACKED, CHANGED, CHILD, CHILD_1, IXN_1, IXN_2, IXN_3, IXN_4, LISTED, LOG, OTHER_2, RECOVERY, ROT_2, ROT_3, WATCHED
from log_cases import field, ixn, rot
from row_tables import argument
from row_tables.core_calls import accept, accepted, answer, asked, live, logged, resume, start, take, waiting, words
from row_tables.states import PREFIX


def recovery():
    yield from start()
    yield from live()
    for text in RECOVERY:
        yield from take(text)
        yield "ask", "1"
    yield from accepted(0, 1, 2, 3, 4, 5)
    yield from recovered(6, "Never", 0, 1, 4, 5)
    # Where the rotation comes first no interaction that it takes the place of is accepted any more.
    yield from start()
    for text in RECOVERY[::-1]:
        yield from take(text)
    yield "ask", "5"
    yield from accepted(6, 5, 2, 1)
    yield from recovered(0, "Predecessor", 6, 5, 2, 1)
    yield "why 3", "Predecessor"
    yield "why 4", "Never"
    yield from waiting(0, 3, 4)


def recovered(late, why, *numbers):
    """The interaction that comes late waits, and these events are live."""
    yield "why %d" % late, why
    yield from live(*numbers)
    yield from live(prefix=key(9))
    yield "log x", "no-prefix"
    yield "state %s" % PREFIX, "3 1 0"
    yield "conflicts", ""


def evidence():
    """What a watcher writes that was told these messages, and what it says where its sink fails."""
    for messages, written, *_ in WATCHED.values():
        yield " ".join(["evidence", "written", *map(argument, messages)]), "".join(written)
        yield " ".join(["evidence", "fails", *map(argument, messages)]), "WriteFault"


def place(text):
    """The place of a body among conflicts: establishment events stand before interactions."""
    prior = field(text, "p") if '"p":' in text else ""
    return field(text, "i"), int(field(text, "s"), 16), prior, field(text, "t") == "ixn"


def conflicts(held, *sets):
    """The conflicts are these sets of the held bodies."""
    found = sorted((sorted(those) for those in sets), key=lambda those: place(those[0]))
    yield "conflicts", "".join("%s %d(%s) " % (*place(those[0])[:2], words(map(held.index, those))) for those in found)


def rivals(held, inception, first, late):
    """Of two rotations the first is accepted, and the other never will be."""
    yield from accepted(inception, first)
    yield from live(inception, first)
    yield from waiting(late)
    yield "why %d" % late, "Never"
    yield "next 0", "none"
    yield from conflicts(held, (held[first], held[late]))


def two_rotations(first, second, mode="full"):
    yield from start(mode)
    yield from accept(signed(ICP, 1), [0])
    yield from take(signed(first, 2))
    yield from take(signed(second, 2))
    yield "conflicts", ""


def rotations():
    for first, second in ((ROT, OTHER_ROT), (OTHER_ROT, ROT)):
        for mode in ("full", "local"):
            yield from two_rotations(first, second, mode)
            yield from asked(1, key(2))
            yield "conflicts", ""
            yield from asked(2, key(2))
            yield from rivals([ICP, first, second], 0, 1, 2)
        yield from start()
        for text in (signed(second, 2), signed(first, 2), signed(ICP, 1)):
            yield from take(text)
        yield from asked(2, key(1), waiting=2)
        yield from asked(0, key(2))
        yield from asked(1, key(2))
        yield from rivals([second, first, ICP], 2, 0, 1)


THIRD_ROT = rot(ICP, 2, n=[digest(key(101))])


def three_rotations():
    rotations = [ROT, OTHER_ROT, THIRD_ROT]
    for order in (rotations, rotations[::-1]):
        yield from start()
        for text in (signed(ICP, 1), *(signed(text, 2) for text in order)):
            yield from take(text)
            yield "ask", "1"
        yield from accepted(0, 1)
        yield from waiting(2, 3)
        yield from conflicts([ICP, *order], rotations)


def later_rotation():
    # The verdict on the one that comes later is heard first.
    yield from two_rotations(ROT, OTHER_ROT)
    yield "next 1", "2 " + key(2)
    yield from answer("yes")
    yield from accepted(0, 2)
    yield "why 1", "Never"
    yield "conflicts", ""
    yield from asked(1, key(2))
    yield from rivals([ICP, ROT, OTHER_ROT], 0, 2, 1)
    # A body that isn't signed is in no conflict.
    yield from two_rotations(ROT, OTHER_ROT)
    yield from asked(1, key(2))
    yield from asked(2, key(2), "no")
    yield "why 2", "Never"
    yield "conflicts", ""
    # Bodies that want receipts are in one.
    yield from start()
    yield from take(BACKED)
    yield "ask", "3"
    for number, text in enumerate((CHANGED, OTHER_CHANGED), 1):
        yield from take(signed(text, 2))
        yield from asked(number, key(2))
        yield "why %d" % number, "Receipts"
    yield from accepted(0)
    yield from conflicts([LISTED, CHANGED, OTHER_CHANGED], (CHANGED, OTHER_CHANGED))


OTHER_CHANGED = rot(LISTED, 2, bt="2", br=[key(1, "B")], ba=[key(5, "B")], n=[digest(key(100))])
OTHER_BASIC = body("icp", i=key(1), a=[1])
OTHER_1 = ixn(ICP, a=[1])
# Behind the first body five pairs of one place.
PAIRS = [ICP, BASIC, OTHER_BASIC, IXN_1, OTHER_1, IXN_2, OTHER_2, ROT, OTHER_ROT, ixn(ROT), ixn(ROT, a=[1])]
SIGNED = [signed(text, number) for text, number in zip(PAIRS, (1, 1, 1, 1, 1, 1, 1, 2, 2, 2, 2))]
# Why each waits where they come in reversed order.
REASONS = ["Predecessor", "Predecessor", "none", "Never", "Predecessor", "Predecessor", "Never", "Never", "none", "Never", "none"]


def pairs():
    yield from start()
    for text in SIGNED:
        yield from take(text)
        yield "ask", "1"
    yield from accepted(0, 1, 3, 5, 7, 9)
    yield from live(0, 7, 9)
    yield from waiting(2, 4, 6, 8, 10)
    yield from conflicts(PAIRS, *(PAIRS[first:first + 2] for first in (1, 3, 5, 7, 9)))
    # What stands behind an event that isn't accepted is in no conflict.
    yield from start()
    for text in SIGNED[::-1]:
        yield from take(text)
    yield "ask", "7"
    yield from accepted(8, 10, 2)
    yield from live(10, 2)
    yield from waiting(*(number for number, why in enumerate(REASONS) if why != "none"))
    for number, why in enumerate(REASONS):
        yield "why %d" % number, why
    yield from conflicts(PAIRS[::-1], *(PAIRS[first:first + 2] for first in (1, 3, 7)))


BASE = [ICP, IXN_1, IXN_2, IXN_3, ROT_2, ROT_3]
RECEIPT = body("rct", d=said(ICP), i=said(ICP))
# Texts that are no log, with the number of the first that has no place there.
NO_LOGS = [
    ([ICP, IXN_2], 1), ([ICP, ICP], 1), ([RECEIPT], 0), (["x"], 0), ([signed(ICP, 1)], 0), ([ICP, RECEIPT], 1), ([ICP, IXN_1, IXN_1], 2),
    ([ICP, IXN_1, OTHER_1], 2), ([ICP, ROT, OTHER_ROT], 2), ([ICP, BASIC, OTHER_BASIC], 2), ([IXN_1, ICP], 0), (BASE + [IXN_4], 6),
    (BASE[::-1], 0), ([ICP, IXN_1, "x", "x"], 2),
]


def bases():
    for texts, number in NO_LOGS:
        yield from resume(texts, "NotALog(%d)" % number)
    for behind in ([IXN_2, IXN_3], [IXN_3, IXN_2]):
        yield from resume([ICP, IXN_1])
        yield from logged([ICP, IXN_1], "1 1 0")
        for text in behind:
            yield from take(signed(text, 1))
        for text in (IXN_2, IXN_3):
            yield from asked(2 + behind.index(text), key(1), waiting=1)
        yield from logged([ICP, IXN_1] + behind, "3 1 0")
    # A text of the base is asked of once it comes, and is accepted already.
    yield from take(signed(ICP, 1))
    yield from asked(0, key(1))
    yield from take(signed(ICP, 1), "Again")
    yield from accepted(0, 1, 3, 2)
    yield from resume([])
    yield from accept(signed(ICP, 1), [0])
    yield from resume([ICP, BASIC, IXN_1])
    yield from accepted(0, 1, 2)
    yield from live(0, 2)
    yield from live(1, prefix=key(1))
    yield from resume(BASE)
    yield from accepted(0, 1, 2, 3, 4, 5)
    yield from take(signed(IXN_4, 1))
    yield "ask", "1"
    yield from recovered(6, "Never", 0, 1, 4, 5)


def behind_bases():
    # Texts of a base want neither verdicts nor receipts nor seals; what comes behind them does.
    yield from resume(LOG)
    yield from logged(LOG, "5 3 4")
    for mode in ("full", "local"):
        yield from resume([CHILD], mode=mode)
        yield from logged([CHILD], "0 1 0")
        yield from take(signed(CHILD_1, 11))
        yield from asked(1, key(11))
        yield "why 1", "Seal" if mode == "full" else "none"
        yield from accepted(*[0] if mode == "full" else [0, 1])
    # A text of a base is in a conflict once it is signed.
    yield from resume([ICP, ROT])
    yield from take(signed(OTHER_ROT, 2))
    yield from asked(2, key(2))
    yield "conflicts", ""
    yield from take(signed(ROT, 2))
    yield from asked(1, key(2))
    yield from rivals([ICP, ROT, OTHER_ROT], 0, 1, 2)


def rows():
    yield "# live events"
    yield from recovery()
    yield "# conflicts"
    yield from rotations()
    yield from three_rotations()
    yield from later_rotation()
    yield from pairs()
    yield "# the evidence of a watcher"
    yield from evidence()
    yield "# cores that begin with a list of texts"
    yield from bases()
    yield from behind_bases()
