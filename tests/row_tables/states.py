"""Key states after events, and what they say of a further one."""
from kit import PLAIN_ICP, body, digest, indexed, key, said
from row_tables import argument

PREFIX = said(PLAIN_ICP)
WITNESSES = [key(number, "B") for number in range(1, 6)]


def ixn(sn, prior, **values):
    return body("ixn", i=PREFIX, s="%x" % sn, p=said(prior), **values)


def rot(sn, prior, number=2, **values):
    fields = {"k": [key(number)], "n": [digest(key(number + 1))], **values}
    return body("rot", i=PREFIX, s="%x" % sn, p=said(prior), **fields)


def texts(*bodies):
    return " ".join(argument(text) for text in bodies)


IXN_1 = ixn(1, PLAIN_ICP)
IXN_2 = ixn(2, IXN_1)
IXN_3 = ixn(3, IXN_2)
ROT_2 = rot(2, IXN_1)
ROT_3 = rot(3, ROT_2, 3)
LOG = [PLAIN_ICP, IXN_1, IXN_2, IXN_3]
BEGUN = "0..0(1) 0..1(2) 0..2(3) 0..3(4) "
STATES = [
    (LOG, BEGUN), (LOG + [ixn(4, IXN_3)], BEGUN + "0..4(5) "), (LOG + [body("drt", i=PREFIX, s="4", p=said(IXN_3))], BEGUN + "Kind "),
    (LOG + [ixn(5, IXN_3)], BEGUN + "Sn "), (LOG + [rot(5, IXN_3)], BEGUN + "Sn "), (LOG + [rot(2, IXN_2)], BEGUN + "Prior "),
    (LOG + [ROT_2], BEGUN + "2..2(1) "), (LOG + [ROT_2, ROT_3], BEGUN + "2..2(1) 3..3(1) "),
    (LOG + [ROT_2, ROT_3, ixn(4, IXN_3)], BEGUN + "2..2(1) 3..3(1) Prior "),
    (LOG + [ROT_2, rot(2, IXN_1, 5)], BEGUN + "2..2(1) Sn "), (LOG + [PLAIN_ICP], BEGUN + "Kind "),
    ([IXN_1], "Kind "), ([body("rct", d=PREFIX, i=PREFIX)], "Kind "), ([PLAIN_ICP, body("ixn", i=key(1), s="1", p=PREFIX)], "0..0(1) Kind "),
]
BARRED = body("icp", c=["EO"])
ENDED = body("icp", nt="0", n=[])
CHILD = body("dip", di=PREFIX)
LISTED = body("icp", bt="3", b=WITNESSES[:4], n=[digest(key(number)) for number in (2, 3, 4)])
OWN = said(LISTED)


def of(log, kind="ixn", **values):
    """An event 1 of the identifier of the log."""
    return body(kind, i=said(log), s="1", p=said(log), **values)


STATES += [
    ([BARRED, of(BARRED)], "0..0(1) EstOnly "), ([ENDED, of(ENDED)], "0..0(1) Ended "), ([ENDED, of(ENDED, "rot")], "0..0(1) Ended "),
    ([CHILD, of(CHILD, "rot")], "0..0(1) Kind "), ([CHILD, of(CHILD, "drt")], "0..0(1) 1..1(1) "), ([CHILD, of(CHILD)], "0..0(1) 0..1(2) "),
    ([LISTED, of(LISTED, "rot", bt="4", br=WITNESSES[:1], ba=WITNESSES[4:])], "0..0(1) 1..1(1) "),
    ([LISTED, of(LISTED, "rot", bt="5", br=WITNESSES[:1], ba=WITNESSES[4:])], "0..0(1) WitnessChange "),
    ([LISTED, of(LISTED, "rot", bt="0", br=WITNESSES[:1])], "0..0(1) WitnessChange "),
    ([LISTED, of(LISTED, "rot", br=WITNESSES[:4])], "0..0(1) 1..1(1) "),
    ([LISTED, of(LISTED, "rot", bt="1", br=WITNESSES[4:])], "0..0(1) WitnessChange "),
    ([LISTED, of(LISTED, "rot", bt="1", ba=WITNESSES[:1])], "0..0(1) WitnessChange "),
]
CHANGED = of(LISTED, "rot", bt="3", br=WITNESSES[:1], ba=WITNESSES[4:], k=[key(4)])


OTHER_2 = ixn(2, IXN_1, a=[1])
# The place of a live event of the log, an event, and the rule by which that doesn't follow the state behind that place.
BEHIND = [
    (4, ixn(4, IXN_3), "follows"), (2, OTHER_2, "follows"), (2, ixn(4, IXN_3), "Sn"), (2, ixn(2, IXN_2), "Prior"),
    (1, rot(1, PLAIN_ICP), "follows"), (1, ROT_2, "Sn"), (2, ROT_2, "follows"), (1, PLAIN_ICP, "Kind"),
]


def states():
    for log, answer in STATES:
        yield "state %s" % texts(*log), answer
    for place, event, answer in BEHIND:
        yield "behind %d %s" % (place, texts(*LOG, event)), BEGUN + answer
    yield "witnesses %s" % texts(LISTED, CHANGED), "0..0(1) " + " ".join(WITNESSES[1:]) + " "
    yield "witnesses %s" % texts(LISTED, of(LISTED)), "0..0(1) " + " ".join(WITNESSES[:4]) + " "
    for head, places in (("2AAAAC", "2 "), ("BA", ""), ("2AAAAB", ""), ("2AABAC", ""), ("AA", "")):
        yield "exposed %s %s" % (indexed(head, "a"), texts(LISTED, CHANGED)), "0..0(1) " + places


def rows():
    yield "# key states: the numbers of the last establishment event and of the last event, and the digests that are kept"
    yield from states()
