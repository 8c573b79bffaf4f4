"""Calls of a witness, one witness after another: what becomes of each message, its receipts, what is stored, and what a restart or a
stop finds."""
from event_cases import BASIC, BROKEN, OTHER_ROT, ROT
from kit import PLAIN_ICP as ICP
from kit import body, counter, couples, digest, indexed, indexed_signature, key, receipts, rehearsal, rehearsed, said, signed
from log_cases import BARRED, CHILD, CLOSED, OTHER_BASIC, REALISTIC, THIRD, THREE, ixn, keys, rot
from log_cases import LISTED as TWO_LISTED
from row_tables.shelf import NEW, file_of, spelled
from row_tables.witness_calls import Session

LISTED_KEY, OTHER_KEY = key(1, "B"), key(2, "B")
# An inception that lists the witness, what is behind it, and others in their places.
OWN = body("icp", b=[LISTED_KEY], bt="1")
OWN_IXN = ixn(OWN)
OWN_IXN_2 = ixn(OWN_IXN)
OWN_ROT = rot(OWN, 2, bt="1")
OTHER_OWN_ROT = rot(OWN, 2, bt="1", n=[digest(key(100))])
OWN_ROT_IXN = ixn(OWN_ROT)
# To a key that wasn't committed to.
STRAY_ROT = rot(OWN, 3, bt="1")
OTHERS = body("icp", b=[OTHER_KEY], bt="1")
# A rotation by which another witness takes the place of this one.
LEAVING = rot(OWN, 2, bt="1", br=[LISTED_KEY], ba=[OTHER_KEY])
JOINING = rot(OTHERS, 2, bt="1", br=[OTHER_KEY], ba=[LISTED_KEY])


def receipt_of(text):
    return body("rct", d=said(text), i=text.split('"i":"', 1)[1][:44], s=text.split('"s":"', 1)[1].split('"', 1)[0])


def payload(text, *numbers):
    return signed(text, *numbers).encode()


def receipts_and_fates():
    """An event that lists the witness, and ones that don't."""
    one = Session().create()
    one.take(signed(OWN, 1), "Stored listed").take(signed(OWN, 1), "Stored listed")
    assert one.rows[-1] == one.rows[-2] and one.rows[-1][1].split(" ")[3] == "281" and one.rows[-1][1].count('"t":"rct"') == 1
    yield one.told().file()
    yield Session().create().take(signed(OTHERS, 1), "Stored").take(signed(OTHERS, 1), "Stored").stored()
    yield Session(OTHER_KEY).create().take(signed(OWN, 1), "Stored").take(signed(OTHERS, 1), "Stored listed")
    receipt = receipt_of(OWN)
    one = Session().create().take(receipt + couples(OWN, 1), "NotAnEvent").take(signed(OWN, 1), "Stored listed")
    yield one.take(receipt + couples(OWN, 1), "NotAnEvent").take(receipt + receipts(OWN, 1), "NotAnEvent").told()
    yield Session().create().take(body("rct", d=digest("", "E"), i=key(0)), "Refused DigestOnly").told()
    one = Session().create().take(signed(OWN_IXN, 1), "Waits Predecessor").take(signed(OWN, 1), "Stored listed")
    assert one.rows[-1][1].count('"t":"rct"') == 2
    yield one.take(signed(OWN_IXN, 1), "Stored listed").told()
    # A payload of 391 bytes in a file of 405.
    one = Session().create().take(signed(ICP, 1), "Stored").stored().file()
    assert one.rows[-2][1].startswith("stored 391 ") and one.rows[-1][1].startswith("file 405 ")
    yield one


def a_whole_log():
    """Weighted keys and four witnesses, each event with its groups in one wrap."""
    one = Session().create()
    for text in REALISTIC:
        one.take(text, "Stored listed")
    one.told().file().start("Ok").take(REALISTIC[2], "Stored listed").take(REALISTIC[5], "Stored listed").told()
    yield one
    one = Session(key(5, "B")).create()
    for text in REALISTIC[:0:-1]:
        one.take(text, "Waits Predecessor")
    yield one.take(REALISTIC[0], "Stored").stored().file()


def rivals():
    """Another event of a place that is taken."""
    for second in (OTHER_OWN_ROT, OWN_IXN):
        one = Session().create().takes(signed(OWN, 1), signed(OWN_ROT, 2))
        one.take(signed(second, 2 if second is OTHER_OWN_ROT else 1), "Seen " + said(OWN_ROT)).told().file().start()
        yield one.take(signed(second, 2 if second is OTHER_OWN_ROT else 1), "Seen " + said(OWN_ROT)).stored().file()
    one = Session().create().takes(signed(OWN, 1), signed(OWN_ROT, 2)).take(signed(OTHER_OWN_ROT, 9), "Seen " + said(OWN_ROT))
    yield one.take(signed(OTHER_OWN_ROT, 2), "Seen " + said(OWN_ROT)).take(signed(OWN_ROT, 2), "Stored listed").journal()
    # The other rotation comes first, and waits for its signatures.
    one = Session().create().take(signed(OWN, 1)).take(signed(OTHER_OWN_ROT, 9), "Waits Signatures")
    yield one.take(signed(OWN_ROT, 2), "Stored listed").take(signed(OTHER_OWN_ROT, 2), "Seen " + said(OWN_ROT)).stored()
    # A rotation that may take the place of an interaction waits for its signatures, though its place is taken.
    one = Session().create().takes(signed(OWN, 1), signed(OWN_IXN, 1)).take(signed(OWN_ROT, 9), "Waits Signatures")
    one.take(OWN_ROT + "-AAB" + rehearsed(2, OWN_ROT, "BA"), "Waits Next").take(signed(STRAY_ROT, 3), "Waits Next")
    yield one.take(signed(OWN_ROT, 2), "Stored listed").take(signed(STRAY_ROT, 3), "Seen " + said(OWN_ROT)).told()
    one = Session().create().take(signed(BASIC, 1), "Stored").take(signed(OTHER_BASIC, 1), "Seen " + said(BASIC))
    yield one.take(signed(BASIC, 1), "Stored").stored()
    other = ixn(OWN, a=[1])
    one = Session().create().takes(signed(OWN, 1), signed(OWN_IXN, 1)).take(signed(other, 1), "Seen " + said(OWN_IXN))
    # What is behind an event that isn't stored waits for it; a place that no live event has is nobody's.
    one.take(signed(ixn(other), 1), "Waits Predecessor").take(signed(OWN_IXN_2, 1), "Stored listed")
    one.take(signed(ixn(other), 1), "Seen " + said(OWN_IXN_2)).take(signed(OWN_ROT, 2), "Stored listed")
    yield one.take(signed(ixn(other), 1), "Waits Predecessor").take(signed(ixn(OWN_IXN_2), 1), "Waits Never").told()


def superseded():
    """Interactions of which a rotation takes the place: they are stored, and so their receipts are made again."""
    one = Session().create().takes(signed(OWN, 1), signed(OWN_IXN, 1), signed(OWN_IXN_2, 1)).take(signed(OWN_ROT, 2), "Stored listed")
    one.take(signed(OWN_IXN, 1), "Stored listed").take(signed(OWN_IXN_2, 1), "Stored listed")
    one.take(signed(OWN_ROT_IXN, 2), "Stored listed").file().start()
    one.take(signed(OWN_IXN_2, 1), "Stored listed").take(signed(OWN, 1), "Stored listed")
    yield one.take(signed(ixn(OWN_IXN_2), 1), "Waits Never").told()
    # The lists are those of each event's own place.
    one = Session().create().takes(signed(OWN, 1), signed(OWN_IXN, 1)).take(signed(LEAVING, 2), "Stored")
    one.take(signed(OWN_IXN, 1), "Stored listed").take(signed(ixn(LEAVING), 2), "Stored").take(signed(OWN, 1), "Stored listed")
    one.take(signed(LEAVING, 2), "Stored").file().start()
    yield one.take(signed(OWN_IXN, 1), "Stored listed").take(signed(LEAVING, 2), "Stored")
    one = Session().create().takes(signed(OTHERS, 1), signed(ixn(OTHERS), 1)).take(signed(JOINING, 2), "Stored listed")
    one.take(signed(ixn(OTHERS), 1), "Stored").take(signed(ixn(JOINING), 2), "Stored listed").file().start()
    yield one.take(signed(OTHERS, 1), "Stored").take(signed(ixn(JOINING), 2), "Stored listed").stored()


FAULTS = {
    "many": "TooMany", "number": "NumberTooLarge", "threshold": "Threshold", "witnesses": "Witnesses", "prefix": "Prefix",
    "said": "Said",
}


def body_fault(reason):
    return "Field(%s)" % reason[6:] if reason.startswith("field ") else FAULTS[reason]


def refusals():
    """Messages that are refused: nothing changes by them."""
    one = Session().create().take(signed(OWN, 1))
    sig = rehearsed(1, OWN)
    yield Session().create().take_many(OWN + counter("A", 1024), 1024, sig, "Stored listed").stored()
    one.take_many(OWN + counter("A", 1025), 1025, sig, "Refused TooManySigs")
    one.take_many(receipt_of(OWN) + counter("B", 1025), 1025, sig, "Refused TooManySigs")
    for text, reason in BROKEN:
        one.row("take " + spelled(text.encode() + b"-AAA"), "Refused Body(%s)" % body_fault(reason))
    receipt = receipt_of(OWN)
    one.take(receipt + receipts(OWN, 1) + "-AAB" + sig, "Refused WrongGroup")
    one.take(receipt + "-AAA" + couples(OWN, 1), "Refused WrongGroup")
    one.take(receipt, "Refused DigestOnly").take(receipt + "-BAA", "Refused DigestOnly").take(OWN, "Refused Unsigned")
    one.take(OWN + "-AAA", "Refused Unsigned").take(OWN + receipts(OWN, 1) + couples(OWN, 1), "Refused Unsigned")
    yield one.told().file()


def waiting():
    """Events that wait, for each reason."""
    two = body("icp", kt="2", k=keys(1, 2), b=[LISTED_KEY], bt="1")
    alone = [two + "-AAB" + rehearsed(number, two, "A" + "AB"[number - 1]) for number in (1, 2)]
    one = Session().create().take(alone[0], "Waits Signatures").take(alone[0], "Waits Signatures").take(alone[1], "Stored listed")
    yield one.take(alone[0], "Stored listed").told()
    one = Session().create().take(signed(THREE, 1), "Stored").take(THIRD + "-AAB" + rehearsed(4, THIRD, "BA"), "Waits Next")
    yield one.take(THIRD + "-AAB" + rehearsed(4, THIRD, "2AAAAC"), "Stored").told()
    one = Session().create().take(signed(OWN, 9), "Waits Signatures").take(signed(OWN, 1), "Stored listed")
    yield one.take(signed(OWN, 9), "Stored listed").told()
    # Neither receipts nor seals are waited for.
    one = Session().create().take(signed(TWO_LISTED, 1), "Stored listed").take(signed(CHILD, 10), "Stored")
    yield one.take(signed(CLOSED, 1), "Stored").take(signed(BARRED, 10), "Stored").told()
    # Each is stored once its predecessor is, in order, and the message's own receipt is among the others.
    chain = [OWN, OWN_IXN, OWN_IXN_2, ixn(OWN_IXN_2)]
    one = Session().create()
    for text in chain[:0:-1]:
        one.take(signed(text, 1), "Waits Predecessor")
    one.take(signed(OWN, 1), "Stored listed").take(signed(chain[2], 1), "Stored listed").told().file().start()
    yield one.takes(*(signed(text, 1) for text in chain)).told()
    # A restart forgets what waits.
    one = Session().create().take(signed(OWN_IXN, 1), "Waits Predecessor").file().start().take(signed(OWN, 1), "Stored listed")
    yield one.take(signed(OWN_IXN, 1), "Stored listed").journal()


def kept_signatures():
    """What is kept with an event: the good signatures under which it was accepted, of one index and one reveal the first."""
    twice = OWN + counter("A", 3) + rehearsed(1, OWN) + rehearsed(1, OWN, "BA") + rehearsed(1, OWN)
    yield Session().create().take(twice, "Stored listed").told()
    yield Session().create().take(OWN + counter("A", 2) + rehearsed(1, OWN, "BA") + rehearsed(1, OWN), "Stored listed").stored()
    # Bad ones aren't, nor those of an index that no key has, nor what came later.
    mixed = OWN + counter("A", 4) + rehearsed(9, OWN) + rehearsed(1, OWN, "AB") + rehearsed(1, OWN, "2BAAAA") + rehearsed(1, OWN)
    yield Session().create().take(mixed, "Stored listed").take(twice, "Stored listed").told()
    # Of two keys one is enough: the verdict on the other comes later, though its signature came in the same message.
    either = body("icp", k=keys(1, 2), b=[LISTED_KEY], bt="1")
    for order in ((1, 2), (2, 1)):
        sigs = [rehearsed(number, either, "A" + "AB"[number - 1]) for number in order]
        yield Session().create().take(either + counter("A", 2) + "".join(sigs), "Stored listed").told()
    both = body("icp", kt="2", k=keys(1, 2), b=[LISTED_KEY], bt="1")
    sigs = [rehearsed(2, both, "AB"), rehearsed(1, both, "AA"), rehearsed(2, both, "BB")]
    groups = counter("B", 1) + rehearsed(1, both, code="B") + counter("A", 3) + "".join(sigs)
    yield Session().create().take(both + groups, "Stored listed").told()
    # Of a rotation the reveals count too.
    rotation = rot(THREE, 4)
    sigs = [indexed_signature(0, other, rehearsal(4, rotation)) for other in (None, 0, 1, 2, 2, 3)]
    yield Session().create().takes(signed(THREE, 1), rotation + counter("A", len(sigs)) + "".join(sigs)).told()
    many = body("rot", i=said(THREE), s="1", p=said(THREE), k=keys(4, 4, 3), kt="3", nt="2", n=[digest(key(5)), digest(key(6))])
    places = [(0, 2), (1, 2), (1, None), (2, 1), (0, 1), (2, 2), (0, 2)]
    sigs = [indexed_signature(index, other, rehearsal(4 if index < 2 else 3, many)) for index, other in places]
    yield Session().create().takes(signed(THREE, 1), many + counter("A", len(sigs)) + "".join(sigs)).told().file()
    # Signatures of receipts and couples are told, and not kept.
    yield Session().create().take(signed(OWN, 1) + couples(OWN, 1) + receipts(OWN, 1), "Stored listed").told()


def verifiers():
    """A verifier that fails, or that says the same of all."""
    both = body("icp", kt="2", k=keys(1, 2), b=[LISTED_KEY], bt="1")
    for number in range(3):
        one = Session().create().verifier(failing=(number,))
        one.take(signed(both, 1, 2), "VerifierFault" if number < 2 else "Stored listed").told()
        # What isn't told to the core asks nothing.
        one.take(receipt_of(both) + couples(both, 1), "NotAnEvent").take(both, "Refused Unsigned").told()
        yield one.take(signed(both, 1, 2), "Stored listed").told()
    # Another message asks as well; the receipts of what it makes accepted come with it.
    one = Session().create().verifier(failing=(0,)).take(signed(OWN, 1), "VerifierFault").take(signed(OTHERS, 1), "Stored")
    assert one.rows[-1][1].count('"t":"rct"') == 1
    yield one.told().file()
    # What was accepted before the fault is stored, and its receipt is made for a repeat.
    one = Session().create().take(signed(OWN_IXN, 1)).verifier(failing=(1,)).take(signed(OWN, 1), "VerifierFault").told().file().images()
    yield one.start().take(signed(OWN_IXN, 1), "Stored listed").take(signed(OWN, 1), "Stored listed").told()
    one = Session().create().take(signed(OWN_IXN, 1)).verifier(failing=(1,)).take(signed(OWN, 1), "VerifierFault")
    # Now the one that is newly stored has its receipt, and then the message's own event.
    one.take(signed(OWN, 1), "Stored listed")
    assert one.rows[-1][1].split(" ")[2::3] == [said(OWN_IXN), said(OWN)]
    yield one.told()
    one = Session().create().verifier("no").take(signed(OWN, 1), "Waits Signatures").told()
    yield one.verifier("yes").take(signed(OWN, 1), "Waits Signatures").take(OWN + "-AAB" + rehearsed(9, OWN), "Stored listed").told()
    one = Session().create().verifier("yes").take(OWN + "-AAB" + indexed("AA", "a"), "Stored listed")
    yield one.take(signed(OWN_ROT, 9), "Stored listed").told()


def signers():
    """A signer that fails: what was accepted is stored, and a repeat gives the receipt."""
    yield Session().create().signer((0,)).take(signed(OWN, 1), "SignerFault").told().take(signed(OWN, 1), "Stored listed").told().file()
    one = Session().create().take(signed(OWN_IXN, 1)).signer((1,)).take(signed(OWN, 1), "SignerFault").told()
    yield one.take(signed(OWN_IXN, 1), "Stored listed").take(signed(OWN, 1), "Stored listed").told()
    one = Session().create().take(signed(OWN, 1)).signer((0, 1)).take(signed(OWN, 1), "SignerFault").take(signed(OTHERS, 1), "Stored")
    yield one.take(signed(OWN, 1), "SignerFault").take(signed(OWN, 1), "Stored listed").told()


def disks():
    """A call of the disk that fails, and each call behind it."""
    for number in range(2):
        yield Session().create((number,)).take(signed(OWN, 1), "no-witness").file()
    for number in range(2, 10):
        one = Session().create((number,)).take(signed(OWN, 1)).take(signed(OWN_ROT, 2)).take(signed(OWN, 1), "Broken")
        one.take(OWN, "Broken").take(receipt_of(OWN) + couples(OWN, 1), "Broken").told().file().images().start()
        yield one.take(signed(OWN, 1)).take(signed(OWN_ROT, 2), "Stored listed").stored().file()
    # Of two events of one call the first is stored.
    one = Session().create((7,)).take(signed(OWN_IXN, 1)).take(signed(OWN, 1), "DiskFault").told().take(signed(OWN, 1), "Broken").file()
    yield one.start().take(signed(OWN, 1), "Stored listed").told()
    # With no room besides, it is broken still.
    yield Session(records=1).create((2,)).take(signed(OWN, 1), "DiskFault").take(signed(OWN, 1), "Broken").stored()
    # The calls of a start.
    for number in range(5):
        yield Session().put_in(file_of(NEW, payload(OWN, 1)), (number,)).start().file()


# By how many bytes less than enough a limit is, and exactly enough.
AROUND = (-1, 0)
MESSAGE = signed(OWN, 1)


def weight(text, count=1):
    """The bytes that a body with so many signatures of its controller may need."""
    return len(text) + 13 + 92 * count


def records():
    """A limit of records. What waits counts."""
    yield Session(records=1).create().take(signed(ICP, 1), "Stored").take(signed(ICP, 1), "Full").told().file()
    yield Session(records=2).create().take(signed(ICP, 1), "Stored").take(signed(ICP, 1), "Stored").told()
    yield Session(records=0).create().take(MESSAGE, "Full").take(OWN, "Refused Unsigned").told()
    one = Session(records=1).create().take(signed(OWN_IXN, 1), "Waits Predecessor").take(MESSAGE, "Full")
    one.take(signed(OWN_IXN, 1), "Full")
    yield one.take(receipt_of(OWN) + couples(OWN, 1), "NotAnEvent").take(OWN, "Refused Unsigned").told()
    one = Session(records=2).create().take(signed(OWN_IXN, 1), "Waits Predecessor").take(signed(OWN_IXN, 1), "Waits Predecessor")
    yield one.take(MESSAGE, "Stored listed").take(MESSAGE, "Full").told()


def shelf_bytes():
    """A limit of a shelf's bytes. Each signature counts of what comes and of what waits."""
    for more in AROUND:
        one = Session(shelf_bytes=9 + weight(OWN) + more).create().take(MESSAGE, "Stored listed" if more == 0 else "Full")
        yield one.take(MESSAGE, "Full").told()
        one = Session(shelf_bytes=9 + 5 + len(MESSAGE) + weight(OWN, 2) + more).create().take(MESSAGE, "Stored listed")
        yield one.take(MESSAGE, "Stored listed" if more == 0 else "Full").told()
        one = Session(shelf_bytes=9 + weight(OWN_IXN) + weight(OWN) + more).create().take(signed(OWN_IXN, 1), "Waits Predecessor")
        yield one.take(MESSAGE, "Stored listed" if more == 0 else "Full").told().file()
        # Bad ones count, and those of witnesses don't.
        three = OWN + counter("A", 3) + rehearsed(9, OWN) * 2 + rehearsed(1, OWN) + couples(OWN, 1)
        yield Session(shelf_bytes=9 + weight(OWN, 3) + more).create().take(three, "Stored listed" if more == 0 else "Full").told()
        # What waits and comes again counts as it waits, and once more with what comes.
        size = 9 + weight(OWN_IXN) + weight(OWN_IXN, 3)
        one = Session(shelf_bytes=size + more).create().take(signed(OWN_IXN, 1), "Waits Predecessor")
        yield one.take(signed(OWN_IXN, 1, 1), "Waits Predecessor" if more == 0 else "Full").take(MESSAGE).told()


def limits_of_the_core():
    """Limits of the core."""
    one = Session(messages=2).create().take(signed(OWN_IXN, 1)).take(MESSAGE, "Stored listed").take(MESSAGE, "Full")
    yield one.take(OWN, "Refused Unsigned").told()
    yield Session(messages=0).create().take(MESSAGE, "Full").told()
    for more in AROUND:
        one = Session(body_bytes=len(OWN) + len(OWN_IXN) + more).create().take(MESSAGE, "Stored listed")
        yield one.take(signed(OWN_IXN, 1), "Stored listed" if more == 0 else "Full").take(MESSAGE, "Stored listed").told()
        one = Session(signatures=3 + more).create().take(MESSAGE + couples(OWN, 1), "Stored listed")
        yield one.take(MESSAGE, "Stored listed" if more == 0 else "Full").told()
    # What the shelf holds counts for the core's bytes, and not for its messages and signatures.
    one = Session().put_in(file_of(NEW, payload(OWN, 1))).lowered(body_bytes=len(OWN), messages=1, signatures=1).start()
    yield one.take(signed(OWN_IXN, 1), "Full").take(MESSAGE, "Stored listed").take(MESSAGE, "Full").told()
    one = Session().put_in(file_of(NEW, payload(OWN, 1), payload(OWN_IXN, 1)))
    yield one.lowered(records=1).start().lowered(shelf_bytes=600).start().lowered(records=2).start().take(MESSAGE, "Full").file()


# Texts behind a body that are no good groups of signatures, and ones that are.
SIG = rehearsed(1, OWN)
BAD_GROUPS = [
    couples(OWN, 1), receipts(OWN, 1), "-AAB", "-AAB" + SIG[:-1], "-AAB" + SIG + "-", "-AAC" + SIG, "x", " ", OWN, "-VAX-AAB" + SIG,
    "-AAB" + SIG.replace("AA", "CA", 1), "-AAB" + rehearsed(1, OWN, "2BAAAB"), "-AAB" + SIG[:2] + "_" + SIG[3:],
    "-AAB" + SIG + receipts(OWN, 1), "-aAB" + SIG, "-A=B" + SIG,
]
GOOD_GROUPS = [
    "", "-AAA", "-AAB" + rehearsed(9, OWN), ("-AAB" + SIG) * 3, "-AAC" + rehearsed(1, OWN, "2ABABC") + rehearsed(1, OWN, "2BBAAA"),
]
# Lists of payloads, with the number of the first that has no place there.
NO_LOGS = [
    ([signed(OWN_IXN_2, 1)], 0), ([MESSAGE, signed(OWN_IXN_2, 1)], 1), ([MESSAGE, MESSAGE], 1), ([MESSAGE, OWN], 1),
    ([MESSAGE, signed(OWN_IXN, 1), signed(ixn(OWN, a=[1]), 1)], 2), ([receipt_of(OWN)], 0), ([MESSAGE, "x"], 1), (["x", "x"], 0),
    ([MESSAGE, OWN.replace(said(OWN), said(ICP), 1)], 1), ([MESSAGE, OWN[:-1]], 1), ([OWN[:10]], 0), (["-AAB" + SIG], 0),
    ([signed(BASIC, 1), signed(OTHER_BASIC, 1)], 1), ([MESSAGE, signed(OWN_ROT, 2), signed(OTHER_OWN_ROT, 2)], 2),
    ([MESSAGE, signed(OWN_ROT, 2), signed(OWN_IXN, 1)], 2), ([MESSAGE, signed(OWN_IXN, 1), OWN_ROT + "x", "x"], 2),
    ([MESSAGE, OWN_IXN + "-AAB", "x"], 1), ([MESSAGE, "x", OWN_IXN + "-AAB"], 1),
]


def starts():
    """Shelves with which a witness starts, and ones with which it doesn't."""
    for text in GOOD_GROUPS:
        one = Session().put_in(file_of(NEW, (OWN + text).encode())).start().told().take(MESSAGE, "Stored listed")
        yield one.take(signed(OWN_IXN, 1), "Stored listed").told().file()
    for text in BAD_GROUPS:
        yield Session().put_in(file_of(NEW, (OWN + text).encode())).start("NotALog(0)").take(MESSAGE, "no-witness").file()
    for texts, place in NO_LOGS:
        yield Session().put_in(file_of(NEW, *map(str.encode, texts))).start("NotALog(%d)" % place).file().start()
    # Events without signatures, an interaction whose place a rotation took, and an event that would want a seal.
    texts = [OWN, OWN_IXN, OWN_ROT, CHILD, OWN_ROT_IXN]
    one = Session().put_in(file_of(NEW, *map(str.encode, texts))).start("Ok").told().take(signed(OWN_IXN, 1), "Stored listed")
    one.take(signed(OTHER_OWN_ROT, 2), "Seen " + said(OWN_ROT)).take(signed(ixn(OWN_IXN), 1), "Seen " + said(OWN_ROT_IXN))
    yield one.take(signed(OWN_ROT, 9), "Stored listed").told()
    # Version 1 brought over: an event without signatures in a file of 313 bytes.
    one = Session().put_in(file_of(NEW, ICP.encode())).start("Ok").take(signed(ROT, 2), "Stored")
    yield one.take(signed(OTHER_ROT, 2), "Seen " + said(ROT)).told().file()


def files():
    """Files that are no shelf, and ones behind whose closed gate something stands."""
    for data in (b"", b"K", NEW, b"KSHELF01\0", b"ZSHELF02\0", file_of(NEW, payload(OWN, 1))[:-1], NEW + b"\1\0\0\0\0"):
        yield Session().put_in(data).start().take(MESSAGE, "no-witness").file()
    for gate in (0, 7):
        one = Session().put_in(NEW + bytes([gate]) + file_of(NEW, payload(OWN_IXN, 1))[9:]).start("Ok").told()
        yield one.take(MESSAGE, "Stored listed").file().start("Ok").stored()
    yield Session().put_in(NEW + b"\0").start("Ok").told().file()


def stops():
    """A stop at any moment, in three shapes."""
    for texts in ((), (OWN,), (OWN, OWN_ROT)):
        one = Session().create().takes(*(signed(text, number + 1) for number, text in enumerate(texts))).stored().file()
        yield one.images()
    one = Session().create().takes(signed(OWN_IXN, 1), signed(OWN, 1)).stored().file().images()
    yield one.start().take(signed(OWN_ROT, 2), "Stored listed").file().images()


TABLES = (
    receipts_and_fates, a_whole_log, rivals, superseded, refusals, waiting, kept_signatures, verifiers, signers, disks, records,
    shelf_bytes, limits_of_the_core, starts, files, stops,
)


def rows():
    for table in TABLES:
        yield "# " + table.__doc__.split("\n")[0]
        for session in table():
            yield from session.rows
