"""Messages that are made of plans. What comes out is made with Python's json and hashlib: a body of the plan's fields,
and the rehearsal's signatures on it."""
from kit import PLAIN_ICP, digest, key, rehearsed
from row_tables.core import CHILD, SEALING
from row_tables.states import ENDED, IXN_1, ixn, rot, texts


def call(name, *events, number=1, receipts=0, failing=""):
    """A call with a plan of the code `I`, of one key, the next key's digest, and one slot, of index 0 and ondex 0."""
    words = [name, "I", str(receipts), key(number), digest(key(number + 1)), "0", failing]
    return " ".join(words + [texts(event) for event in events])


def message(text, number):
    """The body, and the signature of its key at the index 0."""
    return "%s %s" % (text, rehearsed(number, text))


def rows():
    yield "# messages that are made of plans"
    yield call("incept"), message(PLAIN_ICP, 1)
    yield call("incept", receipts=1), "Body(Witnesses)"
    yield call("incept", failing="0"), "SignerFault"
    yield call("rotate", PLAIN_ICP, number=2), message(rot(1, PLAIN_ICP), 2)
    yield call("rotate", PLAIN_ICP, number=3), "Unsigned"
    yield call("interact", PLAIN_ICP, IXN_1), message(ixn(2, IXN_1), 1)
    yield call("interact", ENDED), "Misfit(Ended)"
    yield call("delegate", PLAIN_ICP, CHILD), message(SEALING, 1)
