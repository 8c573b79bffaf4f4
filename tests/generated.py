"""Streams of key event logs made by a rule: for a seed, so many logs of so many events.

Key `t` of log `j` is the SHA-256 of `key SEED j t`, and its witness `t` that of `wit SEED j t`. A sequence of numbers
that begins with the seed and `j` says which event is a rotation, one of four, and which an interaction. Each event has
one signature of its key and receipts of three of its four witnesses, by the rehearsal.
"""
import hashlib
import multiprocessing

from kit import CHARACTERS, body, counter, digest, primitive, said

FACTOR, TERM, WRAP = 6364136223846793005, 1442695040888963407, 2**64


def key(word, seed, log, number, code):
    return primitive(code, hashlib.sha256(b"%s %d %d %d" % (word.encode(), seed, log, number)).digest())


def one_list(word, seed, log, number, code):
    """The key, but where it is a witness's: all logs have the witnesses of the first."""
    return key(word, seed, 0 if word == "wit" else log, number, code)


def indexed(signer, text, index):
    """The rehearsal's signature of a key on a body, at an index."""
    raw = hashlib.sha512(b"keri rehearsal" + signer.encode() + text.encode()).digest()
    return "A" + CHARACTERS[index] + primitive("AA", raw)[2:]


def message(text, signer, witnesses, indexed=indexed):
    receipts = [indexed(witness, text, index) for index, witness in enumerate(witnesses)]
    return text + counter("A", 1) + indexed(signer, text, 0) + counter("B", len(receipts)) + "".join(receipts)


def unsigned(seed, number, events, key=key, code="E"):
    """The bodies of a log, each with the key and the witnesses that sign it."""
    keys = lambda place: key("key", seed, number, place, "D")
    commitment = lambda place: [digest(keys(place), code)]
    witnesses = [key("wit", seed, number, place, "B") for place in range(4)]
    value, rotations = (seed + number) % WRAP, 0
    text = body("icp", code, k=[keys(0)], n=commitment(1), b=witnesses, bt="3")
    prefix = said(text)
    yield text, keys(0), witnesses[:3]
    for place in range(1, events):
        value = (value * FACTOR + TERM) % WRAP
        behind = {"i": prefix, "s": "%x" % place, "p": said(text)}
        if value < WRAP // 4:
            rotations += 1
            text = body("rot", code, **behind, k=[keys(rotations)], n=commitment(rotations + 1), bt="3")
        else:
            text = body("ixn", code, **behind)
        yield text, keys(rotations), witnesses[:3]


def log(seed, number, events):
    """The messages of a log."""
    return [message(*event) for event in unsigned(seed, number, events)]


def logs(seed, count, events):
    """The messages of each of so many logs."""
    with multiprocessing.Pool() as pool:
        return pool.starmap(log, ((seed, number, events) for number in range(count)))


# What the rule says of its first two events.
assert [len(text) for text in log(1, 0, 2)] == [846, 563]
