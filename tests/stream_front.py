"""The messages of a stream, up to the first place at which it isn't in the form: a reader of any text, written apart
from the program's.

It knows the groups of signatures and receipts (`-A`, `-B`, `-C`), and wraps of these (`-V`). A body is what its size
says; what is in it isn't looked at.
"""
import re

from kit import CHARACTERS
from plans import claim_at

DIGIT = "[A-Za-z0-9_-]"
# The bits before the raw bytes are zero: four before those of a signature, two before those of a key.
SIGNATURE, KEY = f"[A-D]{DIGIT}{{85}}", f"[A-P]{DIGIT}{{42}}"
INDEXED = re.compile(f"(?:[AB]{DIGIT}|2A{DIGIT}{{4}}|2B{DIGIT}{{2}}AA){SIGNATURE}")
FORMS = {"A": INDEXED, "B": INDEXED, "C": re.compile(f"B{KEY}0B{SIGNATURE}")}
COUNTER = re.compile(f"-([ABC])({DIGIT})({DIGIT})")
WRAP = re.compile(f"-(V)({DIGIT})({DIGIT})")
HEAD = re.compile('{"v":"KERI10JSON([0-9a-f]{6})_"')
LEAST_BYTES, MOST_BYTES = 24, 65535


class Broken(Exception):
    """What begins at the place isn't in the form, or not all there."""


class Message:
    """A body with the claims of the groups behind it, and the groups' letters."""

    def __init__(self, place, text):
        self.place, self.text, self.claims, self.letters = place, text, [], []


def counted(counter, text, place, end):
    """The letter of the counter at the place, what it counts, and the place behind it."""
    found = counter.match(text, place, end)
    if not found:
        raise Broken
    return found[1], 64 * CHARACTERS.index(found[2]) + CHARACTERS.index(found[3]), found.end()


def group_at(text, place, end):
    """The letter of the group at the place, its claims, and the place behind it."""
    letter, count, place = counted(COUNTER, text, place, end)
    claims = []
    for _ in range(count):
        if not FORMS[letter].match(text, place, end):
            raise Broken
        claim, place = claim_at(text, place, letter)
        claims.append(claim)
    return letter, claims, place


def groups_at(text, place):
    """The groups of the item at the place, and the place behind it."""
    if not WRAP.match(text, place):
        *group, place = group_at(text, place, len(text))
        return [group], place
    _, count, place = counted(WRAP, text, place, len(text))
    end, groups = place + 4 * count, []
    if end > len(text):
        raise Broken
    while place < end:
        *group, place = group_at(text, place, end)
        groups.append(group)
    return groups, place


def body_end(text, place):
    """The place behind the body that begins at the place."""
    head = HEAD.match(text, place)
    size = int(head[1], 16) if head else 0
    if not LEAST_BYTES <= size <= min(MOST_BYTES, len(text) - place):
        raise Broken
    return place + size


def messages(stream):
    place, found = 0, []
    try:
        while place < len(stream):
            if stream[place] == "{" or not found:
                end = body_end(stream, place)
                found.append(Message(place, stream[place:end]))
            else:
                groups, end = groups_at(stream, place)
                for letter, claims in groups:
                    found[-1].letters.append(letter)
                    found[-1].claims += claims
            place = end
    except Broken:
        pass
    return found
