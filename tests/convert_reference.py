"""What `convert` has to write of a stream: its items, found apart from the program, in the domain that is asked for.

A body stands as it is. A group, or a wrap of groups, is characters in fours, and in the binary domain each four
characters are the three bytes of their 24 bits (Python's base64). The items are the good ones from the front: the first
that is refused, or isn't all there, ends them.
"""
import base64
import re

from kit import CHARACTERS

DIGIT = b"[A-Za-z0-9_-]"
# The bits before the raw bytes are zero: four before those of a signature and of a number, two before those of a key or
# a digest.
SIGNATURE, KEY, NUMBER = b"[A-D]%s{85}" % DIGIT, b"[A-P]%s{42}" % DIGIT, b"0A[A-D]%s{21}" % DIGIT
MOMENT = rb"1AAG\d{4}-\d\d-\d\dT\d\dc\d\dc\d\dd\d{6}[p\-]\d\dc\d\d"
INDEXED = b"(?:[AB]%s|2A%s{4}|2B%s{2}AA)%s" % (DIGIT, DIGIT, DIGIT, SIGNATURE)
ELEMENTS = {
    b"A": INDEXED, b"B": INDEXED, b"C": b"B%s0B%s" % (KEY, SIGNATURE), b"E": NUMBER + MOMENT, b"G": b"%s[EI]%s" % (NUMBER, KEY),
}
COUNTER = re.compile(b"-([ABCEGV])(%s)(%s)" % (DIGIT, DIGIT))
HEAD = re.compile(rb'{"v":"KERI10JSON([0-9a-f]{6})_"')
LEAST_BYTES, MOST_BYTES = 24, 65535


def binary(text):
    return base64.urlsafe_b64decode(text)


def text(data):
    """The characters of each whole three bytes."""
    return base64.urlsafe_b64encode(data[: len(data) // 3 * 3])


def counted(chars, place):
    """The letter of a counter, what it counts, and the place behind it, or None."""
    found = COUNTER.match(chars, place)
    if not found:
        return None
    first, second = (CHARACTERS.index(found[number].decode()) for number in (2, 3))
    return found[1], 64 * first + second, found.end()


def group_end(chars, place, end):
    """The place behind the group that begins there and ends before `end`, or None."""
    found = counted(chars, place)
    if not found or found[0] == b"V":
        return None
    letter, count, place = found
    element = re.compile(ELEMENTS[letter])
    for _ in range(count):
        match = element.match(chars, place, end)
        if not match:
            return None
        place = match.end()
    return place if place <= end else None


def wrap_end(chars, place):
    """The place behind the group or the wrap that begins there, or None."""
    found = counted(chars, place)
    if not found or found[0] != b"V":
        return group_end(chars, place, len(chars))
    _, fours, place = found
    end = place + 4 * fours
    while place is not None and place < end <= len(chars):
        place = group_end(chars, place, end)
    return place if place == end else None


def body_end(data, place):
    head = HEAD.match(data, place)
    size = int(head[1], 16) if head else 0
    return place + size if LEAST_BYTES <= size <= min(MOST_BYTES, len(data) - place) else None


def items(data):
    """The good items from the front, each as a body or as the characters of a group or a wrap, and whether they are all
    of the stream."""
    found, place = [], 0
    while place < len(data):
        if data[place : place + 1] == b"-" or 0xF8 <= data[place] <= 0xFB:
            if not found:
                return found, False
            is_binary = data[place] != ord("-")
            chars = text(data[place:]) if is_binary else data[place:]
            length = wrap_end(chars, 0)
            if length is None:
                return found, False
            found.append((False, chars[:length]))
            place += length // 4 * 3 if is_binary else length
        else:
            end = body_end(data, place)
            if end is None:
                return found, False
            found.append((True, data[place:end]))
            place = end
    return found, True


def converted(data, domain):
    """What is written of a stream in the domain, and the status."""
    found, whole = items(data)
    written = b"".join(chars if is_body or domain == "text" else binary(chars) for is_body, chars in found)
    return written, 0 if whole else 3
