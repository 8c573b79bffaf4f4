"""What the scripts of this folder share: primitives, digests, bodies of events, and the rehearsal's signatures.

They are made with Python's base64, hashlib and json. BLAKE3 is written out here by its specification, and compared with
digests that b3sum 1.2.0 gave.
"""
import base64
import hashlib
import json
import struct

CHARACTERS = "ABCDEFGHIJKLMNOPQRSTUVWXYZabcdefghijklmnopqrstuvwxyz0123456789-_"
PLACEHOLDER = "#" * 44

IV = [0x6A09E667, 0xBB67AE85, 0x3C6EF372, 0xA54FF53A, 0x510E527F, 0x9B05688C, 0x1F83D9AB, 0x5BE0CD19]
COLUMNS = [(0, 4, 8, 12), (1, 5, 9, 13), (2, 6, 10, 14), (3, 7, 11, 15), (0, 5, 10, 15), (1, 6, 11, 12), (2, 7, 8, 13), (3, 4, 9, 14)]
PERMUTED = [2, 6, 3, 10, 7, 0, 4, 13, 1, 11, 12, 5, 9, 14, 15, 8]
START, END, PARENT, ROOT = 1, 2, 4, 8

# Of the bytes 0 to 250 and so on again, so many, the digest that b3sum 1.2.0 gave.
KNOWN = {
    0: "af1349b9f5f9a1a6a0404dea36dcc9499bcb25c9adc112b7cc9a93cae41f3262",
    1: "2d3adedff11b61f14c886e35afa036736dcd87a74d27b5c1510225d0f592e213",
    63: "e9bc37a594daad83be9470df7f7b3798297c3d834ce80ba85d6e207627b7db7b",
    64: "4eed7141ea4a5cd4b788606bd23f46e212af9cacebacdc7d1f4c6dc7f2511b98",
    65: "de1e5fa0be70df6d2be8fffd0e99ceaa8eb6e8c93a63f2d8d1c30ecb6b263dee",
    1023: "10108970eeda3eb932baac1428c7a2163b0e924c9a9e25b35bba72b28f70bd11",
    1024: "42214739f095a406f3fc83deb889744ac00df831c10daa55189b5d121c855af7",
    1025: "d00278ae47eb27b34faecf67b4fe263f82d5412916c1ffd97c8cb7fb814b8444",
    2048: "e776b6028c7cd22a4d0ba182a8bf62205d2ef576467e838ed6f2529b85fba24a",
    2049: "5f4d72f40d7a5f82b15ca2b2e44b1de3c2ef86c426c95c1af0b6879522563030",
    3072: "b98cb0ff3623be03326b373de6b9095218513e64f1ee2edd2525c7ad1e5cffd2",
    8191: "bae8dc916e8643c6cf024097237cde1cba35c05b5d84c02834cb6b886edb76d9",
    8192: "aae792484c8efe4f19e2ca7d371d8c467ffb10748d8a5a1ae579948f718a2a63",
    8193: "bab6c09cb8ce8cf459261398d2e7aef35700bf488116ceb94a36d0f5f1b7bc3b",
    16385: "1dabe216be2578830263b049de1639f39f05a4da616b9b78c7a5e4e41662fd1f",
    65535: "de7d0f4c044c56f56e0c5f7ab247be9491c4520e8688f0f0d25406f46fdfbd03",
}


def rotated(word, count):
    return (word >> count | word << (32 - count)) & 0xFFFFFFFF


def mix(state, places, x, y):
    a, b, c, d = places
    for word, first, second in ((x, 16, 12), (y, 8, 7)):
        state[a] = (state[a] + state[b] + word) & 0xFFFFFFFF
        state[d] = rotated(state[d] ^ state[a], first)
        state[c] = (state[c] + state[d]) & 0xFFFFFFFF
        state[b] = rotated(state[b] ^ state[c], second)


def compressed(chaining, words, counter, size, flags):
    state = chaining + IV[:4] + [counter & 0xFFFFFFFF, counter >> 32, size, flags]
    for _ in range(7):
        for number, places in enumerate(COLUMNS):
            mix(state, places, words[2 * number], words[2 * number + 1])
        words = [words[place] for place in PERMUTED]
    return [state[place] ^ state[place + 8] for place in range(8)]


def chunk_value(chunk, number, flags):
    blocks = [chunk[place:place + 64] for place in range(0, len(chunk), 64)] or [b""]
    chaining = IV
    for place, block in enumerate(blocks):
        last = place == len(blocks) - 1
        own = (START if place == 0 else 0) | (END | flags if last else 0)
        words = list(struct.unpack("<16I", block.ljust(64, b"\0")))
        chaining = compressed(chaining, words, number, len(block), own)
    return chaining


def tree_value(data, first, flags):
    """The chaining value of the tree over the bytes, whose first chunk has this number."""
    chunks = max(1, -(-len(data) // 1024))
    if chunks == 1:
        return chunk_value(data, first, flags)
    left = 1 << (chunks - 1).bit_length() - 1
    children = tree_value(data[:left * 1024], first, 0) + tree_value(data[left * 1024:], first + left, 0)
    return compressed(IV, children, 0, 64, PARENT | flags)


def blake3(data):
    return struct.pack("<8I", *tree_value(data, 0, ROOT))


def pattern(length):
    return bytes(place % 251 for place in range(length))


for length, known in KNOWN.items():
    assert blake3(pattern(length)).hex() == known, length


def primitive(code, raw):
    """The code, and the characters of the raw bytes; as many are left out as zero bytes come before them."""
    lead = -len(raw) % 3
    return code + base64.urlsafe_b64encode(bytes(lead) + raw).decode()[lead:]


def key(number, code="D"):
    return primitive(code, bytes([number]) * 32)


def digest(text, code="I"):
    raw = text.encode() if isinstance(text, str) else text
    return primitive(code, hashlib.sha256(raw).digest() if code == "I" else blake3(raw))


def signature(text):
    return primitive("0B", hashlib.sha512(text.encode()).digest())


def indexed(head, text):
    """An indexed signature of nobody's: its code with its indices, and 64 bytes."""
    return head + primitive("AA", hashlib.sha512(text.encode()).digest())[2:]


def indexed_signature(index, other, raw):
    """An indexed signature, by the code that has room for its indices; without another index where that is none."""
    rest = primitive("AA", raw)[2:]
    pair = lambda number: CHARACTERS[number // 64] + CHARACTERS[number % 64]
    if index < 64 and other in (index, None):
        return ("B" if other is None else "A") + CHARACTERS[index] + rest
    return ("2B" if other is None else "2A") + pair(index) + pair(other or 0) + rest


def rehearsal(number, body, code="D"):
    """The rehearsal's signature of a key on a body."""
    return hashlib.sha512(b"keri rehearsal" + key(number, code).encode() + body.encode()).digest()


def rehearsed(number, body, head="AA", code="D"):
    """The rehearsal's signature of a key on a body, as an indexed signature."""
    return head + primitive("AA", rehearsal(number, body, code))[2:]


def counter(letter, count):
    """The counter of a group of so many."""
    return "-%s%s%s" % (letter, CHARACTERS[count // 64], CHARACTERS[count % 64])


def signed(body, *numbers):
    """A body with the signatures of its keys, each by its index."""
    sigs = [rehearsed(number, body, "A" + CHARACTERS[index]) for index, number in enumerate(numbers)]
    return body + counter("A", len(sigs)) + "".join(sigs)


def receipts(body, *numbers):
    """A group of the signatures of witnesses, each by its index."""
    sigs = [rehearsed(number, body, "A" + CHARACTERS[index], "B") for index, number in enumerate(numbers)]
    return counter("B", len(sigs)) + "".join(sigs)


def couples(body, *numbers):
    """A group of the signatures of witnesses, each behind its key."""
    return counter("C", len(numbers)) + "".join(key(number, "B") + primitive("0B", rehearsal(number, body, "B")) for number in numbers)


KINDS = {
    "icp": ["d", "i", "s", "kt", "k", "nt", "n", "bt", "b", "c", "a"],
    "rot": ["d", "i", "s", "p", "kt", "k", "nt", "n", "bt", "br", "ba", "a"],
    "ixn": ["d", "i", "s", "p", "a"],
    "dip": ["d", "i", "s", "kt", "k", "nt", "n", "bt", "b", "c", "a", "di"],
    "drt": ["d", "i", "s", "p", "kt", "k", "nt", "n", "bt", "br", "ba", "a"],
    "rct": ["d", "i", "s"],
}
PLAIN = {
    "s": "0", "kt": "1", "k": [key(1)], "nt": "1", "n": [digest(key(2))], "bt": "0", "b": [], "br": [], "ba": [],
    "c": [], "a": [],
}


def compact(value):
    return json.dumps(value, separators=(",", ":"), ensure_ascii=False)


def body(kind, code="I", **values):
    """The body of the kind with these values, and those of the plain inception for the others. Where no digest is
    given, it is that of the text under the code, and the prefix too where there is none."""
    fields = {**PLAIN, "d": PLACEHOLDER, **values}
    fields.setdefault("i", PLACEHOLDER)
    members = [("v", "KERI10JSONSIZE___"), ("t", kind)] + [(name, fields[name]) for name in KINDS[kind]]
    text = "{%s}" % ",".join("%s:%s" % (compact(name), compact(value)) for name, value in members)
    text = text.replace("SIZE__", "%06x" % len(text.encode()), 1)
    return text.replace(PLACEHOLDER, digest(text, code))


def said(text):
    return text[40:84]


# What was known before: these digests were computed by others.
PLAIN_ICP = body("icp")
assert said(PLAIN_ICP) == "IBbsIK4OIV7l0tzgR6RRQcAGFz42J71lEhjGDv6OqgUS" and len(PLAIN_ICP) == 299
