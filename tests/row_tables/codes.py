"""Primitives. The spellings are made with Python's base64."""
import base64

from kit import primitive
from row_tables import argument

# Raw bytes whose digits are, between them, all of the 64 characters in order.
FIRST = bytes.fromhex("00420c41461c824a2cc34e3d04524d45565d865a6dc75e7e08628e49669e8a6a")
LAST = bytes.fromhex("f59761969b71d79f8218a39259a7a29aabb2dbafc31cb3d35db7e39ebbf3dfbf")
NAMES = {"B": "Fixed", "D": "Rotating", "E": "Blake3", "I": "Sha256"}
WORKED = [
    ("D", bytes(32), "D" + "A" * 43), ("D", bytes([1]) * 32, "DAEB" + "AQEB" * 10), ("D", bytes([255]) * 32, "DP" + "_" * 42),
]


def coded(call, code, raw):
    text = primitive(code, raw)
    return "%s %s" % (call, text), "%s %s %d %s" % (NAMES[code], raw.hex(), len(text), text)


def good():
    for code, raw, text in WORKED:
        assert primitive(code, raw) == text
        yield coded("key", code, raw)
    for raw in (FIRST, LAST):
        for code in "BD":
            yield coded("key", code, raw)
        for code in "EI":
            yield coded("digest", code, raw)
        for code in "BDEI":
            yield coded("prefix", code, raw)
    for raw in (bytes(range(64)), bytes([255]) * 64):
        text = primitive("0B", raw)
        yield "sig %s" % text, "%s 88 %s" % (raw.hex(), text)
    # what follows a primitive isn't its
    text = primitive("D", FIRST)
    yield "key %sAAAA" % text, "Rotating %s 44 %s" % (FIRST.hex(), text)


def numbers():
    for value in (0, 5, 0x0123456789ABCDEF0123456789ABCDEF, 2 ** 128 - 1):
        text = primitive("0A", value.to_bytes(16, "big"))
        yield "number %s" % text, "%d 24 %s" % (value, text)
    for plain in ("2020-08-22T17:50:09.988921+00:00", "2020-08-22T17:50:09.988921-01:00"):
        text = "1AAG" + plain.replace(":", "c").replace(".", "d").replace("+", "p")
        yield "moment %s" % text, "%s 36 %s" % (plain, text)
        yield "new-moment %s" % plain, text
    yield "new-moment %s" % argument("2020-08-22 17:50:09.988921+00:00"), "none"


def indexed():
    digits = primitive("AA", bytes(range(64)))[2:]
    forms = [("small 0 0", "AA"), ("small 63 63", "A_"), ("small 5 none", "BF"), ("big 64 4095", "2ABA__"), ("big 0 2", "2AAAAC"),
             ("big 4095 none", "2B__AA")]
    for form, head in forms:
        text = head + digits
        yield "indexed %s" % text, "%s %d %s" % (form, len(text), text)
        yield "new-indexed %s" % form, form
    for form in ("small 64 none", "small 1 2", "big 4096 none", "big 0 4096"):
        yield "new-indexed %s" % form, "none"


def faults():
    for call, text, fault in [
        ("key", "", "Short"), ("key", "E", "CodeNotHeld"), ("key", "D", "Short"), ("key", "D" + "A" * 42, "Short"),
        ("key", "E" + "A" * 43, "CodeNotHeld"), ("key", "D+" + "A" * 42, "BadCharacter(1)"), ("key", "DQ" + "A" * 41 + "=", "BadCharacter(43)"),
        ("key", "DQ" + "_" * 42, "PadBits"), ("digest", "D", "CodeNotHeld"), ("digest", "I", "Short"), ("prefix", "A", "CodeNotHeld"),
        ("sig", "0", "Short"), ("sig", "0BE" + "A" * 85, "PadBits"), ("sig", "0A", "CodeNotHeld"),
        ("indexed", "2BABAB" + "A" * 86, "OtherIndex"), ("indexed", "2", "Short"), ("indexed", "0B", "CodeNotHeld"),
        ("number", "0", "Short"), ("number", "0B", "CodeNotHeld"), ("number", "0A" + "A" * 20, "Short"), ("number", "0AE" + "_" * 21, "PadBits"),
        ("moment", "1AA", "Short"), ("moment", "1AAH", "CodeNotHeld"), ("moment", "1AAG2020-08-22T17c50c09d988921p00c0", "Short"),
        ("moment", "1AAG2020-08-22T17c50c09p988921p00c00", "BadCharacter(23)"),
        ("moment", "1AAG2020-08-22T17:50c09d988921p00c00", "BadCharacter(17)"),
    ]:
        yield "%s %s" % (call, text), fault
    text = "0BD" + "A" * 85
    yield "sig %s" % text, "%s 88 %s" % (base64.urlsafe_b64decode("AA" + text[2:])[2:].hex(), text)


def rows():
    yield "# primitives"
    yield from good()
    yield from numbers()
    yield from indexed()
    yield "# why a text is no primitive"
    yield from faults()
