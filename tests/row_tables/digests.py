"""Digests. Those of BLAKE3 are what b3sum 1.2.0 gave, the others are Python's hashlib's."""
from kit import KNOWN, PLACEHOLDER, blake3, body, digest, key, pattern, said
from row_tables import argument

OTHER = "EK8TSbn1-aGmoEBN6jbcyUmbyyXJrcESt8yak8rkHzJi"
INCEPTION = body("icp", "E", k=[key(0)], n=[OTHER])
INTERACTION = body("ixn", i=key(0), s="1", p=OTHER)
# These digests were made with b3sum.
assert said(INCEPTION) == "EIztxbMtr25MaUhZd6rtypua_vkIdfaiatrtI_6S2Wdj"
assert digest(b"", "E") == OTHER and digest(b"") == "IOOwxEKY_BwUmvv0yJlvuSQnrkHkZJuTTKSVmRt4UrhV"
PIECES = {8191: (1, 1000), 8192: (1, 1000), 8193: (1, 8192), 16385: (1, 1024, 8193, 9000), 65535: (1, 1000, 8193)}


def rows():
    yield "# BLAKE3"
    for length, known in KNOWN.items():
        for piece in (0, *PIECES.get(length, (1, 7, 64, 1000))):
            yield "blake3 %d %d" % (length, piece), known
    for length, piece in ((24577, 0), (24577, 24577), (100000, 33000)):
        yield "blake3 %d %d" % (length, piece), blake3(pattern(length)).hex()
    yield "# digests of texts and of bodies that hold them"
    for code, text, places in (("E", "", ""), ("I", "", ""), ("E", INCEPTION, "40,91"), ("I", INTERACTION, "40"), ("I", INTERACTION, "")):
        blank = text
        for place in [int(place) for place in places.split(",") if place]:
            blank = blank[:place] + PLACEHOLDER + blank[place + 44:]
        found = digest(blank, code)
        assert not places or found == said(text)
        plain = "true" if digest(text, code) == found else "false"
        yield "said %s %s %s" % (code, places, argument(text)), "%s true %s" % (found, plain)
