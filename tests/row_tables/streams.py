"""Streams: their items and what refuses them, in pieces of several lengths; their messages; and groups written."""
from kit import body, digest, indexed, key, primitive, signature
from row_tables import argument

RECEIPT = body("rct", d="EK8TSbn1-aGmoEBN6jbcyUmbyyXJrcESt8yak8rkHzJi", i=key(0))
INDEXED = indexed("AA", "a")
BIG = indexed("2AAAAC", "a")
COUPLE = key(1, "B") + signature("couple")
NUMBER = primitive("0A", bytes(16))
MOMENT = "1AAG2020-08-22T17c50c09d988921p00c00"
DIGEST = digest("anchor")
# The parts of a stream, and its items with their places and how it ends.
STREAMS = [
    ("-AAB" + INDEXED, "A:1@145 end"), ("-AAC" + INDEXED + BIG, "A:2@145 end"), ("-BAB" + INDEXED, "B:1@145 end"), ("-CAB" + COUPLE, "C:1@145 end"),
    ("-EAB" + NUMBER + MOMENT, "E:1@145 end"), ("-GAB" + NUMBER + DIGEST, "G:1@145 end"), ("-VAX-AAB" + INDEXED, "V:1@145 end"),
    ("-VAA-BAA", "V:0@145 B:0@149 end"), ("-VAC-AAA-BAA" + RECEIPT, "V:2@145 body:145@157 end"), ("\n", "NoStart@145"),
    ("-D", "GroupNotSupported@145"), ("-VAB-V", "GroupNotSupported@149"), ("-CA+", "Code(BadCharacter(3))@145"),
    ("-C+A", "Code(BadCharacter(2))@145"), ("-EAB" + NUMBER + MOMENT[:-1] + "X", "Code(BadCharacter(35))@173"),
    ("-CAB" + key(0), "Code(CodeNotHeld)@149"), ("-VAC-AABE", "Code(CodeNotHeld)@153"), ("-VAC-AABA", "WrapLength@153"),
    ("-VAB-AAB", "WrapLength@153"), ("-VABA", "NoStart@149"), ("-VAX-AABA", "Truncated@145"), ("-AAB" + INDEXED[:-1], "Truncated@145"),
    ("-AAC" + INDEXED + "E", "Code(CodeNotHeld)@237"), ("-AAC" + INDEXED + "2BABAB" + BIG[6:], "Code(OtherIndex)@237"),
    ("-VAu-AAB" + INDEXED + "-BAB" + indexed("AB", "b"), "V:2@145 end"),
    ("-VAu-AAB" + INDEXED + "-BAB0", "Code(CodeNotHeld)@245"),
    (RECEIPT[:100], "Truncated@145"), ("", "end"), ("{", "Truncated@145"), ("-", "Truncated@145"),
]
STARTS = [
    ('{"v":"KERI20JSON000091_"', "Version@0"), ('{"v":"KERI10JSON000017_"', "Version@0"), ('{"v":"KERI10JSON010000_"', "TooLarge@0"),
    ("-VAB-AAA", "GroupFirst@0"), ("-VAB-D", "GroupNotSupported@4"), ("-AAB" + INDEXED, "GroupFirst@0"), ("", "end"), ("x", "NoStart@0"),
]


def ended(text, answer):
    """The answer, and where the text is cut short how many bytes are held at its end."""
    word, _, place = answer.rpartition("@")
    return answer + " held=%d" % (len(text) - int(place)) if word.endswith("Truncated") else answer


def items():
    for behind, answer in STREAMS:
        text = RECEIPT + behind
        for piece in (1, 7, 4096):
            yield "items %d %s" % (piece, argument(text)), ended(text, "body:145@0 " + answer)
    for start, answer in STARTS:
        for piece in (1, 4096):
            yield "items %d %s" % (piece, argument(start)), ended(start, answer)
    # after a refusal nothing more is read
    yield "items 146 %s" % argument(RECEIPT + "x" + RECEIPT), "body:145@0 NoStart@145"
    # the longest group there can be
    for piece in (4096, 1000000):
        yield "items %d %s&-C__&4095*%s" % (piece, argument(RECEIPT), COUPLE), "body:145@0 C:4095@145 end"
        yield "items %d %s&-C__&4094*%s&%s" % (piece, argument(RECEIPT), COUPLE, COUPLE[:-1]), "body:145@0 Truncated@145 held=540543"


def messages():
    group = "-AAB" + INDEXED
    stream = RECEIPT + group + "-VAX-BAB" + INDEXED + RECEIPT + "-CAB" + COUPLE
    second = len(stream) - 4 - len(COUPLE) - 145
    yield "messages 1024 %s" % argument(stream), "body:145@0[A:1B:1] body:145@%d[C:1] " % second
    yield "messages 2 %s" % argument(stream), "body:145@0[A:1B:1] body:145@%d[C:1] " % second
    yield "messages 1 %s" % argument(stream), "body:145@0[A:1] excess body:145@%d[C:1] " % second
    yield "messages 0 %s" % argument(stream), "body:145@0[] excess body:145@%d[] excess " % second
    yield "messages 1 %s" % argument(RECEIPT + "-AAC" + INDEXED + INDEXED + group), "body:145@0[] excess "
    yield "messages 1 %s" % argument(RECEIPT + group + "-D"), "body:145@0[A:1] "
    yield "messages 1 %s" % argument(RECEIPT + "-EAB" + NUMBER + MOMENT + "-GAB" + NUMBER + DIGEST), "body:145@0[E:1] excess "
    yield "messages 1 ", ""


def put():
    yield "put A %s" % INDEXED, "-AAB" + INDEXED
    yield "put B %s" % BIG, "-BAB" + BIG
    yield "put C %s %s" % (key(1, "B"), signature("couple")), "-CAB" + COUPLE
    yield "put E %s %s" % (NUMBER, MOMENT), "-EAB" + NUMBER + MOMENT
    yield "put G %s %s" % (NUMBER, DIGEST), "-GAB" + NUMBER + DIGEST


def rows():
    yield "# items of a stream"
    yield from items()
    yield "# messages of a stream, where a message may have so many elements"
    yield from messages()
    yield "# groups written"
    yield from put()
