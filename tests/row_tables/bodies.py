"""Bodies of events: read and written again, refused by the first rule that they fail, and sealed under a code. They are
made with Python's json and hashlib. What a row breaks is said by the rule's name, and never found by a reader of
bodies."""
import itertools
import json

from kit import KINDS, PLAIN_ICP, body, compact, digest, key, said
from row_tables import argument

FIXED = [key(number, "B") for number in range(1, 66)]
KEYS = [key(number) for number in range(1, 10)]
PRIOR = said(PLAIN_ICP)
NOTHING = "EK8TSbn1-aGmoEBN6jbcyUmbyyXJrcESt8yak8rkHzJi"
NESTED_8 = [[[[[[[[]]]]]]]]
LAST = "f" * 16


def after(kind, **values):
    """An event that isn't the first of its identifier."""
    return body(kind, **{"i": PRIOR, "s": "1", "p": PRIOR, **values})


ROT = after("rot", k=[key(2)], n=[digest(key(3))])
IXN = after("ixn")
DRT = after("drt", code="E")
RCT = body("rct", d=PRIOR, i=PRIOR)
DIP = body("dip", di=PRIOR)
BASIC = body("icp", i=key(1), bt="1", b=FIXED[:2], c=["EO"], a=[{"i": "x"}, 1.5])
# A receipt of 145 bytes, of an event whose digest is that of nothing.
RECEIPT = body("rct", d=NOTHING, i=key(0))
assert [len(text) for text in (RECEIPT, RCT, IXN, PLAIN_ICP, ROT)] == [145, 145, 203, 299, 352]

# Thresholds with groups of weights, and for how many keys they are.
GROUPS = [([{"1/2": ["1/2", "1/2"]}, "1/2"], 3), ([[{"1": ["1/2", "1/2"]}], ["1"]], 3), ([{"1": ["1/3", "1/3", "1/3", "0"]}], 4)]
WEIGHTS = [(["1/2", "1/2", "1/2"], 3), ([["1"], ["1/2", "1/2"]], 3), (["2/4", "2/4"], 2)]
THIRDS = {"kt": ["1/2"] * 3, "nt": ["1/2"] * 3}
WEIGHTED = body("icp", k=KEYS[:3], n=[digest(text) for text in KEYS[3:6]], b=FIXED[:4], bt="3", **THIRDS)
SEAL = {"i": PRIOR, "s": "1f", "d": said(IXN)}

GOOD = [
    PLAIN_ICP, ROT, IXN, DIP, DRT, RCT, RECEIPT, BASIC, WEIGHTED,
    body("icp", "E", k=[key(0)], n=[NOTHING]), body("icp", i=key(1, "B"), k=[key(1, "B")], nt="0", n=[]),
    after("rot", i=said(WEIGHTED), p=said(WEIGHTED), k=KEYS[3:6], n=[digest(text) for text in KEYS[6:9]], bt="3", **THIRDS),
    after("rot", i=key(1), kt=["1/2", "1/2"], k=KEYS[:2], bt="7", br=FIXED[:1], ba=FIXED[1:2], a=[SEAL, SEAL, "\u00e9", None, -1.5]),
    after("ixn", a=[SEAL, {**SEAL, "s": "01f"}, NESTED_8, {"a": 1, "b": [], "": {}}]), after("ixn", i=key(1, "B")),
    body("dip", di=key(1), c=["DND"]), body("dip", "E", di=NOTHING, a=[NESTED_8]), body("rct", d=NOTHING, i=NOTHING, s=LAST),
    # at the limits
    body("icp", k=[key(1)] * 64, kt="40", n=[digest(key(2))] * 64, nt="40"), body("icp", b=FIXED[:64], bt="40", c=["\\u00Ef"] * 64),
    after("rot", br=FIXED[:32], ba=FIXED[32:64], s=LAST, bt=LAST), after("ixn", s=LAST), after("ixn", p=NOTHING, s=LAST[1:]),
]
GOOD += [body("icp", kt=kt, k=KEYS[:count], nt=kt, n=[digest(text) for text in KEYS[:count]]) for kt, count in GROUPS + WEIGHTS]
# Two inceptions of one identifier, which the worked instances of the law of agreement are about.
RIVALS = [body("icp", "E", i=key(9), k=[key(9)], nt="0", n=[], bt="1", b=[witness]) for witness in FIXED[:2]]
assert [said(text) for text in RIVALS] == ["EM5f4gERYcmGkGLvld0yWzBsB8JJwFHC0KCB07c2WlLx", "EAek8avM7jNOVef5fvVIZ9kp5aN__PpDdYufZPFbWTZK"]
GOOD += RIVALS
ONE_TWICE = FIXED[:1] * 2

# Bodies, and the first rule that each fails.
BAD = {
    "TooMany": [
        body("icp", k=[key(1)] * 65), body("icp", n=[digest(key(2))] * 65), body("icp", b=FIXED[:65], bt="1"), body("icp", c=[""] * 65),
        after("rot", br=FIXED[:65]), after("drt", ba=FIXED[:65]), body("dip", c=["EO"] * 65, di=PRIOR),
    ],
    "NumberTooLarge": [
        after("ixn", s="1" + "0" * 16), after("rot", s="1" * 17), body("rct", d=PRIOR, i=PRIOR, s="1" * 17), body("icp", bt="1" * 17),
        after("rot", bt="1" * 17), body("icp", kt="1" * 17), body("icp", nt="f" * 17),
    ],
    "Threshold": [
        body("icp", kt="2"), body("icp", kt="0"), body("icp", kt=LAST), body("icp", kt="A" * 17), body("icp", kt=""), body("icp", kt="0", k=[]),
        body("icp", kt=[], k=[]), body("icp", nt="2"), body("icp", nt="0"), body("icp", nt="1", n=[]), after("rot", k=KEYS[:2], kt="3"),
        after("drt", nt=["1/2"]), body("dip", kt=["1/3", "1/3"], k=KEYS[:2], di=PRIOR),
        # values that are lists, nested at most four deep, but no thresholds
        body("icp", kt=[None]), body("icp", kt=[[["1"]]]), body("icp", kt=[[[["1"]]]]), body("icp", kt=[{"1": ["1"], "1/2": ["1"]}]),
        body("icp", kt=GROUPS[0][0]), body("icp", kt=[{"1/2": ["1/3", "1/3"]}, "1/2"], k=KEYS[:3]),
        body("icp", kt=["1/2", "01/2"], k=KEYS[:2]),
    ],
    "Witnesses": [
        body("icp", bt="1", b=ONE_TWICE), body("icp", b=FIXED[:1]), body("icp", bt="2", b=FIXED[:1]), body("icp", bt="1"),
        body("dip", bt="1", di=PRIOR), after("rot", br=ONE_TWICE), after("rot", ba=ONE_TWICE), after("drt", br=FIXED[:2], ba=FIXED[1:3]),
    ],
    "Prefix": [
        body("icp", i=key(2)), body("icp", i=key(1), k=KEYS[:2]), body("icp", i=key(1, "B")), body("icp", i=key(1, "B"), k=[key(1, "B")]),
        body("icp", i=NOTHING), body("icp", d=said(PLAIN_ICP), i=digest("", "I")), body("dip", i=key(1), di=key(3)), body("dip", i=PRIOR, di=PRIOR),
        body("icp", d="E" + PRIOR[1:], i=PRIOR),
    ],
    "Said": [
        body(kind, d=NOTHING, **values) for kind, values in [("icp", {"i": key(1)}), ("icp", {"i": NOTHING}), ("dip", {"i": NOTHING, "di": key(1)})]
    ] + [after(kind, d=NOTHING) for kind in ("rot", "ixn", "drt")] + [body("icp", d="E" + said(BASIC)[1:], i=key(1))],
    "SizeField": [PLAIN_ICP.replace("012b", "012c", 1), PLAIN_ICP + " ", PLAIN_ICP[:-1], RECEIPT.replace("0091", "0092", 1), '{"v":"KERI10JSON000019_"'],
    "Field(0)": ["", "{", PLAIN_ICP.replace("{", "[", 1), PLAIN_ICP.replace("10", "11", 1), PLAIN_ICP.replace("JSON", "CBOR", 1), PLAIN_ICP.replace("012b", "012B", 1)],
    "Field(1)": [PLAIN_ICP.replace('"icp"', '"xcp"'), PLAIN_ICP.replace('"icp"', '"ICP"'), '{"v":"KERI10JSON000018_"'],
    "Field(2)": [RECEIPT.replace('"d"', '"x"').replace('"i"', '"d"').replace('"x"', '"i"')],
    "Field(4)": [body("icp", s="1"), body("dip", s="1", di=PRIOR), after("rot", s="0"), after("ixn", s="0"), after("ixn", s="01"), after("ixn", s="A")],
    "Field(5)": [body("icp", kt=[[[[["1"]]]]]), body("icp", kt=[[[{"1": ["1"]}]]]), body("icp", kt=1), body("icp", kt=None), body("icp", kt={"1": ["1"]})],
    "Field(10)": [body("icp", b=[key(1)], bt="1")],
    "Field(11)": [after("rot", br=[key(1)])],
    "Field(12)": [body("icp", a=[[NESTED_8]]), after("rot", ba=[NOTHING])],
}


def changed(text, places, closing="}"):
    """The body with the names and the values at these places put in the place of its own, and with the size that it has
    then."""
    members = list(json.loads(text).items())
    for place, member in places.items():
        members[place] = member
    new = "{%s%s" % (",".join("%s:%s" % (compact(name), compact(value)) for name, value in members), closing)
    return new.replace(text[16:22], "%06x" % len(new.encode()), 1)


# A value of each field that isn't of its form.
MISSHAPEN = {
    "d": key(1), "i": "x", "s": "01", "p": key(1), "kt": 1, "k": [NOTHING], "nt": None, "n": [key(1)], "bt": "0x", "b": [key(1)], "br": key(1, "B"),
    "ba": [1], "c": [[]], "a": {}, "di": [NOTHING],
}


def misshapen():
    """Of each kind the bodies whose form fails at a field: by its name, and by its value; and at the end."""
    for text in (PLAIN_ICP, ROT, IXN, DIP, DRT, RCT):
        names = ["v", "t", *KINDS[json.loads(text)["t"]]]
        values = json.loads(text)
        for place, name in enumerate(names):
            yield "Field(%d)" % place, changed(text, {place: ("x" + name[1:], values[name])})
            if name in MISSHAPEN:
                yield "Field(%d)" % place, changed(text, {place: (name, MISSHAPEN[name])})
        for closing in ("]", "", "}}", ",\"x\":1}"):
            yield "Field(%d)" % len(names), changed(text, {}, closing)


LONG = "x" * 65_535
# The rules in the order in which they are tested, and how a body of a key's own identifier fails each.
FAILED_BY_VALUES = {
    "TooLarge": {"a": [LONG]}, "SizeField": {}, "Field(13)": {}, "TooMany": {"c": [""] * 65}, "NumberTooLarge": {"nt": "1" * 17},
    "Threshold": {"kt": "2"}, "Witnesses": {"b": ONE_TWICE, "bt": "1"}, "Prefix": {"i": key(2)}, "Said": {"d": NOTHING},
}


def failing(*rules):
    """A body that fails these rules."""
    values = {"i": key(1)}
    for rule in rules:
        values |= FAILED_BY_VALUES[rule]
    text = body("icp", **values)
    if "Field(13)" in rules:
        text = text[:-1] + "]"
    if "SizeField" in rules:
        text = text.replace(text[16:22], "%06x" % (len(text) + 1), 1)
    return text


def short(text):
    """The argument for a body, in which the long text is told by its length."""
    return argument(text).replace(LONG, "&65535*x&")


def bounded(length):
    """A body of so many bytes, whose digest isn't its own."""
    small = after("ixn", d=NOTHING, a=[""])
    text = after("ixn", d=NOTHING, a=["x" * (length - len(small))])
    assert len(text) == length
    return argument(text).replace("x" * (length - len(small)), "&%d*x&" % (length - len(small)))


def read():
    for text in GOOD:
        yield "body %s" % argument(text), text
    for rule, bodies in BAD.items():
        for text in bodies:
            yield "body %s" % argument(text), rule
    yield "body %s" % bounded(65_535), "Said"
    yield "body %s" % bounded(65_536), "TooLarge"
    for rule, text in misshapen():
        yield "body %s" % argument(text), rule


def in_order():
    """Of two rules that a body fails the earlier one is told."""
    for rule in FAILED_BY_VALUES:
        yield "body %s" % short(failing(rule)), rule
    for earlier, later in itertools.combinations(FAILED_BY_VALUES, 2):
        yield "body %s" % short(failing(earlier, later)), earlier


def sealed():
    """Bodies sealed again: under their own code they stay, under another their digest and their own prefix change."""
    for text in (PLAIN_ICP, ROT, IXN, RCT, DIP, BASIC, WEIGHTED):
        yield "seal I %s" % argument(text), text
    for kind, values in [("icp", {}), ("dip", {"di": PRIOR}), ("rct", {"d": PRIOR, "i": PRIOR}), ("icp", {"i": key(1), "a": [SEAL]})]:
        for old, new in ("IE", "EI"):
            yield "seal %s %s" % (new, argument(body(kind, old, **values))), body(kind, new, **values)
    for kind in ("rot", "ixn", "drt"):
        for old, new in ("IE", "EI"):
            yield "seal %s %s" % (new, argument(after(kind, code=old))), after(kind, code=new)
    yield "seal E %s" % argument(BAD["Said"][0]), "Said"


def rows():
    yield "# bodies, written again, or the first rule that fails"
    yield from read()
    yield "# bodies that fail two rules"
    yield from in_order()
    yield "# bodies sealed under a code"
    yield from sealed()
