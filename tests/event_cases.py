#!/usr/bin/env python3
"""Makes the cases under tests/cases in which bodies of all kinds are read: good ones, and ones that fail each rule.

The bodies are made with Python's json and hashlib, by the field maps of docs/FORMATS.md (`kit.py`). What is written of
a broken one says which rule it fails first.
"""
import json

from kit import body, digest, key, said
from validate_cases import write

ICP = body("icp")
PREFIX = said(ICP)
ROT = body("rot", i=PREFIX, s="1", p=said(ICP), k=[key(2)], n=[digest(key(3))])
OTHER_ROT = body("rot", i=PREFIX, s="1", p=said(ICP), k=[key(2)], n=[digest(key(100))])
WITNESSES = [key(n, "B") for n in range(1, 5)]
WEIGHTS = ["1/2", "1/2", "1/2"]
WEIGHTED = body(
    "icp", kt=WEIGHTS, k=[key(n) for n in (1, 2, 3)], nt=[["1/2", "1/2"], ["1"]], n=[digest(key(n)) for n in (4, 5, 6)],
    bt="3", b=WITNESSES, c=["EO", "\u00e9"], a=[{"i": PREFIX, "s": "0", "d": PREFIX}, 1.5, None, [[[[[[[[]]]]]]]]],
)
BASIC = body("icp", i=key(1))
FIXED = body("icp", i=key(1, "B"), k=[key(1, "B")], nt="0", n=[])
DIP = body("dip", di=PREFIX)
GOOD = [
    ICP, ROT, OTHER_ROT, body("ixn", i=PREFIX, s="ffffffffffffffff", p=said(ROT)), DIP,
    body("drt", i=said(DIP), s="1", p=said(DIP), k=[key(2)], bt="2", br=WITNESSES[:1], ba=WITNESSES[1:]), WEIGHTED, BASIC, FIXED,
    body("rct", d=PREFIX, i=PREFIX, s="10"), body("icp", kt=[{"1/2": ["1/2", "1/2"]}, "1/2"], k=[key(n) for n in (1, 2, 3)]),
]

# What was known before: these digests were computed by others.
assert PREFIX == "IBbsIK4OIV7l0tzgR6RRQcAGFz42J71lEhjGDv6OqgUS" and len(ICP) == 299
assert said(ROT) == "IOKxTh5-zgZ-gDRSzHUFR2ZWaq2lPLRNyPyiE48rOhv2" and len(ROT) == 352
assert said(OTHER_ROT) == "IBouV5C9yvEAF7jq3TMMwmTlxKuaQm_nBkMFHV3xqjnG"
assert len(GOOD[3]) == 203 + 15 and len(DIP) == 351


def line(text):
    fields = json.loads(text)
    return "%s %s %s %s size=%d signatures=0 receipts=0\n" % (
        fields["t"], fields["i"], fields["s"], fields["d"], len(text.encode()))


TWICE = [key(1, "B"), key(1, "B")]
BROKEN = [
    # of the form, each field in its place
    (body("icp", s="1"), "field 4"),
    (body("ixn", i=PREFIX, s="0", p=PREFIX), "field 4"),
    (body("ixn", i=PREFIX, s="01", p=PREFIX), "field 4"),
    (body("icp", kt=[[[[["1"]]]]]), "field 5"),
    (body("icp", k=["x"]), "field 6"),
    (body("rot", i=PREFIX, s="1", p=PREFIX, ba=[key(1)]), "field 12"),
    (body("icp", b=[key(1)], bt="1"), "field 10"),
    (body("icp", c=[1]), "field 11"),
    (body("icp", a=[[[[[[[[[[]]]]]]]]]]), "field 12"),
    (body("dip", di="x"), "field 13"),
    # lists and numbers
    (body("icp", k=[key(1)] * 65, kt="41"), "many"),
    (body("icp", c=["x"] * 65), "many"),
    (body("ixn", i=PREFIX, s="1" * 17, p=PREFIX), "number"),
    (body("icp", bt="1" * 17), "number"),
    (body("icp", kt="1" * 17), "number"),
    # thresholds
    (body("icp", k=[]), "threshold"),
    (body("icp", kt="2"), "threshold"),
    (body("icp", kt=["1/2"]), "threshold"),
    (body("icp", kt=[1]), "threshold"),
    (body("icp", kt=[[["1"]]]), "threshold"),
    (body("icp", kt=[{"1/2": ["1/2", "1/2"]}, "1/2"]), "threshold"),
    (body("icp", nt="0"), "threshold"),
    # witnesses
    (body("icp", b=TWICE, bt="1"), "witnesses"),
    (body("icp", b=WITNESSES, bt="0"), "witnesses"),
    (body("icp", b=WITNESSES, bt="5"), "witnesses"),
    (body("rot", i=PREFIX, s="1", p=PREFIX, br=TWICE[:1], ba=TWICE[:1]), "witnesses"),
    # the prefix and the digest
    (body("icp", i=key(2)), "prefix"),
    (body("icp", i=key(1, "B"), k=[key(1, "B")]), "prefix"),
    (body("dip", i=key(1), di=PREFIX), "prefix"),
    (body("dip", i=PREFIX, di=PREFIX), "prefix"),
    (BASIC.replace(said(BASIC), PREFIX), "said"),
    (ROT.replace(said(ROT), said(OTHER_ROT)), "said"),
]


def refusals(bodies):
    place, text = 0, ""
    for broken, reason in bodies:
        text += "refused 0 %d %s\n" % (place, reason)
        place += len(broken.encode())
    return text


if __name__ == "__main__":
    write("bodies_of_all_kinds", ["check", "a"], "".join(GOOD), "".join(line(text) for text in GOOD), 0)
    write("bodies_that_fail_each_rule", ["check", "a"], "".join(text for text, _ in BROKEN), refusals(BROKEN), 3)
