#!/usr/bin/env python3
"""Makes the cases under tests/cases in which `validate` and `watch` read events of whole logs with the rehearsal, and
their samples.

Primitives and bodies are made with Python's base64 and hashlib (`kit.py`). Each case names its messages and what is to
be written of them, as docs/FORMATS.md says it. It is made thrice: with its messages in the order given, in the reversed
one, and with those of its second half put between those of its first. Where what is written depends on the order, the
case says so.
"""
from kit import PLAIN_ICP as ICP, body, couples, counter, digest, indexed_signature, key, primitive, receipts, rehearsal, rehearsed
from kit import said, signed
from event_cases import BASIC, ROT, WEIGHTED, WITNESSES
from validate_cases import SAMPLES, WORDS, write

WATCH_WORDS = ["watch", *WORDS[1:]]


def field(text, name):
    return text.split('"%s":"' % name, 1)[1].split('"', 1)[0]


def behind(kind, prior, **values):
    """An event of the kind behind another."""
    return body(kind, i=field(prior, "i"), s="%x" % (int(field(prior, "s"), 16) + 1), p=said(prior), **values)


def ixn(prior, **values):
    return behind("ixn", prior, **values)


def rot(prior, number, kind="rot", **values):
    """A rotation to the key of the number, which commits to the next one."""
    return behind(kind, prior, **{"k": [key(number)], "n": [digest(key(number + 1))], **values})


def seal(text):
    return {"i": field(text, "i"), "s": field(text, "s"), "d": said(text)}


def event(text, standing="live"):
    return "event %s %s %s %s %s\n" % (field(text, "i"), field(text, "s"), field(text, "t"), said(text), standing)


def state(text, keys=1, witnesses=0, toad=0):
    return "state %s %s %s keys=%d witnesses=%d toad=%d\n" % (field(text, "i"), field(text, "s"), said(text), keys, witnesses, toad)


def waits(text, why):
    return "waits %s %s %s %s\n" % (field(text, "i"), field(text, "s"), said(text), why)


def wait(why, *texts):
    """The lines of events of one place that wait for the same reason."""
    return "".join(waits(text, why) for text in sorted(texts, key=str.encode))


def conflict(*texts):
    """The line of bodies of one place."""
    saids = [said(text) for text in sorted(texts, key=str.encode)]
    return "conflict %s %s %s\n" % (field(texts[0], "i"), field(texts[0], "s"), " ".join(saids))


def log(*events, **sizes):
    """The lines of an identifier whose events are all live."""
    return "".join(event(text) for text in events) + state(events[-1], **sizes)


def by_prefix(*logs):
    return "".join(sorted(logs, key=lambda lines: lines.split(" ")[1]))


IXN_1 = ixn(ICP)
IXN_2, OTHER_2 = ixn(IXN_1), ixn(IXN_1, a=[1])
IXN_3 = ixn(IXN_2)
IXN_4 = ixn(IXN_3)
ROT_2 = rot(IXN_1, 2)
ROT_3 = rot(ROT_2, 3)
RECOVERY = [
    signed(ICP, 1), signed(IXN_1, 1), signed(IXN_2, 1), signed(IXN_3, 1), signed(ROT_2, 2), signed(ROT_3, 3), signed(IXN_4, 1),
]
RECOVERED = (
    event(ICP) + event(IXN_1) + event(IXN_2, "superseded") + event(IXN_3, "superseded") + event(ROT_2) + event(ROT_3) + state(ROT_3)
    + waits(IXN_4, "never")
)
# Where the rotation comes first no interaction that it takes the place of is accepted any more.
ROTATED = log(ICP, IXN_1, ROT_2, ROT_3) + waits(IXN_2, "never") + waits(IXN_3, "predecessor") + waits(IXN_4, "predecessor")

# Three commitments, and a rotation to the key of the third alone.
THREE = body("icp", n=[digest(key(number)) for number in (2, 3, 4)])
THIRD = rot(THREE, 4)

OTHER_1 = rot(ICP, 2, n=[digest(key(100))])
THIRD_1 = rot(ICP, 2, n=[digest(key(101))])
OTHER_IXN_1 = ixn(ICP, a=[1])
BOTH = conflict(ROT, OTHER_1)

# A rotation to a key that wasn't committed to, and another inception of an identifier that is a key.
STRAY_1 = rot(ICP, 3)
OTHER_BASIC = body("icp", i=key(1), n=[digest(key(3))])

# What was known before.
assert BOTH == (
    "conflict IBbsIK4OIV7l0tzgR6RRQcAGFz42J71lEhjGDv6OqgUS 1 "
    "IBouV5C9yvEAF7jq3TMMwmTlxKuaQm_nBkMFHV3xqjnG IOKxTh5-zgZ-gDRSzHUFR2ZWaq2lPLRNyPyiE48rOhv2\n"
)

# A delegated identifier, and its delegator.
CHILD = body("dip", k=[key(10)], n=[digest(key(11))], di=said(ICP))
CHILD_1 = rot(CHILD, 11, "drt")
SEALING = ixn(ICP, a=[seal(CHILD)])
SEALING_2 = ixn(SEALING, a=[seal(CHILD_1)])
CLOSED = body("icp", c=["DND"])
BARRED = body("dip", k=[key(10)], n=[digest(key(11))], di=said(CLOSED))
VAIN = ixn(CLOSED, a=[seal(BARRED)])

# A log with weighted keys and witnesses, each event with its groups in one wrap.
HALVES = ["1/2", "1/2", "1/2"]
FIRST_SEEN = "1AAG2020-08-22T17c50c09d988921p00c00"


def keys(*numbers):
    return [key(number) for number in numbers]


def digests(*numbers):
    return [digest(key(number)) for number in numbers]


LOG = [body("icp", kt=HALVES, k=keys(1, 2, 3), nt=HALVES, n=digests(4, 5, 6), b=WITNESSES, bt="3")]
LOG += [ixn(LOG[0])]
LOG += [ixn(LOG[1])]
LOG += [rot(LOG[2], 4, kt=HALVES, k=keys(4, 5, 6), nt=HALVES, n=digests(7, 8, 9), bt="3")]
LOG += [ixn(LOG[3])]
LOG += [ixn(LOG[4])]


def wrapped(place):
    text = LOG[place]
    first = 1 if place < 3 else 4
    groups = signed(text, first, first + 1)[len(text):] + receipts(text, 1, 2, 3)
    groups += counter("E", 1) + primitive("0A", place.to_bytes(16, "big")) + FIRST_SEEN
    assert len(groups) == 512
    return text + counter("V", 128) + groups


REALISTIC = [wrapped(place) for place in range(6)]
REALISTIC_LINES = log(*LOG, keys=3, witnesses=4, toad=3)

TWICE = body("icp", kt="2", k=keys(1, 1))
OWN = body("icp", k=[key(1, "B")], b=[key(1, "B")], bt="1")
LISTED = body("icp", b=WITNESSES[:2], bt="2")
CHANGED = rot(LISTED, 2, bt="2", br=WITNESSES[:1], ba=[key(5, "B")])
OTHER_CHANGED = rot(LISTED, 2, bt="2", br=WITNESSES[:1], ba=[key(6, "B")])
BACKED = signed(LISTED, 1) + receipts(LISTED, 1, 2)
RECEIPT = body("rct", d=said(LISTED), i=said(LISTED))
MANY = [body("icp", k=[key(number)]) for number in range(20, 60)]
WAITING = [ixn(first) for first in MANY]

# Of each case its messages and what is written; for other orders, where that is other, by the order's name.
CASES = {
    "validated_log_behind_its_interaction": ([signed(IXN_1, 1), signed(ICP, 1)], log(ICP, IXN_1), {}),
    "validated_rotation_to_a_later_commitment": (
        [signed(THREE, 1), THIRD + "-AAB" + rehearsed(4, THIRD, "2AAAAC")], log(THREE, THIRD), {},
    ),
    "validated_rotation_without_its_commitment": (
        [signed(THREE, 1), THIRD + "-AAB" + rehearsed(4, THIRD, "BA")], log(THREE) + waits(THIRD, "next"), {},
    ),
    "validated_recovery": (RECOVERY, RECOVERED, {"reversed": ROTATED, "mixed": ROTATED}),
    "validated_delegation": (
        [signed(CHILD, 10), signed(ICP, 1), signed(SEALING, 1)], by_prefix(log(ICP, SEALING), log(CHILD)), {},
    ),
    "validated_delegation_not_sealed": ([signed(CHILD, 10), signed(ICP, 1)], log(ICP) + waits(CHILD, "seal"), {}),
    "validated_delegation_forbidden": (
        [signed(BARRED, 10), signed(CLOSED, 1), signed(VAIN, 1)], log(CLOSED, VAIN) + waits(BARRED, "never"), {},
    ),
    "validated_delegated_rotation": (
        [signed(SEALING, 1), signed(CHILD, 10), signed(CHILD_1, 11), signed(SEALING_2, 1), signed(ICP, 1)],
        by_prefix(log(ICP, SEALING, SEALING_2), log(CHILD, CHILD_1)), {},
    ),
    "validated_two_rotations": (
        [signed(ICP, 1), signed(ROT, 2), signed(OTHER_1, 2)], log(ICP, ROT) + waits(OTHER_1, "never") + BOTH,
        {"reversed": log(ICP, OTHER_1) + waits(ROT, "never") + BOTH, "mixed": log(ICP, OTHER_1) + waits(ROT, "never") + BOTH},
    ),
    "validated_two_rotations_and_a_refusal": (
        [ICP + "-AAA", signed(ICP, 1), signed(ROT, 2), signed(OTHER_1, 2)],
        "refused 0 0 unsigned\n" + log(ICP, ROT) + waits(OTHER_1, "never") + BOTH,
        {"reversed": "refused 0 %d unsigned\n" % len(signed(OTHER_1, 2) + signed(ROT, 2) + signed(ICP, 1))
            + log(ICP, OTHER_1) + waits(ROT, "never") + BOTH},
    ),
    "validated_three_rotations": (
        [signed(ICP, 1), signed(ROT, 2), signed(OTHER_1, 2), signed(THIRD_1, 2)],
        log(ICP, ROT) + wait("never", OTHER_1, THIRD_1) + conflict(ROT, OTHER_1, THIRD_1),
        {
            "reversed": log(ICP, THIRD_1) + wait("never", OTHER_1, ROT) + conflict(ROT, OTHER_1, THIRD_1),
            "mixed": log(ICP, OTHER_1) + wait("never", ROT, THIRD_1) + conflict(ROT, OTHER_1, THIRD_1),
        },
    ),
    "validated_rotations_and_interactions": (
        [signed(ICP, 1), signed(IXN_1, 1), signed(OTHER_IXN_1, 1), signed(ROT, 2), signed(OTHER_1, 2)],
        event(ICP) + event(IXN_1, "superseded") + event(ROT) + state(ROT) + wait("never", OTHER_IXN_1, OTHER_1)
        + BOTH + conflict(IXN_1, OTHER_IXN_1),
        {
            "reversed": log(ICP, OTHER_1) + wait("never", IXN_1, OTHER_IXN_1, ROT) + BOTH + conflict(IXN_1, OTHER_IXN_1),
            "mixed": log(ICP, ROT) + wait("never", IXN_1, OTHER_IXN_1, OTHER_1) + BOTH + conflict(IXN_1, OTHER_IXN_1),
        },
    ),
    "validated_rotation_beside_one_by_another_key": (
        [signed(ICP, 1), signed(ROT, 2), OTHER_1 + "-AAB" + rehearsed(3, OTHER_1)], log(ICP, ROT) + waits(OTHER_1, "never"), {},
    ),
    "validated_rotation_beside_one_not_committed_to": (
        [signed(ICP, 1), signed(ROT, 2), signed(STRAY_1, 3)], log(ICP, ROT) + waits(STRAY_1, "never"), {},
    ),
    "validated_two_inceptions": (
        [signed(BASIC, 1), signed(OTHER_BASIC, 1)], log(BASIC) + waits(OTHER_BASIC, "never") + conflict(BASIC, OTHER_BASIC),
        {"reversed": log(OTHER_BASIC) + waits(BASIC, "never") + conflict(BASIC, OTHER_BASIC)},
    ),
    "validated_two_rotations_that_wait": (
        [BACKED, signed(CHANGED, 2), signed(OTHER_CHANGED, 2)],
        log(LISTED, witnesses=2, toad=2) + wait("receipts", CHANGED, OTHER_CHANGED) + conflict(CHANGED, OTHER_CHANGED), {},
    ),
    "validated_two_interactions": (
        [signed(ICP, 1), signed(IXN_1, 1), signed(IXN_2, 1), signed(OTHER_2, 1)],
        log(ICP, IXN_1, IXN_2) + waits(OTHER_2, "never") + conflict(IXN_2, OTHER_2),
        {"reversed": log(ICP, IXN_1, OTHER_2) + waits(IXN_2, "never") + conflict(IXN_2, OTHER_2)},
    ),
    "validated_witnessed_log": (REALISTIC, REALISTIC_LINES, {}),
    "validated_witnessed_log_thrice": (REALISTIC * 3, REALISTIC_LINES, {}),
    "validated_signature_at_two_indices": (
        [TWICE + "-AAB" + rehearsed(1, TWICE, head) for head in ("AA", "AB")], log(TWICE, keys=2), {},
    ),
    "validated_key_that_is_its_witness": ([OWN + "-AAB" + rehearsed(1, OWN, code="B")], log(OWN, witnesses=1, toad=1), {}),
    "validated_receipts_of_one_witness": (
        [signed(LISTED, 1) + receipts(LISTED, 1), RECEIPT + couples(LISTED, 1)], waits(LISTED, "receipts"), {},
    ),
    "validated_receipts_in_a_receipt": (
        [signed(LISTED, 1) + receipts(LISTED, 1), RECEIPT + couples(LISTED, 2)], log(LISTED, witnesses=2, toad=2), {},
    ),
    "validated_receipts_of_former_witnesses": (
        [BACKED, signed(CHANGED, 2) + couples(CHANGED, 1, 2)], log(LISTED, witnesses=2, toad=2) + waits(CHANGED, "receipts"), {},
    ),
    "validated_receipts_of_new_witnesses": (
        [BACKED, signed(CHANGED, 2) + couples(CHANGED, 5, 2)], log(LISTED, CHANGED, witnesses=2, toad=2), {},
    ),
    "validated_many_that_wait": (
        [signed(text, number) for number, text in enumerate(WAITING, 20)] + [signed(MANY[0], 20)],
        log(MANY[0], WAITING[0]) + "".join(sorted(waits(text, "predecessor") for text in WAITING[1:])), {},
    ),
    "validated_kinds": (
        [signed(ROT, 1), signed(BASIC, 1), signed(LISTED, 1), signed(WEIGHTED, 1)],
        event(BASIC) + state(BASIC) + "".join(sorted(
            [waits(ROT, "predecessor"), waits(LISTED, "receipts"), waits(WEIGHTED, "signatures")])), {},
    ),
}

# The evidence of a watcher: of each case its messages, and those of them that are written, in order; for other orders,
# where that is other, by the order's name. A watcher waits for neither receipts nor seals, so more may conflict than
# for a validator.
OTHER_CHILD_1 = rot(CHILD, 11, "drt", n=[digest(key(100))])
ONE_WAY = ROT + counter("A", 2) + rehearsed(2, ROT) + rehearsed(2, ROT, "BA")
OTHER_WAY = ROT + counter("A", 2) + rehearsed(2, ROT, "BA") + rehearsed(2, ROT)
CONFLICTING = sorted([signed(ROT, 2), signed(OTHER_1, 2)])
# One signature at many other indices, which are as many signatures; a message may carry 1,024.
MANY_WAYS = [indexed_signature(0, other, rehearsal(2, ROT)) for other in range(1030)]
IN_TWO = [ROT + counter("A", len(part)) + "".join(part) for part in (MANY_WAYS[:1000], MANY_WAYS[1000:])]
IN_FULL = [ROT + counter("A", len(part)) + "".join(part) for part in (MANY_WAYS[:1024], MANY_WAYS[1024:])]
WATCHED = {
    "watched_no_conflict": ([signed(ICP, 1), signed(IXN_1, 1), signed(ROT_2, 2)], []),
    "watched_two_rotations": ([signed(ICP, 1), signed(ROT, 2), signed(OTHER_1, 2)], CONFLICTING),
    "watched_two_rotations_twice": ([signed(ICP, 1), signed(ROT, 2), signed(OTHER_1, 2)] * 2, CONFLICTING),
    "watched_evidence_behind_its_log": ([signed(ICP, 1)] + CONFLICTING, CONFLICTING),
    "watched_two_inceptions": ([signed(BASIC, 1), signed(OTHER_BASIC, 1)], sorted([signed(BASIC, 1), signed(OTHER_BASIC, 1)])),
    "watched_rotation_with_two_signatures": (
        [signed(ICP, 1), ROT + "-AAB" + rehearsed(2, ROT), signed(OTHER_1, 2), ROT + "-AAB" + rehearsed(2, ROT, "BA")],
        sorted([ONE_WAY, signed(OTHER_1, 2)]), {"reversed": sorted([OTHER_WAY, signed(OTHER_1, 2)])},
    ),
    "watched_rotation_with_a_wrong_signature": (
        [signed(ICP, 1), signed(OTHER_1, 2), ROT + counter("A", 2) + rehearsed(9, ROT) + rehearsed(2, ROT)], CONFLICTING,
    ),
    "watched_rotations_without_receipts": (
        [signed(LISTED, 1), signed(CHANGED, 2), signed(OTHER_CHANGED, 2)], sorted([signed(CHANGED, 2), signed(OTHER_CHANGED, 2)]),
    ),
    "watched_delegation_not_sealed": (
        [signed(CHILD, 10), signed(CHILD_1, 11), signed(OTHER_CHILD_1, 11)], sorted([signed(CHILD_1, 11), signed(OTHER_CHILD_1, 11)]),
    ),
    "watched_rotation_beside_one_by_another_key": ([signed(ICP, 1), signed(ROT, 2), OTHER_1 + "-AAB" + rehearsed(3, OTHER_1)], []),
    "watched_rotations_and_interactions": (
        [signed(ICP, 1), signed(IXN_1, 1), signed(OTHER_IXN_1, 1), signed(ROT, 2), signed(OTHER_1, 2)],
        CONFLICTING + sorted([signed(IXN_1, 1), signed(OTHER_IXN_1, 1)]),
    ),
}


# A story of two identifiers: an event that is accepted, one whose place a rotation took, one that waits, and two that
# conflict.
STORY_STOLEN, STORY_ROT, STORY_OTHER = (make(SEALING) for make in (
    lambda prior: ixn(prior, a=["not mine"]), lambda prior: rot(prior, 2), lambda prior: rot(prior, 2, n=[digest(key(100))]),
))
STORY = [
    signed(ICP, 1), signed(CHILD, 10), signed(SEALING, 1), signed(STORY_STOLEN, 1), signed(STORY_ROT, 2), signed(STORY_OTHER, 2),
    signed(CHILD_1, 11),
]
STORY_LINES = by_prefix(
    event(ICP) + event(SEALING) + event(STORY_STOLEN, "superseded") + event(STORY_ROT) + state(STORY_ROT), log(CHILD)
) + by_prefix(waits(STORY_OTHER, "never"), waits(CHILD_1, "seal")) + conflict(STORY_ROT, STORY_OTHER)


# The samples, and the cases that they show.
SAMPLE_CASES = {
    "validated": "validated_witnessed_log",
    "recovered": "validated_recovery",
    "delegated": "validated_delegated_rotation",
    "conflict": "validated_two_rotations",
}


def orders(messages):
    half = (len(messages) + 1) // 2
    mixed = [message for place in range(half) for message in messages[place::half]]
    return {"": messages, "reversed": messages[::-1], "mixed": mixed}


def status(lines):
    """4 where there is a conflict, and else 3 where a message is refused."""
    heads = [line.split(" ")[0] for line in lines.splitlines()]
    return 4 if "conflict" in heads else 3 if "refused" in heads else 0


def write_sample(name, stream, lines):
    (SAMPLES / (name + ".cesr")).write_text(stream)
    (SAMPLES / (name + ".words")).write_text("validate\n--helper\nrehearsal\n%s.cesr\n" % name)
    (SAMPLES / (name + ".stdout")).write_text(lines)
    if status(lines):
        (SAMPLES / (name + ".status")).write_text("%d\n" % status(lines))


# Further cases in one order: the words, the stream, what is written, and the status.
FURTHER = {
    "watched_rotation_with_many_signatures": (
        WATCH_WORDS, signed(ICP, 1) + "".join(IN_TWO) + signed(OTHER_1, 2),
        "".join(sorted(["".join(IN_FULL), signed(OTHER_1, 2)])), 4,
    ),
    "watched_evidence_with_many_signatures": (
        WATCH_WORDS, signed(ICP, 1) + "".join(sorted(["".join(IN_FULL), signed(OTHER_1, 2)])),
        "".join(sorted(["".join(IN_FULL), signed(OTHER_1, 2)])), 4,
    ),
    "watched_nothing": (WATCH_WORDS, "", "", 0),
    "watched_refused_message": (WATCH_WORDS, ICP + "-AAA" + signed(ICP, 1), "", 3),
    "watched_refused_message_beside_a_conflict": (
        WATCH_WORDS, ICP + "-AAA" + signed(ICP, 1) + "".join(CONFLICTING), "".join(CONFLICTING), 4,
    ),
    "watched_stream_cut_short": (WATCH_WORDS, signed(ICP, 1)[:-1], "", 3),
    "watched_missing_file": (WATCH_WORDS, None, "", 5),
    "watch_without_a_helper": (["watch", "a"], signed(ICP, 1), "words\n", 2),
    "watched_helper_that_is_missing": (["watch", "--helper", "no-such-helper", "a"], signed(ICP, 1), "", 7),
}


def write_watched(name, messages, evidence, others={}):
    """The case of a watcher, in each order: whatever came first, the same bodies are written, in the same order."""
    arrangements = {"".join(arranged): order for order, arranged in reversed(orders(messages).items())}
    for stream, order in arrangements.items():
        text = "".join(others.get(order, evidence))
        write(name + ("_" + order if order else ""), WATCH_WORDS, stream, text, 4 if evidence else 0)
    return len(arrangements)


if __name__ == "__main__":
    count = sum(write_watched(name, *case) for name, case in WATCHED.items()) + len(FURTHER)
    for name, case in FURTHER.items():
        write(name, *case)
    for name, (messages, lines, others) in CASES.items():
        for order, arranged in orders(messages).items():
            if order and arranged == messages:
                continue
            written = others.get(order, lines)
            write(name + ("_" + order if order else ""), WORDS, "".join(arranged), written, status(written))
            count += 1
    for sample, name in SAMPLE_CASES.items():
        messages, lines, _ = CASES[name]
        write_sample(sample, "".join(messages), lines)
    write_sample("story", "".join(STORY), STORY_LINES)
    (SAMPLES / "evidence.words").write_text("watch\n--helper\nrehearsal\nconflict.cesr\n")
    (SAMPLES / "evidence.stdout").write_text("".join(CONFLICTING))
    (SAMPLES / "evidence.status").write_text("4\n")
    print(count, "cases")
