#!/usr/bin/env python3
"""Makes the cases under tests/cases in which `export` writes a log for another validator and `blame` compares what two
accept, and the samples of both.

What must be written is put together here of the messages that went in, by docs/FORMATS.md. What `handover_reference.py`
says of the streams has to be the same.
"""
import shutil

from event_cases import BASIC, ROT
from handover_reference import blamed, exported, told
from kit import CHARACTERS, PLAIN_ICP as ICP, body, counter, couples, digest, key, primitive, receipts, rehearsal, rehearsed, said, signed
from log_cases import BACKED, CHILD, CHILD_1, IXN_1, LISTED, LOG, MANY_WAYS, OTHER_1, OTHER_BASIC, OTHER_CHILD_1, OTHER_IXN_1, REALISTIC, RECEIPT
from log_cases import RECOVERY, SEALING, SEALING_2, WITNESSES, by_prefix, field, ixn, log, rot, seal
from validate_cases import CASES, SAMPLES

GOOD, REFUSED, RIVALS, READ_FAULT, WRITE_FAULT, HELPER_FAULT = 0, 3, 4, 5, 6, 7
UNKNOWN = "unknown\n"
UNSIGNED = ICP + "-AAA"

# A helper that says yes of each signature.
SAYS_YES = """#!/usr/bin/env python3
import sys

while question := sys.stdin.buffer.read(141):
    sys.stdin.buffer.read(int(question[133:], 16))
    sys.stdout.write("Y")
    sys.stdout.flush()
"""
is_yes = {"verifier": lambda *_: True}


def couple_group(members):
    return counter("C", len(members)) + "".join(members)


# `export`

# Of this one there are so many receipts, all of one witness, that no message can carry them.
ONE_WITNESS = body("icp", b=WITNESSES[:1], bt="1")
NAMED = body("rct", d=said(ONE_WITNESS), i=said(ONE_WITNESS))
COUPLES = [key(1, "B") + primitive("0B", number.to_bytes(64, "big")) for number in range(1030)]
SIGNED_ONE = signed(ONE_WITNESS, 1)
MANY_IN = NAMED + couple_group(COUPLES[:500]) + SIGNED_ONE + couple_group(COUPLES[500:1000]) + NAMED + couple_group(COUPLES[1000:])
MANY_OUT = SIGNED_ONE + couple_group(COUPLES[:1023]) + SIGNED_ONE + couple_group(COUPLES[1023:])
# And of this one so many signatures of the controller, each at another index of what was committed to.
WAYS_IN = [ROT + counter("A", len(part)) + "".join(part) for part in (MANY_WAYS[:1000], MANY_WAYS[1000:])]
WAYS_OUT = [ROT + counter("A", len(part)) + "".join(part) for part in (MANY_WAYS[:1024], MANY_WAYS[:1] + MANY_WAYS[1024:])]

DELEGATED = [signed(ICP, 1), signed(SEALING, 1), signed(CHILD, 10)]
ROTATED = [*DELEGATED, signed(SEALING_2, 1), signed(CHILD_1, 11)]
ROTATED_LINES = by_prefix(log(ICP, SEALING, SEALING_2), log(CHILD, CHILD_1))
OWN = body("icp", k=[key(1, "B")], b=[key(1, "B")], bt="1")
OWN_SIGNED = OWN + counter("A", 1) + rehearsed(1, OWN, code="B")
PLAIN = [signed(text, *((1, 2) if place < 3 else (4, 5))) + receipts(text, 1, 2, 3) for place, text in enumerate(LOG)]

# Of each case the prefix, the files, what is written, and the status.
EXPORTED = {
    "inception": (said(ICP), [signed(ICP, 1)], signed(ICP, 1), GOOD),
    "of_another_identifier": (said(LISTED), [signed(ICP, 1)], UNKNOWN, REFUSED),
    "of_a_key_that_is_no_identifier": (key(77), [signed(ICP, 1)], UNKNOWN, REFUSED),
    "of_nothing": (said(ICP), [""], UNKNOWN, REFUSED),
    "of_an_identifier_that_waits": (said(ICP), [ICP + counter("A", 1) + rehearsed(9, ICP)], UNKNOWN, REFUSED),
    "of_an_identifier_that_is_a_key": (key(1), [signed(ICP, 1) + signed(BASIC, 1)], signed(BASIC, 1), GOOD),
    "event_that_comes_early": (said(ICP), [signed(IXN_1, 1) + signed(ICP, 1)], signed(ICP, 1) + signed(IXN_1, 1), GOOD),
    "of_two_files": (said(ICP), [signed(IXN_1, 1), signed(ICP, 1)], signed(ICP, 1) + signed(IXN_1, 1), GOOD),
    "of_the_same_file_twice": (said(ICP), [signed(ICP, 1)] * 2, signed(ICP, 1), GOOD),
    "superseded": (said(ICP), ["".join(RECOVERY)], "".join(RECOVERY[:6]), GOOD),
    "wraps": (said(LOG[0]), ["".join(REALISTIC)], "".join(PLAIN), GOOD),
    "of_a_delegator": (said(ICP), ["".join(DELEGATED[::-1])], "".join(DELEGATED[:2]), GOOD),
    "delegated_rotation": (said(CHILD), ["".join(ROTATED)], "".join(ROTATED), GOOD),
    "delegated_rotation_reversed": (said(CHILD), ["".join(ROTATED[::-1])], "".join(ROTATED), GOOD),
    "wrong_signature": (said(ICP), [ICP + counter("A", 2) + rehearsed(9, ICP) + rehearsed(1, ICP)], signed(ICP, 1), GOOD),
    "signature_that_comes_later": (
        said(ICP), [signed(ICP, 1) + signed(IXN_1, 1) + ICP + counter("A", 1) + rehearsed(1, ICP, "BA")],
        ICP + counter("A", 2) + rehearsed(1, ICP) + rehearsed(1, ICP, "BA") + signed(IXN_1, 1), GOOD,
    ),
    "messages_twice": (said(ICP), [signed(ICP, 1) * 2 + signed(IXN_1, 1) * 2], signed(ICP, 1) + signed(IXN_1, 1), GOOD),
    "receipts_of_both_sorts": (
        said(LISTED), [RECEIPT + couples(LISTED, 2) + signed(LISTED, 1) + couples(LISTED, 1) + receipts(LISTED, 1)],
        signed(LISTED, 1) + receipts(LISTED, 1) + couples(LISTED, 2, 1), GOOD,
    ),
    "receipt_of_no_witness": (said(LISTED), [BACKED + RECEIPT + couples(LISTED, 9)], BACKED, GOOD),
    "key_that_is_its_own_witness": (said(OWN), [OWN_SIGNED], OWN_SIGNED, GOOD),
    "beside_a_conflict": (said(ICP), [signed(ICP, 1) + signed(ROT, 2) + signed(OTHER_1, 2)], signed(ICP, 1) + signed(ROT, 2), GOOD),
    "many_signatures": (said(ICP), [signed(ICP, 1) + "".join(WAYS_IN)], signed(ICP, 1) + "".join(WAYS_OUT), GOOD),
    "beside_a_refused_message": (said(ICP), [UNSIGNED + signed(ICP, 1)], signed(ICP, 1), REFUSED),
    "unknown_beside_a_refused_message": (said(LISTED), [UNSIGNED + signed(ICP, 1)], UNKNOWN, REFUSED),
}
# What was exported is taken for the same, in each order of a delegated log.
for number, order in enumerate(((0, 2, 1), (1, 0, 2), (1, 2, 0), (2, 0, 1), (2, 1, 0))):
    EXPORTED["delegated_%d" % number] = (said(CHILD), ["".join(DELEGATED[place] for place in order)], "".join(DELEGATED), GOOD)

# `blame`

def witnessed(text, *places):
    """A group of the receipts of witnesses, each with its index and its number."""
    return counter("B", len(places)) + "".join(rehearsed(number, text, "A" + CHARACTERS[index], "B") for index, number in places)


def witness_lines(one, other, *numbers):
    """The line of each of these witnesses, with what it signed of both."""
    sig = lambda number, text: primitive("0B", rehearsal(number, text, "B"))
    return "".join("witness %s %s %s\n" % (key(number, "B"), sig(number, one), sig(number, other)) for number in numbers)


def blame(one, other, *numbers):
    return "blame %s %s %s %s\n" % (field(one, "i"), field(one, "s"), said(one), said(other)) + witness_lines(one, other, *numbers)


def joining(*numbers, wanted="3", **more):
    """A rotation behind the inception by which these witnesses come."""
    return rot(ICP, 2, ba=[key(number, "B") for number in numbers], bt=wanted, **more)


ONE, OTHER, THIRD = joining(1, 2, 3, 4), joining(2, 3, 4, 5), joining(2, 3, 4, 5, wanted="2")
FIRST = signed(ICP, 1) + signed(ONE, 2) + receipts(ONE, 1, 2, 3)
SECOND = signed(ICP, 1) + signed(OTHER, 2) + witnessed(OTHER, (1, 3), (2, 4), (3, 5))
# The same, of which receipts come apart, in a wrap, and before what they are of.
OTHER_RCT = body("rct", d=said(OTHER), i=said(ICP), s="1")
FIRST_OTHERWISE = signed(ONE, 2) + counter("V", 67) + receipts(ONE, 1, 2, 3) + signed(ICP, 1)
SECOND_BY_KEYS = OTHER_RCT + couples(OTHER, 5, 4) + signed(ICP, 1) + OTHER_RCT + couples(OTHER, 3) + signed(OTHER, 2)
SECOND_EXPORTED = signed(ICP, 1) + signed(OTHER, 2) + couples(OTHER, 5, 4, 3)
SAME_LIST = [rot(LISTED, 2, bt="2"), rot(LISTED, 2, bt="2", n=[digest(key(100))])]
IN_ORDER, TURNED = (body("icp", i=key(1), b=[key(number, "B") for number in numbers], bt="2") for numbers in ((1, 2), (2, 1)))
APART = [joining(1, 2, wanted="2"), joining(3, 4, wanted="2")]
LATER = [rot(ROT, 3), rot(OTHER_1, 100)]
OTHER_SEAL = ixn(SEALING, a=[seal(OTHER_CHILD_1)])
OTHER_ROTATED = [*DELEGATED, signed(OTHER_SEAL, 1), signed(OTHER_CHILD_1, 11)]
SIMPLE = signed(ICP, 1) + signed(ROT, 2), signed(ICP, 1) + signed(OTHER_1, 2)
BOTH_ROTATIONS = signed(ICP, 1) + signed(ROT, 2) + signed(OTHER_1, 2), signed(ICP, 1) + signed(OTHER_1, 2) + signed(ROT, 2)
NOTHING = ""

assert len(receipts(ONE, 1, 2, 3)) == 268 and 3 + 3 - 5 == 1

# Of each case both files, what is written, and the status.
BLAMED = {
    "one_witness": (FIRST, SECOND, blame(ONE, OTHER, 3), RIVALS),
    "one_witness_the_other_way_round": (SECOND, FIRST, blame(OTHER, ONE, 3), RIVALS),
    "one_witness_in_other_forms": (FIRST_OTHERWISE, SECOND_BY_KEYS, blame(ONE, OTHER, 3), RIVALS),
    "of_two_exports": (FIRST, SECOND_EXPORTED, blame(ONE, OTHER, 3), RIVALS),
    "same_file_twice": (FIRST, FIRST, NOTHING, GOOD),
    "same_log_in_other_forms": (FIRST, FIRST_OTHERWISE, NOTHING, GOOD),
    "of_nothing": (NOTHING, NOTHING, NOTHING, GOOD),
    "of_a_log_and_nothing": (FIRST, NOTHING, NOTHING, GOOD),
    "same_witnesses": (
        *(BACKED + signed(text, 2) + receipts(text, 1, 2) for text in SAME_LIST), blame(*SAME_LIST, 1, 2), RIVALS,
    ),
    "order_of_the_first_list": (
        *(signed(text, 1) + couples(text, 2, 1) for text in (IN_ORDER, TURNED)), blame(IN_ORDER, TURNED, 1, 2), RIVALS,
    ),
    "order_of_the_first_list_the_other_way_round": (
        *(signed(text, 1) + couples(text, 1, 2) for text in (TURNED, IN_ORDER)), blame(TURNED, IN_ORDER, 2, 1), RIVALS,
    ),
    "witness_that_signed_one": (FIRST, signed(ICP, 1) + signed(THIRD, 2) + witnessed(THIRD, (2, 4), (3, 5)), blame(ONE, THIRD), RIVALS),
    "witnesses_apart": (*(signed(ICP, 1) + signed(text, 2) + couples(text, *numbers) for text, numbers in zip(APART, ((1, 2), (3, 4)))),
                        blame(*APART), RIVALS),
    "no_witnesses": (*SIMPLE, blame(ROT, OTHER_1), RIVALS),
    "two_inceptions": (signed(BASIC, 1), signed(OTHER_BASIC, 1), blame(BASIC, OTHER_BASIC), RIVALS),
    "two_places_and_two_identifiers": (
        SIMPLE[0] + signed(LATER[0], 3) + signed(BASIC, 1), SIMPLE[1] + signed(LATER[1], 100) + signed(OTHER_BASIC, 1),
        blame(BASIC, OTHER_BASIC) + blame(ROT, OTHER_1) + blame(*LATER), RIVALS,
    ),
    "delegated_rotations": ("".join(ROTATED), "".join(OTHER_ROTATED), blame(CHILD_1, OTHER_CHILD_1), RIVALS),
    "interactions": (signed(ICP, 1) + signed(IXN_1, 1), signed(ICP, 1) + signed(OTHER_IXN_1, 1), NOTHING, GOOD),
    "other_identifiers": (FIRST, BACKED, NOTHING, GOOD),
    "rotation_and_interaction": (SIMPLE[0], signed(ICP, 1) + signed(IXN_1, 1), NOTHING, GOOD),
    "rotation_that_waits": (FIRST, signed(ICP, 1) + signed(OTHER, 2) + couples(OTHER, 3, 4), NOTHING, GOOD),
    "conflict_in_each": (BOTH_ROTATIONS[0], BOTH_ROTATIONS[0], NOTHING, GOOD),
    "conflict_in_each_in_another_order": (*BOTH_ROTATIONS, blame(ROT, OTHER_1), RIVALS),
    "refused_message_in_the_first": (UNSIGNED + SIMPLE[0], SIMPLE[0], NOTHING, REFUSED),
    "refused_message_in_the_second": (SIMPLE[0], UNSIGNED + SIMPLE[0], NOTHING, REFUSED),
    "rivals_beside_a_refused_message": (SIMPLE[0], UNSIGNED + SIMPLE[1], blame(ROT, OTHER_1), RIVALS),
}
# With a helper that says yes of each signature, the first of a witness that came is named.
MARKED = couple_group([COUPLES[5], COUPLES[3]]), couple_group([COUPLES[2], COUPLES[4]])
ALONE = [body("icp", i=key(1), b=WITNESSES[:1], bt="1", n=[digest(key(number))]) for number in (2, 3)]
FIRST_SIGNATURES = blame(*ALONE) + "witness %s %s %s\n" % (key(1, "B"), COUPLES[5][44:], COUPLES[2][44:])


def export_words(prefix, *files, helper="rehearsal"):
    return ["export", "--helper", helper, "--prefix", prefix, *files]


def blame_words(*files, helper="rehearsal"):
    return ["blame", "--helper", helper, *files]


def write(name, words, files, text, status, **further):
    case = CASES / name
    shutil.rmtree(case, ignore_errors=True)
    case.mkdir(parents=True)
    for file, content in files.items():
        (case / "in").mkdir(exist_ok=True)
        (case / "in" / file).write_text(content)
        if content == SAYS_YES:
            (case / "in" / file).chmod(0o755)
    for file, content in {"words": "".join(word + "\n" for word in words), "stdout": text, **further}.items():
        (case / file).write_text(content)
    if status:
        (case / "status").write_text("%d\n" % status)


def write_exported():
    for name, (prefix, streams, text, status) in EXPORTED.items():
        if "".join(streams):
            assert exported(told(*streams), prefix) == (text, text != UNKNOWN), name
        files = dict(zip("ab", streams))
        write("export_" + name, export_words(prefix, *files), files, text, status)
    # With one helper for each file, or one that isn't there.
    assert exported(told(MANY_IN, **is_yes), said(ONE_WITNESS)) == (MANY_OUT, True)
    write("export_many_receipts", export_words(said(ONE_WITNESS), "a", helper="./yes"), {"a": MANY_IN, "yes": SAYS_YES}, MANY_OUT, GOOD)
    write("export_many_receipts_again", export_words(said(ONE_WITNESS), "a", helper="./yes"), {"a": MANY_OUT, "yes": SAYS_YES}, MANY_OUT, GOOD)
    write("export_missing_helper", export_words(said(ICP), "a", helper="no-such-helper"), {"a": signed(ICP, 1)}, UNKNOWN, HELPER_FAULT)
    # Files that end within a message, aren't there, or are none.
    cut = signed(ICP, 1) + signed(IXN_1, 1)[:-1]
    write("export_cut_short", export_words(said(ICP), "a"), {"a": cut}, signed(ICP, 1), REFUSED)
    write("export_no_stream", export_words(said(ICP), "a"), {"a": "hello"}, UNKNOWN, REFUSED)
    write("export_missing_file", export_words(said(ICP), "a"), {}, UNKNOWN, READ_FAULT)
    write("export_one_missing", export_words(said(ICP), "a", "b"), {"b": signed(ICP, 1)}, signed(ICP, 1), READ_FAULT)
    write("export_standard_input", export_words(said(ICP), "-"), {}, signed(ICP, 1), GOOD, stdin=signed(ICP, 1))
    write("export_full_output", export_words(said(ICP), "a"), {"a": signed(ICP, 1)}, "", WRITE_FAULT, **{"stdout-full": ""})
    write("export_little_output", export_words(said(ICP), "a"), {"a": signed(ICP, 1)}, signed(ICP, 1)[:100], WRITE_FAULT, **{"stdout-limit": "100\n"})
    # What is exported is accepted by a fresh validator.
    write("export_taken_by_another", ["validate", "--helper", "rehearsal", "a"], {"a": "".join(ROTATED)}, ROTATED_LINES, GOOD)


def write_blamed():
    for name, (first, second, text, status) in BLAMED.items():
        if "in_other_forms" not in name:
            assert blamed(told(first), told(second)) == text, name
        write("blame_" + name, blame_words("a", "b"), {"a": first, "b": second}, text, status)
    for name, stream, wanted in (("first", FIRST_OTHERWISE, FIRST), ("second", SECOND_BY_KEYS, SECOND_EXPORTED)):
        write("export_the_%s_to_blame" % name, export_words(said(ICP), "a"), {"a": stream}, wanted, GOOD)
    streams = [signed(text, 1) + group for text, group in zip(ALONE, MARKED)]
    assert blamed(*(told(stream, **is_yes) for stream in streams)) == FIRST_SIGNATURES
    write("blame_first_signatures", blame_words("a", "b", helper="./yes"), {**dict(zip("ab", streams)), "yes": SAYS_YES}, FIRST_SIGNATURES, RIVALS)
    write("blame_missing_helper", blame_words("a", "b", helper="no-such-helper"), dict(zip("ab", SIMPLE)), NOTHING, HELPER_FAULT)
    write("blame_cut_short", blame_words("a", "b"), {"a": SIMPLE[0], "b": SIMPLE[1][:-1]}, NOTHING, REFUSED)
    write("blame_first_missing", blame_words("a", "b"), {"b": FIRST}, NOTHING, READ_FAULT)
    write("blame_second_missing", blame_words("a", "b"), {"a": FIRST}, NOTHING, READ_FAULT)
    write("blame_one_file_twice", blame_words("a", "a"), {"a": FIRST}, NOTHING, GOOD)
    write("blame_standard_input_twice", blame_words("-", "-"), {}, NOTHING, GOOD, stdin="".join(BOTH_ROTATIONS))
    write("blame_standard_input", blame_words("a", "-"), {"a": SIMPLE[0]}, blame(ROT, OTHER_1), RIVALS, stdin=SIMPLE[1])
    write("blame_full_output", blame_words("a", "b"), dict(zip("ab", SIMPLE)), "", WRITE_FAULT, **{"stdout-full": ""})


def write_sample(name, words, text, status=GOOD):
    (SAMPLES / (name + ".words")).write_text("".join(word + "\n" for word in words))
    (SAMPLES / (name + ".stdout")).write_text(text)
    if status:
        (SAMPLES / (name + ".status")).write_text("%d\n" % status)


def write_samples():
    (SAMPLES / "rivals-one.cesr").write_text(FIRST)
    (SAMPLES / "rivals-other.cesr").write_text(SECOND)
    write_sample("exported", export_words(said(CHILD), "delegated.cesr"), "".join(ROTATED))
    write_sample("blame", blame_words("rivals-one.cesr", "rivals-other.cesr"), blame(ONE, OTHER, 3), RIVALS)


if __name__ == "__main__":
    write_exported()
    write_blamed()
    write_samples()
    print(len([*CASES.glob("export_*"), *CASES.glob("blame_*")]), "cases, and those of the samples")
