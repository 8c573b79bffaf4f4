#!/usr/bin/env python3
"""Makes the cases under tests/cases in which `check` reads a stream, and those of where it reads and writes.

Primitives and bodies are made with Python's base64 and hashlib (`kit.py`). Each case names what the stream's bytes are
and what is to be written, as docs/FORMATS.md says it.
"""
import pathlib
import shutil

from kit import PLAIN_ICP as INCEPTION, body, digest, indexed, key, primitive, signature

CASES = pathlib.Path(__file__).resolve().parent / "cases"
CHECK = ["check", "a"]
READ_FAULT = "fault 0 read\n"
# The digest of no bytes at all by BLAKE3, which others computed.
OF_NOTHING = "EK8TSbn1-aGmoEBN6jbcyUmbyyXJrcESt8yak8rkHzJi"


def receipt(**values):
    """A receipt with these values, and those of the plain one for the others."""
    return body("rct", **{"d": OF_NOTHING, "i": key(0), **values})


def receipt_line(prefix=key(0), number="0", size=145, receipts=0):
    return "rct %s %s %s size=%d signatures=0 receipts=%d\n" % (prefix, number, OF_NOTHING, size, receipts)


RECEIPT = receipt()
BARE = receipt_line()
EXCHANGED = '{"v":"KERI10JSON000091_","t":"rct","i":"%s","d":"%s","s":"0"}' % (OF_NOTHING, key(0))
COUPLE = key(1, "B") + signature("couple")
FIRST_SEEN = primitive("0A", bytes(16)) + "1AAG2020-08-22T17c50c09d988921p00c00"
ANCHOR = primitive("0A", bytes(16)) + digest("anchor")


def inception_line(signatures, receipts=0):
    said = INCEPTION[40:84]
    return "icp %s 0 %s size=299 signatures=%d receipts=%d\n" % (said, said, signatures, receipts)


def behind_receipt(groups, text):
    """A receipt with these groups behind it, and what is written after its line."""
    return RECEIPT + groups, BARE + text, 3 if text else 0


def malformed(place, word):
    return "malformed 0 %d %s\n" % (place, word)


def refused(reason):
    return "refused 0 0 %s\n" % reason


STREAMS = {
    # what is in order
    "empty_file": ("", "", 0),
    "receipt": (RECEIPT, BARE, 0),
    "receipt_with_a_number": (receipt(s="1f"), receipt_line(number="1f", size=146), 0),
    "receipt_of_a_digest": (receipt(i=digest("")), receipt_line(digest("")), 0),
    "signed_inception": (INCEPTION + "-AAB" + indexed("AA", "a"), inception_line(1), 0),
    "inception_without_a_signature": (INCEPTION + "-AAA", inception_line(0), 0),
    "witnesses_signatures": (INCEPTION + "-BAC" + indexed("AA", "a") + indexed("BB", "b"), inception_line(0, 2), 0),
    "large_index": (INCEPTION + "-AAB" + indexed("2AABAB", "a"), inception_line(1), 0),
    "receipt_couple": (RECEIPT + "-CAB" + COUPLE, receipt_line(receipts=1), 0),
    "first_seen_and_anchor": behind_receipt("-EAB" + FIRST_SEEN + "-GAB" + ANCHOR, ""),
    "empty_group_in_a_wrap": behind_receipt("-VAB-AAA", ""),
    "wrapped_groups": (
        INCEPTION + "-VCA" + "-AAC" + indexed("AA", "a") + indexed("AB", "b")
        + "-BAD" + indexed("AA", "c") + indexed("AB", "d") + indexed("AC", "e") + "-EAB" + FIRST_SEEN,
        inception_line(2, 3), 0,
    ),
    "two_messages": (RECEIPT + INCEPTION + "-AAB" + indexed("AA", "a"), BARE + inception_line(1), 0),
    # refused messages
    "another_kind": (RECEIPT.replace('"rct"', '"qry"'), refused("field 1"), 3),
    "fields_exchanged": (EXCHANGED, refused("field 2"), 3),
    "pad_bits": (receipt(i="DQ" + "_" * 42), refused("field 3"), 3),
    "leading_zero": (receipt(s="01"), refused("field 4"), 3),
    "more_behind_the_end": (RECEIPT.replace("000091", "000092") + "\n", refused("field 5"), 3),
    "long_number": (receipt(s="1" * 17), refused("number"), 3),
    "too_many_signatures": (INCEPTION + "-AQB" + indexed("AA", "a") * 1025, refused("signatures"), 3),
    "refused_among_others": (
        RECEIPT + INCEPTION.replace('"nt":"1"', '"nt":"2"') + RECEIPT, BARE + "refused 0 145 threshold\n" + BARE, 3,
    ),
    "other_prefix": (INCEPTION.replace('"i":"I', '"i":"E'), refused("prefix"), 3),
    "other_digest": (INCEPTION.replace(INCEPTION[40:84], digest("other")), refused("said"), 3),
    # refused streams
    "no_start": ("hello", malformed(0, "no-start"), 3),
    "line_feed_behind_a_body": behind_receipt("\n", malformed(145, "no-start")),
    "large_file": ("{" * 65536, malformed(0, "version"), 3),
    "other_version": (RECEIPT.replace("KERI10", "KERI11"), malformed(0, "version"), 3),
    "size_below_the_head": (RECEIPT.replace("000091", "000017"), malformed(0, "version"), 3),
    "size_over_the_limit": (RECEIPT.replace("000091", "010000"), malformed(0, "too-large"), 3),
    "other_size": (RECEIPT.replace("000091", "000092"), malformed(0, "truncated"), 3),
    "body_cut_short": (RECEIPT[:-1], malformed(0, "truncated"), 3),
    "head_cut_short": ("{", malformed(0, "truncated"), 3),
    "group_cut_short": behind_receipt("-AAB" + indexed("AA", "a")[:-1], malformed(145, "truncated")),
    "letter_not_supported": behind_receipt("-DAB", malformed(145, "not-supported")),
    "count_not_in_base_64": behind_receipt("-AA+", malformed(145, "character 3")),
    "code_not_held": behind_receipt("-AABC", malformed(149, "code")),
    "key_that_can_rotate_in_a_couple": behind_receipt("-CABD", malformed(149, "code")),
    "character_in_a_signature": behind_receipt("-AAB" + "AAA+" + "A" * 84, malformed(149, "character 3")),
    "leading_bits_in_a_signature": behind_receipt("-AAB" + "AAE" + "A" * 85, malformed(149, "pad-bits")),
    "other_index_than_none": behind_receipt("-AAB" + "2BABAB" + "A" * 86, malformed(149, "other-index")),
    "no_group_in_a_wrap": behind_receipt("-VABAAAA", malformed(149, "no-start")),
    "wrap_in_a_wrap": behind_receipt("-VAB-VAA", malformed(149, "not-supported")),
    "signature_past_a_wrap": behind_receipt("-VAC-AABAAAA", malformed(153, "wrap-length")),
    "signature_due_past_a_wrap": behind_receipt("-VAB-AAB", malformed(153, "wrap-length")),
    "signature_past_a_wrap_as_its_code_shows": behind_receipt("-VAC-AABA", malformed(153, "wrap-length")),
    "code_before_the_end_of_a_wrap": behind_receipt("-VAC-AABCAAA", malformed(153, "code")),
    "group_before_a_body": ("-AAA", malformed(0, "group-first"), 3),
    "good_before_a_refusal": (
        INCEPTION + "-AAB" + indexed("AA", "a") + RECEIPT + "-DAB", inception_line(1) + BARE + malformed(299 + 4 + 88 + 145, "not-supported"), 3,
    ),
}


# Runs whose FILE, input or output is other: the words, the files, what is written, the status, and what else
# the case has.
RUNS = {
    "receipt_from_standard_input": (["check", "-"], {}, BARE, 0, {"stdin": RECEIPT}),
    "missing_file": (CHECK, {}, READ_FAULT, 5, {}),
    "folder": (CHECK, {"a/file": ""}, READ_FAULT, 5, {}),
    "standard_input_closed": (["check", "-"], {}, READ_FAULT, 5, {"stdin-closed": ""}),
    "standard_output_closed": (CHECK, {"a": RECEIPT}, "", 6, {"stdout-closed": ""}),
    "standard_output_full": (CHECK, {"a": RECEIPT}, "", 6, {"stdout-full": ""}),
    "nothing_to_write_on_a_full_output": (CHECK, {"a": ""}, "", 0, {"stdout-full": ""}),
}


def write_case(name, words, files, text, status, further):
    """The case: the files of its folder, further files beside them, and its words, what is written and the status,
    each where it isn't empty or 0."""
    case = CASES / name
    shutil.rmtree(case, ignore_errors=True)
    contents = {**{"in/" + file: content for file, content in files.items()}, **further}
    if words:
        contents["words"] = "".join(word + "\n" for word in words)
    if text:
        contents["stdout"] = text
    if status:
        contents["status"] = "%d\n" % status
    for file, content in contents.items():
        (case / file).parent.mkdir(parents=True, exist_ok=True)
        (case / file).write_bytes(content.encode(errors="surrogateescape"))


if __name__ == "__main__":
    for name, (stream, text, status) in STREAMS.items():
        write_case(name, CHECK, {"a": stream}, text, status, {})
    for name, run in RUNS.items():
        write_case(name, *run)
    print(len(STREAMS) + len(RUNS), "cases")
