#!/usr/bin/env python3
"""Makes the cases under tests/cases in which `validate` reads a stream with the rehearsal.

Primitives and bodies are made with Python's base64 and hashlib (`kit.py`). Each case names what the stream's bytes are
and what is to be written, as docs/FORMATS.md says it.
"""
import pathlib
import shutil

from kit import body, indexed, key, rehearsed, said as said_of
from stream_cases import CASES, COUPLE, INCEPTION, OF_NOTHING, RECEIPT, malformed

SAMPLES = pathlib.Path(__file__).resolve().parent.parent / "samples"


def accepted(said):
    return "event %s 0 icp %s live\n" % (said, said), "state %s 0 %s keys=1 witnesses=0 toad=0\n" % (said, said)


SAID = said_of(INCEPTION)
SIGNED = INCEPTION + "-AAB" + rehearsed(1, INCEPTION)
EVENT, STATE = accepted(SAID)
BLAKE3 = body("icp", "E", k=[key(0)], n=[OF_NOTHING])
BLAKE3_SIGNED = BLAKE3 + "-AAB" + rehearsed(0, BLAKE3)
BLAKE3_LINES = "".join(accepted(said_of(BLAKE3)))
OTHER_PREFIX = BLAKE3[:100] + ("A" if BLAKE3[100] != "A" else "B") + BLAKE3[101:]
OTHER_KEY = BLAKE3.replace(key(0), key(3))
COUPLED = body("rct", d=SAID, i=SAID) + "-CAB" + COUPLE
IN_A_WRAP = INCEPTION + "-VAX-AAB" + rehearsed(1, INCEPTION)
WAITS = "waits %s 0 %s signatures\n" % (SAID, SAID)
UNSIGNED = "refused 0 %d unsigned\n"
WORDS = ["validate", "--helper", "rehearsal", "a"]

STREAMS = {
    "validated": (SIGNED, EVENT + STATE, 0),
    "validated_nothing": ("", "", 0),
    "validated_twice": (SIGNED + SIGNED, EVENT + STATE, 0),
    "validated_without_a_signature": (INCEPTION + "-AAA", UNSIGNED % 0, 3),
    "validated_with_a_signature_by_another_key": (INCEPTION + "-AAB" + rehearsed(2, INCEPTION), WAITS, 0),
    "validated_with_a_signature_out_of_range": (INCEPTION + "-AAB" + indexed("AB", "a"), WAITS, 0),
    "validated_once_the_signature_came": (
        INCEPTION + "-AAB" + indexed("AA", "a") + INCEPTION + "-AAB" + rehearsed(1, INCEPTION), EVENT + STATE, 0,
    ),
    "validated_receipt_of_a_digest": (RECEIPT, "refused 0 0 no-receipts\n", 3),
    "validated_by_blake3": (BLAKE3_SIGNED, BLAKE3_LINES, 0),
    "validated_with_another_prefix": (OTHER_PREFIX + "-AAB" + rehearsed(0, OTHER_PREFIX), "refused 0 0 prefix\n", 3),
    "validated_with_another_digest": (OTHER_KEY + "-AAB" + rehearsed(3, OTHER_KEY), "refused 0 0 said\n", 3),
    "validated_two_identifiers": (SIGNED + BLAKE3_SIGNED, BLAKE3_LINES + EVENT + STATE, 0),
    "validated_with_a_receipt": (COUPLED + SIGNED + COUPLED, EVENT + STATE, 0),
    "validated_in_a_wrap": (IN_A_WRAP, EVENT + STATE, 0),
    "validated_before_a_refusal": (
        SIGNED + INCEPTION + "-DAB", UNSIGNED % len(SIGNED) + malformed(len(SIGNED) + 299, "not-supported") + EVENT + STATE, 3,
    ),
}


def write(name, words, stream, text, status):
    case = CASES / name
    shutil.rmtree(case, ignore_errors=True)
    case.mkdir(parents=True)
    if stream is not None:
        (case / "in").mkdir()
        (case / "in" / "a").write_bytes(stream.encode())
    (case / "words").write_text("".join(word + "\n" for word in words))
    (case / "stdout").write_text(text)
    if status:
        (case / "status").write_text("%d\n" % status)


if __name__ == "__main__":
    for name, (stream, text, status) in STREAMS.items():
        write(name, WORDS, stream, text, status)
    write("validated_missing_file", WORDS, None, "fault 0 read\n", 5)
    write("validated_helper_that_is_missing", ["validate", "--helper", "no-such-helper", "a"], SIGNED, "fault 0 verifier\n", 7)
    print(len(STREAMS) + 2, "cases")
