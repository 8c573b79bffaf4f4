#!/usr/bin/env python3
"""Makes the cases under tests/cases in which `convert` writes a stream in the binary or the text domain.

What must be written is put together here, item by item, with Python's base64; what `convert_reference.py` finds in the
streams has to be the same.
"""
from convert_reference import binary, converted
from kit import CHARACTERS, couples, signed
from stream_cases import ANCHOR, CASES, FIRST_SEEN, INCEPTION, RECEIPT
from word_cases import NAMED_RECEIPT

OTHER_BODY = '{"v":"KERI10JSON000026_","greeting":"hi"}'
OTHER_BODY = OTHER_BODY.replace("000026", "%06x" % len(OTHER_BODY))
SIGNATURES = signed(INCEPTION, 1)[len(INCEPTION):]
RECEIPTS = couples(INCEPTION, 2, 3)
FOURS = len(SIGNATURES + RECEIPTS) // 4
WRAPPED = "-V%s%s" % (CHARACTERS[FOURS // 64], CHARACTERS[FOURS % 64]) + SIGNATURES + RECEIPTS
FIRST_SEENS, ANCHORS = "-EAB" + FIRST_SEEN, "-GAB" + ANCHOR

# Streams that are whole, by their items: a body is a text that begins with a brace.
WHOLE = {
    "empty": [],
    "body": [INCEPTION],
    "empty_group": [INCEPTION, "-AAA"],
    "signature": [INCEPTION, SIGNATURES],
    "receipt": [NAMED_RECEIPT[:145], NAMED_RECEIPT[145:]],
    "wrap": [INCEPTION, WRAPPED],
    "empty_wrap": [INCEPTION, "-VAA"],
    "moment_west_of_greenwich": [INCEPTION, FIRST_SEENS.replace("p00c00", "-05c00")],
    "groups_of_each_kind": [INCEPTION, SIGNATURES, "-BAA", RECEIPTS, FIRST_SEENS, ANCHORS],
    "bodies_that_are_no_events": [OTHER_BODY, OTHER_BODY, SIGNATURES, RECEIPT],
    "messages": [INCEPTION, SIGNATURES, RECEIPT, RECEIPTS],
}


def in_text(items):
    return "".join(items).encode()


def in_binary(items):
    return b"".join(item.encode() if item.startswith("{") else binary(item.encode()) for item in items)


def mixed(items, first):
    """Each second group in binary, the first or the second one."""
    written, count = b"", first
    for item in items:
        if item.startswith("{"):
            written += item.encode()
            continue
        written += binary(item.encode()) if count % 2 else item.encode()
        count += 1
    return written


GOOD = in_text([INCEPTION, SIGNATURES])
# Streams that end within an item or are refused: the stream, and what is written of it in text.
CUT = {
    "byte_of_a_dash_behind_a_body": (RECEIPT.encode() + b"\xf8", RECEIPT.encode()),
    "two_bytes_behind_a_body": (RECEIPT.encode() + b"\xf8\0", RECEIPT.encode()),
    "signature_cut_short": (GOOD[:-1], INCEPTION.encode()),
    "binary_signature_cut_short": (in_binary([INCEPTION, SIGNATURES])[:-1], INCEPTION.encode()),
    "binary_signature_without_its_last_three": (in_binary([INCEPTION, SIGNATURES])[:-3], INCEPTION.encode()),
    "group_before_a_body": (b"-AAA" + GOOD, b""),
    "binary_group_before_a_body": (b"\xf8\0\0" + GOOD, b""),
    "line_feed": (GOOD + b"\n" + GOOD, GOOD),
    "byte_above_those_of_a_dash": (GOOD + b"\xfc\0\0", GOOD),
    "byte_below_those_of_a_dash": (GOOD + b"\xf7\0\0", GOOD),
    "body_cut_short": (GOOD + GOOD[:100], GOOD),
    "letter_not_supported_in_binary": (GOOD + binary(b"-DAB"), GOOD),
    "key_that_can_rotate_in_binary": (GOOD + binary(b"-CABDAAA"), GOOD),
    "signature_past_a_binary_wrap": (GOOD + binary(b"-VAC-AABAAAA"), GOOD),
    "text_in_a_binary_wrap": (GOOD + binary(b"-VAC") + b"-AAA-AAA", GOOD),
}


def write(name, stream, text, status, domain="text", **more):
    folder = CASES / ("convert_" + name)
    (folder / "in").mkdir(parents=True, exist_ok=True)
    (folder / "in" / "a").write_bytes(stream)
    (folder / "words").write_text("convert\n--to\n%s\na\n" % domain)
    if text:
        (folder / "stdout").write_bytes(text)
    if status:
        (folder / "status").write_text("%d\n" % status)
    for file, content in more.items():
        (folder / file.replace("_", "-")).write_text(content)
    assert more or converted(stream, domain) == (text, status), name


def words(name, *given, **files):
    folder = CASES / ("convert_" + name)
    folder.mkdir(parents=True, exist_ok=True)
    (folder / "words").write_text("".join(word + "\n" for word in ("convert", *given)))
    for file, content in files.items():
        (folder / file).write_bytes(content) if isinstance(content, bytes) else (folder / file).write_text(content)


def main():
    assert binary(b"-AAB") == b"\xf8\0\1" and binary(b"-AAA") == b"\xf8\0\0"
    assert len(NAMED_RECEIPT) == 281 and len(in_binary(WHOLE["receipt"])) == 145 + 102
    for name, items in WHOLE.items():
        write(name + "_to_binary", in_text(items), in_binary(items), 0, "binary")
        write(name + "_to_text", in_binary(items), in_text(items), 0)
    items = WHOLE["groups_of_each_kind"]
    for first in (0, 1):
        write("mixed_to_binary_%d" % first, mixed(items, first), in_binary(items), 0, "binary")
        write("mixed_to_text_%d" % first, mixed(items, first), in_text(items), 0)
    write("text_to_text", in_text(items), in_text(items), 0)
    write("binary_to_binary", in_binary(items), in_binary(items), 0, "binary")
    for name, (stream, text) in CUT.items():
        write(name, stream, text, 3)
    write("cut_short_to_binary", GOOD + GOOD[:-1], in_binary([INCEPTION, SIGNATURES, INCEPTION]), 3, "binary")
    write("full_output", GOOD, b"", 6, stdout_full="")
    write("closed_output", GOOD, b"", 6, stdout_closed="")
    # The sink takes the body, and a front of the group.
    write("little_output", GOOD, GOOD[:350], 6, stdout_limit="350")
    write("refused_behind_a_full_output", GOOD + b"\n", b"", 6, stdout_full="")
    words("missing_file", "--to", "text", "a", status="5\n")
    words("standard_input", "--to", "binary", "-", stdin=GOOD, stdout=in_binary([INCEPTION, SIGNATURES]))
    folder = CASES / "convert_folder"
    (folder / "in" / "a").mkdir(parents=True, exist_ok=True)
    (folder / "in" / "a" / "b").write_text("")
    words("folder", "--to", "text", "a", status="5\n")
    for name, given in {
        "without_words": [], "without_a_file": ["--to", "text"], "without_a_domain": ["a"], "two_files": ["--to", "text", "a", "a"],
        "domain_that_is_unknown": ["--to", "cbor", "a"], "domain_in_capitals": ["--to", "TEXT", "a"], "domain_cut_short": ["--to", "tex", "a"],
        "empty_domain": ["--to=", "a"], "domain_twice": ["--to", "text", "--to", "text", "a"], "with_a_helper": ["--helper", "rehearsal", "--to", "text", "a"],
    }.items():
        words("words_" + name, *given, status="2\n", stdout="words\n")


main()
