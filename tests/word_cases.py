#!/usr/bin/env python3
"""Makes the cases under tests/cases in which an option or a FILE is written in each of its forms and places, and those
of words that aren't in the form, but for what `gen_cases.py` and `make_cases.py` make of the words of `gen` and `make`,
and for words that ask for help, which the wrapper answers (`wrapper`).
"""
from kit import body, couples, digest, key, said, signed
from stream_cases import BARE, RECEIPT, write_case
from validate_cases import EVENT, SIGNED, STATE

REPORT = EVENT + STATE
HELPER = ["--helper", "rehearsal"]

# The words of a witness, an inception that names it, and its receipt. An old shelf is empty here.
KEY = key(1, "B")
PREFIX, SHELF, FROM = ["--prefix", KEY], ["--shelf", "shelf"], ["--from", "old"]
NAMED = body("icp", b=[KEY], bt="1")
NAMED_SIGNED = signed(NAMED, 1)
NAMED_RECEIPT = body("rct", d=said(NAMED), i=said(NAMED)) + couples(NAMED, 1)
OLD_SHELF = "KSHELF01\0"

# The words of links.
LISTEN = ["--listen", "127.0.0.1:0"]
LINKS = [*LISTEN, "--links", "1"]


def witness(*words):
    return ["witness", *words, "a"]


def as_witness(prefix):
    return witness(*HELPER, "--prefix", prefix, *SHELF)


# Words in the form: the words, the files, what is written, and what else the case has.
TAKEN = {
    "option_with_an_equals_sign": (["validate", "--helper=rehearsal", "a"], {"a": SIGNED}, REPORT, {}),
    "option_behind_the_file": (["validate", "a", *HELPER], {"a": SIGNED}, REPORT, {}),
    "option_with_an_equals_sign_behind_the_file": (["validate", "a", "--helper=rehearsal"], {"a": SIGNED}, REPORT, {}),
    "option_of_watch_behind_the_file": (["watch", "a", "--helper=rehearsal"], {"a": SIGNED}, "", {}),
    "file_behind_two_dashes": (["check", "--", "-F"], {"-F": RECEIPT}, BARE, {}),
    "file_behind_an_option_and_two_dashes": (["validate", *HELPER, "--", "--helper"], {"--helper": SIGNED}, REPORT, {}),
    "two_dashes_as_a_file": (["check", "--", "--"], {"--": RECEIPT}, BARE, {}),
    "standard_input_behind_two_dashes": (["check", "--", "-"], {"-": SIGNED}, BARE, {"stdin": RECEIPT}),
    "two_files_round_an_option": (["validate", "a", *HELPER, "a"], {"a": SIGNED}, REPORT, {}),
    "two_files_behind_an_option_and_two_dashes": (["watch", *HELPER, "--", "-F", "--"], {"-F": SIGNED, "--": SIGNED}, "", {}),
    "command_as_a_file": (["check", "check"], {"check": RECEIPT}, BARE, {}),
    "witness": (witness(*HELPER, *PREFIX, *SHELF), {"a": NAMED_SIGNED}, NAMED_RECEIPT, {}),
    "witness_from_an_old_shelf": (witness(*HELPER, *PREFIX, *SHELF, *FROM), {"a": NAMED_SIGNED, "old": OLD_SHELF}, NAMED_RECEIPT, {}),
    "witness_with_equals_signs_behind_the_file": (
        ["witness", "a", "--from=old", "--shelf=shelf", "--prefix=" + KEY, "--helper=rehearsal"],
        {"a": NAMED_SIGNED, "old": OLD_SHELF}, NAMED_RECEIPT, {},
    ),
}

# Words that aren't in the form. Each is run beside the files `a` and `-F`, which are in order.
REFUSED = {
    "command_that_is_unknown": ["examine", "a"],
    "command_cut_short": ["chec", "a"],
    "command_in_capitals": ["CHECK", "a"],
    "empty_command": ["", "a"],
    "option_before_its_command": [*HELPER, "validate", "a"],
    "two_dashes_before_a_command": ["--", "check", "a"],
    "option_that_is_unknown": ["check", "--quiet", "a"],
    "option_of_another_command": ["check", *HELPER, "a"],
    "option_cut_short": ["validate", "--helpe", "rehearsal", "a"],
    "option_with_one_dash": ["validate", "-helper", "rehearsal", "a"],
    "option_twice": ["validate", *HELPER, *HELPER, "a"],
    "option_twice_in_two_forms": ["validate", "--helper=rehearsal", "a", *HELPER],
    "option_without_a_value": ["validate", "a", "--helper"],
    "option_before_two_dashes": ["validate", "--helper", "--", "a"],
    "option_as_a_value": ["validate", "--helper", "--helper=rehearsal", "a"],
    "option_behind_two_dashes": ["validate", "--", "a", *HELPER],
    "value_that_begins_with_a_dash": ["validate", "--helper", "-rehearsal", "a"],
    "file_that_begins_with_a_dash": ["check", "-F"],
    "no_file_behind_two_dashes": ["check", "--"],
    "two_files_behind_two_dashes": ["check", "--", "a", "a"],
    "rehearse_with_a_file": ["rehearse", "extra"],
    "rehearse_with_an_option": ["rehearse", *HELPER],
    "witness_without_words": ["witness"],
    "witness_without_a_helper": witness(*PREFIX, *SHELF),
    "witness_without_a_prefix": witness(*HELPER, *SHELF),
    "witness_without_a_shelf": witness(*HELPER, *PREFIX),
    "witness_from_an_old_shelf_without_a_shelf": witness(*HELPER, *PREFIX, *FROM),
    "witness_without_a_file": witness(*HELPER, *PREFIX, *SHELF, *FROM)[:-1],
    "witness_two_files": witness(*HELPER, *PREFIX, *SHELF, "a"),
    "witness_two_files_round_its_options": ["witness", "a", *HELPER, *PREFIX, *SHELF, "a"],
    "witness_helper_twice": witness(*HELPER, *HELPER, *PREFIX, *SHELF),
    "witness_prefix_twice": witness(*HELPER, *PREFIX, *SHELF, *PREFIX),
    "witness_shelf_twice": witness(*HELPER, *PREFIX, *SHELF, *SHELF),
    "witness_old_shelf_twice": witness(*HELPER, *PREFIX, *SHELF, *FROM, "--from=old"),
    "witness_prefix_without_a_value": ["witness", "a", *HELPER, *SHELF, "--prefix"],
    "witness_old_shelf_without_a_value": ["witness", "a", *HELPER, *PREFIX, *SHELF, "--from"],
    "witness_shelf_that_begins_with_a_dash": witness(*HELPER, *PREFIX, "--shelf", "-F"),
    "witness_with_an_option_of_make": witness(*HELPER, *PREFIX, *SHELF, "--plan", "a"),
    "witness_prefix_that_can_be_rotated": as_witness(key(1)),
    "witness_prefix_that_is_a_digest": as_witness(digest("a")),
    "witness_prefix_that_is_no_key": as_witness("witness"),
    "witness_prefix_that_is_a_dash": as_witness("-"),
    "witness_empty_prefix": as_witness(""),
    "witness_prefix_cut_short": as_witness(KEY[:-1]),
    "witness_prefix_with_a_character_more": as_witness(KEY + "A"),
    "witness_prefix_with_a_space_before_it": as_witness(" " + KEY),
    "witness_prefix_with_another_character": as_witness(KEY[:-1] + "+"),
    "witness_prefix_with_leading_bits": as_witness("BQ" + KEY[2:]),
    "links_without_an_address": ["validate", *HELPER, "--links", "1"],
    "links_without_their_number": ["validate", *HELPER, *LISTEN],
    "links_beside_a_file": ["validate", *HELPER, *LINKS, "a"],
    "links_beside_a_file_behind_two_dashes": ["watch", *HELPER, *LINKS, "--", "-F"],
    "links_beside_65_files": ["watch", *HELPER, *LINKS, *65 * ["a"]],
    "links_beside_the_file_of_a_witness": witness(*HELPER, *PREFIX, *SHELF, *LINKS),
    "links_of_a_witness_without_an_address": witness(*HELPER, *PREFIX, *SHELF, "--links", "1")[:-1],
    "links_of_a_witness_without_their_number": witness(*HELPER, *PREFIX, *SHELF, *LISTEN)[:-1],
    "links_number_beside_a_file": ["watch", *HELPER, "--links", "1", "a"],
    "links_address_beside_a_file": ["watch", *HELPER, *LISTEN, "a"],
    "links_address_twice": ["validate", *HELPER, *LISTEN, *LINKS],
    "links_number_twice": ["validate", *HELPER, *LINKS, "--links=1"],
    **{"links_%s" % name: ["validate", *HELPER, *LISTEN, "--links=" + number] for name, number in (
        ("none", "0"), ("65", "65"), ("with_a_leading_zero", "01"), ("with_a_sign", "+1"), ("empty_number", ""), ("in_hexadecimal", "a"),
        ("more_than_16_bits", "65537"), ("more_than_64_bits", "18446744073709551617"),
    )},
    "links_of_make": ["make", *HELPER, "--plan", "a", *LINKS],
    "links_of_export": ["export", *HELPER, *PREFIX, *LINKS],
    "export_without_a_file": ["export", *HELPER, *PREFIX],
    "export_without_a_prefix": ["export", *HELPER, "a"],
    "export_without_a_helper": ["export", *PREFIX, "a"],
    "export_65_files": ["export", *HELPER, *PREFIX, *65 * ["a"]],
    "export_prefix_twice": ["export", *HELPER, *PREFIX, *PREFIX, "a"],
    **{"export_prefix_%s" % name: ["export", *HELPER, "--prefix=" + prefix, "a"] for name, prefix in (
        ("empty", ""), ("cut_short", KEY[:-1]), ("with_a_character_more", KEY + "A"), ("of_another_code", "C" + KEY[1:]),
        ("with_leading_bits", "EQ" + KEY[2:]), ("with_another_character", digest("a")[:-1] + "+"),
    )},
    "blame_without_a_file": ["blame", *HELPER],
    "blame_one_file": ["blame", *HELPER, "a"],
    "blame_three_files": ["blame", *HELPER, "a", "a", "a"],
    "blame_without_a_helper": ["blame", "a", "a"],
    "blame_with_links": ["blame", *HELPER, *LINKS],
}

# Of `check` and of no command, with names of their own: the words, and the files that they are run beside.
PLAIN = {
    "no_words": ([], {}),
    "no_file": (["check"], {}),
    "two_files": (["check", "a", "a"], {"a": RECEIPT}),
    "another_command": (["validate", "a"], {"a": RECEIPT}),
    "a_word_that_is_no_text": (["check", b"\xff".decode(errors="surrogateescape")], {}),
}


if __name__ == "__main__":
    for name, (words, files, text, further) in TAKEN.items():
        write_case("words_" + name, words, files, text, 0, further)
    for name, words in REFUSED.items():
        write_case("words_" + name, words, {"a": SIGNED, "-F": RECEIPT}, "words\n", 2, {})
    for name, (words, files) in PLAIN.items():
        write_case(name, words, files, "words\n", 2, {})
    write_case("words_on_a_full_output", [], {}, "", 6, {"stdout-full": ""})
    print(len(TAKEN) + len(REFUSED) + len(PLAIN) + 1, "cases")
