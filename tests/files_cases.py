#!/usr/bin/env python3
"""Makes the cases under tests/cases in which `validate` and `watch` read several files with the rehearsal.

Each file is read in a thread of its own, so only what doesn't depend on the order of their messages is compared. Each
case names its files, and what is to be written of them, as docs/FORMATS.md says it.
"""
import shutil

from kit import PLAIN_ICP as ICP, body, digest, key, signed
from log_cases import CHILD, CONFLICTING, IXN_1, IXN_2, REALISTIC, REALISTIC_LINES, ROT_2, SEALING
from log_cases import by_prefix, log, waits
from stream_cases import CASES, malformed
from validate_cases import SIGNED

HELPER = ["--helper", "rehearsal"]
REPORT = log(ICP)
OTHER = body("icp", k=[key(20)], n=[digest(key(21))])
OTHER_SIGNED = signed(OTHER, 20)
BOTH = by_prefix(log(ICP), log(OTHER))
READ_FAULT, VERIFIER_FAULT = "fault %d read\n", "fault %d verifier\n"
UNSIGNED = "refused %d %d unsigned\n"
A_FOLDER = None
MOST = 64

assert SIGNED == signed(ICP, 1)


def cut(reader, place):
    """The line of a reader whose stream is cut short."""
    return malformed(place, "truncated").replace("malformed 0 ", "malformed %d " % reader)


# The files of the folder, the FILEs in the order of the words, what is written, and the status.
VALIDATED = {
    "two": ({"a": SIGNED, "b": signed(IXN_1, 1)}, "ab", log(ICP, IXN_1), 0),
    "two_the_other_way_round": ({"a": SIGNED, "b": signed(IXN_1, 1)}, "ba", log(ICP, IXN_1), 0),
    "two_of_two_identifiers": ({"a": SIGNED, "b": OTHER_SIGNED}, "ab", BOTH, 0),
    "one_event_in_each": (
        {"a": SIGNED, "b": signed(IXN_1, 1), "c": signed(ROT_2, 2)}, "cab", log(ICP, IXN_1, ROT_2), 0,
    ),
    "delegator_and_delegate": ({"a": signed(ICP, 1) + signed(SEALING, 1), "b": signed(CHILD, 10)}, "ba", by_prefix(log(ICP, SEALING), log(CHILD)), 0),
    "signature_in_another_one": ({"a": signed(ICP, 2), "b": SIGNED}, "ab", REPORT, 0),
    "same_one_twice": ({"a": SIGNED}, "aa", REPORT, 0),
    "same_one_three_times": ({"a": "".join(REALISTIC)}, "aaa", REALISTIC_LINES, 0),
    "as_many_as_may_be": ({"a": SIGNED}, "a" * MOST, REPORT, 0),
    "one_empty": ({"a": SIGNED, "b": ""}, "ba", REPORT, 0),
    "one_that_waits": ({"a": SIGNED, "b": signed(IXN_2, 1)}, "ab", REPORT + waits(IXN_2, "predecessor"), 0),
    "refused_in_the_first": ({"a": ICP + "-AAA" + SIGNED, "b": OTHER_SIGNED}, "ab", UNSIGNED % (0, 0) + BOTH, 3),
    "refused_in_the_second": ({"a": OTHER_SIGNED, "b": SIGNED + ICP + "-AAA"}, "ab", UNSIGNED % (1, len(SIGNED)) + BOTH, 3),
    "refused_in_both": (
        {"a": ICP + "-AAA" + SIGNED, "b": OTHER_SIGNED + OTHER + "-AAA"}, "ab",
        UNSIGNED % (0, 0) + UNSIGNED % (1, len(OTHER_SIGNED)) + BOTH, 3,
    ),
    "first_cut_short": ({"a": SIGNED + ICP[:100], "b": OTHER_SIGNED}, "ab", cut(0, len(SIGNED)) + BOTH, 3),
    "both_cut_short": (
        {"a": SIGNED + ICP[:100], "b": OTHER_SIGNED + OTHER[:1]}, "ab", cut(0, len(SIGNED)) + cut(1, len(OTHER_SIGNED)) + BOTH, 3,
    ),
    "one_a_folder": ({"a": SIGNED, "b": A_FOLDER}, "ab", REPORT + READ_FAULT % 1, 5),
    "first_a_folder": ({"a": A_FOLDER, "b": SIGNED}, "ab", REPORT + READ_FAULT % 0, 5),
    "one_missing": ({"a": SIGNED}, "ab", REPORT + READ_FAULT % 1, 5),
    "first_missing": ({"b": SIGNED}, "ab", REPORT + READ_FAULT % 0, 5),
    "all_missing": ({}, "ab", READ_FAULT % 0 + READ_FAULT % 1, 5),
    "one_missing_and_one_cut_short": ({"b": SIGNED + ICP[:100]}, "ab", cut(1, len(SIGNED)) + REPORT + READ_FAULT % 0, 5),
}

# Whatever came first, the same bodies are written, in the same order.
WATCHED = {
    "conflict_of_two": ({"a": SIGNED + CONFLICTING[0], "b": CONFLICTING[1]}, "ab", "".join(CONFLICTING), 4),
    "conflict_behind_itself": ({"a": SIGNED + CONFLICTING[1], "b": "".join(CONFLICTING)}, "ba", "".join(CONFLICTING), 4),
    "conflict_beside_a_folder": ({"a": SIGNED + "".join(CONFLICTING), "b": A_FOLDER}, "ab", "".join(CONFLICTING), 5),
    "no_conflict": ({"a": SIGNED, "b": signed(IXN_1, 1)}, "ab", "", 0),
}

# Words in no command's form, beside the file `a`.
REFUSED = {
    "one_more_than_may_be": ["validate", *HELPER, *"a" * (MOST + 1)],
    "one_more_than_may_be_watched": ["watch", *HELPER, *"a" * (MOST + 1)],
    "one_more_behind_two_dashes": ["validate", *"a" * MOST, *HELPER, "--", "a"],
    "none": ["validate", *HELPER],
    "none_watched": ["watch", *HELPER],
    "none_behind_two_dashes": ["validate", *HELPER, "--"],
    "of_check": ["check", "a", "a"],
}


def write(name, words, files, text, status):
    case = CASES / ("files_" + name)
    shutil.rmtree(case, ignore_errors=True)
    (case / "in").mkdir(parents=True)
    for file, content in files.items():
        if content is A_FOLDER:
            (case / "in" / file).mkdir()
            (case / "in" / file / "a").write_text(SIGNED)
        else:
            (case / "in" / file).write_text(content)
    (case / "words").write_text("".join(word + "\n" for word in words))
    (case / "stdout").write_text(text)
    if status:
        (case / "status").write_text("%d\n" % status)


if __name__ == "__main__":
    for command, cases in (("validate", VALIDATED), ("watch", WATCHED)):
        for name, (files, order, text, status) in cases.items():
            write(name, [command, *HELPER, *order], files, text, status)
    for name, words in REFUSED.items():
        write(name, words, {"a": SIGNED}, "words\n", 2)
    write("missing_helper", ["validate", "--helper", "no-such-helper", "a", "b"], {"a": SIGNED, "b": OTHER_SIGNED},
          VERIFIER_FAULT % 0 + VERIFIER_FAULT % 1, 7)
    write("standard_input_among_them", ["validate", *HELPER, "a", "-"], {"a": SIGNED}, log(ICP, IXN_1), 0)
    (CASES / "files_standard_input_among_them" / "stdin").write_text(signed(IXN_1, 1))
    write("round_options_and_two_dashes", ["validate", "a", *HELPER, "b", "--", "--helper"],
          {"a": SIGNED, "b": signed(IXN_1, 1), "--helper": OTHER_SIGNED}, by_prefix(log(ICP, IXN_1), log(OTHER)), 0)
    print(len(VALIDATED) + len(WATCHED) + len(REFUSED) + 3, "cases")
