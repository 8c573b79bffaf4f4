#!/usr/bin/env python3
"""Makes the cases under tests/cases in which `make` reads plans and logs with the rehearsal, and the samples of an
identifier's life.

What must come out is written here, or spelled by `kit.py`, and it must be what `plans.py` answers, a model of `make`
that stands apart from the program. Refusals are listed in `plan_refusals.py`, and the life in `life.py`.
"""
import shutil

import plans
from kit import PLAIN_ICP as ICP, body, counter, digest, indexed_signature, key, rehearsal, said, signed
from event_cases import BASIC, FIXED
from life import CHILD, CHILD_1, CHILD_MESSAGES, HEAD, IXN_1, MESSAGES, ROT_2, SIGN, STEPS, keys, plan, prefix, sealing
from log_cases import BARRED, CLOSED, HALVES, LISTED, LOG as WITNESSED_LOG, OTHER_1, REALISTIC, RECOVERY, ROT, ROT_3, THIRD, THREE, VAIN
from log_cases import behind, digests, ixn, rot, status
from plan_refusals import INCEPTION, INTERACTION, LOG, ONLY, REFUSALS, REUSE
from validate_cases import CASES, SAMPLES

MAKE = ["make", "--helper", "rehearsal", "--plan", "plan"]
WITH_LOG = [*MAKE, "--log", "log"]
REFUSED, UNREAD, UNWRITTEN, UNASKED, NO_FORM = 3, 5, 6, 7, 2


def slots(text, *places, code="D"):
    """The body with a signature in each place: the number of a key, its index, and its other index."""
    sigs = [indexed_signature(index, other, rehearsal(number, text, code)) for number, index, other in places]
    return text + counter("A", len(sigs)) + "".join(sigs)


def witnesses(*numbers):
    return [key(number, "B") for number in numbers]


def incept(*lines, sign=(SIGN,)):
    return plan("icp", *HEAD, *lines, *sign), None


def from_state(kind, text, *lines, sign=(SIGN,)):
    return plan(kind, *HEAD, prefix(text), *lines, *sign)


THREE_KEYS = {"k": [key(1), key(2), key(3)], "n": digests(4)}
LINES_OF_THREE = ["key " + key(1), "key " + key(2), *keys(3, 4)]
FIRST_TWO = ("sign 0 0", "sign 1 1")
GROUPS = [{"1/2": ["1/2", "1/2"]}, "1/2"]
SIXTY_FOUR = [key(number) for number in range(64)]
BLAKE3 = body("icp", "E", n=[digest(key(2), "E")])
WITNESSED = body("icp", b=witnesses(*range(1, 11)), bt="a")
CHANGED = rot(LISTED, 2, bt="2", br=witnesses(1), ba=witnesses(5))
SPELLED = body("icp", c=["EO", "\u00e9", ""], a=[{"i": "x", "i ": []}, -1, None, [[[[[[[[]]]]]]]], True])
STAYING = body("icp", k=[key(1, "B")])

# Inceptions, without a log: the plan, and the message.
INCEPTIONS = {
    "icp": (*incept(*keys(1, 2)), signed(ICP, 1)),
    "icp_with_all_defaults_written": (
        plan("icp", "prefix said", "code I", 'kt "1"', 'nt "1"', "bt 0", *keys(1, 2), SIGN), None, signed(ICP, 1),
    ),
    "icp_in_another_order": (plan("icp", SIGN, *keys(1, 2)[::-1], "code I"), None, signed(ICP, 1)),
    "icp_by_blake3": (plan("icp", "key " + key(1), "next " + digest(key(2), "E"), SIGN), None, signed(BLAKE3, 1)),
    "icp_with_a_basic_prefix": (*incept("prefix basic", *keys(1, 2)), signed(BASIC, 1)),
    "icp_of_a_key_that_stays": (
        *incept("prefix basic", "key " + key(1, "B")), slots(FIXED, (1, 0, 0), code="B"),
    ),
    "icp_of_a_key_that_could_stay": (
        *incept("key " + key(1, "B"), "next " + digest(key(2))), slots(STAYING, (1, 0, 0), code="B"),
    ),
    "icp_without_another_index": (*incept(*keys(1, 2), sign=["sign 0 -"]), slots(ICP, (1, 0, None))),
    "icp_with_another_index": (*incept(*keys(1, 2), sign=["sign 0 5"]), slots(ICP, (1, 0, 5))),
    "icp_with_the_greatest_other_index": (*incept(*keys(1, 2), sign=["sign 0 4095"]), slots(ICP, (1, 0, 4095))),
    "icp_with_slots_in_their_order": (
        *incept(*keys(1, 2), sign=["sign 0 64", "sign 0 -", SIGN, SIGN]),
        slots(ICP, (1, 0, 64), (1, 0, None), (1, 0, 0), (1, 0, 0)),
    ),
    "icp_of_64_keys": (
        *incept(*["key " + text for text in SIXTY_FOUR], sign=["sign 63 63", "sign 62 0"]),
        slots(body("icp", k=SIXTY_FOUR, nt="0", n=[]), (63, 63, 63), (62, 62, 0)),
    ),
    "icp_with_weights": (
        *incept(*LINES_OF_THREE, 'kt ["1/2","1/2","1/2"]', sign=FIRST_TWO),
        slots(body("icp", kt=HALVES, **THREE_KEYS), (1, 0, 0), (2, 1, 1)),
    ),
    "icp_with_clauses": (
        *incept(*LINES_OF_THREE, 'kt [["1/2","1/2"],["1"]]', sign=[*FIRST_TWO, "sign 2 -"]),
        slots(body("icp", kt=[["1/2", "1/2"], ["1"]], **THREE_KEYS), (1, 0, 0), (2, 1, 1), (3, 2, None)),
    ),
    "icp_with_a_group_of_weights": (
        *incept(*LINES_OF_THREE, 'kt [{"1/2":["1/2","1/2"]},"1/2"]', sign=[*FIRST_TWO, "sign 2 2"]),
        slots(body("icp", kt=GROUPS, **THREE_KEYS), (1, 0, 0), (2, 1, 1), (3, 2, 2)),
    ),
    "icp_with_ten_witnesses": (
        *incept(*keys(1, 2), *["add " + text for text in witnesses(*range(1, 11))], "bt a"), signed(WITNESSED, 1),
    ),
    "icp_with_traits_and_seals": (
        *incept(*keys(1, 2), 'trait "EO"', 'seal {"i":"x","i ":[]}', "seal -1", 'trait "\u00e9"', "seal null", 'trait ""',
            "seal " + "[" * 8 + "]" * 8, "seal true"),
        signed(SPELLED, 1),
    ),
    "icp_that_does_not_use_a_cut": (*incept(*keys(1, 2), "cut " + key(9)), signed(ICP, 1)),
    "icp_that_promises_its_own_key": (*incept(REUSE, *keys(1, 1)), signed(body("icp", n=digests(1)), 1)),
    "icp_that_promises_its_own_key_before_it": (*incept(REUSE, *keys(1, 1)[::-1]), signed(body("icp", n=digests(1)), 1)),
    "icp_that_promises_one_key_twice": (
        *incept(*keys(1, 2), REUSE, *keys(3, 2)), signed(body("icp", k=[key(1), key(3)], n=digests(2, 2)), 1),
    ),
    "icp_that_may_promise_its_own_key": (*incept(REUSE, *keys(1, 2)), signed(ICP, 1)),
    "dip": (plan("dip", *HEAD, "di " + said(ICP), *keys(10, 11), SIGN), None, signed(CHILD, 10)),
    "dip_of_a_basic_delegator": (
        plan("dip", *HEAD, "di " + key(1), *keys(10, 11), SIGN), None,
        signed(body("dip", k=[key(10)], n=digests(11), di=key(1)), 10),
    ),
}

LOG_7 = ixn(WITNESSED_LOG[-1])
UNUSED = ["kt []", 'nt "7"', "key " + key(1), "next " + digest(key(3)), "cut " + key(9), "add " + key(9), "bt 9", 'trait "EO"']
# Events behind a log: the plan, the log, and the message.
BEHIND_LOGS = {
    "ixn": (from_state("ixn", ICP), LOG, signed(IXN_1, 1)),
    "ixn_without_another_index": (from_state("ixn", ICP, sign=["sign 0 -"]), LOG, slots(IXN_1, (1, 0, None))),
    "ixn_that_does_not_use_the_rest": (from_state("ixn", ICP, *UNUSED), LOG, signed(IXN_1, 1)),
    "ixn_of_a_basic_prefix": (from_state("ixn", BASIC), signed(BASIC, 1), signed(ixn(BASIC), 1)),
    "ixn_by_blake3_behind_another_code": (
        plan("ixn", prefix(ICP), SIGN), LOG, signed(behind("ixn", ICP, code="E"), 1),
    ),
    "ixn_with_the_seal_of_a_dip": (from_state("ixn", CLOSED, sealing(BARRED)), signed(CLOSED, 1), signed(VAIN, 1)),
    "ixn_with_weights_of_the_state": (
        from_state("ixn", LOG_7, sign=FIRST_TWO), "".join(REALISTIC), slots(LOG_7, (4, 0, 0), (5, 1, 1)),
    ),
    "ixn_behind_a_recovery": (from_state("ixn", ICP), "".join(RECOVERY), signed(ixn(ROT_3), 3)),
    "ixn_behind_a_log_turned_round": (from_state("ixn", ICP), "".join(MESSAGES[2::-1]), signed(ixn(ROT_2), 2)),
    "ixn_behind_two_rotations": (
        from_state("ixn", ICP), LOG + signed(ROT, 2) + signed(OTHER_1, 2), signed(ixn(ROT), 2),
    ),
    "ixn_beside_an_event_that_waits": (from_state("ixn", ICP), LOG + signed(LISTED, 9), signed(IXN_1, 1)),
    "ixn_behind_an_event_without_receipts": (from_state("ixn", LISTED), signed(LISTED, 1), signed(ixn(LISTED), 1)),
    "rot": (from_state("rot", ICP, *keys(2, 3)), "".join(MESSAGES[:2]), signed(ROT_2, 2)),
    "rot_to_a_later_commitment": (
        from_state("rot", THREE, *keys(4, 5), sign=["sign 0 2"]), signed(THREE, 1), slots(THIRD, (4, 0, 2)),
    ),
    "rot_with_a_key_that_was_not_committed_to": (
        from_state("rot", ICP, "key " + key(7), *keys(2, 3), sign=["sign 0 -", "sign 1 0"]), LOG,
        slots(rot(ICP, 2, k=[key(7), key(2)]), (7, 0, None), (2, 1, 0)),
    ),
    "rot_behind_a_trait": (from_state("rot", ONLY, *keys(2, 3)), signed(ONLY, 1), signed(rot(ONLY, 2), 2)),
    "rot_with_other_witnesses": (
        from_state("rot", LISTED, *keys(2, 3), "cut " + key(1, "B"), "add " + key(5, "B"), "bt 2"), signed(LISTED, 1), signed(CHANGED, 2),
    ),
    "rot_to_no_witness": (
        from_state("rot", LISTED, *keys(2, 3), "cut " + key(2, "B"), "cut " + key(1, "B")), signed(LISTED, 1),
        signed(rot(LISTED, 2, br=witnesses(2, 1)), 2),
    ),
    "rot_to_no_next_key": (from_state("rot", ICP, *keys(2)), LOG, signed(behind("rot", ICP, k=[key(2)], nt="0", n=[]), 2)),
    "rot_that_promises_its_own_key": (from_state("rot", ICP, REUSE, *keys(2, 2)), LOG, signed(behind("rot", ICP, k=[key(2)], n=digests(2)), 2)),
    # The key of the state before isn't looked at, where the plan doesn't have it.
    "rot_that_promises_the_key_before": (
        from_state("rot", ICP, *keys(2, 1)), LOG, signed(behind("rot", ICP, k=[key(2)], n=digests(1)), 2),
    ),
    "drt_behind_no_seal": (from_state("drt", CHILD, *keys(11, 12)), CHILD_MESSAGES[0], signed(CHILD_1, 11)),
    "icp_beside_a_log": (INCEPTION, signed(LISTED, 1), signed(ICP, 1)),
    "icp_beside_its_own_log": (INCEPTION, LOG, signed(ICP, 1)),
    "icp_beside_an_empty_log": (INCEPTION, "", signed(ICP, 1)),
}

# JSON's values are kept as they are written.
AS_WRITTEN = plan("icp", *HEAD, *keys(1, 2), 'trait "\\u00e9\\/"', "seal 1.50", 'seal {"a":1e5,"a":-0}', 'seal "\\ud800"', SIGN)

PLAN, FROM_INPUT = {"plan": INTERACTION, "log": LOG}, ["make", "--helper", "rehearsal", "--plan", "-"]
# Runs whose words, files or streams are other: the words, the files, what is written, the status, and what else the
# case has.
RUNS = {
    "options_in_another_order": (["make", "--log", "log", "--plan", "plan", "--helper", "rehearsal"], PLAN, signed(IXN_1, 1), 0, {}),
    "helper_that_is_missing": (["make", "--helper", "no-such-helper", "--plan", "plan", "--log", "log"], PLAN, "", UNASKED, {}),
    "options_with_equals_signs": (["make", "--log=log", "--plan=plan", "--helper=rehearsal"], PLAN, signed(IXN_1, 1), 0, {}),
    "plan_that_begins_with_a_dash": (["make", "--helper", "rehearsal", "--plan=-plan"], {"-plan": INCEPTION}, signed(ICP, 1), 0, {}),
    "plan_from_standard_input": (FROM_INPUT, {}, signed(ICP, 1), 0, {"stdin": INCEPTION}),
    "plan_from_standard_input_with_a_log": ([*FROM_INPUT, "--log", "log"], PLAN, signed(IXN_1, 1), 0, {"stdin": INTERACTION}),
    "log_from_standard_input": ([*MAKE, "--log", "-"], {"plan": INTERACTION}, signed(IXN_1, 1), 0, {"stdin": LOG}),
    "both_from_standard_input": ([*FROM_INPUT, "--log", "-"], {}, signed(ICP, 1), 0, {"stdin": INCEPTION}),
    "log_behind_a_plan_from_standard_input": ([*FROM_INPUT, "--log", "-"], {}, "plan log\n", REFUSED, {"stdin": INTERACTION}),
    "log_from_the_rest_of_standard_input": (
        [*FROM_INPUT, "--log", "-"], {}, "plan line 5\n", REFUSED, {"stdin": INTERACTION + LOG},
    ),
    "missing_plan": (WITH_LOG, {"log": LOG}, "", UNREAD, {}),
    "missing_plan_without_a_log": (MAKE, {}, "", UNREAD, {}),
    "missing_plan_beside_a_bad_log": (WITH_LOG, {"log": LOG + "\n"}, "", UNREAD, {}),
    "missing_log": (WITH_LOG, {"plan": INTERACTION}, "", UNREAD, {}),
    "missing_log_of_an_icp": (WITH_LOG, {"plan": INCEPTION}, "", UNREAD, {}),
    "missing_log_of_a_bad_plan": (WITH_LOG, {"plan": INTERACTION[:-1]}, "", UNREAD, {}),
    "plan_that_is_a_folder": (["make", "--helper", "rehearsal", "--plan", "."], {}, "", UNREAD, {}),
    "log_that_is_a_folder": ([*MAKE, "--log", "."], PLAN, "", UNREAD, {}),
    "standard_input_closed": (FROM_INPUT, {}, "", UNREAD, {"stdin-closed": ""}),
    "standard_input_closed_before_a_log": (
        [*FROM_INPUT, "--log", "log"], {"log": INCEPTION}, "", UNREAD, {"stdin-closed": ""},
    ),
    "standard_input_closed_behind_a_plan": ([*MAKE, "--log", "-"], {"plan": INCEPTION}, "", UNREAD, {"stdin-closed": ""}),
    "standard_input_closed_for_both": ([*FROM_INPUT, "--log", "-"], {}, "", UNREAD, {"stdin-closed": ""}),
    "standard_output_full": (WITH_LOG, PLAN, "", UNWRITTEN, {"stdout-full": ""}),
    "standard_output_closed": (WITH_LOG, PLAN, "", UNWRITTEN, {"stdout-closed": ""}),
    "standard_output_limited": (WITH_LOG, PLAN, signed(IXN_1, 1)[:100], UNWRITTEN, {"stdout-limit": "100\n"}),
    "standard_output_limited_to_all": (
        WITH_LOG, PLAN, signed(IXN_1, 1), 0, {"stdout-limit": "%d\n" % len(signed(IXN_1, 1))},
    ),
    "refusal_on_a_full_output": (MAKE, PLAN, "", UNWRITTEN, {"stdout-full": ""}),
    "missing_plan_on_a_full_output": (MAKE, {}, "", UNREAD, {"stdout-full": ""}),
}

# Words that aren't in the form.
WORDS = {
    "without_words": ["make"],
    "without_a_plan": ["make", "--helper", "rehearsal"],
    "without_a_plan_with_a_log": ["make", "--helper", "rehearsal", "--log", "log"],
    "without_a_helper": ["make", "--plan", "plan"],
    "without_a_helper_with_a_log": ["make", "--plan", "plan", "--log", "log"],
    "plan_twice": [*MAKE, "--plan", "plan"],
    "plan_twice_with_a_log": [*WITH_LOG, "--plan", "plan"],
    "log_twice": [*WITH_LOG, "--log", "log"],
    "helper_twice": [*MAKE, "--helper", "rehearsal"],
    "option_without_a_value": [*MAKE, "--log"],
    "plan_without_a_value": MAKE[:-1],
    "word_more": [*WITH_LOG, "plan"],
    "file_as_of_validate": ["make", "--helper", "rehearsal", "plan"],
    "plan_that_looks_like_an_option": ["make", "--helper", "rehearsal", "--plan", "-plan"],
    "log_that_looks_like_an_option": [*MAKE, "--log", "-log"],
    "unknown_option": [*MAKE, "--seed", "1"],
}


def data(text):
    return text if isinstance(text, bytes) else text.encode()


def write(name, words, files, text, status=0, **further):
    """The case: the files of its folder, what is written, the status, and further files beside them."""
    case = CASES / ("make_" + name)
    shutil.rmtree(case, ignore_errors=True)
    case.mkdir(parents=True)
    for file, content in files.items():
        (case / "in").mkdir(exist_ok=True)
        (case / "in" / file).write_bytes(data(content))
    for file, content in {"words": "".join(word + "\n" for word in words), "stdout": text, **further}.items():
        (case / file).write_bytes(data(content))
    if status:
        (case / "status").write_text("%d\n" % status)


def write_made(name, text, log, wanted, wanted_status=0):
    """The case of a plan and, where there is one, a log: the model has to answer what is wanted."""
    answered = plans.answer(data(text), None if log is None else data(log))
    assert answered == (wanted, wanted_status), (name, answered)
    files = {"plan": text} if log is None else {"plan": text, "log": log}
    write(name, MAKE if log is None else WITH_LOG, files, wanted, wanted_status)


def write_sample(name, text, log, wanted, wanted_status):
    """The plan, the log that it is made behind, the words, what is written, and the status."""
    words = ["make", "--helper", "rehearsal", "--plan", "life/%s.plan" % name]
    files = {"plan": text, "stdout": wanted}
    if log is not None:
        files["cesr"] = log
        words += ["--log", "life/%s.cesr" % name]
    if wanted_status:
        files["status"] = "%d\n" % wanted_status
    for ending, content in {**files, "words": "".join(word + "\n" for word in words)}.items():
        (SAMPLES / "life" / ("%s.%s" % (name, ending))).write_text(content)


def write_life():
    """Each step as a case and as a sample, and a case of `validate` on the log with what was made."""
    shutil.rmtree(SAMPLES / "life", ignore_errors=True)
    (SAMPLES / "life").mkdir()
    for name, (text, messages, wanted, then) in STEPS.items():
        log = None if messages is None else "".join(messages)
        wanted_status = REFUSED if wanted.startswith("plan ") else 0
        case = "life_" + name.replace("-", "_")
        write_made(case, text, log, wanted, wanted_status)
        write_sample(name, text, log, wanted, wanted_status)
        if then:
            assert wanted in then[0]
            write(case + "_validated", ["validate", "--helper", "rehearsal", "a"], {"a": "".join(then[0])}, then[1], status(then[1]))


if __name__ == "__main__":
    for old in CASES.glob("make_*"):
        shutil.rmtree(old)
    write_life()
    for name, case in {**INCEPTIONS, **BEHIND_LOGS}.items():
        write_made(name, *case)
    write_made("icp_with_values_as_written", AS_WRITTEN, None, plans.answer(AS_WRITTEN.encode())[0])
    for name, (text, log, why) in REFUSALS.items():
        write_made(name, text, log, "plan %s\n" % why, REFUSED)
    for name, (words, files, text, number, further) in RUNS.items():
        write(name, words, files, text, number, **further)
    for name, words in WORDS.items():
        write("words_" + name, words, PLAN, "words\n", NO_FORM)
    print(len(list(CASES.glob("make_*"))), "cases")
