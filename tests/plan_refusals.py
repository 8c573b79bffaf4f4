"""Plans of which no message is made, and why. Of each: the plan, the log's messages in a text (None for no log), and
the words behind `plan`."""
from kit import PLAIN_ICP as ICP, body, digest, key, rehearsed, said, signed
from life import CHILD, ENDED, HEAD, IXN_1, MESSAGES, ROT_2, SIGN, keys, plan, prefix
from log_cases import LISTED

LOG = "".join(MESSAGES[:1])
TURNED = "".join(MESSAGES[:3])
BEHIND = [*HEAD, prefix(ICP)]
INCEPTION = plan("icp", *HEAD, *keys(1, 2), SIGN)
INTERACTION = plan("ixn", *BEHIND, SIGN)
ROTATION = [*BEHIND, *keys(2, 3)]
DIP = [*HEAD, *keys(10, 11), SIGN]
WITNESS, OTHER_WITNESS = key(1, "B"), key(2, "B")
REUSE = "reuse yes"


def line_4(line):
    """A plan of an inception that is good but for its fourth line."""
    return plan("icp", *HEAD, "key " + key(1), line, "next " + digest(key(2)), SIGN).encode()


# The fourth line, each in a plan that is good without it.
FOURTH = {
    "second_kind": "kind icp",
    "empty_line": "",
    "unknown_name": "keys " + key(1),
    "name_in_capitals": "Bt 0",
    "no_space": "key" + key(1),
    "two_spaces": "bt  0",
    "space_at_its_end": "bt 0 ",
    "carriage_return": "bt 0\r",
    "second_code": "code I",
    "real_prefix_in_an_icp": prefix(ICP),
    "unknown_code": "code F",
    "key_cut_short": "key " + key(1)[:-1],
    "key_with_a_character_more": "key %sA" % key(1),
    "key_with_leading_bits": "key DQ" + "A" * 42,
    "digest_as_a_key": "key " + digest(key(2)),
    "key_as_a_digest": "next " + key(2),
    "kt_that_is_no_text": "kt 1",
    "kt_with_a_leading_zero": 'kt "01"',
    "kt_with_an_escape": 'kt "\\u0031"',
    "kt_of_17_digits": 'kt "%s"' % ("1" * 17),
    "kt_with_white_space": 'kt ["1/2", "1/2"]',
    "kt_with_a_weight_over_one": 'kt ["3/2"]',
    "kt_with_a_weight_of_no_parts": 'kt ["0/2","1"]',
    "kt_of_clauses_and_weights": 'kt [["1"],"1"]',
    "kt_nested_too_deep": 'kt [[["1"]]]',
    "kt_with_two_weights_of_one_group": 'kt [{"1/2":["1"],"1/3":["1"]},"1/2"]',
    "nt_of_17_digits": 'nt "%s"' % ("1" * 17),
    "bt_of_17_digits": "bt " + "1" * 17,
    "bt_with_a_leading_zero": "bt 01",
    "bt_in_capitals": "bt A",
    "trait_that_is_no_text": "trait 1",
    "trait_without_quotes": "trait EO",
    "seal_nested_9_deep": "seal " + "[" * 9 + "]" * 9,
    "seal_with_white_space": 'seal {"a": 1}',
    "seal_with_a_comma_too_many": "seal [1,]",
    "seal_of_two_values": "seal 1,2",
    "seal_with_a_leading_zero": "seal 01",
    "sign_over_65535": "sign 0 65536",
    "sign_with_a_leading_zero": "sign 00 0",
    "sign_with_one_number": "sign 0",
    "sign_with_three_numbers": "sign 0 0 0",
    "sign_of_no_index": "sign - 0",
    "sign_with_a_sign": "sign +1 0",
    "reuse_of_another_value": "reuse no",
    "reuse_in_capitals": "reuse YES",
    "reuse_without_a_value": "reuse",
    "reuse_of_no_value": "reuse ",
    "own_key_promised_before_another": "next " + digest(key(1)),
    "own_key_promised_by_blake3_before_another": "next " + digest(key(1), "E"),
}

# Names that come for the second time, each in line 5.
SECOND = {
    "reuse": REUSE, "prefix": "prefix said", "kt": 'kt "1"', "nt": 'nt "1"', "bt": "bt 0", "di": "di " + said(ICP),
}

OWN, OWN_BY_BLAKE3, STAYS = "next " + digest(key(1)), "next " + digest(key(1), "E"), key(1, "B")
# Promises of a key that the plan has already: the plan, its log, and the number of the first such line.
PROMISES = {
    "own_key_promised": (plan("icp", *HEAD, *keys(1, 1), SIGN), None, 4),
    "own_key_promised_before_it": (plan("icp", OWN, *HEAD, "key " + key(1), SIGN), None, 2),
    "own_key_promised_before_it_by_blake3": (plan("icp", *HEAD, OWN_BY_BLAKE3, SIGN, "key " + key(1)), None, 3),
    "own_key_promised_before_reuse": (plan("icp", *HEAD, *keys(1, 1), REUSE, SIGN), None, 4),
    "own_key_promised_behind_another": (plan("icp", *HEAD, *keys(1, 2), OWN, SIGN), None, 5),
    "own_key_promised_by_both": (plan("icp", OWN_BY_BLAKE3, OWN, *keys(1), *HEAD, SIGN), None, 2),
    "own_key_promised_that_is_the_second": (plan("icp", *HEAD, *keys(1), *keys(2, 3, 2), 'kt "2"', SIGN, "sign 1 1"), None, 6),
    "own_key_promised_that_could_stay": (plan("icp", *HEAD, "key " + STAYS, "next " + digest(STAYS), SIGN), None, 4),
    "next_key_promised_twice": (plan("icp", *HEAD, *keys(1, 2, 3, 2), SIGN), None, 6),
    "next_key_promised_twice_before_reuse": (plan("icp", *HEAD, *keys(1, 2, 2), REUSE, *keys(3, 3), SIGN), None, 5),
    "own_key_promised_in_a_rot": (plan("rot", *BEHIND, *keys(2, 3, 2), SIGN), LOG, 6),
    "own_key_promised_in_a_rot_without_a_log": (plan("rot", *BEHIND, *keys(2, 2), SIGN), None, 5),
    "own_key_promised_in_a_dip": (plan("dip", *HEAD, "di " + said(ICP), *keys(10, 10), SIGN), None, 5),
    "own_key_promised_in_a_drt": (plan("drt", *HEAD, prefix(CHILD), *keys(11, 11), SIGN), None, 5),
    "own_key_promised_in_an_ixn": (plan("ixn", *BEHIND, *keys(1, 1), SIGN), LOG, 5),
    "own_key_promised_before_a_bad_line": (plan("icp", *HEAD, *keys(1, 1), "sign 0"), None, 5),
    "own_key_promised_where_a_prefix_is_missing": (plan("rot", *HEAD, *keys(2, 2), SIGN), LOG, 1),
}

LINES = {
    **{"line_" + name: (line_4(line), None, "line 4") for name, line in FOURTH.items()},
    **{"line_second_" + name: (plan("icp", *HEAD, *keys(1), line, line), None, "line 5") for name, line in SECOND.items()},
    **{"line_" + name: (text, log, "line %d" % number) for name, (text, log, number) in PROMISES.items()},
    "line_not_utf8": (line_4('trait "?"').replace(b"?", b"\xff"), None, "line 4"),
    "line_none": ("", None, "line 1"),
    "line_first_not_kind": (plan("icp", *HEAD).split("\n", 1)[1] + "kind icp\n", None, "line 1"),
    "line_unknown_kind": (plan("rct", *HEAD, *keys(1, 2), SIGN), None, "line 1"),
    "line_without_a_line_feed": (INCEPTION[:-1], None, "line 5"),
    "line_first_without_a_line_feed": ("kind icp", None, "line 1"),
    "line_prefix_said_in_a_rot": (plan("rot", *HEAD, "prefix said", *keys(2, 3), SIGN), LOG, "line 3"),
    "line_prefix_basic_in_an_ixn": (plan("ixn", *HEAD, "prefix basic", SIGN), LOG, "line 3"),
    "line_prefix_in_a_dip": (plan("dip", *DIP, "di " + said(ICP), "prefix said"), None, "line 7"),
    "line_rot_without_a_prefix": (plan("rot", *HEAD, *keys(2, 3), SIGN), LOG, "line 1"),
    "line_drt_without_a_prefix": (plan("drt", *HEAD, *keys(2, 3), SIGN), LOG, "line 1"),
    "line_ixn_without_a_prefix": (plan("ixn", *HEAD, SIGN), LOG, "line 1"),
    "line_dip_without_a_di": (plan("dip", *DIP), None, "line 1"),
    "line_icp_with_a_di": (plan("icp", *DIP, "di " + said(ICP)), None, "line 1"),
    "line_rot_with_a_di": (plan("rot", *ROTATION, SIGN, "di " + said(ICP)), TURNED, "line 1"),
    "line_before_what_is_missing": (plan("ixn", *HEAD, "sign 0"), LOG, "line 3"),
    "line_before_the_log": (plan("ixn", *BEHIND, "sign 0"), LOG + "\n", "line 4"),
}

STRANGER = body("icp", k=[key(50)])
LOGS = {
    "log_missing_for_a_rot": (plan("rot", *ROTATION, SIGN), None),
    "log_missing_for_a_drt": (plan("drt", *HEAD, prefix(CHILD), *keys(11, 12), SIGN), None),
    "log_missing_for_an_ixn": (INTERACTION, None),
    "log_empty": (INTERACTION, ""),
    "log_of_another_identifier": (INTERACTION, signed(STRANGER, 50)),
    "log_of_an_inception_that_waits": (INTERACTION, ICP + "-AAB" + rehearsed(2, ICP)),
    "log_with_a_message_without_signatures": (INTERACTION, LOG + IXN_1 + "-AAA"),
    "log_with_a_wrong_digest": (INTERACTION, LOG + signed(IXN_1.replace(said(IXN_1), said(ROT_2)), 1)),
    "log_with_a_receipt_of_nobody": (INTERACTION, LOG + body("rct", d=said(ICP), i=said(ICP))),
    "log_with_a_line_feed": (INTERACTION, LOG + "\n"),
    "log_cut_short": (INTERACTION, LOG[:-1]),
    "log_of_an_icp_with_a_line_feed": (INCEPTION, LOG + "\n"),
    "log_of_an_icp_with_a_refused_message": (INCEPTION, ICP + "-AAA"),
    "log_before_the_body": (plan("icp", *HEAD, *keys(1, 2), 'kt "2"', SIGN), LOG + "\n"),
    "log_before_a_body_behind_it": (plan("rot", *ROTATION, 'kt "2"', SIGN), ""),
}


def icp(*lines):
    return plan("icp", *HEAD, *lines, SIGN), None


def turned(*lines):
    """A rotation, behind the plain inception."""
    return plan("rot", *ROTATION, *lines, SIGN), LOG


MANY_KEYS = ["key " + key(number) for number in range(65)]
LARGE = "x" * (65536 - len(body("icp", k=[key(number) for number in range(65)], nt="0", n=[], a=[""])))
ODD = ["%d/%d" % (number, number) for number in range(4294967295, 4294967292, -1)]
BODIES = {
    "no_key": (*icp(), "threshold"),
    "kt_over_the_keys": (*icp(*keys(1, 2), 'kt "2"'), "threshold"),
    "kt_of_none": (*icp(*keys(1, 2), 'kt "0"'), "threshold"),
    "kt_of_no_weights": (*icp(*keys(1, 2), "kt []"), "threshold"),
    "kt_of_other_weights_than_keys": (*icp(*keys(1, 2), 'kt ["1/2","1/2"]'), "threshold"),
    "kt_too_fine": (*icp(*keys(1), *keys(2), *keys(3), 'kt ["%s"]' % '","'.join(ODD)), "threshold"),
    "kt_unreachable": (*icp(*keys(1), *keys(2), 'kt ["1/3","1/3"]'), "threshold"),
    "kt_with_an_unreachable_clause": (*icp(*keys(1), *keys(2), 'kt [["1"],["1/2"]]'), "threshold"),
    "kt_with_an_unreachable_group": (*icp(*keys(1), *keys(2), *keys(3), 'kt [{"1/2":["1/4","1/4"]},"1/2"]'), "threshold"),
    "nt_of_one_without_next_keys": (*icp(*keys(1), 'nt "1"'), "threshold"),
    "nt_of_none_with_a_next_key": (*icp(*keys(1, 2), 'nt "0"'), "threshold"),
    "kt_over_the_keys_of_a_rot": (*turned('kt "2"'), "threshold"),
    "threshold_before_a_misfit": (plan("rot", *BEHIND, *keys(5, 6), 'kt "2"', SIGN), "".join(ENDED), "threshold"),
    "toad_without_witnesses": (*icp(*keys(1, 2), "bt 1"), "witnesses"),
    "no_toad_with_a_witness": (*icp(*keys(1, 2), "add " + WITNESS), "witnesses"),
    "toad_over_the_witnesses": (*icp(*keys(1, 2), "add " + WITNESS, "bt 2"), "witnesses"),
    "witness_twice": (*icp(*keys(1, 2), "add " + WITNESS, "add " + WITNESS, "bt 1"), "witnesses"),
    "cut_twice": (*turned("cut " + WITNESS, "cut " + WITNESS), "witnesses"),
    "cut_and_added": (*turned("cut " + WITNESS, "add " + WITNESS), "witnesses"),
    "key_as_a_witness": (*icp(*keys(1, 2), "add " + key(9), "bt 1"), "field 10"),
    "key_as_a_cut": (*turned("cut " + key(9), "add " + key(9)), "field 11"),
    "key_as_an_add": (*turned("add " + key(9), "bt 1"), "field 12"),
    "65_keys": (*icp(*MANY_KEYS, 'kt "42"'), "many"),
    "65_traits": (*icp(*keys(1, 2), *['trait "x"'] * 65), "many"),
    "65_next_keys": (*icp(*keys(1, *range(2, 67))), "many"),
    "65_next_keys_that_are_one": (*icp(REUSE, *keys(1, *[2] * 65)), "many"),
    "large": (*icp(*MANY_KEYS, 'seal "%s"' % LARGE), "large"),
    "basic_with_two_keys": (*icp("prefix basic", *keys(1), *keys(2, 3)), "prefix"),
    "basic_with_a_key_that_has_no_next_one": (*icp("prefix basic", "key " + key(1, "B"), "next " + digest(key(2))), "prefix"),
}

ONLY = body("icp", c=["EO"])
WITNESSED = signed(LISTED, 1)
CHANGE = [*HEAD, prefix(LISTED), *keys(2, 3)]
FULL_LIST = body("icp", b=[key(number, "B") for number in range(100, 164)], bt="1")
MISFITS = {
    "ended": (INTERACTION, "".join(ENDED), "ended"),
    "ended_for_a_rot": (plan("rot", *BEHIND, *keys(5, 6), SIGN), "".join(ENDED), "ended"),
    "ended_before_unsigned": (plan("ixn", *BEHIND), "".join(ENDED), "ended"),
    "est_only": (plan("ixn", *HEAD, prefix(ONLY), SIGN), signed(ONLY, 1), "est-only"),
    "drt_without_a_delegator": (plan("drt", *ROTATION, SIGN), LOG, "kind"),
    "drt_behind_an_end": (plan("drt", *BEHIND, *keys(5, 6), SIGN), "".join(ENDED), "kind"),
    "rot_with_a_delegator": (plan("rot", *HEAD, prefix(CHILD), *keys(11, 12), SIGN), signed(CHILD, 10), "kind"),
    "cut_of_no_witness": (*turned("cut " + WITNESS), "witness-change"),
    "add_of_a_witness": (plan("rot", *CHANGE, "add " + WITNESS, "bt 2", SIGN), WITNESSED, "witness-change"),
    "no_toad_with_witnesses": (plan("rot", *CHANGE, SIGN), WITNESSED, "witness-change"),
    "toad_over_the_witnesses_left": (plan("rot", *CHANGE, "cut " + WITNESS, "bt 2", SIGN), WITNESSED, "witness-change"),
    "toad_without_witnesses_left": (
        plan("rot", *CHANGE, "cut " + WITNESS, "cut " + OTHER_WITNESS, "bt 1", SIGN), WITNESSED, "witness-change",
    ),
    "65_witnesses": (
        plan("rot", *HEAD, prefix(FULL_LIST), *keys(2, 3), "add " + WITNESS, "bt 1", SIGN), signed(FULL_LIST, 1), "witness-change",
    ),
}

THREE_KEYS = [*keys(1), *keys(2), *keys(3)]
TWO_CLAUSES = [*keys(1), *keys(2), *keys(3), 'kt [["1/2","1/2"],["1"]]']
TWO_NEXT = body("icp", nt="2", n=[digest(key(2)), digest(key(3))])
UNSIGNED = {
    "no_slot": (plan("icp", *HEAD, *keys(1, 2)), None),
    "keys_not_committed_to": (plan("rot", *BEHIND, *keys(3, 4), SIGN), LOG),
    "rot_without_its_commitment": (plan("rot", *ROTATION, "sign 0 -"), LOG),
    "rot_with_another_commitment": (plan("rot", *ROTATION, "sign 0 1"), LOG),
    "rot_with_too_few_next_keys": (
        plan("rot", *HEAD, prefix(TWO_NEXT), *keys(2), *keys(3, 4), SIGN), signed(TWO_NEXT, 1),
    ),
    "index_out_of_range": (plan("icp", *HEAD, *keys(1, 2), SIGN, "sign 1 1"), None),
    "index_of_no_slot": (plan("icp", *HEAD, *keys(1, 2), SIGN, "sign 65535 -"), None),
    "other_index_of_no_slot": (plan("icp", *HEAD, *keys(1, 2), SIGN, "sign 0 4096"), None),
    "too_few": (plan("icp", *HEAD, *keys(1), *keys(2, 3), 'kt "2"', SIGN), None),
    "one_slot_twice": (plan("icp", *HEAD, *keys(1), *keys(2, 3), 'kt "2"', SIGN, SIGN), None),
    "too_little_weight": (plan("icp", *HEAD, *THREE_KEYS, 'kt ["1/2","1/2","1/2"]', SIGN), None),
    "one_clause_of_two": (plan("icp", *HEAD, *TWO_CLAUSES, SIGN, "sign 1 1"), None),
    "ixn_by_other_keys_than_the_states": (plan("ixn", *BEHIND, "key " + key(2), "sign 1 1"), LOG),
    "4096_slots": (plan("icp", *HEAD, *keys(1, 2), *[SIGN] * 4096), None),
}

REFUSALS = {
    **LINES,
    **{name: (text, log, "log") for name, (text, log) in LOGS.items()},
    **{"body_" + name: (text, log, "body " + why) for name, (text, log, why) in BODIES.items()},
    **{"misfit_" + name: (text, log, "misfit " + why) for name, (text, log, why) in MISFITS.items()},
    **{"unsigned_" + name: (text, log, "unsigned") for name, (text, log) in UNSIGNED.items()},
}
