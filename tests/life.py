"""The life of an identifier and of one that it is the delegator of, step by step: the plan of each event, the log that
it is made behind, and the message that must come out, which is spelled by `kit.py`.

Keys are those of the kit, and all digests have the code `I`.
"""
from kit import PLAIN_ICP as ICP, body, digest, key, said, signed
from log_cases import behind, by_prefix, conflict, event, field, ixn, log, rot, seal, state, waits

HEAD = ["code I"]


def plan(kind, *lines):
    return "".join(line + "\n" for line in ("kind " + kind, *lines))


def keys(number, *others):
    """The lines of a key, and of the digest of the next one where there is one."""
    return ["key " + key(number)] + ["next " + digest(key(other)) for other in others]


def sealing(text):
    """The line of the seal of an event."""
    return 'seal {"i":"%s","s":"%s","d":"%s"}' % (field(text, "i"), field(text, "s"), said(text))


def prefix(text):
    return "prefix " + field(text, "i")


SIGN = "sign 0 0"
IXN_1 = ixn(ICP)
ROT_2 = rot(IXN_1, 2)
CHILD = body("dip", k=[key(10)], n=[digest(key(11))], di=said(ICP))
SEALING_3 = ixn(ROT_2, a=[seal(CHILD)])
CHILD_1 = rot(CHILD, 11, "drt")
SEALING_4 = ixn(SEALING_3, a=[seal(CHILD_1)])
STOLEN_5 = ixn(SEALING_4, a=["not mine"])
RECOVERY_5 = rot(SEALING_4, 3)
OTHER_5 = rot(SEALING_4, 3, n=[digest(key(100))])
END_6 = behind("rot", RECOVERY_5, k=[key(4)], nt="0", n=[])

# The messages, by their numbers in the log of the delegator, and those of the other.
MESSAGES = [signed(ICP, 1), signed(IXN_1, 1), signed(ROT_2, 2), signed(SEALING_3, 2), signed(SEALING_4, 2)]
STOLEN, RECOVERY, OTHER, END = signed(STOLEN_5, 2), signed(RECOVERY_5, 3), signed(OTHER_5, 3), signed(END_6, 4)
CHILD_MESSAGES = [signed(CHILD, 10), signed(CHILD_1, 11)]
ENDED = MESSAGES + [RECOVERY, END]

# What `validate` says of the log at last.
EVENTS = [ICP, IXN_1, ROT_2, SEALING_3, SEALING_4]
RECOVERED = "".join(map(event, EVENTS)) + event(STOLEN_5, "superseded") + event(RECOVERY_5)
CHILD_LINES = log(CHILD, CHILD_1)

# Each step: its plan, the messages that it is made behind (None for no log), what comes out, and, where it is appended
# to a log, what is in the log then and what `validate` writes of that.
STEPS = {
    "incept": (plan("icp", *HEAD, *keys(1, 2), SIGN), None, MESSAGES[0], (MESSAGES[:1], log(ICP))),
    "interact": (plan("ixn", *HEAD, prefix(ICP), SIGN), MESSAGES[:1], MESSAGES[1], (MESSAGES[:2], log(ICP, IXN_1))),
    "rotate": (
        plan("rot", *HEAD, prefix(ICP), *keys(2, 3), SIGN), MESSAGES[:2], MESSAGES[2], (MESSAGES[:3], log(ICP, IXN_1, ROT_2)),
    ),
    "incept-delegated": (
        plan("dip", *HEAD, "di " + said(ICP), *keys(10, 11), SIGN), None, CHILD_MESSAGES[0],
        (MESSAGES[:3] + CHILD_MESSAGES[:1], log(ICP, IXN_1, ROT_2) + waits(CHILD, "seal")),
    ),
    "seal-inception": (
        plan("ixn", *HEAD, prefix(ICP), sealing(CHILD), SIGN), MESSAGES[:3], MESSAGES[3],
        (MESSAGES[:4] + CHILD_MESSAGES[:1], by_prefix(log(*EVENTS[:4]), log(CHILD))),
    ),
    "rotate-delegated": (
        plan("drt", *HEAD, prefix(CHILD), *keys(11, 12), SIGN), CHILD_MESSAGES[:1], CHILD_MESSAGES[1],
        (MESSAGES[:4] + CHILD_MESSAGES, by_prefix(log(*EVENTS[:4]), log(CHILD)) + waits(CHILD_1, "seal")),
    ),
    "seal-rotation": (
        plan("ixn", *HEAD, prefix(ICP), sealing(CHILD_1), SIGN), MESSAGES[:4], MESSAGES[4],
        (MESSAGES + CHILD_MESSAGES, by_prefix(log(*EVENTS), CHILD_LINES)),
    ),
    "steal": (
        plan("ixn", *HEAD, prefix(ICP), 'seal "not mine"', SIGN), MESSAGES, STOLEN,
        (MESSAGES + CHILD_MESSAGES + [STOLEN], by_prefix(log(*EVENTS, STOLEN_5), CHILD_LINES)),
    ),
    "recover": (
        plan("rot", *HEAD, prefix(ICP), *keys(3, 4), SIGN), MESSAGES, RECOVERY,
        (MESSAGES + CHILD_MESSAGES + [STOLEN, RECOVERY], by_prefix(RECOVERED + state(RECOVERY_5), CHILD_LINES)),
    ),
    "end": (
        plan("rot", *HEAD, prefix(ICP), *keys(4), SIGN), MESSAGES + [STOLEN, RECOVERY], END,
        (MESSAGES + CHILD_MESSAGES + [STOLEN, RECOVERY, END], by_prefix(RECOVERED + event(END_6) + state(END_6), CHILD_LINES)),
    ),
    "after-the-end": (plan("ixn", *HEAD, prefix(ICP), SIGN), ENDED, "plan misfit ended\n", None),
    "recover-otherwise": (
        plan("rot", *HEAD, prefix(ICP), *keys(3, 100), SIGN), MESSAGES, OTHER,
        (MESSAGES + [RECOVERY, OTHER],
            log(*EVENTS, RECOVERY_5) + waits(OTHER_5, "never") + conflict(RECOVERY_5, OTHER_5)),
    ),
}
