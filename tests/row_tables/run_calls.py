"""The words of runs, what runs are given, and the rows that call them."""
from event_cases import ROT
from kit import PLAIN_ICP as ICP, digest, key, said, signed
from log_cases import BOTH, IXN_1, OTHER_1, log, waits
from row_tables import argument
from row_tables.witness_calls import WITNESS
from validate_cases import EVENT, STATE

CHECK = "check,a"
VALIDATE = "validate,--helper,rehearsal,a"
WATCH = "watch,--helper,rehearsal,a"
CONVERT = "convert,--to,text,a"
MAKE = "make,--helper,rehearsal,--plan,p"
BEHIND = MAKE + ",--log,a"
GEN = "gen,--seed,1,--logs,1,--events,2"
REPORT = EVENT + STATE
UNSIGNED = "refused 0 0 unsigned\n"
FULL, READ_FAULT, VERIFIER_FAULT = "full 0\n", "fault 0 read\n", "fault 0 verifier\n"
MADE = "Source Verifier"
WITNESS_WORDS = "witness,--helper,rehearsal,--prefix,%s,--shelf,shelf" % WITNESS
FROM_OLD = WITNESS_WORDS + ",--from,old,a"
WITNESS_MADE = "Source Verifier Signer"
# A file of a disk that is empty.
EMPTY = "0*x"
BOTH_MADE = "Source Source Verifier Signer"
SIGNED_IXN = signed(IXN_1, 1)
BOTH_ROTATIONS = signed(ICP, 1) + signed(ROT, 2) + signed(OTHER_1, 2)
BOTH_LINES = log(ICP, ROT) + waits(OTHER_1, "never") + BOTH

# What `make` is given: the plan of the plain inception, and that of the interaction behind it.
ICP_PLAN = "kind icp\ncode I\nkey %s\nnext %s\nsign 0 0\n" % (key(1), digest(key(2)))
IXN_PLAN = "kind ixn\nprefix %s\ncode I\nsign 0 0\n" % said(ICP)
# That of the inception, with its signature in two slots.
TWO_SLOTS = ICP_PLAN + "sign 0 0\n"


def run(words, written, end, text=None, plan=None, **settings):
    if text is not None:
        settings["text"] = argument(text)
    if plan is not None:
        settings["plan"] = argument(plan)
    given = "".join(" %s %s" % setting for setting in settings.items())
    yield "run %s%s" % (words, given), "%s= %s" % (written, end)


def bad(place, reason):
    return "Bad(Bad { place: %d, reason: %s })" % (place, reason)
