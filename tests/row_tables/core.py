"""What a core says call by call: questions and verdicts, limits, refusals, and what an event needs to be accepted."""
from kit import PLAIN_ICP as ICP, body, couples, digest, indexed, key, receipts, rehearsed, said, signed
from log_cases import LISTED, LOG, OWN, REALISTIC, THIRD, THREE
from row_tables import argument
from row_tables.core_calls import accept, accepted, answer, asked, live, logged, start, take, waiting
from row_tables.states import IXN_1, IXN_2, OTHER_2, PREFIX, ixn


def questions():
    yield from start()
    yield from take(signed(IXN_1, 1))
    yield "next 0", "none"
    yield "why 0", "Predecessor"
    yield from waiting(0)
    yield from take(signed(ICP, 1))
    yield from waiting(0, 1)
    yield "next 0", "1 " + key(1)
    yield from answer("yes", waiting=1)
    yield from answer("yes", "Known")
    yield from answer("no", "Known")
    yield "strange", "Unasked true"
    yield "accepted", "1 "
    yield "next 5", "0 " + key(1)
    yield from answer("yes")
    yield "accepted", "1 0 "
    yield "state %s" % PREFIX, "1 1 0"
    yield from live(1, 0)
    yield from waiting()
    yield "next 0", "none"
    yield "why 0", "none"
    yield "why 7", "none"
    # An interaction that comes too late is asked all the same.
    yield from start()
    for text in (ICP, IXN_1, IXN_2):
        yield from take(signed(text, 1))
        yield "ask", "1"
    yield from take(signed(OTHER_2, 1))
    yield "next 0", "3 " + key(1)
    yield from answer("no")
    yield "why 3", "Never"


def order_of_questions():
    # By body, then by first coming, and counted round.
    first, second = body("icp", kt="2", k=[key(1), key(2)]), body("icp", a=[1])
    groups = [signed(first, 1, 2), first + "-AAB" + rehearsed(2, first, "AB") + "-AAB" + rehearsed(1, first, "AA")]
    for text, people in zip(groups, ((1, 2), (2, 1))):
        yield from start()
        yield from take(text)
        for skip in (0, 1, 2, 3):
            yield "next %d" % skip, "0 " + key(people[skip % 2])
    yield from start()
    for text in (first + "-AAB" + rehearsed(2, first, "AB"), signed(second, 1), first + "-AAB" + rehearsed(1, first, "AA")):
        yield from take(text)
    questions = ["0 " + key(2), "0 " + key(1), "1 " + key(1)]
    for skip in range(4):
        yield "next %d" % skip, questions[skip % 3]
    yield "next 1", questions[1]
    yield from answer("no")
    for skip in range(3):
        yield "next %d" % skip, questions[skip % 2 * 2]


def limits():
    # Where so many were taken a message is too much though its body is held; of bytes it adds none.
    for sizes in ({"messages": 2}, {"signatures": 2}):
        yield from start(**sizes)
        yield from take(signed(ICP, 1))
        yield from take(signed(ICP, 1), "Again")
        yield from take(signed(ICP, 1), "Full")
        yield "ask", "1"
        yield from accepted(0)
        yield "state %s" % PREFIX, "0 1 0"
    yield from start(size=299)
    yield from take(signed(ICP, 1))
    yield from take(signed(ICP, 1), "Again")
    yield from take(signed(IXN_1, 1), "Full")
    yield from take(signed(ICP, 1), "Again")
    yield from start(size=298)
    yield from take(signed(ICP, 1), "Full")


def refusals():
    receipt = body("rct", d=said(ICP), i=said(ICP))
    yield from start()
    yield from take(ICP + "-AAA", "Refused(Unsigned)")
    yield from take(receipt, "Refused(DigestOnly)")
    yield from take(signed(receipt, 1), "Refused(WrongGroup)")
    yield from take(body("icp", kt="2"), "Refused(Body(Threshold))")
    yield from take(ICP + "-AQB" + indexed("AA", "a") * 1025, "Refused(TooManySigs)")
    yield "accepted", ""


CHILD = body("dip", k=[key(10)], n=[digest(key(11))], di=said(ICP))
CLOSED = body("icp", c=["DND"])
BARRED = body("dip", k=[key(10)], n=[digest(key(11))], di=said(CLOSED))
SEALING = ixn(1, ICP, a=[{"i": said(CHILD), "s": "0", "d": said(CHILD)}])


def modes():
    for mode in ("full", "local"):
        local = mode == "local"
        yield from start(mode)
        yield from take(signed(CHILD, 10))
        yield "ask", "1"
        yield "accepted", "0 " if local else ""
        yield "why 0", "none" if local else "Seal"
        yield from start(mode)
        yield from take(signed(CLOSED, 1))
        yield from take(signed(BARRED, 10))
        yield "ask", "2"
        yield "accepted", "0 1 " if local else "0 "
        yield "why 1", "none" if local else "Never"
        yield from start(mode)
        yield from take(signed(LISTED, 1) + receipts(LISTED, 1))
        yield "ask", "2"
        yield "why 0", "none" if local else "Receipts"
        yield from take(body("rct", d=said(LISTED), i=said(LISTED)) + couples(LISTED, 2))
        yield "ask", "1"
        yield "accepted", "0 "
    # A yes on the sealing event makes two bodies ready.
    yield from start()
    yield from take(signed(CHILD, 10))
    yield "ask", "1"
    yield from accept(signed(ICP, 1), [1])
    yield from take(signed(SEALING, 1))
    yield "next 0", "2 " + key(1)
    yield from answer("yes", waiting=1)
    yield "accepted", "1 2 0 "


def commitments():
    # A signature that names the commitment that it reveals, and one that names none.
    for head, why in (("2AAAAC", "none"), ("BA", "Next")):
        rotation = THIRD + "-AAB" + rehearsed(4, THIRD, head)
        yield from start()
        yield from take(signed(THREE, 1))
        yield from asked(0, key(1))
        yield from take(rotation)
        yield from asked(1, key(4))
        yield "why 1", why
        yield from accepted(*[0, 1] if why == "none" else [0])
        yield from start()
        yield from take(rotation)
        yield from take(signed(THREE, 1))
        yield from asked(1, key(1), waiting=1)
        yield from asked(0, key(4))
        yield "why 0", why
        yield from accepted(*[1, 0] if why == "none" else [1])
    # The signature that was heard comes by the name of its commitment.
    yield from take(THIRD + "-AAB" + rehearsed(4, THIRD, "2AAAAC"))
    yield from accepted(1, 0)
    yield "next 0", "none"


def witnesses():
    # The signing key is the one witness.
    yield from start()
    yield from take(OWN + "-AAB" + rehearsed(1, OWN, code="B"))
    yield from asked(0, key(1, "B"))
    yield from accepted(0)
    # Of a body's five questions all but the last are answered, and all but the first, from the last on.
    people = [key(1), key(2), key(1, "B"), key(2, "B"), key(3, "B")]
    for skips, why in (([0, 0, 0, 0], "Receipts"), ([4, 3, 2, 1], "Signatures")):
        yield from start()
        yield from take(REALISTIC[0])
        unheard = list(people)
        for skip in skips:
            yield "next %d" % skip, "0 " + unheard.pop(skip)
            yield from answer("yes")
        yield "why 0", why
        yield from accepted()
        yield from asked(0, unheard[0])
        yield "why 0", "none"
        yield from accepted(0)


def witnessed_log():
    yield from start()
    for text in REALISTIC:
        yield from take(text)
        yield "ask", "5"
    yield from logged(LOG, "5 3 4")
    for reader in (1, 2):
        for text in REALISTIC:
            yield from take(text, "Again", reader=reader)
    yield from logged(LOG, "5 3 4")
    yield from start()
    for text in REALISTIC[::-1]:
        yield from take(text)
    yield "ask", "30"
    yield from logged(LOG[::-1], "5 3 4")


TWICE = body("icp", kt="2", k=[key(1), key(1)])
MANY = [body("icp", a=[number]) for number in range(1000)]


def looks():
    # The second message brings the signature that was heard, at another index.
    yield from start()
    yield from take(TWICE + "-AAB" + rehearsed(1, TWICE, "AA"))
    yield "ask", "1"
    yield "why 0", "Signatures"
    yield from take(TWICE + "-AAB" + rehearsed(1, TWICE, "AB"))
    yield "accepted", "0 "
    yield "next 0", "none"
    # Of a thousand that wait one is looked at.
    yield from start()
    for first in MANY:
        yield from take(signed(body("ixn", i=said(first), s="1", p=said(first)), 1))
    yield from accept(signed(MANY[500], 1), [1000], 1)
    yield "next 0", "500 " + key(1)
    yield from answer("yes")
    yield "accepted", "1000 500 "


def read_back():
    def row(turns, text, answer, prefix=PREFIX):
        return "hub %d %s %s" % (turns, prefix, argument(text)), answer

    # An event is accepted by the verdict on its one signature, and what the pass of a hub told it reads there.
    yield row(5, signed(ICP, 1), "Taken none 0 %s New 0 1 0" % key(1))
    # By a signature of another key it isn't.
    yield row(5, ICP + "-AAB" + rehearsed(2, ICP, "AA"), "Taken none 0 %s New none" % key(1))
    yield row(5, signed(IXN_1, 1), "Taken none no-question none")
    yield row(5, ICP, "Refused(Unsigned) none no-question none")
    # A hub has so many turns, and none is taken then.
    yield row(4, signed(ICP, 1), "Taken none 0 %s New Spent(4)" % key(1))
    yield row(3, signed(ICP, 1), "Taken none 0 %s Spent(3) Spent(3)" % key(1))
    yield row(2, signed(ICP, 1), "Taken none Spent(2) Spent(2)")
    yield row(1, signed(ICP, 1), "Taken Spent(1) Spent(1) Spent(1)")
    yield row(0, signed(ICP, 1), "Spent(0) Spent(0) Spent(0) Spent(0)")
    # Two passes are given different questions while there are two, and the same one again; who asks for all, or for the
    # first, is given what another one has.
    two = body("icp", kt="2", k=[key(1), key(2)])
    words = "Taken %s %s %s 0 %s New none %s %s" % (key(1), key(2), key(2), key(1), key(2), key(2))
    yield "passes " + argument(signed(two, 1, 2)), words
    yield "passes " + argument(signed(ICP, 1)), "Taken %s none none 0 %s New none none none" % (key(1), key(1))


def rows():
    yield "# questions and verdicts"
    yield from questions()
    yield from order_of_questions()
    yield "# what a pass of a hub reads back"
    yield from read_back()
    yield "# limits"
    yield from limits()
    yield "# refused messages"
    yield from refusals()
    yield "# validators, and cores that wait for neither receipts nor seals"
    yield from modes()
    yield "# commitments, and witnesses"
    yield from commitments()
    yield from witnesses()
    yield from witnessed_log()
    yield "# what is looked at"
    yield from looks()
