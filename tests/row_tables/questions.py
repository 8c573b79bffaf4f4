"""Questions to `rehearse`, and what it answers to them."""
from kit import PLAIN_ICP as ICP, key, primitive, rehearsal, signature
from row_tables.run_calls import run
from stream_cases import RECEIPT


def verdict_question(body, number=1, signature=None, length=None):
    """The question whether a signature, else the rehearsal's, is a key's on a body."""
    signature = signature or primitive("0B", rehearsal(number, body))
    return "V%s%s%s%s" % (key(number), signature, length or "%08x" % len(body), body)


def signing_question(body, number=1):
    return "S%s%08x%s" % (key(number), len(body), body)


def served(text, written, status, close, **settings):
    yield from run("rehearse", written, "%d told=0 %s Source" % (status, close), text, **settings)


def questions():
    """A verdict question on the bare receipt has 286 bytes, and its answer one."""
    verdict = verdict_question(RECEIPT)
    assert len(verdict) == 286 and verdict[133:141] == "00000091"
    signed_receipt = primitive("0B", rehearsal(1, RECEIPT))
    yield from served("", "", 0, "End")
    yield from served(verdict, "Y", 0, "End")
    yield from served(verdict, "Y", 0, "End", piece=1)
    yield from served(verdict_question(RECEIPT, signature=signature("a")), "N", 0, "End")
    yield from served(verdict_question(RECEIPT, 2, signed_receipt), "N", 0, "End")
    yield from served(verdict_question(""), "Y", 0, "End")
    yield from served(signing_question(RECEIPT), signed_receipt, 0, "End")
    yield from served(verdict + signing_question(ICP, 2) + verdict, "Y" + primitive("0B", rehearsal(2, ICP)) + "Y", 0, "End")
    # Cut short; a letter, a key, a signature and a length that are none.
    for other in ("Q", "v", "VE" + verdict[2:], "VDQ" + 42 * "A" + verdict[45:], verdict_question(RECEIPT, signature="AA" + signed_receipt[2:]),
                  verdict_question(RECEIPT, signature="0BE" + 85 * "A"), verdict_question(RECEIPT, length="0000009A"),
                  verdict_question(RECEIPT, length="00010000"), verdict_question(RECEIPT, length="     145"),
                  verdict[:285], verdict[:133], verdict[:1]):
        yield from served(other, "", 3, "Malformed(0)")
        yield from served(verdict + other, "Y", 3, "Malformed(286)")
    yield from served(verdict * 2 + verdict[:200], "YY", 3, "Malformed(572)")
