"""Runs of the program over an outside in memory: what is written, and how the run ends, where a limit is reached or a
call of the outside fails.

A run's end is its status, how many messages and verdicts were told, how each reader closed, and what was made, with a
`!` where that failed.
"""
from kit import PLAIN_ICP as ICP, counter, couples, indexed, rehearsed, signed
from log_cases import CONFLICTING, IXN_1, LOG, REALISTIC, REALISTIC_LINES, log, waits
from row_tables import argument
from row_tables.questions import questions, served, verdict_question
from row_tables.run_calls import (BEHIND, BOTH_LINES, BOTH_MADE, BOTH_ROTATIONS, CHECK, CONVERT, EMPTY, FROM_OLD, FULL, GEN,
                                  ICP_PLAN, IXN_PLAN, MADE, MAKE, READ_FAULT, REPORT, SIGNED_IXN, TWO_SLOTS, UNSIGNED, VALIDATE,
                                  VERIFIER_FAULT, WATCH, WITNESS_MADE, WITNESS_WORDS, bad, run)
from row_tables.shelf import NEW, OLD, file_of
from row_tables.witness import OWN, OWN_IXN, payload, weight
from row_tables.witness import receipt_of as bare_receipt_of
from stream_cases import BARE, RECEIPT, inception_line, malformed
from validate_cases import SIGNED


def made_stream(accepted):
    return "gen logs=1 events=2 rotations=0 bytes=1409 accepted=%d\n" % accepted


def limits_of_made_streams():
    """The inception has 486 bytes and its message 846, the interaction 203 and 563; each message has four
    signatures."""
    yield from run(GEN, made_stream(2), "0 told=10 End")
    for limit, least in (("messages", 2), ("body_bytes", 689), ("signatures", 8), ("stream_bytes", 1409)):
        yield from run(GEN, made_stream(2), "0 told=10 End", **{limit: least})
        yield from run(GEN, made_stream(1), "9 told=5 Full", **{limit: least - 1})
    yield from run(GEN, made_stream(0), "9 told=0 Full", messages=0)
    yield from run(GEN, made_stream(2), "0 told=10 End", body=486)
    yield from run(GEN, made_stream(0), "3 told=0 " + bad(0, "TooLarge"), body=485)
    yield from run(GEN, made_stream(2), "0 told=10 End", message_signatures=4)
    yield from run(GEN, made_stream(0), "3 told=0 End", message_signatures=3)


def limits_of_check():
    # The message that is open where reading stopped has its line.
    for size, written, end in (
        (290, BARE * 2, "0 told=0 End"), (289, BARE + FULL, "9 told=0 Full"), (145, BARE + FULL, "9 told=0 Full"), (144, FULL, "9 told=0 Full"),
        (0, FULL, "9 told=0 Full"),
    ):
        for piece in (1, 4096):
            yield from run(CHECK, written, end + " Source", RECEIPT * 2, stream_bytes=size, piece=piece)
    yield from run(CHECK, "", "0 told=0 End Source", "", stream_bytes=0)
    yield from run(CHECK, BARE, "0 told=0 End Source", RECEIPT, body=145)
    yield from run(CHECK, malformed(0, "too-large"), "3 told=0 %s Source" % bad(0, "TooLarge"), RECEIPT, body=144)
    two = ICP + counter("A", 2) + indexed("AA", "a") + indexed("AB", "b")
    yield from run(CHECK, inception_line(2), "0 told=0 End Source", two, message_signatures=2)
    yield from run(CHECK, "refused 0 0 signatures\n", "3 told=0 End Source", two, message_signatures=1)


def limits_of_validate():
    # Two messages and a verdict are told; the third message is too much though its body is held.
    thrice = SIGNED * 3
    yield from run(VALIDATE, REPORT, "0 told=4 End " + MADE, thrice, messages=3)
    yield from run(VALIDATE, REPORT + FULL, "9 told=3 Full " + MADE, thrice, messages=2)
    yield from run(VALIDATE, REPORT + FULL, "9 told=3 Full " + MADE, thrice, signatures=2)
    yield from run(VALIDATE, FULL, "9 told=0 Full " + MADE, SIGNED, messages=0)
    # Of bytes a body that is held adds none.
    yield from run(VALIDATE, REPORT + FULL, "9 told=3 Full " + MADE, SIGNED * 2 + SIGNED_IXN, body_bytes=299)
    yield from run(VALIDATE, REPORT + FULL, "9 told=2 Full " + MADE, SIGNED + SIGNED_IXN, body_bytes=501)
    yield from run(VALIDATE, log(ICP, IXN_1), "0 told=4 End " + MADE, SIGNED + SIGNED_IXN, body_bytes=502)
    yield from run(VALIDATE, FULL, "9 told=0 Full " + MADE, SIGNED, body_bytes=298)
    # The message that is open where reading stopped isn't taken. One is open until the next body is read whole.
    both, first = len(SIGNED + SIGNED_IXN), len(SIGNED) + 203
    yield from run(VALIDATE, log(ICP, IXN_1), "0 told=4 End " + MADE, SIGNED + SIGNED_IXN, stream_bytes=both)
    for size in (both - 1, first):
        yield from run(VALIDATE, REPORT + FULL, "9 told=2 Full " + MADE, SIGNED + SIGNED_IXN, stream_bytes=size)
    yield from run(VALIDATE, FULL, "9 told=0 Full " + MADE, SIGNED + SIGNED_IXN, stream_bytes=first - 1)
    yield from run(VALIDATE, "refused 0 0 signatures\n", "3 told=0 End " + MADE, SIGNED, message_signatures=0)
    # Without a turn nothing is told; behind the only one the question is left to the last round. No run needs a hundred.
    yield from run(VALIDATE, FULL, "9 told=0 Full " + MADE, SIGNED, turns=0)
    for turns in (1, 2):
        yield from run(VALIDATE, REPORT + FULL, "9 told=2 Full " + MADE, SIGNED, turns=turns)
    yield from run(VALIDATE, REPORT, "0 told=2 End " + MADE, SIGNED, turns=100)
    # A limit comes before a refusal and before a conflict.
    yield from run(VALIDATE, UNSIGNED + FULL, "9 told=0 Full " + MADE, ICP + SIGNED, messages=0)
    yield from run(VALIDATE, BOTH_LINES + FULL, "9 told=6 Full " + MADE, BOTH_ROTATIONS + SIGNED, messages=3)


def limits_of_watch():
    evidence = "".join(CONFLICTING)
    yield from run(WATCH, evidence, "4 told=6 End " + MADE, BOTH_ROTATIONS)
    yield from run(WATCH, evidence, "9 told=6 Full " + MADE, BOTH_ROTATIONS + SIGNED, messages=3)
    yield from run(WATCH, "", "9 told=4 Full " + MADE, BOTH_ROTATIONS, messages=2)
    # Both bodies are written, whatever a message may carry.
    yield from run(WATCH, evidence, "4 told=6 End " + MADE, BOTH_ROTATIONS, message_signatures=1)


def conversions():
    """An item is written as soon as it is whole, and how reading ended is found whether the sink takes the items or
    not."""
    twice = RECEIPT * 2
    for size, written, end in (
        (290, twice, "0 told=0 End"), (289, RECEIPT, "9 told=0 Full"), (145, RECEIPT, "9 told=0 Full"), (144, "", "9 told=0 Full"), (0, "", "9 told=0 Full"),
    ):
        for piece in (1, 4096):
            yield from run(CONVERT, written, end + " Source", twice, stream_bytes=size, piece=piece)
    yield from run(CONVERT, "", "0 told=0 End Source", "", stream_bytes=0)
    yield from run(CONVERT, SIGNED, "0 told=0 End Source", SIGNED, body=299)
    yield from run(CONVERT, "", "3 told=0 %s Source" % bad(0, "TooLarge"), SIGNED, body=298)
    # A message may have more signatures than one that is judged.
    yield from run(CONVERT, SIGNED, "0 told=0 End Source", SIGNED, message_signatures=0)
    yield from run(CONVERT, RECEIPT, "3 told=0 %s Source" % bad(145, "NoStart"), RECEIPT + "x" + RECEIPT)
    yield from run(CONVERT, RECEIPT, "3 told=0 %s Source" % bad(145, "Truncated"), RECEIPT + RECEIPT[:-1])
    yield from run(CONVERT, "", "5 told=0 ReadFault Source", twice, reads=0)
    yield from run(CONVERT, RECEIPT, "5 told=0 ReadFault Source", twice, reads=1, piece=145)
    yield from run(CONVERT, RECEIPT, "5 told=0 ReadFault Source", twice, reads=1, piece=200)
    yield from run(CONVERT, twice, "5 told=0 ReadFault Source", twice, reads=2, piece=145)
    yield from run(CONVERT, twice, "5 told=0 ReadFault Source", twice, stream_bytes=290, reads=1)
    yield from run(CONVERT, "", "5 told=0 ReadFault Source!", twice, makings=0)
    yield from run("convert,--to,text,b", "", "5 told=0 ReadFault Source!", twice)
    for stream, end in ((twice, "End"), (twice + "x", bad(290, "NoStart"))):
        yield from run(CONVERT, "", "6 told=0 %s Source" % end, stream, puts=0)
        yield from run(CONVERT, RECEIPT, "6 told=0 %s Source" % end, stream, puts=1)
    yield from run(CONVERT, "", "6 told=0 Full Source", twice, puts=0, stream_bytes=289)
    yield from run(CONVERT, "", "6 told=0 ReadFault Source", twice, puts=0, piece=145, reads=1)
    yield from run(CONVERT, "", "0 told=0 End Source", "", puts=0)
    # In binary: places are bytes, and a byte of a dash behind a body begins a group that is cut short.
    binary_group = bytes.fromhex("f80000")
    yield from run(CONVERT, RECEIPT + "-AAA", "0 told=0 End Source", RECEIPT.encode() + binary_group)
    for front, rest, reason in ((b"", b"\xf8", "Truncated"), (binary_group, b"\xf8\0", "Truncated"), (binary_group, b"\xfc\0\0", "NoStart")):
        written = RECEIPT + "-AAA" * (len(front) // 3)
        yield from run(CONVERT, written, "3 told=0 %s Source" % bad(145 + len(front), reason), RECEIPT.encode() + front + rest)
    yield from run("convert,--to,cbor,a", "words\n", "2 told=0", RECEIPT)


def makings():
    yield from run(CHECK, READ_FAULT, "5 told=0 ReadFault Source!", RECEIPT, makings=0)
    yield from run("check,b", READ_FAULT, "5 told=0 ReadFault Source!", RECEIPT)
    for words, of_source, of_verifier in ((VALIDATE, READ_FAULT, VERIFIER_FAULT), (WATCH, "", "")):
        yield from run(words, of_source, "5 told=0 ReadFault Source! Verifier", BOTH_ROTATIONS, makings=0)
        yield from run(words, of_verifier, "7 told=0 VerifierFault Source Verifier!", BOTH_ROTATIONS, makings=1)
        yield from run(words, of_source, "5 told=0 ReadFault Source! Verifier!", BOTH_ROTATIONS, makings="0,1")
    yield from run(GEN, made_stream(2), "0 told=10 End", makings="0,1")
    yield from run("check", "words\n", "2 told=0", RECEIPT, makings=0)


def puts():
    yield from run(CHECK, "", "6 told=0 End Source", RECEIPT, puts=0)
    yield from run(VALIDATE, "", "6 told=2 End " + MADE, SIGNED, puts=0)
    yield from run(WATCH, "", "6 told=6 End " + MADE, BOTH_ROTATIONS, puts=0)
    yield from run(GEN, "", "6 told=10 End", puts=0)
    yield from run("", "", "6 told=0", puts=0)
    # Nothing is put where there is nothing to say, and never a second time.
    yield from run(WATCH, "", "0 told=2 End " + MADE, SIGNED, puts=0)
    yield from run(VALIDATE, REPORT, "0 told=2 End " + MADE, SIGNED, puts=1)
    # It comes before any other fault.
    yield from run(CHECK, "", "6 told=0 ReadFault Source!", RECEIPT, puts=0, makings=0)
    yield from run(VALIDATE, "", "6 told=0 VerifierFault Source Verifier!", SIGNED, puts=0, makings=1)
    yield from run(VALIDATE, "", "6 told=0 Full " + MADE, SIGNED, puts=0, messages=0)


def reads():
    """The first read fails, the one behind all bytes, and one within the inception's signature, behind its body."""
    cuts = [{"reads": 0}, {"reads": 1}, {"reads": 3, "piece": 100}]
    for cut, written in zip(cuts, ("", inception_line(1), inception_line(0))):
        yield from run(CHECK, written + READ_FAULT, "5 told=0 ReadFault Source", SIGNED, **cut)
    for cut, written, told in zip(cuts, ("", REPORT, UNSIGNED), (0, 2, 0)):
        yield from run(VALIDATE, written + READ_FAULT, "5 told=%d ReadFault %s" % (told, MADE), SIGNED, **cut)
    yield from run(WATCH, "", "5 told=0 ReadFault " + MADE, BOTH_ROTATIONS, reads=0)
    # What was read is written all the same; the fault comes before a conflict.
    yield from run(WATCH, "".join(CONFLICTING), "5 told=6 ReadFault " + MADE, BOTH_ROTATIONS, reads=1)
    yield from run(VALIDATE, BOTH_LINES + READ_FAULT, "5 told=6 ReadFault " + MADE, BOTH_ROTATIONS, reads=1)
    # Where as many bytes were read as may be, the read that looks for more fails.
    yield from run(CHECK, BARE + READ_FAULT, "5 told=0 ReadFault Source", RECEIPT, reads=1, stream_bytes=145)


def asks():
    """Each message of the log has two signatures and three receipts."""
    stream, prior = "".join(REALISTIC), LOG[0]
    yield from run(VALIDATE, REALISTIC_LINES, "0 told=36 End " + MADE, stream)
    yield from run(VALIDATE, REALISTIC_LINES, "0 told=36 End " + MADE, stream, piece=1)
    for ask, why in ((4, "receipts"), (1, "signatures"), (0, "signatures")):
        yield from run(VALIDATE, waits(prior, why) + VERIFIER_FAULT, "7 told=%d VerifierFault %s" % (ask + 1, MADE), stream, asks=ask)
    yield from run(VALIDATE, log(prior, keys=3, witnesses=4, toad=3) + waits(LOG[1], "signatures") + VERIFIER_FAULT,
                   "7 told=7 VerifierFault " + MADE, stream, asks=5)
    yield from run(VALIDATE, REALISTIC_LINES, "0 told=36 End " + MADE, stream, asks=30)
    # The fault comes before a refusal, and no later message is taken; a watcher's evidence is what was found until
    # then.
    yield from run(VALIDATE, UNSIGNED + waits(ICP, "signatures") + VERIFIER_FAULT, "7 told=1 VerifierFault " + MADE, ICP + SIGNED, asks=0)
    yield from run(WATCH, "", "7 told=5 VerifierFault " + MADE, BOTH_ROTATIONS, asks=2)
    yield from run(WATCH, "".join(CONFLICTING), "7 told=7 VerifierFault " + MADE, BOTH_ROTATIONS + SIGNED_IXN, asks=3)


def faults_over_a_log():
    """The log has 5,186 bytes, so the third read is the one behind them all."""
    stream = "".join(REALISTIC)
    assert 4_096 < len(stream) < 8_192
    yield from run(VALIDATE, READ_FAULT, "5 told=0 ReadFault Source! Verifier", stream, makings=0)
    yield from run(VALIDATE, READ_FAULT, "5 told=0 ReadFault " + MADE, stream, reads=0)
    yield from run(VALIDATE, REALISTIC_LINES + READ_FAULT, "5 told=36 ReadFault " + MADE, stream, reads=2)
    yield from run(VALIDATE, VERIFIER_FAULT, "7 told=0 VerifierFault Source Verifier!", stream, makings=1)
    yield from run(VALIDATE, "", "6 told=36 End " + MADE, stream, puts=0)


def helpers():
    """Verdicts are the helper's: of one that says no to all, and of one that says yes to all."""
    yield from run(VALIDATE, waits(ICP, "signatures"), "0 told=2 End " + MADE, SIGNED, says="no")
    yield from run(VALIDATE, REPORT, "0 told=2 End " + MADE, ICP + "-AAB" + indexed("AA", "a"), says="yes")
    yield from run(VALIDATE, waits(ICP, "signatures"), "0 told=2 End " + MADE, ICP + "-AAB" + rehearsed(2, ICP))
    yield from run(WATCH, "", "0 told=4 End " + MADE, BOTH_ROTATIONS, says="no")
    # Any name is a helper's; there is none of this one.
    yield from run(VALIDATE.replace("rehearsal", "b"), VERIFIER_FAULT, "7 told=0 VerifierFault Source Verifier!", SIGNED)
    yield from run(MAKE.replace("rehearsal", "b"), "", "7 told=0 End Source Signer!", plan=ICP_PLAN)


def messages_of_plans():
    """A message without a log, and one behind a log, which has two entries once it is read."""
    yield from run(MAKE, SIGNED, "0 told=0 End Source Signer", plan=ICP_PLAN)
    yield from run(MAKE, SIGNED, "0 told=0 End Source Signer", plan=ICP_PLAN, piece=1)
    yield from run(BEHIND, SIGNED_IXN, "0 told=2 End End " + BOTH_MADE, SIGNED, IXN_PLAN)
    yield from run(BEHIND, SIGNED, "0 told=0 End End " + BOTH_MADE, "", ICP_PLAN)
    yield from run(MAKE, "plan line 2\n", "3 told=0 End Source Signer", plan="kind icp\ncode X\n")
    yield from run(MAKE, "plan log\n", "3 told=0 End Source Signer", plan=IXN_PLAN)
    yield from run(BEHIND, "plan log\n", "3 told=0 End End " + BOTH_MADE, ICP, ICP_PLAN)
    # The signer is asked for nothing that the log couldn't take.
    yield from run(MAKE, "plan unsigned\n", "3 told=0 End Source Signer", plan=ICP_PLAN + "sign 1 -\n", signings=0)


def faults_of_make():
    # A making that fails keeps no other from being tried, and both texts are read all the same.
    yield from run(MAKE, "", "5 told=0 ReadFault Source! Signer", plan=ICP_PLAN, makings=0)
    yield from run(MAKE, "", "7 told=0 End Source Signer!", plan=ICP_PLAN, makings=1)
    yield from run(MAKE, "", "5 told=0 ReadFault Source! Signer!", plan=ICP_PLAN, makings="0,1")
    yield from run(BEHIND, "", "5 told=2 ReadFault End Source! Source Verifier Signer", SIGNED, IXN_PLAN, makings=0)
    yield from run(BEHIND, "", "5 told=0 End ReadFault Source Source! Verifier Signer", SIGNED, IXN_PLAN, makings=1)
    yield from run(BEHIND, "", "7 told=0 End VerifierFault Source Source Verifier! Signer", SIGNED, IXN_PLAN, makings=2)
    yield from run(BEHIND, "", "7 told=2 End End Source Source Verifier Signer!", SIGNED, IXN_PLAN, makings=3)
    yield from run(BEHIND, "", "5 told=0 ReadFault ReadFault Source! Source! Verifier! Signer!", SIGNED, IXN_PLAN, makings="0,1,2,3")
    # A plan that would be refused isn't, where something failed.
    yield from run(MAKE, "", "7 told=0 End Source Signer!", plan="kind icp", makings=1)
    yield from run(BEHIND, "", "7 told=0 End End Source Source Verifier Signer!", ICP, ICP_PLAN, makings=3)
    for reads in (0, 1):
        yield from run(MAKE, "", "5 told=0 ReadFault Source Signer", plan=ICP_PLAN, plan_reads=reads)
        yield from run(BEHIND, "", "5 told=2 ReadFault End " + BOTH_MADE, SIGNED, IXN_PLAN, plan_reads=reads)
    yield from run(BEHIND, "", "5 told=0 End ReadFault " + BOTH_MADE, SIGNED, IXN_PLAN, reads=0)
    yield from run(BEHIND, "", "5 told=2 End ReadFault " + BOTH_MADE, SIGNED, IXN_PLAN, reads=1)
    yield from run(BEHIND, "", "7 told=1 End VerifierFault " + BOTH_MADE, SIGNED, IXN_PLAN, asks=0)
    yield from run(MAKE, "", "7 told=0 End Source Signer", plan=ICP_PLAN, signings=0)
    yield from run(MAKE, "", "7 told=0 End Source Signer", plan=TWO_SLOTS, signings=1)
    yield from run(BEHIND, "", "7 told=2 End End " + BOTH_MADE, SIGNED, IXN_PLAN, signings=0)
    yield from run(MAKE, "", "6 told=0 End Source Signer", plan=ICP_PLAN, puts=0)
    yield from run(MAKE, "", "6 told=0 End Source Signer", plan="kind icp", puts=0)
    # Nothing is put where nothing is due.
    yield from run(MAKE, "", "7 told=0 End Source Signer", plan=ICP_PLAN, signings=0, puts=0)


def limits_of_make():
    size, most = len(ICP_PLAN), len(SIGNED)
    yield from run(MAKE, SIGNED, "0 told=0 End Source Signer", plan=ICP_PLAN, stream_bytes=size)
    yield from run(MAKE, "", "9 told=0 Full Source Signer", plan=ICP_PLAN, stream_bytes=size - 1)
    yield from run(MAKE, "plan line 1\n", "3 told=0 End Source Signer", plan="", stream_bytes=0)
    yield from run(MAKE, "", "5 told=0 ReadFault Source Signer", plan=ICP_PLAN, stream_bytes=size, plan_reads=1)
    yield from run(BEHIND, SIGNED_IXN, "0 told=2 End End " + BOTH_MADE, SIGNED, IXN_PLAN, stream_bytes=most)
    yield from run(BEHIND, "", "9 told=0 End Full " + BOTH_MADE, SIGNED, IXN_PLAN, stream_bytes=most - 1)
    yield from run(BEHIND, "", "9 told=0 End Full " + BOTH_MADE, SIGNED, IXN_PLAN, messages=0)


def faults_of_rehearse():
    """What was answered before a fault or a limit stays written."""
    verdict = verdict_question(RECEIPT)
    yield from run("rehearse", "", "5 told=0 ReadFault Source!", verdict, makings=0)
    yield from served(verdict, "", 5, "ReadFault", reads=0)
    yield from served(verdict * 2, "Y", 5, "ReadFault", piece=1, reads=286)
    yield from served(verdict, "", 6, "WriteFault", puts=0)
    yield from served(verdict * 3, "Y", 6, "WriteFault", puts=1)
    yield from served(verdict, "Y", 0, "End", stream_bytes=286)
    yield from served(verdict, "", 9, "Full", stream_bytes=285)
    yield from served(verdict * 2, "Y", 9, "Full", stream_bytes=286)
    yield from served("", "", 0, "End", stream_bytes=0)
    yield from run("rehearse,a", "words\n", "2 told=0", verdict)


def receipt_of(text):
    return bare_receipt_of(text) + couples(text, 1)


def witnesses():
    """A new shelf, one that is taken up, and one that is filled with an old one's list; a foreign file, which isn't; and
    disks that fail, or aren't there."""
    shelf, old = argument(file_of(NEW, payload(OWN, 1))), argument(file_of(OLD, OWN.encode()))
    first, second, both = signed(OWN, 1), signed(OWN_IXN, 1), signed(OWN, 1) + signed(OWN_IXN, 1)
    for words in (WITNESS_WORDS + ",a", FROM_OLD):
        yield from run(words, receipt_of(OWN_IXN), "0 told=2 End Disk " + WITNESS_MADE, second, shelf=shelf)
        yield from run(words, "", "8 told=0 Disk!", first)
        yield from run(words, "", "8 told=0 Disk!", first, shelf=shelf, makings=0)
        yield from run(words, "", "8 told=0 Disk", first, shelf=shelf, shelf_calls=0)
    yield from run(WITNESS_WORDS + ",a", receipt_of(OWN) + receipt_of(OWN_IXN), "0 told=4 End Disk " + WITNESS_MADE, both, shelf=EMPTY)
    yield from run(WITNESS_WORDS + ",a", "", "9 told=0 Full Disk " + WITNESS_MADE, first, shelf=EMPTY, messages=0)
    yield from run(WITNESS_WORDS + ",a", "shelf 0\n", "3 told=0 Disk", first, shelf=old)
    yield from run(FROM_OLD, receipt_of(OWN_IXN), "0 told=2 End Disk OldDisk " + WITNESS_MADE, second, shelf=EMPTY, old=old)
    for left in (b"x", b"\0SHELF02", b"\1SHEL"):
        yield from run(FROM_OLD, receipt_of(OWN_IXN), "0 told=2 End Disk OldDisk " + WITNESS_MADE, second, shelf=argument(left), old=old)
    for foreign in (b"KS", b"foreign\n", file_of(OLD, OWN.encode())):
        yield from run(FROM_OLD, "shelf 0\n", "3 told=0 Disk", first, shelf=argument(foreign), old=old)
    yield from run(FROM_OLD, "old 0\n", "3 told=0 Disk OldDisk", first, shelf=EMPTY, old=shelf)
    yield from run(FROM_OLD, "", "8 told=0 Disk OldDisk!", first, shelf=EMPTY)
    yield from run(FROM_OLD, "", "8 told=0 Disk OldDisk!", first, shelf=EMPTY, old=old, makings=1)
    yield from run(FROM_OLD, "", "8 told=0 Disk OldDisk", first, shelf=EMPTY, old=old, old_calls=0)


def limits_of_witness():
    """Of records and of the shelf's bytes: what has no room on the shelf isn't told, and nothing is read behind it."""
    first, both = signed(OWN, 1), signed(OWN, 1) + signed(OWN_IXN, 1)
    made, written, held = " Disk " + WITNESS_MADE, receipt_of(OWN), file_of(NEW, payload(OWN, 1))
    # An empty shelf has 9 bytes.
    needed = 9 + weight(OWN)
    yield from run(WITNESS_WORDS + ",a", written, "0 told=2 End" + made, first, shelf=EMPTY, records=1, shelf_bytes=needed)
    for limit in ({"records": 0}, {"shelf_bytes": needed - 1}):
        yield from run(WITNESS_WORDS + ",a", "", "9 told=0 Full" + made, first, shelf=EMPTY, **limit)
    for limit in ({"records": 1}, {"shelf_bytes": needed}):
        yield from run(WITNESS_WORDS + ",a", written, "9 told=2 Full" + made, both, shelf=EMPTY, **limit)
        yield from run(WITNESS_WORDS + ",a", "", "9 told=0 Full" + made, signed(OWN_IXN, 1), shelf=argument(held), **limit)
    # A shelf that is over the limits isn't opened.
    for limit in ({"records": 0}, {"shelf_bytes": len(held) - 1}):
        yield from run(WITNESS_WORDS + ",a", "", "9 told=0 Disk", first, shelf=argument(held), **limit)


def several_files():
    """The same file read by several readers, each with a verifier of its own: what is told doesn't depend on which
    comes first."""
    twice, thrice = VALIDATE + ",a", VALIDATE + ",a,a"
    two, three = MADE + " " + MADE, MADE + " " + MADE + " " + MADE
    stream, faults = "".join(REALISTIC), "fault 0 verifier\nfault 1 verifier\n"
    yield from run(twice, REPORT, "0 told=3 End End " + two, SIGNED)
    yield from run(thrice, REALISTIC_LINES, "0 told=48 End End End " + three, stream)
    yield from run(thrice, REALISTIC_LINES, "0 told=48 End End End " + three, stream, piece=1)
    yield from run(WATCH + ",a", "".join(CONFLICTING), "4 told=9 End End " + two, BOTH_ROTATIONS)
    yield from run(twice, "refused 0 0 unsigned\nrefused 1 0 unsigned\n", "3 told=0 End End " + two, ICP + "-AAA")
    yield from run(twice + ",b", REPORT + "fault 2 read\n", "5 told=3 End End ReadFault %s Source! Verifier" % two, SIGNED)
    yield from run(twice, REPORT + READ_FAULT, "5 told=2 ReadFault End Source! Verifier " + MADE, SIGNED, makings=0)
    yield from run(twice, REPORT + VERIFIER_FAULT, "7 told=2 VerifierFault End Source Verifier! " + MADE, SIGNED, makings=1)
    yield from run(twice, waits(ICP, "signatures") + faults, "7 told=2 VerifierFault VerifierFault " + two, SIGNED, asks=0)
    yield from run(twice, "", "6 told=3 End End " + two, SIGNED, puts=0)
    yield from run(VALIDATE + ",a" * 64, "words\n", "2 told=0", SIGNED)


def links():
    """Links of one door: as files, each of which holds the same; fewer than were wanted; and makings, calls and puts
    that fail."""
    for command, written, end in ((VALIDATE, REPORT, "0 told=3"), (WATCH, "", "0 told=3")):
        words = command[:-1] + "--listen,door,--links,2"
        one = "0 told=2 End Door Verifier link=0"
        yield from run(words, written, end + " End End Door Verifier Verifier link=0 link=0", SIGNED, links=2)
        yield from run(words, written, end + " End End Door Verifier Verifier link=0 link=0", SIGNED, links=3)
        yield from run(words, written, one, SIGNED, links=1)
        yield from run(words, written, one.replace("0", "5", 1), SIGNED, links=2, door_calls=1)
        yield from run(words, "", "0 told=0 Door", SIGNED, links=0)
        yield from run(words, "", "5 told=0 Door", SIGNED, links=2, door_calls=0)
        yield from run(words, "", "5 told=0 Door!", SIGNED, links=2, makings=0)
        yield from run(words.replace("door", "wall"), "", "5 told=0 Door!", SIGNED, links=2)
    words, made = VALIDATE[:-1] + "--listen,door,--links,2", "Door Verifier Verifier link=0 link=0"
    for link, ends in ((0, "ReadFault End"), (1, "End ReadFault")):
        yield from run(words, REPORT + "fault %d read\n" % link, "5 told=2 %s %s" % (ends, made), SIGNED, links=2, reads=0, at_link=link)
    yield from run(words, REPORT + VERIFIER_FAULT, "7 told=2 VerifierFault End Door Verifier! Verifier link=0 link=0", SIGNED, links=2, makings=1)


def served_links():
    """A witness over links: the receipts go to the link by which the event came, whatever became of the one before."""
    first, sent = signed(OWN, 1), len(receipt_of(OWN))
    words, made = WITNESS_WORDS + ",--listen,door,--links,2", " Disk Door Verifier Signer"
    yield from run(words, "", "0 told=3 End End%s link=%d link=%d" % (made, sent, sent), first, shelf=EMPTY, links=2)
    yield from run(words, "", "0 told=2 End%s link=%d" % (made, sent), first, shelf=EMPTY, links=1)
    yield from run(words, "", "0 told=0 End%s" % made, first, shelf=EMPTY, links=0)
    yield from run(words, "", "5 told=2 End%s link=%d" % (made, sent), first, shelf=EMPTY, links=2, door_calls=1)
    yield from run(words, "", "6 told=3 WriteFault WriteFault%s link=0 link=0" % made, first, shelf=EMPTY, links=2, link_puts=0)
    yield from run(words, "", "5 told=0 ReadFault ReadFault%s link=0 link=0" % made, first, shelf=EMPTY, links=2, reads=0)
    # A fault of one link leaves the other as it is.
    for link, ends in ((0, "ReadFault End"), (1, "End ReadFault")):
        lengths = "link=%d link=%d" % (sent * link, sent * (1 - link))
        yield from run(words, "", "5 told=2 %s%s %s" % (ends, made, lengths), first, shelf=EMPTY, links=2, reads=0, at_link=link)
        yield from run(words, "", "6 told=3 %s%s %s" % (ends.replace("Read", "Write"), made, lengths), first, shelf=EMPTY, links=2, link_puts=0,
                       at_link=link)
    yield from run(words, "", "7 told=1 VerifierFault%s link=0" % made, first, shelf=EMPTY, links=2, asks=0)
    yield from run(words, "", "7 told=2 SignerFault%s link=0" % made, first, shelf=EMPTY, links=2, signings=0)
    yield from run(words, "", "9 told=0 Full%s link=0" % made, first, shelf=EMPTY, links=2, messages=0)
    yield from run(words, "", "5 told=0 End Disk Door!", first, shelf=EMPTY, links=2, makings=1)
    yield from run(words, "", "7 told=0 VerifierFault Disk Door Verifier!", first, shelf=EMPTY, links=2, makings=2)
    yield from run(words, "", "7 told=0 SignerFault%s!" % made, first, shelf=EMPTY, links=2, makings=3)
    yield from run(words, "", "8 told=0 Disk!", first, shelf=EMPTY, links=2, makings=0)


def rows():
    yield "# limits"
    yield from limits_of_made_streams()
    yield from limits_of_check()
    yield from limits_of_validate()
    yield from limits_of_watch()
    yield from limits_of_make()
    yield "# makings, puts, reads and asks that fail"
    yield from makings()
    yield from puts()
    yield from reads()
    yield from asks()
    yield from faults_over_a_log()
    yield from faults_of_make()
    yield from faults_of_rehearse()
    yield "# conversions"
    yield from conversions()
    yield "# helpers"
    yield from helpers()
    yield "# questions to the rehearsal"
    yield from questions()
    yield "# messages of plans"
    yield from messages_of_plans()
    yield "# witnesses"
    yield from witnesses()
    yield from limits_of_witness()
    yield "# several files"
    yield from several_files()
    yield "# links"
    yield from links()
    yield from served_links()
