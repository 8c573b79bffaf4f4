"""Runs whose readers meet: before its first message each waits for the others, for a number of turns at most.

A run's end says whether all of them met. They do where each has a thread of its own, in whatever order the threads run.
They don't where there are fewer of them than are awaited, or where no message comes. A reader that waits in vain does so
for few turns, since each turn lets other programs run.
"""
from row_tables.run_calls import MADE, REPORT, VALIDATE, WATCH, run
from validate_cases import SIGNED

READERS = 3
ENDS = " End" * READERS
# Turns of a reader that waits in vain.
FEW = 1_000


def meeting(text, written, readers, met, **waiting):
    """Three files, and three links, each of which holds the text: one message."""
    for command, lines in ((VALIDATE, written), (WATCH, "")):
        # Three messages are told, and what the one verdict is.
        yield from run(command + ",a,a", lines, "0 told=4%s%s met=%s" % (ENDS, " Source Verifier" * READERS, met), text, gate=readers,
                       **waiting)
        over_links = command[:-1] + "--listen,door,--links,%d" % READERS
        yield from run(over_links, lines, "0 told=4%s Door%s%s met=%s" % (ENDS, " Verifier" * READERS, " link=0" * READERS, met), text,
                       links=READERS, gate=readers, **waiting)


def rows():
    yield "# readers that meet"
    yield from meeting(SIGNED, REPORT, READERS, "yes")
    # Of more readers than there are none meet the others, and each run ends.
    yield from meeting(SIGNED, REPORT, READERS + 1, "no", waits=FEW)
    yield from run(VALIDATE, REPORT, "0 told=2 End %s met=no" % MADE, SIGNED, gate=2, waits=FEW)
    # Without a message none comes to the gate.
    yield from run(VALIDATE + ",a,a", "", "0 told=0%s%s met=no" % (ENDS, " Source Verifier" * READERS), gate=READERS)
    yield from run(VALIDATE, "", "0 told=0 End %s met=no" % MADE, gate=2)
