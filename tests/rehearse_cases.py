#!/usr/bin/env python3
"""Makes the cases under tests/cases in which `rehearse` answers questions on standard input, as docs/FORMATS.md says
it."""
import shutil

from kit import PLAIN_ICP as ICP, primitive, rehearsal
from row_tables.questions import signing_question, verdict_question
from stream_cases import CASES, RECEIPT

VERDICT = verdict_question(RECEIPT)
SIGNATURE = primitive("0B", rehearsal(2, ICP))

# What is read, what is written, the status, and the file that says what else the case has.
QUESTIONS = {
    "no_question": ("", "", 0, None),
    "verdict_and_signature": (VERDICT + signing_question(ICP, 2), "Y" + SIGNATURE, 0, None),
    "question_cut_short": (VERDICT + VERDICT[:200], "Y", 3, None),
    "question_of_another_form": (VERDICT + "Q", "Y", 3, None),
    "full_output": (VERDICT, "", 6, "stdout-full"),
    "closed_output": (VERDICT, "", 6, "stdout-closed"),
    "closed_input": (None, "", 5, "stdin-closed"),
}

if __name__ == "__main__":
    for old in CASES.glob("rehearse_*"):
        shutil.rmtree(old)
    for name, (given, text, status, besides) in QUESTIONS.items():
        case = CASES / ("rehearse_" + name)
        case.mkdir()
        files = {"words": "rehearse\n", "stdin": given, "stdout": text, "status": "%d\n" % status if status else None}
        for file, content in files.items():
            if content is not None:
                (case / file).write_text(content)
        if besides:
            (case / besides).write_text("")
    print(len(QUESTIONS), "cases")
