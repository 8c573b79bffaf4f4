#!/usr/bin/env python3
"""Makes the cases under tests/cases in which `witness` serves a file with the rehearsal: what it writes, the status,
and the shelf that it leaves. All three are what `witness_reference.py` answers, a model of a witness that stands apart
from the program.

It makes the samples of `witness` too, and samples/old.shelf: a shelf of version 1 with the bodies of
samples/keripy/log.cesr.
"""
import shutil

from kit import PLAIN_ICP as ICP
from kit import body, receipts, said, signed
from log_cases import REALISTIC
from row_tables.shelf import NEW, OLD, file_of, is_leftover, parsed
from row_tables.witness import JOINING, LEAVING, OTHERS, OTHER_OWN_ROT, OWN, OWN_IXN, OWN_IXN_2, OWN_ROT, OWN_ROT_IXN, payload
from row_tables.witness_calls import WITNESS, Session
from validate_cases import CASES, SAMPLES

WORDS = ["witness", "--helper", "rehearsal", "--prefix", WITNESS, "--shelf", "shelf"]
REFUSED, SEEN, DISK_FAULT = 3, 4, 8
UNSIGNED = OWN_ROT
NEVER_READ = signed(OWN, 1)
# What a stop leaves of a migration, and an old shelf.
LEFTOVER = b"\0SHELF02\1\0"
OLD_SHELF = file_of(OLD, OWN.encode())


def served(messages, shelf=b""):
    """What a witness with the file as its shelf writes of the messages, the status, and the file that it leaves."""
    session = Session().put_in(shelf).start("Ok") if shelf else Session().create()
    written, fates = "", []
    for message in messages:
        fate, made = session.witness.take(message, session.asks, session.signs)
        written += "".join(receipt for _, receipt in made)
        fates.append(fate.split(" ")[0])
    status = SEEN if "Seen" in fates else REFUSED if "Refused" in fates else 0
    return written, status, session.shelf.disk.data


def file(*payloads):
    return file_of(NEW, *payloads)


# The messages, and the shelf that was there before.
SERVED = {
    "inception": ([signed(OWN, 1)], b""),
    "inception_twice": ([signed(OWN, 1)] * 2, b""),
    "log": ([signed(text, 1) for text in (OWN, OWN_IXN, OWN_IXN_2)], b""),
    "log_with_weights_and_wraps": (REALISTIC, b""),
    "event_that_comes_early": ([signed(OWN_IXN, 1), signed(OWN, 1)], b""),
    "event_that_waits": ([signed(OWN_IXN, 1)], b""),
    "events_of_others_witnesses": ([signed(ICP, 1), signed(OTHERS, 1)], b""),
    "own_list_that_changes": ([signed(OWN, 1), signed(LEAVING, 2), signed(OTHERS, 1), signed(JOINING, 2)], b""),
    "superseded_interaction": ([signed(OWN, 1), signed(OWN_IXN, 1), signed(OWN_ROT, 2), signed(OWN_IXN, 1)], b""),
    "second_rotation": ([signed(OWN, 1), signed(OWN_ROT, 2), signed(OTHER_OWN_ROT, 2), signed(OWN_ROT_IXN, 2)], b""),
    "unsigned_event": ([signed(OWN, 1), UNSIGNED], b""),
    "refused_repeat": ([signed(OWN, 1), OWN], b""),
    "receipt": ([signed(OWN, 1), body("rct", d=said(OWN), i=said(OWN)) + receipts(OWN, 1)], b""),
    "nothing": ([], b""),
    "restart": ([signed(OWN_IXN, 1), signed(OWN, 1)], file(payload(OWN, 1))),
    "restart_and_a_second_rotation": ([signed(OTHER_OWN_ROT, 2)], file(payload(OWN, 1), payload(OWN_ROT, 2))),
    "nothing_over_a_shelf": ([], file(payload(OWN, 1), payload(OWN_IXN, 1))),
    "bytes_behind_the_gate": ([signed(OWN_IXN, 1)], file(payload(OWN, 1)) + b"\1\0\0\0\5abc"),
}

# The shelf, and maybe an old one, that don't give a witness: the line.
UNOPENED = {
    "shelf_that_is_none": (b"hello", None, "shelf 0\n"),
    "shelf_of_the_first_version": (file_of(OLD, OWN.encode()), None, "shelf 0\n"),
    "shelf_cut_short": (file(payload(OWN, 1))[:-9], None, "shelf 13\n"),
    "shelf_without_a_log": (file(payload(OWN_IXN, 1)), None, "log 0\n"),
    "shelf_with_bytes_behind_a_body": (file(payload(OWN, 1), payload(OWN_IXN, 1) + b"x"), None, "log 1\n"),
    "old_shelf_that_is_none": (b"", b"KSHELF0", "old 0\n"),
    "old_shelf_of_the_second_version": (b"", file(payload(OWN, 1)), "old 0\n"),
    "old_shelf_and_a_text": (b"my notes, and no shelf\n", OLD_SHELF, "shelf 0\n"),
    "old_shelf_and_two_bytes": (b"ab", OLD_SHELF, "shelf 0\n"),
    "old_shelf_and_seven_bytes_of_the_mark": (NEW[:7], OLD_SHELF, "shelf 0\n"),
    "old_shelf_and_the_mark_behind_a_byte_too_many": (b"\1\1" + NEW[1:], OLD_SHELF, "shelf 0\n"),
    "old_shelf_and_the_rest_of_its_own_mark": (b"\1" + OLD_SHELF[1:], OLD_SHELF, "shelf 0\n"),
    "old_shelf_as_both": (OLD_SHELF, OLD_SHELF, "shelf 0\n"),
    "old_shelf_and_one_cut_short": (file(payload(OWN, 1))[:-9], OLD_SHELF, "shelf 13\n"),
}

# The messages, the shelf, and an old one.
FILLED = {
    "old_shelf": ([signed(OWN, 1)], b"", OLD_SHELF),
    "old_shelf_and_a_leftover": ([signed(OWN_IXN, 1)], LEFTOVER, OLD_SHELF),
    "old_shelf_and_one_byte": ([signed(OWN, 1)], b"x", OLD_SHELF),
    "old_shelf_and_one_byte_of_the_mark": ([signed(OWN, 1)], NEW[:1], OLD_SHELF),
    "old_shelf_and_a_byte_0": ([signed(OWN, 1)], b"\0", OLD_SHELF),
    "old_shelf_and_a_text_behind_a_byte_0": ([signed(OWN, 1)], b"\0my notes, and no shelf\n", OLD_SHELF),
    "old_shelf_and_the_mark_from_its_second_byte": ([signed(OWN, 1)], b"\1" + file(OWN.encode())[1:], OLD_SHELF),
    "old_shelf_and_seven_bytes_of_a_leftover": ([signed(OWN, 1)], b"\1" + NEW[1:7], OLD_SHELF),
    "old_shelf_and_a_second_rotation": ([signed(OTHER_OWN_ROT, 2)], b"", file_of(OLD, OWN.encode(), OWN_ROT.encode())),
    "old_shelf_of_313_bytes": ([], b"", file_of(OLD, ICP.encode())),
}

# What the samples of `witness` serve.
SAMPLE = [signed(OWN, 1), signed(OWN_IXN, 1)]


def write(name, words, files, text, status, left, gone=()):
    case = CASES / ("witness_" + name)
    shutil.rmtree(case, ignore_errors=True)
    for folder, contents in (("in", files), ("left", left)):
        (case / folder).mkdir(parents=True)
        for file_name, content in contents.items():
            (case / folder / file_name).write_bytes(content)
    (case / "words").write_text("".join(word + "\n" for word in words))
    if text:
        (case / "stdout").write_text(text)
    if status:
        (case / "status").write_text("%d\n" % status)
    if gone:
        (case / "gone").write_text("".join(name + "\n" for name in gone))


def bodies_in(stream):
    """The bodies of a stream. Groups hold no brace, so the next one begins the next body."""
    place = stream.find(b"{")
    while place >= 0:
        end = place + int(stream[place + 16:place + 22], 16)
        yield stream[place:end]
        place = stream.find(b"{", end)


def write_sample(name, words, shelf):
    """The words, what is written, and the shelf that is left, where this one is what the file is made of."""
    text, status, after = served(SAMPLE, shelf)
    assert status == 0
    left = SAMPLES / (name + ".left")
    shutil.rmtree(left, ignore_errors=True)
    left.mkdir()
    (left / "shelf").write_bytes(after)
    (SAMPLES / (name + ".words")).write_text("".join(word + "\n" for word in [*WORDS, *words, "witness.cesr"]))
    (SAMPLES / (name + ".stdout")).write_text(text)


def write_samples():
    bodies = list(bodies_in((SAMPLES / "keripy" / "log.cesr").read_bytes()))
    (SAMPLES / "old.shelf").write_bytes(file_of(OLD, *bodies))
    (SAMPLES / "witness.cesr").write_text("".join(SAMPLE))
    write_sample("witness", [], b"")
    write_sample("migrated", ["--from", "old.shelf"], file(*bodies))


def main():
    write_samples()
    for name, (messages, shelf) in SERVED.items():
        text, status, after = served(messages, shelf)
        files = {"a": "".join(messages).encode(), **({"shelf": shelf} if shelf else {})}
        write(name, [*WORDS, "a"], files, text, status, {"shelf": after})
    for name, (shelf, old, line) in UNOPENED.items():
        if old is None or not is_leftover(shelf):
            said = Session().put_in(shelf).start().rows[-1][1]
            assert line == said.replace("NotAShelf(", "shelf ").replace("NotALog(", "log ").replace(")", "\n"), (line, said)
        files = {"a": NEVER_READ.encode(), **({"shelf": shelf} if shelf else {}), **({"old": old} if old is not None else {})}
        write(name, [*WORDS, *(["--from", "old"] if old is not None else []), "a"], files, line, REFUSED, files)
    for name, (messages, shelf, old) in FILLED.items():
        assert is_leftover(shelf), name
        bodies = file_of(NEW, *parsed(OLD, old)[0])
        text, status, after = served(messages, bodies)
        files = {"a": "".join(messages).encode(), "old": old, **({"shelf": shelf} if shelf else {})}
        write(name, [*WORDS, "--from", "old", "a"], files, text, status, {"shelf": after, "old": old})
    # That an old list is no log shows once it is brought over.
    old = file_of(OLD, OWN_IXN.encode())
    files, left = {"a": NEVER_READ.encode(), "old": old}, {"shelf": file(OWN_IXN.encode()), "old": old}
    write("old_shelf_without_a_log", [*WORDS, "--from", "old", "a"], files, "log 0\n", REFUSED, left)
    text, status, after = served([signed(OWN_IXN, 1)], file(payload(OWN, 1)))
    files = {"a": signed(OWN_IXN, 1).encode(), "shelf": file(payload(OWN, 1)), "old": b"no shelf"}
    write("old_shelf_that_is_not_wanted", [*WORDS, "--from", "old", "a"], files, text, status, {"shelf": after, "old": b"no shelf"})
    # An old shelf that isn't there isn't made; where it isn't wanted it need not be there.
    del files["old"]
    write("old_shelf_that_is_missing_and_not_wanted", [*WORDS, "--from", "old", "a"], files, text, status, {"shelf": after}, gone=["old"])
    for name, left in (("old_shelf_that_is_missing", b""), ("old_shelf_that_is_missing_beside_a_leftover", LEFTOVER)):
        files = {"a": NEVER_READ.encode(), **({"shelf": left} if left else {})}
        write(name, [*WORDS, "--from", "old", "a"], files, "", DISK_FAULT, {"shelf": left}, gone=["old"])
    files = {"a": NEVER_READ.encode(), "shelf": UNOPENED["old_shelf_and_a_text"][0]}
    write("old_shelf_that_is_missing_beside_a_text", [*WORDS, "--from", "old", "a"], files, "shelf 0\n", REFUSED, files, gone=["old"])
    print(len(SERVED) + len(UNOPENED) + len(FILLED) + 6, "cases")


if __name__ == "__main__":
    main()
