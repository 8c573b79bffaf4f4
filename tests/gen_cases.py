#!/usr/bin/env python3
"""Makes the cases under tests/cases in which `gen` makes a stream and says how much of it is accepted.

The numbers that must come out are counted here, of the stream that generated.py makes by the same rule.
"""
import pathlib

import generated

CASES = pathlib.Path(__file__).resolve().parent / "cases"
GREATEST = 2**64 - 1


def words(seed, logs, events):
    return ["gen", "--seed", str(seed), "--logs", str(logs), "--events", str(events)]


def line(seed, logs, events):
    """What must be said of a stream, all of which is accepted."""
    messages = [message for log in generated.logs(seed, logs, events) for message in log]
    rotations = sum('"t":"rot"' in message for message in messages)
    counts = (logs, logs * events, rotations, sum(map(len, messages)), len(messages))
    return "gen logs=%d events=%d rotations=%d bytes=%d accepted=%d\n" % counts


# Streams that are made: the seed, how many logs, and how many events each has.
STREAMS = {
    "gen_two_events": (1, 1, 2),
    "gen_one_event": (0, 1, 1),
    "gen_ten_logs": (7, 10, 100),
    "gen_hundred_logs": (7, 100, 100),
    "gen_greatest_seed": (GREATEST, 3, 20),
    "gen_many_logs": (5, 300, 2),
}

# Words in another order or form, and words that aren't in the form.
WRITTEN_OTHERWISE = {
    "gen_options_in_another_order": ["gen", "--events", "2", "--seed", "1", "--logs", "1"],
    "gen_options_with_equals_signs": ["gen", "--seed=1", "--logs", "1", "--events=2"],
}
REFUSED = {
    "gen_leading_zero": words("01", 1, 1),
    "gen_no_logs": words(1, 0, 1),
    "gen_no_events": words(1, 1, 0),
    "gen_too_many_logs": words(1, 1001, 1),
    "gen_too_many_events": words(1, 1, 1001),
    "gen_seed_beyond_64_bits": words(GREATEST + 1, 1, 1),
    "gen_seed_of_21_digits": words(10**20, 1, 1),
    "gen_signed_seed": words("+1", 1, 1),
    "gen_negative_seed": words("-1", 1, 1),
    "gen_negative_seed_with_an_equals_sign": ["gen", "--seed=-1", "--logs", "1", "--events", "1"],
    "gen_seed_in_hexadecimal": words("0x1", 1, 1),
    "gen_empty_seed": words("", 1, 1),
    "gen_option_twice": ["gen", "--seed", "1", "--seed", "1", "--events", "1"],
    "gen_without_events": words(1, 1, 1)[:5],
    "gen_with_a_file": words(1, 1, 1) + ["a"],
    "gen_without_words": ["gen"],
    "gen_option_without_a_value": words(1, 1, 1)[:-1],
}


def write(name, given, written, status=0):
    folder = CASES / name
    folder.mkdir(exist_ok=True)
    (folder / "words").write_text("".join(word + "\n" for word in given))
    (folder / "stdout").write_text(written)
    if status:
        (folder / "status").write_text("%d\n" % status)


if __name__ == "__main__":
    assert line(1, 1, 2) == "gen logs=1 events=2 rotations=0 bytes=1409 accepted=2\n"
    for name, stream in STREAMS.items():
        write(name, words(*stream), line(*stream))
    for name, given in WRITTEN_OTHERWISE.items():
        write(name, given, line(1, 1, 2))
    for name, given in REFUSED.items():
        write(name, given, "words\n", 2)
    print(len(STREAMS) + len(WRITTEN_OTHERWISE) + len(REFUSED), "cases")
