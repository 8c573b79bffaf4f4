"""Each step of shelf_tool on its files (steps.py): their order, stops and faults at each, and what a stop of the
machine may leave."""
import signal

from shelf_runs import EMPTY, OLD_MARK, check, holds, lines, payloads_of, record, run, shelf, stored
from steps import built, environment, joined, steps_in


class Steps:
    """Runs of the program with the library of steps before the C library."""

    def __init__(self, top):
        self.library, self.trace = built(top), top / "trace"

    def run(self, *words, sent=b"", **wanted):
        return run(*words, sent=sent, env=environment(self.library, **wanted))

    def traced(self, *words, sent=b""):
        """The answer, and the steps."""
        self.trace.unlink(missing_ok=True)
        return self.run(*words, sent=sent, TRACE=self.trace), steps_in(self.trace)


def steps_of_append(payloads, place, number):
    """The steps that the append of payloads takes at the place, with so many before."""
    steps = []
    for payload in payloads:
        number += 1
        steps += [("W", place + 1, record(payload)[1:] + b"\0"), ("S",), ("W", place, b"\1"), ("S",), ("A", b"stored %d\n" % number)]
        place += len(record(payload))
    return steps


def test_order(top, steps):
    """Each write and sync in its order, and an answer only behind them."""
    file = top / "shelf"
    answer, taken = steps.traced("append", file, sent=b"abc\nde\n")
    check("order: answer", answer, (0, stored(1, 2), b""))
    opened = [("S",), ("F",), ("S",)]  # the file as it was found, its folder, and the first sync
    check("order: a new shelf", taken, opened + [("W", 0, EMPTY), ("S",)] + steps_of_append([b"abc", b"de"], 8, 0))
    answer, taken = steps.traced("append", file, sent=b"fgh\n")
    writes = [step for step in taken if step[0] != "F"]
    check("order: appended", writes[-5:], steps_of_append([b"fgh"], 23, 2))
    check("order: before", set(writes[:-5]), {("S",)})
    answer, taken = steps.traced("list", file)
    check("order: list", {step[0] for step in taken}, {"S", "F", "A"})
    old = top / "old"
    old.write_bytes(shelf([b"abc"], OLD_MARK))
    answer, taken = steps.traced("migrate", old, top / "new")
    written = [("C", 0), ("S",), ("W", 0, b"\0"), ("S",), ("W", 1, shelf([b"abc"])[1:]), ("S",), ("W", 0, b"K"), ("S",), ("A", b"stored 1\n")]
    check("order: migrated", joined(taken)[-len(written):], written)


def test_each_stop(top, steps):
    """Killed before each step, with each byte a step of its own or not, and each step failing."""
    before, new = [b"abc", b"x" * 30], [b"de", b"\1\1\1", b"f"]
    for name, wanted, outcome in (("killed", {}, -signal.SIGKILL), ("killed byte by byte", {"CHOPPED": 1}, -signal.SIGKILL),
                                  ("failed", {}, 8), ("failed byte by byte", {"CHOPPED": 1}, 8)):
        cause = "DIE_AT" if outcome < 0 else "FAIL_AT"
        for number in range(1, 500):
            file = top / "shelf"
            file.write_bytes(shelf(before) + b"\1behind")
            status, written, told = steps.run("append", file, sent=lines(new), **wanted, **{cause: number})
            if status == 0:
                break
            answered = written.count(b"\n")
            after = payloads_of(file.read_bytes())
            many = len(after) - len(before) if isinstance(after, list) else -1
            check(f"{name} at {number}: answers", written[:written.rfind(b"\n") + 1], stored(3, 2 + answered))
            check(f"{name} at {number}: status", status == outcome or (status, told) == (6, b"output fault\n"), True)
            check(f"{name} at {number}: the list", (after, answered <= many <= answered + 1), (before + new[:many], True))
            check(f"{name} at {number}: list", run("list", file), (0, lines(before + new[:many]), b""))
            check(f"{name} at {number}: goes on", run("append", file, sent=b"g\n"), (0, b"stored %d\n" % (3 + many), b""))
            check(f"{name} at {number}: gone on", payloads_of(file.read_bytes()), before + new[:many] + [b"g"])
        check(f"{name}: at last", (written, payloads_of(file.read_bytes()), number > 17), (stored(3, 5), before + new, True))


def test_interrupted(top, steps):
    file = top / "shelf"
    run("append", file, sent=b"abc\n")
    check("always interrupted", steps.run("append", file, sent=b"de\n", INTERRUPTED=1), (8, b"", b"disk fault\n"))
    check("interrupted at times", steps.run("append", file, sent=b"de\n", CHOPPED=1), (0, b"stored 2\n", b""))
    check("read byte by byte", steps.run("list", file, CHOPPED=1), (0, b"abc\nde\n", b""))
    holds("interrupted", file, [b"abc", b"de"])


def written_over(file, place, data):
    return file[:place].ljust(place, b"\0") + data + file[place + len(data):]


def images(synced, writes):
    """Files that a stop of the machine may leave of the last synced one and the writes and cuts since: all of them,
    some, the bytes of their ranges any, and any size between."""
    fills = (None, 0, 1, 255)
    for chosen in range(1 << len(writes)):
        for fill in fills:
            file = synced
            for number, step in enumerate(writes):
                if chosen >> number & 1 and step[0] == "C":
                    file = file[:step[1]]
                elif chosen >> number & 1:
                    data = step[2] if fill is None else bytes([fill]) * len(step[2])
                    file = written_over(file, step[1], data)
                    yield written_over(file, step[1], data[:len(data) // 2])
            for size in {len(file), (len(file) + len(synced)) // 2, max(len(synced), len(file) - 1)}:
                yield file[:size]


def moments(steps):
    """After each of the steps: what was synced last, what was written since, and how many answers were given."""
    synced, writes, answered = b"", [], 0
    for step in steps:
        if step[0] in "WC":
            writes = writes + [step]
        elif step[0] == "S":
            for made in writes:
                synced = synced[:made[1]] if made[0] == "C" else written_over(synced, made[1], made[2])
            writes = []
        answered += step[0] == "A"
        yield synced, writes, answered


def test_machine_stops(top, steps):
    """What a stop of the machine may leave at each moment, by the writes and syncs that the program makes."""
    payloads = [b"abc", b"\1" * 9, b"de", b"\1\0\0\0\1\1" * 3]
    _, taken = steps.traced("append", top / "shelf", sent=lines(payloads))
    for moment, (synced, writes, answered) in enumerate(moments(taken)):
        for file in set(images(synced, writes)):
            after = payloads_of(file)
            if isinstance(after, list):
                check(f"machine stops at {moment}", (after, answered <= len(after) <= answered + 1), (payloads[:len(after)], True))
            else:
                check(f"machine stops at {moment}: before it is made", (synced, answered), (b"", 0))


TESTS = [test_order, test_each_stop, test_interrupted, test_machine_stops]
