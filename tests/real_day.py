"""A day with real keys: two controllers, the second of whom stands under the first, and three witnesses of both.

Each has keys in a folder of their own, which a helper makes and signs with. The program makes the events; the receipts
in the day's stream are asked of the witnesses' helpers here. Each witness has a place for a shelf too, over which the
program may be run as that witness.
"""
import collections
import subprocess

from ed25519_helper import Helper, environment
from kit import CHARACTERS, body, counter, said
from life import HEAD, SIGN, plan, prefix, sealing
from log_cases import by_prefix, field, log

SECONDS = 60
BOTH = ["sign 0 0", "sign 1 1"]

# A key, and of one that an event is to promise the digest by which it does.
Key = collections.namedtuple("Key", "text digest", defaults=[None])


class Party:
    """Who has keys in a folder."""

    def __init__(self, helper, folder):
        self.helper, self.folder = helper, folder

    def told(self, *words):
        """The lines that the helper writes of the folder."""
        words = [self.helper, words[0], self.folder, *words[1:]]
        return subprocess.run(words, stdout=subprocess.PIPE, check=True, text=True).stdout.splitlines()

    def new(self, *words):
        """A key that is presented at once."""
        [line] = self.told("new", *words)
        return Key(line.removeprefix("key "))

    def next(self):
        """A key that an event promises, and a rotation presents: the key is shown behind its digest."""
        [line] = self.told("next", "--sha256")
        shown = self.told("show")
        return Key(shown[shown.index(line) + 1].removeprefix("key "), line.removeprefix("next "))

    def allow(self, key, text):
        """Lets the key sign an event though it has signed another one for its place."""
        subprocess.run([self.helper, "allow", self.folder, key.text, said(text)], check=True)


class Witness(Party):
    def __init__(self, helper, folder):
        super().__init__(helper, folder)
        self.key, self.shelf = self.new("--witness").text, folder.with_suffix(".shelf")

    def receipt(self, text):
        """Its signature on an event."""
        with Helper([self.helper], self.folder) as asked:
            return asked.sign(self.key, text)


class Log:
    """The events of a controller, the messages as they were made, and those with their receipts."""

    def __init__(self, day, party):
        self.day, self.party, self.events, self.made, self.messages = day, party, [], [], []

    def make(self, kind, *lines):
        """The message of the event that a plan with these lines asks for, behind the log."""
        of = [prefix(self.events[0])] if self.events else []
        return self.day.make(self.party, plan(kind, *HEAD, *of, *lines), "".join(self.messages))

    def make_second(self, before, key, following):
        """Another rotation to the key behind the messages before. The helper refuses it, until it is allowed."""
        of = {"i": said(self.events[0]), "s": "%x" % len(before), "p": said(self.events[len(before) - 1])}
        text = plan("rot", *HEAD, prefix(self.events[0]), *key_lines([key], [following]), "bt 2", SIGN)
        self.refusal = self.day.try_to_make(self.party, text, "".join(before))
        self.party.allow(key, body("rot", **of, k=[key.text], n=[following.digest], bt="2"))
        return self.day.make(self.party, text, "".join(before))

    def add(self, form, kind, *lines):
        """Makes an event, and puts it and its receipts in this form behind the others."""
        self.made.append(self.make(kind, *lines))
        text, group = parts(self.made[-1])
        self.events.append(text)
        self.messages.append(form(text, group))
        return self.messages[-1]


class Day:
    """What the program, the helper, and the parties' folders are."""

    def __init__(self, program, helper, folder):
        self.program, self.helper, self.folder = program, helper, folder
        self.witnesses = [Witness(helper, folder / f"witness{number}") for number in range(3)]
        self.anna, self.ben = (Log(self, Party(helper, folder / name)) for name in ("anna", "ben"))

    def run(self, command, given, *words, keys=None, helper=None, stderr=None):
        """What the program writes, and its status. Characters are bytes."""
        words = [self.program, command, "--helper", helper or self.helper, *words]
        done = subprocess.run(words, input=given.encode("latin-1"), stdout=subprocess.PIPE, stderr=stderr, env=environment(keys),
                              timeout=SECONDS)
        return done.stdout.decode("latin-1"), done.returncode

    def try_to_make(self, party, text, log):
        """What `make` writes, and its status. What the helper says isn't shown."""
        (self.folder / "log").write_text(log)
        return self.run("make", text, "--plan", "-", "--log", self.folder / "log", keys=party.folder, stderr=subprocess.DEVNULL)

    def make(self, party, text, log):
        message, status = self.try_to_make(party, text, log)
        if status:
            raise SystemExit(f"make ended with {status} and wrote {message!r}")
        return message

    def validate(self, stream, helper=None):
        return self.run("validate", stream, "-", helper=helper)

    def watch(self, stream):
        return self.run("watch", stream, "-")

    def witness(self, witness, stream, shelf=None):
        """What the program writes as this witness, over its shelf or another one."""
        words = ["--prefix", witness.key, "--shelf", shelf or witness.shelf, "-"]
        return self.run("witness", stream, *words, keys=witness.folder, stderr=subprocess.DEVNULL)

    # The forms of receipts. Two are wanted.

    def by_index(self, text, *numbers):
        receipts = ["A" + CHARACTERS[number] + self.witnesses[number].receipt(text)[2:] for number in numbers]
        return counter("B", len(receipts)) + "".join(receipts)

    def by_key(self, text, *numbers):
        receipts = [self.witnesses[number].key + self.witnesses[number].receipt(text) for number in numbers]
        return counter("C", len(receipts)) + "".join(receipts)

    def with_one_more(self, text, group):
        return text + group + self.by_index(text, 0, 1, 2)

    def with_couples(self, text, group):
        return text + group + self.by_key(text, 0, 1)

    def in_a_wrap(self, text, group):
        groups = group + self.by_index(text, 0, 2)
        return text + counter("V", len(groups) // 4) + groups

    def apart(self, text, group):
        return text + group + self.receipt(text, 1, 2)

    def receipt(self, text, *numbers):
        """A message with the receipts of these witnesses."""
        return body("rct", d=said(text), i=field(text, "i"), s=field(text, "s")) + self.by_key(text, *numbers)


def parts(message):
    """The body of a message, and the groups behind it."""
    size = int(message[16:22], 16)
    return message[:size], message[size:]


def key_lines(keys, following):
    return ["key " + key.text for key in keys] + ["next " + key.digest for key in following]


def live(day):
    """Has the two controllers make their events. Answers the stream of all, and another rotation that the first
    controller signs for the place of the one in it."""
    anna, ben = day.anna, day.ben
    one = [anna.party.new(), *(anna.party.next() for _ in range(3))]
    two = [[ben.party.new(), ben.party.new()], *([ben.party.next(), ben.party.next()] for _ in range(2))]
    witnessed = ["add " + witness.key for witness in day.witnesses] + ["bt 2"]
    stream = anna.add(day.with_one_more, "icp", *key_lines(one[:1], one[1:2]), *witnessed, SIGN)
    stream += ben.add(day.apart, "dip", "di " + said(anna.events[0]), *key_lines(two[0], two[1]), *witnessed, *BOTH)
    stream += anna.add(day.in_a_wrap, "ixn", sealing(ben.events[0]), SIGN)
    before = list(anna.messages)
    stream += anna.add(day.with_couples, "rot", *key_lines(one[1:2], one[2:3]), "bt 2", SIGN)
    other = anna.make_second(before, one[1], one[3])
    stream += ben.add(day.apart, "drt", *key_lines(two[1], two[2]), "bt 2", *BOTH)
    stream += anna.add(day.in_a_wrap, "ixn", sealing(ben.events[1]), SIGN)
    return stream, other


def report(day):
    """What a validator says at the end of the day."""
    return by_prefix(log(*day.anna.events, witnesses=3, toad=2), log(*day.ben.events, keys=2, witnesses=3, toad=2))
